//! The words of results.

/// The word for a name that a result lacks.
pub const NONE: u32 = u32::MAX;

/// The error for words in another layout: the library has another version.
#[derive(Clone, Copy, Debug, PartialEq, Eq)]
pub struct ReadFault;

/// The parts of an output's words.
#[derive(Clone, Copy, Debug)]
pub struct OutputWords<'a> {
    /// Units of slots.
    pub num_spillslots: u64,
    /// Moves: point, source, destination.
    pub moves: &'a [[u32; 3]],
    /// The places of all operands.
    pub places: &'a [u32],
    /// The index of each instruction's first place.
    pub offsets: &'a [u32],
    /// Debug locations: label, first point, end point, place.
    pub locations: &'a [[u32; 4]],
}

/// Splits a list of groups of words off the front.
fn list<'a, const N: usize>(words: &mut &'a [u32]) -> Result<&'a [[u32; N]], ReadFault> {
    let (count, rest) = words.split_first().ok_or(ReadFault)?;
    let len = (*count as usize).checked_mul(N).ok_or(ReadFault)?;
    let (list, rest) = rest.split_at_checked(len).ok_or(ReadFault)?;
    *words = rest;
    Ok(list.as_chunks::<N>().0)
}

impl<'a> OutputWords<'a> {
    /// Returns the parts of an output's words.
    ///
    /// # Errors
    ///
    /// [`ReadFault`] if there are fewer or more words.
    pub fn of(words: &'a [u32]) -> Result<Self, ReadFault> {
        let ([low, high], mut rest) = words.split_first_chunk::<2>().ok_or(ReadFault)?;
        let output = OutputWords {
            num_spillslots: u64::from(*low) | u64::from(*high) << 32,
            moves: list(&mut rest)?,
            places: list::<1>(&mut rest)?.as_flattened(),
            offsets: list::<1>(&mut rest)?.as_flattened(),
            locations: list(&mut rest)?,
        };
        if rest.is_empty() { Ok(output) } else { Err(ReadFault) }
    }
}

/// The names in an error of the allocator; [`NONE`] for each that it lacks.
#[derive(Clone, Copy, Debug, PartialEq, Eq)]
pub struct RefusalWords {
    /// Two blocks for a critical edge, else at most the first.
    pub blocks: [u32; 2],
    /// An instruction.
    pub inst: u32,
    /// The encoding of a vreg.
    pub vreg: u32,
}

impl RefusalWords {
    /// Returns the names in an error's words.
    ///
    /// # Errors
    ///
    /// [`ReadFault`] if there aren't four words.
    pub fn of(words: &[u32]) -> Result<Self, ReadFault> {
        match words {
            [first, second, inst, vreg] => Ok(RefusalWords { blocks: [*first, *second], inst: *inst, vreg: *vreg }),
            _ => Err(ReadFault),
        }
    }
}

/// The reason why a machine doesn't fit; [`NONE`] for each name that it lacks.
#[derive(Clone, Copy, Debug, PartialEq, Eq)]
pub struct MisfitWords {
    /// The condition that fails: 1 to 10, as `regalloc2_c.h` lists them.
    pub number: u32,
    /// A class.
    pub class: u32,
    /// The encoding of a register.
    pub register: u32,
}

impl MisfitWords {
    /// Returns the reason in a status's words.
    ///
    /// # Errors
    ///
    /// [`ReadFault`] if there aren't three words.
    pub fn of(words: &[u32]) -> Result<Self, ReadFault> {
        match words {
            [number, class, register] => Ok(MisfitWords { number: *number, class: *class, register: *register }),
            _ => Err(ReadFault),
        }
    }
}

/// A fault of an output; [`NONE`] or 0, as `regalloc2_c.h` says, for each part that it lacks.
#[derive(Clone, Copy, Debug, PartialEq, Eq)]
pub struct FaultWords<'a> {
    /// The kind: `1..=12` or `14..=17`.
    pub number: u32,
    /// The instruction.
    pub inst: u32,
    /// The index of an operand or of a move, or a slot.
    pub index: u32,
    /// The operand's encoding.
    pub operand: u64,
    /// The operand's place, or a move's destination.
    pub place: u32,
    /// The reused operand's place, or a move's source.
    pub other: u32,
    /// The limit, the other slot, or the index of a debug location.
    pub bound: u32,
    /// The vregs whose values the place holds.
    pub vregs: &'a [u32],
}

/// Returns the faults in a list's words.
///
/// # Errors
///
/// [`ReadFault`] if there are fewer or more words.
pub fn faults(words: &[u32]) -> Result<Vec<FaultWords<'_>>, ReadFault> {
    let (count, mut rest) = words.split_first().ok_or(ReadFault)?;
    let mut faults = Vec::new();
    for _ in 0..*count {
        let (head, tail) = rest.split_first_chunk::<9>().ok_or(ReadFault)?;
        let [number, inst, index, low, high, place, other, bound, members] = *head;
        let (vregs, tail) = tail.split_at_checked(members as usize).ok_or(ReadFault)?;
        rest = tail;
        let operand = u64::from(low) | u64::from(high) << 32;
        faults.push(FaultWords { number, inst, index, operand, place, other, bound, vregs });
    }
    if rest.is_empty() { Ok(faults) } else { Err(ReadFault) }
}

#[cfg(test)]
mod tests {
    use super::*;

    #[test]
    fn two_faults() {
        let place = 1 << 29 | 3;
        let words = [2, 4, 7, 1, 5, 24, place, 0, 0, 2, 8, 12, 12, NONE, NONE, 0, 0, 0, 0, 0, 0];
        let read = faults(&words).unwrap();
        assert_eq!(read.len(), 2);
        assert_eq!((read[0].number, read[0].inst, read[0].index), (4, 7, 1));
        assert_eq!((read[0].operand, read[0].place, read[0].vregs), (5 + (24 << 32), place, &[8, 12][..]));
        assert_eq!((read[1].number, read[1].inst, read[1].vregs), (12, NONE, &[][..]));
        assert!((0..words.len()).all(|n| faults(&words[..n]).is_err()));
    }

    #[test]
    fn an_output() {
        let words = [3, 0, 1, 5, 6, 7, 2, 8, 9, 1, 0, 1, 1, 2, 3, 4];
        let read = OutputWords::of(&words).unwrap();
        assert_eq!((read.num_spillslots, read.moves, read.places), (3, &[[5, 6, 7]][..], &[8, 9][..]));
        assert_eq!((read.offsets, read.locations), (&[0][..], &[[1, 2, 3, 4]][..]));
        assert!((0..words.len()).all(|n| OutputWords::of(&words[..n]).is_err()));
        assert!(OutputWords::of(&[words.as_slice(), &[0]].concat()).is_err());
        assert!(OutputWords::of(&[0, 0, u32::MAX]).is_err());
    }
}
