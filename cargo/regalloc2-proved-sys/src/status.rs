//! Statuses.

use std::fmt;

/// The status of a call.
#[derive(Clone, Copy, Debug, PartialEq, Eq, Hash)]
pub enum Status {
    /// The call succeeded.
    Ok,
    /// The words aren't a header and its columns, or no output; the bytes are no function.
    Unreadable,
    /// The machine doesn't fit the function, for the reason in [`MisfitWords`](crate::MisfitWords).
    BadMachine,
    /// A list of the output has 2^32 members or more.
    NoRoom,
    /// The output is wrong. [`faults`](crate::faults) reads the list of faults.
    Faults,
    /// Memory ran out.
    NoMemory,
    /// The function isn't structurally valid, and no output of it can be checked.
    NotFramed,
    /// A number of the output is no encoding.
    BadOutput,
    /// Some path reads or passes a vreg before writing it.
    ReadBeforeWritten,
    /// A line of the text can't be read.
    BadText,
    /// A number of the function is no encoding, or too large. `regalloc2_c.h` has the numbers 1 to 5.
    BadFunction(u32),
    /// The allocator's error. The numbers 1 to 11 are those of `refused` in docs/INPUT.md;
    /// [`RefusalWords`](crate::RefusalWords) names the place.
    Refused(u32),
    /// A number that `regalloc2_c.h` doesn't list.
    Unknown(u32),
}

impl Status {
    /// Returns the status of a number.
    pub fn of(number: u32) -> Status {
        match number {
            0 => Status::Ok,
            1 => Status::Unreadable,
            2 => Status::BadMachine,
            3 => Status::NoRoom,
            4 => Status::Faults,
            5 => Status::NoMemory,
            6 => Status::NotFramed,
            7 => Status::BadOutput,
            8 => Status::ReadBeforeWritten,
            9 => Status::BadText,
            11..=16 => Status::BadFunction(number - 10),
            21..=31 => Status::Refused(number - 20),
            _ => Status::Unknown(number),
        }
    }

    /// Returns the number of the status, as the library returned it.
    pub fn number(self) -> u32 {
        match self {
            Status::Ok => 0,
            Status::Unreadable => 1,
            Status::BadMachine => 2,
            Status::NoRoom => 3,
            Status::Faults => 4,
            Status::NoMemory => 5,
            Status::NotFramed => 6,
            Status::BadOutput => 7,
            Status::ReadBeforeWritten => 8,
            Status::BadText => 9,
            Status::BadFunction(number) => number.saturating_add(10),
            Status::Refused(number) => number.saturating_add(20),
            Status::Unknown(number) => number,
        }
    }
}

/// Writes the library's own words for the status.
impl fmt::Display for Status {
    fn fmt(&self, f: &mut fmt::Formatter<'_>) -> fmt::Result {
        f.write_str(&crate::status_text(self.number()))
    }
}

#[cfg(test)]
mod tests {
    use super::*;

    #[test]
    fn numbers_come_back() {
        assert!((0..1000).all(|number| Status::of(number).number() == number));
        assert_eq!(Status::of(u32::MAX).number(), u32::MAX);
    }
}
