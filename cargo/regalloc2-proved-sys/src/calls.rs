//! The calls, as `regalloc2_c.h` declares them, over slices.

use crate::Status;
#[cfg(regalloc2_c_absent)]
use crate::absent as raw;
use crate::heap::with_pool;

/// Whether the library is linked. It isn't on another target than x86-64 Linux, with the feature `optional`: then each call returns
/// [`Status::Unknown`] and no words.
pub const PRESENT: bool = cfg!(not(regalloc2_c_absent));

#[cfg(not(regalloc2_c_absent))]
mod raw {
    unsafe extern "C" {
        pub fn regalloc2_c_version() -> u32;
        pub fn regalloc2_c_status_text(status: u32, text: *mut u8, text_len: usize) -> usize;
        pub fn regalloc2_c_fault_text(number: u32, text: *mut u8, text_len: usize) -> usize;
        pub fn regalloc2_c_allocate(
            words: *const u32,
            len: usize,
            result: *mut u32,
            result_len: usize,
            needed: *mut usize,
        ) -> u32;
        pub fn regalloc2_c_allocate_json(
            json: *const u8,
            len: usize,
            result: *mut u32,
            result_len: usize,
            needed: *mut usize,
        ) -> u32;
        pub fn regalloc2_c_allocate_text(
            text: *const u8,
            len: usize,
            result: *mut u32,
            result_len: usize,
            needed: *mut usize,
        ) -> u32;
        pub fn regalloc2_c_run(words: *const u32, len: usize, result: *mut u32, result_len: usize, needed: *mut usize) -> u32;
        pub fn regalloc2_c_judge(
            words: *const u32,
            len: usize,
            num_spillslots: u64,
            moves: *const u32,
            moves_len: usize,
            places: *const u32,
            places_len: usize,
            offsets: *const u32,
            offsets_len: usize,
            result: *mut u32,
            result_len: usize,
            needed: *mut usize,
        ) -> u32;
        pub fn regalloc2_c_check(words: *const u32, len: usize, output: *const u32, output_len: usize) -> u32;
    }
}

/// The library version that this crate expects: 65536 times the version of the layouts, plus the number of calls.
pub const VERSION: u32 = 0x0002_0009;

/// Returns the version of the linked library.
pub fn version() -> u32 {
    // SAFETY: the call takes nothing, and only returns a number.
    unsafe { raw::regalloc2_c_version() }
}

/// Returns `true` if the linked library has the expected layouts and at least the expected calls.
pub fn agrees() -> bool {
    let linked = version();
    linked >> 16 == VERSION >> 16 && linked & 0xffff >= VERSION & 0xffff
}

/// Returns the text that a call writes.
fn text(call: impl Fn(&mut [u8]) -> usize) -> String {
    let mut bytes = [0; 256];
    let count = call(&mut bytes).min(bytes.len());
    String::from_utf8_lossy(&bytes[..count]).into_owned()
}

/// Returns the library's English text for a status number.
pub fn status_text(status: u32) -> String {
    // SAFETY: pointer and length are those of one slice, borrowed mutably for the call.
    text(|bytes| unsafe { raw::regalloc2_c_status_text(status, bytes.as_mut_ptr(), bytes.len()) })
}

/// Returns the library's English text for a fault number.
pub fn fault_text(number: u32) -> String {
    // SAFETY: as above.
    text(|bytes| unsafe { raw::regalloc2_c_fault_text(number, bytes.as_mut_ptr(), bytes.len()) })
}

/// A buffer for the words of a call's result.
///
/// Calls that share a `Room` share its memory, which grows to the largest result.
#[derive(Clone, Debug, Default)]
pub struct Room {
    words: Vec<u32>,
}

/// The result of a call.
#[derive(Clone, Copy, Debug)]
pub struct Answer<'a> {
    /// The status.
    pub status: Status,
    /// The words of the result, whose layout depends on the status.
    pub words: &'a [u32],
}

impl Room {
    /// Returns an empty buffer.
    pub fn new() -> Room {
        Room::default()
    }

    /// Grows the buffer to `count` words. Returns `false` if memory runs out.
    fn grow(&mut self, count: usize) -> bool {
        let more = count.saturating_sub(self.words.len());
        if self.words.try_reserve(more).is_err() {
            return false;
        }
        self.words.resize(self.words.len() + more, 0);
        true
    }

    /// Makes a call, which writes the words of its result and their number. Repeats the call once if the buffer was
    /// too short.
    fn answer(&mut self, expected: usize, call: impl Fn(&mut [u32], &mut usize) -> u32) -> Answer<'_> {
        let no_memory = Answer { status: Status::NoMemory, words: &[] };
        if !self.grow(expected) {
            return no_memory;
        }
        let mut needed = 0;
        let mut status = Status::of(with_pool(|| call(&mut self.words, &mut needed)));
        if status == Status::NoRoom && needed > self.words.len() {
            if !self.grow(needed) {
                return no_memory;
            }
            status = Status::of(with_pool(|| call(&mut self.words, &mut needed)));
        }
        Answer { status, words: self.words.get(..needed).unwrap_or(&[]) }
    }
}

/// Returns a length that fits nearly every output: an output takes less than two words for each word of its function.
fn expected(function: &[u32]) -> usize {
    function.len().saturating_mul(2).saturating_add(256)
}

/// Allocates registers to a function in words, and checks the output.
///
/// On [`Status::Ok`] the result is an output, for [`OutputWords::of`](crate::OutputWords::of).
pub fn allocate<'a>(function: &[u32], room: &'a mut Room) -> Answer<'a> {
    room.answer(expected(function), |result, needed| {
        // SAFETY: each pointer and length is that of one slice; the slices are borrowed for the call, `result` and
        // `needed` mutably.
        unsafe { raw::regalloc2_c_allocate(function.as_ptr(), function.len(), result.as_mut_ptr(), result.len(), needed) }
    })
}

/// Allocates registers to a function in JSON, and checks the output.
///
/// docs/INPUT.md has the form.
pub fn allocate_json<'a>(json: &[u8], room: &'a mut Room) -> Answer<'a> {
    room.answer(256, |result, needed| {
        // SAFETY: as above.
        unsafe { raw::regalloc2_c_allocate_json(json.as_ptr(), json.len(), result.as_mut_ptr(), result.len(), needed) }
    })
}

/// Allocates registers to a function in a text, and checks the output.
///
/// docs/TEXT.md has the form.
pub fn allocate_text<'a>(text: &str, room: &'a mut Room) -> Answer<'a> {
    room.answer(256, |result, needed| {
        // SAFETY: as above.
        unsafe { raw::regalloc2_c_allocate_text(text.as_ptr(), text.len(), result.as_mut_ptr(), result.len(), needed) }
    })
}

/// Allocates registers to a function in words if no path reads or passes a vreg before writing it.
///
/// The output needs no check. [`Status::ReadBeforeWritten`] is returned only for a function that passes all other
/// tests.
pub fn run<'a>(function: &[u32], room: &'a mut Room) -> Answer<'a> {
    room.answer(expected(function), |result, needed| {
        // SAFETY: as above.
        unsafe { raw::regalloc2_c_run(function.as_ptr(), function.len(), result.as_mut_ptr(), result.len(), needed) }
    })
}

/// An output in parts, without debug locations.
#[derive(Clone, Copy, Debug)]
pub struct Parts<'a> {
    /// Units of slots.
    pub num_spillslots: u64,
    /// Three words for each move: point, source, destination.
    pub moves: &'a [u32],
    /// The places of all operands.
    pub places: &'a [u32],
    /// The index of each instruction's first place.
    pub offsets: &'a [u32],
}

/// Checks an output in parts of a function in words.
///
/// Returns [`Status::Ok`] if the output is well-ordered and faithful, and its places are cells. On [`Status::Faults`]
/// the words are a list for [`faults`](crate::faults).
pub fn judge<'a>(function: &[u32], output: Parts<'_>, room: &'a mut Room) -> Answer<'a> {
    let Parts { num_spillslots, moves, places, offsets } = output;
    room.answer(256, |result, needed| {
        // SAFETY: as above.
        unsafe {
            raw::regalloc2_c_judge(
                function.as_ptr(),
                function.len(),
                num_spillslots,
                moves.as_ptr(),
                moves.len(),
                places.as_ptr(),
                places.len(),
                offsets.as_ptr(),
                offsets.len(),
                result.as_mut_ptr(),
                result.len(),
                needed,
            )
        }
    })
}

/// Checks an output in words of a function in words.
pub fn check(function: &[u32], output: &[u32]) -> Status {
    // SAFETY: as above.
    let call = || unsafe { raw::regalloc2_c_check(function.as_ptr(), function.len(), output.as_ptr(), output.len()) };
    Status::of(with_pool(call))
}

#[cfg(test)]
mod tests {
    use super::*;
    use crate::{Columns, InstKind, MachineWords, NONE, OutputWords, RefusalWords, Settings, faults};

    const DEF: u64 = 20 << 32;
    const USE: u64 = 24 << 32 | 1;

    /// block0 defines v0 and goes to block1(v0), which reads its parameter v1 and returns.
    fn two_blocks(entry: u32) -> Vec<u32> {
        let mut columns = Columns::new();
        let preferred = [[3, 0, 0, 0, 0, 0], [0; 6], [0; 6]];
        columns.machine(MachineWords { preferred, ..MachineWords::default() }, [].into_iter());
        columns.inst(InstKind::Op, 0, [DEF].into_iter());
        columns.inst(InstKind::Branch, 0, [].into_iter());
        columns.inst(InstKind::Return, 0, [USE].into_iter());
        columns.edge(1, [0].into_iter());
        columns.block(2, [].into_iter(), [].into_iter());
        columns.block(3, [0].into_iter(), [4].into_iter());
        let settings =
            Settings { entry, num_vregs: 2, slot_sizes: [1; 3], named_by_last_slot: false, several_definitions: false };
        columns.words(settings).unwrap().to_vec()
    }

    #[test]
    fn the_versions_agree() {
        assert!(agrees(), "{:x}", version());
    }

    #[test]
    fn texts_are_there() {
        assert!((0..32).all(|number| !status_text(number).is_empty() && !fault_text(number).is_empty()));
        assert_ne!(status_text(5), status_text(6));
        assert_eq!(status_text(24), "a branch passes arguments that don't fit the parameters");
        assert!(!status_text(u32::MAX).is_empty());
    }

    #[test]
    fn an_output_is_made_and_judged() {
        let (function, mut room, mut other) = (two_blocks(0), Room::new(), Room::new());
        let answer = allocate(&function, &mut room);
        assert_eq!(answer.status, Status::Ok);
        assert_eq!(check(&function, answer.words), Status::Ok);
        assert_eq!(run(&function, &mut other).words, answer.words);
        let output = OutputWords::of(answer.words).unwrap();
        let parts = Parts {
            num_spillslots: output.num_spillslots,
            moves: output.moves.as_flattened(),
            places: output.places,
            offsets: output.offsets,
        };
        assert_eq!(judge(&function, parts, &mut other).status, Status::Ok);
        let wrong = judge(&function, Parts { places: &[0, output.places[1]], ..parts }, &mut other);
        assert_eq!(wrong.status, Status::Faults);
        let found = faults(wrong.words).unwrap();
        assert_eq!((found[0].number, found[0].inst, found[0].index, found[0].operand), (1, 0, 0, DEF));
    }

    #[test]
    fn an_error_names_its_block() {
        let mut room = Room::new();
        let answer = run(&two_blocks(1), &mut room);
        assert_eq!(answer.status, Status::Refused(3));
        assert_eq!(RefusalWords::of(answer.words), Ok(RefusalWords { blocks: [1, NONE], inst: NONE, vreg: NONE }));
    }

    #[test]
    fn any_words_are_answered() {
        let (mut room, function) = (Room::new(), two_blocks(0));
        for at in 0..function.len() {
            assert_eq!(run(&function[..at], &mut room).status, Status::Unreadable);
            for word in [0, 1, 3, 64, 255, 1 << 16, u32::MAX] {
                let mut other = function.clone();
                other[at] = word;
                assert!(!matches!(allocate(&other, &mut room).status, Status::Unknown(_)));
            }
        }
    }
}
