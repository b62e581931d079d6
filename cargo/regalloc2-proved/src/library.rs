//! Calls the proved allocator.

use regalloc2_judge::words::{self, FunctionWords, Labels, Unwritten, place, vreg};
use regalloc2_proved_sys::{self as sys, Answer, FaultWords, NONE, OutputWords, RefusalWords, Room, Status};
use upstream::{Block, Edit, Function, Inst, MachineEnv, Output, ProgPoint, RegAllocError, VReg};

/// The reason why the proved allocator returns no output.
pub(crate) enum Refusal {
    /// One of upstream's errors.
    Of(RegAllocError),
    /// The function or the machine has a form that isn't supported, at this instruction if valid; or memory ran out.
    Form(Inst),
}

/// The proved allocator's memory.
#[derive(Default)]
pub(crate) struct Library {
    function: FunctionWords,
    room: Room,
}

fn block(number: u32) -> Block {
    Block(number)
}

fn inst(number: u32) -> Inst {
    Inst(number)
}

/// Returns the refusal of a form that no instruction has.
fn form() -> Refusal {
    Refusal::Form(Inst::invalid())
}

/// Returns the refusal of a function that has no words.
fn refusal_of(why: Unwritten) -> Refusal {
    match why {
        Unwritten::Block(block) => Refusal::Of(RegAllocError::BB(block)),
        Unwritten::TooLarge | Unwritten::Register => form(),
    }
}

/// Returns upstream's error for a status.
fn refusal(number: u32, words: &[u32]) -> Refusal {
    let Ok(at) = RefusalWords::of(words) else { return form() };
    let [first, second] = at.blocks;
    Refusal::Of(match number {
        1 => RegAllocError::CritEdge(block(first), block(second)),
        2 => RegAllocError::SSA(vreg(at.vreg), inst(at.inst)),
        3 => RegAllocError::BB(block(first)),
        4 => RegAllocError::Branch(inst(at.inst)),
        5 => RegAllocError::EntryLivein,
        6 => RegAllocError::DisallowedBranchArg(inst(at.inst)),
        7 => RegAllocError::TooManyLiveRegs,
        8 => RegAllocError::TooManyOperands,
        _ => return Refusal::Form(inst(at.inst)),
    })
}

/// Returns the error of the first operand that reads a vreg before it is written.
fn unwritten(words: &[u32]) -> Refusal {
    match sys::faults(words).ok().as_deref() {
        Some([FaultWords { number: 2 | 4, inst: at, operand, .. }, ..]) if *at != NONE => {
            let number = (*operand as u32) << 2 | (*operand >> 32) as u32 & 3;
            Refusal::Of(RegAllocError::SSA(vreg(number), inst(*at)))
        }
        _ => Refusal::Of(RegAllocError::SSA(VReg::invalid(), Inst::invalid())),
    }
}

fn refused(answer: Answer<'_>) -> Refusal {
    match answer.status {
        Status::Refused(number) => refusal(number, answer.words),
        Status::Faults => unwritten(answer.words),
        _ => form(),
    }
}

/// Reads an output's words into upstream's type.
fn read(words: &[u32], output: &mut Output) -> Result<(), Refusal> {
    let words = OutputWords::of(words).map_err(|_| form())?;
    output.num_spillslots = usize::try_from(words.num_spillslots).map_err(|_| form())?;
    output.edits.clear();
    output.edits.extend(
        words.moves.iter().map(|[at, from, to]| (ProgPoint::from_index(*at), Edit::Move { from: place(*from), to: place(*to) })),
    );
    output.allocs.clear();
    output.allocs.extend(words.places.iter().map(|word| place(*word)));
    output.inst_alloc_offsets.clear();
    output.inst_alloc_offsets.extend_from_slice(words.offsets);
    output.debug_locations.clear();
    output.debug_locations.extend(
        words
            .locations
            .iter()
            .map(|[label, from, to, at]| (*label, ProgPoint::from_index(*from), ProgPoint::from_index(*to), place(*at))),
    );
    Ok(())
}

impl Library {
    /// Allocates with all tests. The checker runs only if some path reads or passes a vreg before writing it.
    pub(crate) fn allocate(&mut self, f: &impl Function, env: &MachineEnv, output: &mut Output) -> Result<(), Refusal> {
        if !words::agree() {
            return Err(form());
        }
        let function = self.function.write(f, env, Labels::LaidOut).map_err(refusal_of)?;
        let answer = sys::run(function, &mut self.room);
        match answer.status {
            Status::Ok => return read(answer.words, output),
            Status::ReadBeforeWritten => {}
            _ => return Err(refused(answer)),
        }
        let answer = sys::allocate(function, &mut self.room);
        match answer.status {
            Status::Ok => read(answer.words, output),
            _ => Err(refused(answer)),
        }
    }
}
