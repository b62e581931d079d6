#![doc = include_str!("../README.md")]
#![deny(missing_docs)]
#![forbid(unsafe_code)]

pub mod dump;
mod fault;
mod locate;
mod order;
pub mod words;

pub use fault::{Fault, MoveFault, OperandFault, OrderFault, Rejection, SlotFault, Unjudged};

use regalloc2::{Function, MachineEnv, Output};
use regalloc2_proved_sys::{self as sys, Parts, Room, Status};
use words::{FunctionWords, Labels};

/// Judges an output of a function for a machine.
///
/// Returns `Ok` if the proved checker accepts the output and its places are cells. Allocates new memory; [`Judge`]
/// keeps its own.
///
/// # Errors
///
/// [`Rejection::Faulty`] with the faults, or [`Rejection::Unjudged`] if there is no verdict.
pub fn judge(f: &impl Function, env: &MachineEnv, output: &Output) -> Result<(), Rejection> {
    Judge::new().judge(f, env, output)
}

/// Panics if [`judge`] rejects an output, for tests. Returns without a verdict where there is no library ([`Unjudged::Absent`]).
///
/// # Panics
///
/// With the text of the rejection.
#[track_caller]
pub fn assert_faithful(f: &impl Function, env: &MachineEnv, output: &Output) {
    match judge(f, env, output) {
        Ok(()) | Err(Rejection::Unjudged(Unjudged::Absent)) => {}
        Err(rejection) => panic!("{rejection}"),
    }
}

/// A judge that keeps its memory from one output to the next.
///
/// Threads may judge at once, each with its own `Judge`.
#[derive(Clone, Debug, Default)]
pub struct Judge {
    function: FunctionWords,
    moves: Vec<u32>,
    places: Vec<u32>,
    room: Room,
}

impl Judge {
    /// Returns a judge without memory.
    pub fn new() -> Self {
        Self::default()
    }

    /// Judges an output, as [`judge`] does.
    ///
    /// # Errors
    ///
    /// As [`judge`].
    pub fn judge(&mut self, f: &impl Function, env: &MachineEnv, output: &Output) -> Result<(), Rejection> {
        let verdict = self.verdict(f, env, output);
        if let Err(Rejection::Faulty(_)) = verdict {
            dump::keep(f, env, output);
        }
        verdict
    }

    /// Returns `true` if the judge gives verdicts on outputs of a function, unless memory runs out.
    pub fn can_judge(&mut self, f: &impl Function, env: &MachineEnv) -> bool {
        let verdict = self.verdict(f, env, &Output::default());
        !matches!(verdict, Err(Rejection::Unjudged(why)) if why != Unjudged::NoMemory)
    }

    fn verdict(&mut self, f: &impl Function, env: &MachineEnv, output: &Output) -> Result<(), Rejection> {
        if !sys::PRESENT {
            return Err(Unjudged::Absent.into());
        }
        if !words::agree() {
            return Err(Unjudged::Encoding.into());
        }
        words::moves(&mut self.moves, output);
        words::places(&mut self.places, output);
        let function = self.function.write(f, env, Labels::LeftOut)?;
        let parts = Parts {
            num_spillslots: output.num_spillslots as u64,
            moves: &self.moves,
            places: &self.places,
            offsets: &output.inst_alloc_offsets,
        };
        let answer = sys::judge(function, parts, &mut self.room);
        match answer.status {
            Status::Ok => Ok(()),
            Status::Faults => match sys::faults(answer.words) {
                Ok(faults) => Err(Rejection::Faulty(locate::faults(f, output, &faults))),
                Err(_) => Err(Unjudged::Encoding.into()),
            },
            Status::NoMemory | Status::BadFunction(5) => Err(Unjudged::NoMemory.into()),
            Status::NotFramed => Err(Unjudged::NotFramed.into()),
            Status::BadFunction(number) => Err(Unjudged::BadFunction(number).into()),
            Status::BadOutput => Err(Unjudged::BadOutput.into()),
            other => Err(Unjudged::Library(other).into()),
        }
    }
}
