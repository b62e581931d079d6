#![doc = include_str!("../README.md")]
#![deny(missing_docs, unsafe_op_in_unsafe_fn)]

#[cfg(regalloc2_c_absent)]
mod absent;
mod calls;
mod heap;
mod read;
mod status;
mod write;

pub use calls::{
    Answer, PRESENT, Parts, Room, VERSION, agrees, allocate, allocate_json, allocate_text, check, fault_text, judge, run,
    status_text, version,
};
pub use read::{FaultWords, MisfitWords, NONE, OutputWords, ReadFault, RefusalWords, faults};
pub use status::Status;
pub use write::{Columns, InstKind, LAYOUT, MachineWords, SetWords, Settings, add_register};
