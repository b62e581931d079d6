//! The judge's results.

use crate::locate::fixed_register;
use crate::words::Unwritten;
use regalloc2::{Allocation, Inst, Operand, ProgPoint, SpillSlot, VReg};
use regalloc2_proved_sys::{Status, fault_text};
use std::fmt;

/// The reason why an output isn't accepted.
#[derive(Clone, Debug, PartialEq, Eq)]
pub enum Rejection {
    /// The output is wrong. The list has at least one fault.
    ///
    /// It has the first fault among an instruction's early operands, and the first among its late ones. Faults of
    /// places ([`OperandFault::NoCell`], [`MoveFault::NoCell`], [`MoveFault::OtherClass`], [`Fault::Slot`]) occur
    /// alone: the first is listed if the output has no other fault.
    Faulty(Vec<Fault>),
    /// There is no verdict: the output may be right or wrong.
    Unjudged(Unjudged),
}

/// A fault of an output.
#[derive(Clone, Debug, PartialEq, Eq)]
#[non_exhaustive]
pub enum Fault {
    /// An operand's place is wrong, or doesn't hold the operand's value on some path.
    Operand {
        /// The instruction.
        inst: Inst,
        /// The operand's index in `inst_operands(inst)`.
        index: usize,
        /// The operand.
        op: Operand,
        /// Its place in the output; `Allocation::none()` if it has none.
        place: Allocation,
        /// The kind of fault.
        what: OperandFault,
    },
    /// A move is wrong.
    Move {
        /// The move's index in `Output::edits`.
        edit: usize,
        /// The move's program point.
        at: ProgPoint,
        /// The source.
        from: Allocation,
        /// The destination.
        to: Allocation,
        /// The kind of fault.
        what: MoveFault,
    },
    /// A spill slot is wrong.
    Slot {
        /// The slot.
        slot: SpillSlot,
        /// The kind of fault.
        what: SlotFault,
    },
    /// The output isn't well-ordered. Nothing else is tested then.
    Order(OrderFault),
    /// A fault that this crate can't locate. The output is wrong.
    Unlocated {
        /// The fault's number in `c/regalloc2_c.h`.
        number: u32,
        /// The instruction, if the fault names one.
        inst: Option<Inst>,
    },
}

/// The kinds of an operand's faults.
#[derive(Clone, Debug, PartialEq, Eq)]
#[non_exhaustive]
pub enum OperandFault {
    /// The operand has no place.
    Missing,
    /// On some path the place holds no known value.
    NoValue,
    /// The place holds the values of these vregs on every path, and not the operand's value.
    OtherValues(Vec<VReg>),
    /// The reused operand doesn't exist.
    NoSuchOperand,
    /// The place isn't a register, or is a fixed stack slot.
    NotRegister,
    /// The place isn't the operand's fixed register.
    NotFixedRegister,
    /// The place isn't this place of the reused operand.
    NotReused(Allocation),
    /// The place isn't on the stack.
    NotStack,
    /// The register's number isn't below this limit.
    OutsideLimit(u32),
    /// The place isn't an allocatable register or fixed stack slot of the operand's class, nor a slot of the frame.
    NoCell,
}

/// The kinds of a move's faults.
#[derive(Clone, Copy, Debug, PartialEq, Eq)]
#[non_exhaustive]
pub enum MoveFault {
    /// Source and destination are stack places.
    StackToStack,
    /// An end isn't an allocatable or scratch register, a fixed stack slot, or a slot of the frame.
    NoCell,
    /// Source and destination are registers of two classes.
    OtherClass,
}

/// The kinds of a spill slot's faults.
#[derive(Clone, Copy, Debug, PartialEq, Eq)]
#[non_exhaustive]
pub enum SlotFault {
    /// Some unit of the slot isn't below `Output::num_spillslots`.
    OutsideFrame,
    /// The slot shares a unit with this slot.
    Shared(SpillSlot),
}

/// The reasons why an output isn't well-ordered.
#[derive(Clone, Copy, Debug, PartialEq, Eq)]
#[non_exhaustive]
pub enum OrderFault {
    /// The offsets aren't one for each instruction.
    Offsets {
        /// The number of offsets.
        offsets: usize,
        /// The number of instructions.
        insts: usize,
    },
    /// The instruction's places aren't a range of the list, or the first instruction's don't begin at 0.
    Places(Inst),
    /// The instruction has more places than operands.
    TooManyPlaces(Inst),
    /// The edit at this index has a smaller program point than its predecessor.
    Edit(usize),
    /// The edit at this index has no source or no destination.
    NoPlace(usize),
    /// The reason isn't known.
    Unlocated,
}

/// The reasons why there is no verdict.
#[derive(Clone, Copy, Debug, PartialEq, Eq)]
#[non_exhaustive]
pub enum Unjudged {
    /// Memory ran out.
    NoMemory,
    /// A count of the function doesn't fit 32 bits.
    TooLarge,
    /// The function isn't structurally valid: blocks don't follow one another, a block doesn't end in its only branch
    /// or return, or a successor doesn't get as many arguments as it has parameters.
    NotFramed,
    /// A number of the function is no encoding, or too large. `c/regalloc2_c.h` has the numbers.
    BadFunction(u32),
    /// A number of the output is no encoding.
    BadOutput,
    /// The library or `regalloc2` has other encodings than this crate expects.
    Encoding,
    /// There is no library for this target, and the feature `optional` is set.
    Absent,
    /// The library returned a status that the call doesn't document.
    Library(Status),
}

impl From<Unjudged> for Rejection {
    fn from(why: Unjudged) -> Self {
        Rejection::Unjudged(why)
    }
}

impl From<Unwritten> for Rejection {
    fn from(why: Unwritten) -> Self {
        Rejection::Unjudged(match why {
            Unwritten::TooLarge => Unjudged::TooLarge,
            Unwritten::Block(_) => Unjudged::NotFramed,
            Unwritten::Register => Unjudged::BadFunction(3),
        })
    }
}

impl Rejection {
    /// Returns the faults; an empty list if there is no verdict.
    pub fn faults(&self) -> &[Fault] {
        match self {
            Rejection::Faulty(faults) => faults,
            Rejection::Unjudged(_) => &[],
        }
    }
}

impl fmt::Display for Rejection {
    fn fmt(&self, f: &mut fmt::Formatter<'_>) -> fmt::Result {
        match self {
            Rejection::Faulty(faults) => {
                write!(f, "the output is wrong:")?;
                faults.iter().try_for_each(|fault| write!(f, "\n  {fault}"))
            }
            Rejection::Unjudged(why) => write!(f, "no verdict on the output: {why}"),
        }
    }
}

/// Writes a program point. Upstream's `Debug` requires a valid instruction.
fn point(f: &mut fmt::Formatter<'_>, at: ProgPoint) -> fmt::Result {
    let side = if at.to_index() & 1 == 0 { "before" } else { "after" };
    write!(f, "{side} inst{}", at.to_index() >> 1)
}

impl fmt::Display for Fault {
    fn fmt(&self, f: &mut fmt::Formatter<'_>) -> fmt::Result {
        match self {
            Fault::Operand { inst, index, op, place, what } => {
                write!(f, "inst{} operand {index} `{op}` in {place}: {what}", inst.raw_u32())?;
                match (what, fixed_register(*op)) {
                    (OperandFault::NotFixedRegister, Some(reg)) => write!(f, ", {reg}"),
                    _ => Ok(()),
                }
            }
            Fault::Move { edit, at, from, to, what } => {
                write!(f, "edit {edit} ")?;
                point(f, *at)?;
                write!(f, ", {from} to {to}: {what}")
            }
            Fault::Slot { slot, what } => write!(f, "{slot}: {what}"),
            Fault::Order(order) => write!(f, "the output isn't in order: {order}"),
            Fault::Unlocated { number, inst: Some(inst) } => write!(f, "inst{}: {}", inst.raw_u32(), fault_text(*number)),
            Fault::Unlocated { number, inst: None } => f.write_str(&fault_text(*number)),
        }
    }
}

impl fmt::Display for OperandFault {
    fn fmt(&self, f: &mut fmt::Formatter<'_>) -> fmt::Result {
        match self {
            OperandFault::Missing => write!(f, "the operand has no place"),
            OperandFault::NoValue => write!(f, "on some path the place holds no value"),
            OperandFault::OtherValues(vregs) => {
                write!(f, "the place holds")?;
                for (k, vreg) in vregs.iter().enumerate() {
                    write!(f, "{}{vreg}", if k == 0 { " " } else { ", " })?;
                }
                write!(f, " and not the operand's value")
            }
            OperandFault::NoSuchOperand => write!(f, "the reused operand doesn't exist"),
            OperandFault::NotRegister => write!(f, "the place is no register"),
            OperandFault::NotFixedRegister => write!(f, "the place isn't the fixed register"),
            OperandFault::NotReused(place) => write!(f, "the place isn't {place}, the reused operand's"),
            OperandFault::NotStack => write!(f, "the place isn't on the stack"),
            OperandFault::OutsideLimit(limit) => write!(f, "the register's number isn't below {limit}"),
            OperandFault::NoCell => write!(f, "the place is no allocatable register of the class and no slot of the frame"),
        }
    }
}

impl fmt::Display for MoveFault {
    fn fmt(&self, f: &mut fmt::Formatter<'_>) -> fmt::Result {
        f.write_str(match self {
            MoveFault::StackToStack => "a move from one stack place to another",
            MoveFault::NoCell => "an end is no allocatable register and no slot of the frame",
            MoveFault::OtherClass => "a move to a register of another class",
        })
    }
}

impl fmt::Display for SlotFault {
    fn fmt(&self, f: &mut fmt::Formatter<'_>) -> fmt::Result {
        match self {
            SlotFault::OutsideFrame => write!(f, "the slot isn't within the frame"),
            SlotFault::Shared(other) => write!(f, "the slot shares a unit with {other}"),
        }
    }
}

impl fmt::Display for OrderFault {
    fn fmt(&self, f: &mut fmt::Formatter<'_>) -> fmt::Result {
        match self {
            OrderFault::Offsets { offsets, insts } => write!(f, "{offsets} offsets for {insts} instructions"),
            OrderFault::Places(inst) => write!(f, "the places of inst{} are out of range", inst.raw_u32()),
            OrderFault::TooManyPlaces(inst) => write!(f, "inst{} has more places than operands", inst.raw_u32()),
            OrderFault::Edit(k) => write!(f, "edit {k} is at an earlier point than its predecessor"),
            OrderFault::NoPlace(k) => write!(f, "edit {k} has no source or no destination"),
            OrderFault::Unlocated => write!(f, "the reason isn't known"),
        }
    }
}

impl fmt::Display for Unjudged {
    fn fmt(&self, f: &mut fmt::Formatter<'_>) -> fmt::Result {
        match self {
            Unjudged::NoMemory => write!(f, "memory ran out"),
            Unjudged::TooLarge => write!(f, "the function is too large"),
            Unjudged::NotFramed => write!(f, "the function isn't structurally valid"),
            Unjudged::BadFunction(number) => write!(f, "{}", Status::BadFunction(*number)),
            Unjudged::BadOutput => write!(f, "a number of the output is no encoding"),
            Unjudged::Encoding => write!(f, "the library or regalloc2 has another version"),
            Unjudged::Absent => write!(f, "there is no library for this target"),
            Unjudged::Library(status) => write!(f, "the library returned {}: {status}", status.number()),
        }
    }
}

impl std::error::Error for Rejection {}
impl std::error::Error for Unjudged {}
