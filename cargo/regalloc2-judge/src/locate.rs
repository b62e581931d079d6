//! Translates the library's faults to upstream's types.
//!
//! The library names an operand by its instruction and its index, and a stack-to-stack move by its places: its index
//! in the list of moves is that of the next match, in the order of the faults.

use crate::fault::{Fault, MoveFault, OperandFault, SlotFault};
use crate::{order, words};
use regalloc2::{Allocation, Edit, Function, Inst, OperandConstraint, Output, SpillSlot};
use regalloc2_proved_sys::FaultWords;

/// Returns the operand at an index, and its place: none if the list of places ends before it.
fn operand_at(f: &impl Function, output: &Output, inst: Inst, index: usize) -> Option<(regalloc2::Operand, Allocation)> {
    let op = *f.inst_operands(inst).get(index)?;
    let (start, end) = order::range(output, inst)?;
    let place = start.checked_add(index).filter(|k| *k < end).and_then(|k| output.allocs.get(k));
    Some((op, place.copied().unwrap_or(Allocation::none())))
}

fn instruction(f: &impl Function, number: u32) -> Option<Inst> {
    ((number as usize) < f.num_insts()).then(|| Inst::new(number as usize))
}

/// Returns the fault of the operand that the library names.
fn operand(f: &impl Function, output: &Output, fault: &FaultWords, what: OperandFault) -> Option<Fault> {
    let (inst, index) = (instruction(f, fault.inst)?, fault.index as usize);
    let (op, place) = operand_at(f, output, inst, index)?;
    Some(Fault::Operand { inst, index, op, place, what })
}

fn edit(output: &Output, index: usize, what: MoveFault) -> Option<Fault> {
    let (at, Edit::Move { from, to }) = output.edits.get(index)?;
    Some(Fault::Move { edit: index, at: *at, from: *from, to: *to, what })
}

/// Returns the fault of the next move between these places, from the index `next`, else of the first.
fn stack_to_stack(output: &Output, fault: &FaultWords, next: &mut usize) -> Option<Fault> {
    let fits = |k: &usize| {
        output.edits.get(*k).is_some_and(|(_, Edit::Move { from, to })| from.bits() == fault.other && to.bits() == fault.place)
    };
    let index = (*next..output.edits.len()).find(fits).or_else(|| (0..output.edits.len()).find(fits))?;
    *next = index + 1;
    edit(output, index, MoveFault::StackToStack)
}

fn slot(number: u32, what: SlotFault) -> Fault {
    Fault::Slot { slot: slot_of(number), what }
}

/// Returns a slot. The library rejects numbers of 2^24 or more.
fn slot_of(number: u32) -> SpillSlot {
    SpillSlot::new((number as usize).min(SpillSlot::MAX))
}

/// Returns the kind of an operand's fault, if the number is of such a fault.
fn operand_fault(fault: &FaultWords) -> Option<OperandFault> {
    Some(match fault.number {
        1 => OperandFault::Missing,
        2 => OperandFault::NoValue,
        4 => OperandFault::OtherValues(fault.vregs.iter().map(|word| words::vreg(*word)).collect()),
        5 => OperandFault::NoSuchOperand,
        6 => OperandFault::NotRegister,
        7 => OperandFault::NotFixedRegister,
        8 => OperandFault::NotReused(words::place(fault.other)),
        9 => OperandFault::NotStack,
        11 => OperandFault::OutsideLimit(fault.bound),
        _ => return None,
    })
}

fn located(f: &impl Function, output: &Output, fault: &FaultWords, next: &mut usize) -> Option<Fault> {
    if let Some(what) = operand_fault(fault) {
        return operand(f, output, fault, what);
    }
    match fault.number {
        10 => stack_to_stack(output, fault, next),
        12 => Some(Fault::Order(order::fault(f, output))),
        14 if instruction(f, fault.inst).is_some() => operand(f, output, fault, OperandFault::NoCell),
        14 => edit(output, fault.index as usize, MoveFault::NoCell),
        15 => edit(output, fault.index as usize, MoveFault::OtherClass),
        16 => Some(slot(fault.index, SlotFault::OutsideFrame)),
        17 => Some(slot(fault.index, SlotFault::Shared(slot_of(fault.bound)))),
        _ => None,
    }
}

/// Returns the faults of a list; at least one.
pub(crate) fn faults(f: &impl Function, output: &Output, list: &[FaultWords]) -> Vec<Fault> {
    let mut next = 0;
    let unlocated = |number, inst| Fault::Unlocated { number, inst };
    let mut faults: Vec<Fault> = list
        .iter()
        .map(|fault| located(f, output, fault, &mut next).unwrap_or_else(|| unlocated(fault.number, instruction(f, fault.inst))))
        .collect();
    if faults.is_empty() {
        faults.push(unlocated(0, None));
    }
    faults
}

/// Returns the register that an operand is fixed to, for a fault's text.
pub(crate) fn fixed_register(op: regalloc2::Operand) -> Option<regalloc2::PReg> {
    match op.constraint() {
        OperandConstraint::FixedReg(reg) => Some(reg),
        _ => None,
    }
}
