//! Locates the reason why an output isn't well-ordered. The verdict is the library's.

use crate::fault::OrderFault;
use regalloc2::{Edit, Function, Inst, Output};

/// Returns the range of an instruction's places, or `None` if it isn't within the list.
pub(crate) fn range(output: &Output, inst: Inst) -> Option<(usize, usize)> {
    let k = inst.raw_u32() as usize;
    let start = *output.inst_alloc_offsets.get(k)? as usize;
    let end = output.inst_alloc_offsets.get(k.checked_add(1)?).map_or(output.allocs.len(), |end| *end as usize);
    (start <= end && end <= output.allocs.len()).then_some((start, end))
}

fn offsets(f: &impl Function, output: &Output) -> Option<OrderFault> {
    let (offsets, insts) = (output.inst_alloc_offsets.len(), f.num_insts());
    if offsets != insts {
        return Some(OrderFault::Offsets { offsets, insts });
    }
    (0..insts).map(Inst::new).find_map(|inst| match range(output, inst) {
        Some((start, _)) if inst.raw_u32() == 0 && start != 0 => Some(OrderFault::Places(inst)),
        Some((start, end)) if end - start > f.inst_operands(inst).len() => Some(OrderFault::TooManyPlaces(inst)),
        Some(_) => None,
        None => Some(OrderFault::Places(inst)),
    })
}

fn edits(output: &Output) -> Option<OrderFault> {
    let mut last = None;
    for (k, (point, Edit::Move { from, to })) in output.edits.iter().enumerate() {
        if from.bits() == 0 || to.bits() == 0 {
            return Some(OrderFault::NoPlace(k));
        }
        if last.is_some_and(|last| *point < last) {
            return Some(OrderFault::Edit(k));
        }
        last = Some(*point);
    }
    None
}

/// Returns the reason why an output isn't well-ordered.
pub(crate) fn fault(f: &impl Function, output: &Output) -> OrderFault {
    offsets(f, output).or_else(|| edits(output)).unwrap_or(OrderFault::Unlocated)
}
