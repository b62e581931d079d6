//! Whether an output's places are cells of their own: a second opinion on the proved test, by other means.

use regalloc2::{Allocation, Edit, Function, Inst, MachineEnv, Operand, Output, PReg, RegClass};
use std::collections::BTreeMap;

struct Cells<'a> {
    env: &'a MachineEnv,
    count: usize,
    /// For each slot that is named the units that its widest use takes.
    named: BTreeMap<usize, usize>,
    fine: bool,
}

impl Cells<'_> {
    fn allows(&self, class: RegClass, reg: PReg) -> bool {
        let c = class as usize;
        let listed = self.env.preferred_regs_by_class[c].contains(reg) || self.env.non_preferred_regs_by_class[c].contains(reg);
        listed || reg.class() == class && self.env.fixed_stack_slots.contains(&reg)
    }

    fn name(&mut self, place: Allocation, units: usize) {
        if let Some(slot) = place.as_stack() {
            self.fine &= slot.index() < self.count;
            let widest = self.named.entry(slot.index()).or_default();
            *widest = units.max(*widest);
        }
    }

    fn operand(&mut self, f: &impl Function, op: Operand, place: Allocation) {
        match (op.as_fixed_nonallocatable(), place.as_reg()) {
            (Some(reg), _) => self.fine &= place == Allocation::reg(reg),
            (_, Some(reg)) => self.fine &= self.allows(op.class(), reg),
            _ => self.fine &= place.is_stack(),
        }
        self.name(place, f.spillslot_size(op.class()));
    }

    fn edit(&mut self, f: &impl Function, from: Allocation, to: Allocation) {
        let class = |place: Allocation| place.as_reg().map(|reg| reg.class());
        let units = |other: Allocation| class(other).map_or(1, |class| f.spillslot_size(class));
        for (place, other) in [(from, to), (to, from)] {
            if let Some(reg) = place.as_reg() {
                let scratch = self.env.scratch_by_class.contains(&Some(reg));
                self.fine &=
                    scratch || [RegClass::Int, RegClass::Float, RegClass::Vector].iter().any(|class| self.allows(*class, reg));
            }
            self.name(place, units(other));
        }
        self.fine &= class(from).is_none() || class(to).is_none() || class(from) == class(to);
    }

    /// Marks each unit of each slot.
    fn units_are_apart(&self, by_last: bool) -> bool {
        let mut taken = vec![false; self.count];
        self.named.iter().all(|(slot, units)| {
            let first = if by_last { (slot + 1).checked_sub(*units) } else { Some(*slot) };
            first.is_some_and(|first| (first..first + units).all(|k| k < self.count && !std::mem::replace(&mut taken[k], true)))
        })
    }
}

/// Whether each place of a well-ordered output is a cell of its own.
pub fn are_cells(f: &impl Function, env: &MachineEnv, output: &Output) -> bool {
    let mut cells = Cells { env, count: output.num_spillslots, named: BTreeMap::new(), fine: true };
    for inst in (0..f.num_insts()).map(Inst::new) {
        for (op, place) in f.inst_operands(inst).iter().zip(output.inst_allocs(inst)) {
            cells.operand(f, *op, *place);
        }
    }
    for (_, Edit::Move { from, to }) in &output.edits {
        cells.edit(f, *from, *to);
    }
    cells.fine && cells.units_are_apart(f.multi_spillslot_named_by_last_slot())
}
