//! Outputs, corrupted.

use crate::functions::Random;
use regalloc2::{Allocation, Edit, Output, PReg, ProgPoint, RegClass, SpillSlot};

fn place(random: &mut Random, output: &Output) -> Allocation {
    match random.below(8) {
        0 => Allocation::none(),
        1 => Allocation::reg(PReg::from_index(random.below(192))),
        2 | 3 => Allocation::stack(SpillSlot::new(random.below(output.num_spillslots + 3))),
        4 | 5 => Allocation::reg(PReg::new(random.below(15), RegClass::Int)),
        6 => Allocation::reg(PReg::new(random.below(16), RegClass::Float)),
        _ => output.allocs.get(random.below(output.allocs.len() + 1)).copied().unwrap_or(Allocation::none()),
    }
}

fn change_a_move(random: &mut Random, output: &mut Output) {
    let (k, other) = (random.below(output.edits.len()), random.below(output.edits.len()));
    let changed = place(random, output);
    match random.below(7) {
        0 => drop(output.edits.remove(k)),
        1 => output.edits.insert(k, output.edits[k].clone()),
        2 => output.edits.swap(k, other),
        3 => output.edits[k].0 = ProgPoint::from_index(output.edits[k].0.to_index() ^ 1),
        4 => {
            let Edit::Move { from, to } = &mut output.edits[k].1;
            std::mem::swap(from, to);
        }
        5 => {
            let Edit::Move { from, .. } = &mut output.edits[k].1;
            *from = changed;
        }
        _ => {
            let Edit::Move { to, .. } = &mut output.edits[k].1;
            *to = changed;
        }
    }
}

fn change_a_list(random: &mut Random, output: &mut Output) {
    match random.below(6) {
        0 => output.allocs.truncate(output.allocs.len().saturating_sub(1)),
        1 => output.inst_alloc_offsets.truncate(output.inst_alloc_offsets.len() - 1),
        2 => output.inst_alloc_offsets.push(output.allocs.len() as u32),
        3 => output.num_spillslots = random.below(output.num_spillslots + 2),
        4 => output.allocs.push(Allocation::none()),
        _ => {
            let k = random.below(output.inst_alloc_offsets.len());
            output.inst_alloc_offsets[k] = random.below(output.allocs.len() + 2) as u32;
        }
    }
}

fn change_places(random: &mut Random, output: &mut Output) {
    let (k, other) = (random.below(output.allocs.len()), random.below(output.allocs.len()));
    let (old, changed) = (output.allocs[k], place(random, output));
    match random.below(3) {
        0 => output.allocs.swap(k, other),
        1 => output.allocs[k] = changed,
        // a place gets another name in all of the output
        _ => {
            let rename = |place: &mut Allocation| {
                if *place == old {
                    *place = changed;
                }
            };
            output.allocs.iter_mut().for_each(rename);
            output.edits.iter_mut().for_each(|(_, Edit::Move { from, to })| [from, to].into_iter().for_each(rename));
        }
    }
}

/// Corrupts an output in one to three ways. What comes of it may be right nevertheless.
pub fn corrupt(random: &mut Random, output: &mut Output) {
    for _ in 0..random.below(3) + 1 {
        match random.below(5) {
            0 => change_a_list(random, output),
            1 | 2 if !output.edits.is_empty() => change_a_move(random, output),
            _ if !output.allocs.is_empty() => change_places(random, output),
            _ => {}
        }
        if output.inst_alloc_offsets.is_empty() {
            return;
        }
    }
}
