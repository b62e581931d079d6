//! Functions and outputs as the words of `c/regalloc2_c.h`.
//!
//! These functions connect upstream's types with the proved code, and aren't proved. They panic only if a method of
//! `Function` does: they copy numbers as they are, and the library tests them.

use regalloc2::{
    Allocation, Block, Edit, Function, Inst, InstRange, MachineEnv, Operand, OperandConstraint, OperandKind, OperandPos, Output,
    PReg, PRegSet, ProgPoint, RegClass, SpillSlot, VReg,
};
use regalloc2_proved_sys::{self as sys, Columns, InstKind, MachineWords, SetWords, Settings};
use std::collections::HashMap;
use std::sync::OnceLock;

/// Whether [`FunctionWords::write`] writes debug labels.
#[derive(Clone, Copy, Debug, PartialEq, Eq)]
pub enum Labels {
    /// It writes them, for an allocation.
    LaidOut,
    /// It writes none. A verdict doesn't depend on them.
    LeftOut,
}

const NONE: PRegSet = PRegSet::empty();
const CLASSES: [RegClass; 3] = [RegClass::Int, RegClass::Float, RegClass::Vector];

/// Returns `true` if upstream's encodings are those of the library, and the library has the expected version.
///
/// The first call tests a vreg, a register, each kind of place, both points, and an operand under each constraint.
pub fn agree() -> bool {
    static AGREE: OnceLock<bool> = OnceLock::new();
    *AGREE.get_or_init(|| sys::agrees() && names_agree() && operands_agree())
}

fn names_agree() -> bool {
    let reg = PReg::new(5, RegClass::Vector);
    reg.index() == 133
        && VReg::new(9, RegClass::Float).bits() == 37
        && Allocation::none().bits() == 0
        && Allocation::reg(reg).bits() == 1 << 29 | 133
        && Allocation::stack(SpillSlot::new(70_000)).bits() == 2 << 29 | 70_000
        && ProgPoint::before(Inst::new(6)).to_index() == 12
        && ProgPoint::after(Inst::new(6)).to_index() == 13
}

fn operands_agree() -> bool {
    use OperandConstraint::{Any, FixedReg, Limit, Reg, Reuse, Stack};
    let reg = PReg::new(5, RegClass::Float);
    let constraints = [(Any, 0), (Reg, 1), (Stack, 2), (Limit(8), 19), (Reuse(3), 35), (FixedReg(reg), 69)];
    let kinds = [(OperandKind::Def, OperandPos::Late, 1u64), (OperandKind::Use, OperandPos::Early, 2)];
    constraints.iter().all(|(constraint, code)| {
        kinds.iter().all(|(kind, position, bits)| {
            let op = Operand::new(VReg::new(9, RegClass::Float), *constraint, *kind, *position);
            op.bits() == 9 | 1 << 32 | bits << 34 | *code << 36
        })
    })
}

/// The reason why a function has no words.
#[derive(Clone, Copy, Debug, PartialEq, Eq)]
pub enum Unwritten {
    /// A count doesn't fit 32 bits.
    TooLarge,
    /// This block is empty, doesn't begin where the one before it ends, or is the last and doesn't end at the last
    /// instruction.
    Block(Block),
    /// A set has a register that is of no class.
    Register,
}

/// Returns the words of a set, which are bits.
fn set_words(set: PRegSet) -> Result<SetWords, Unwritten> {
    let mut words = SetWords::default();
    for reg in set {
        sys::add_register(&mut words, reg.index()).ok_or(Unwritten::Register)?;
    }
    Ok(words)
}

fn bits(vregs: &[VReg]) -> impl Iterator<Item = u32> {
    vregs.iter().map(|vreg| vreg.bits() as u32)
}

fn numbers(blocks: &[Block]) -> impl Iterator<Item = u32> {
    blocks.iter().map(|block| block.raw_u32())
}

fn indexes(regs: &[PReg]) -> impl Iterator<Item = u32> {
    regs.iter().map(|reg| reg.index() as u32)
}

/// Returns the first and the last instruction of a range, if any. `InstRange::len` requires that the range isn't
/// reversed.
fn ends(range: InstRange) -> Option<(Inst, Inst)> {
    let mut insts = range.iter();
    let first = insts.next()?;
    Some((first, insts.next_back().unwrap_or(first)))
}

fn kind(f: &impl Function, inst: Inst) -> InstKind {
    if f.is_ret(inst) {
        InstKind::Return
    } else if f.is_branch(inst) {
        InstKind::Branch
    } else {
        InstKind::Op
    }
}

/// How many sets are searched in turn, before a table is asked.
const FEW_SETS: usize = 8;

/// The words of sets, of which functions for one machine have few. They are kept from one function to the next.
#[derive(Clone, Debug, Default)]
struct KnownSets {
    sets: Vec<(PRegSet, SetWords)>,
}

impl KnownSets {
    fn words(&mut self, set: PRegSet) -> Result<SetWords, Unwritten> {
        match self.sets.iter().find(|(known, _)| *known == set) {
            Some((_, words)) => Ok(*words),
            None => self.add(set),
        }
    }

    #[cold]
    fn add(&mut self, set: PRegSet) -> Result<SetWords, Unwritten> {
        let words = set_words(set)?;
        if self.sets.len() < FEW_SETS {
            self.sets.push((set, words));
        }
        Ok(words)
    }
}

/// Returns the words of the sets of the three classes.
fn class_words(sets: [PRegSet; 3]) -> Result<[SetWords; 3], Unwritten> {
    let [int, float, vector] = sets;
    Ok([set_words(int)?, set_words(float)?, set_words(vector)?])
}

/// The sets of the machine that was written last, and their words. Most functions are for one machine.
#[derive(Clone, Debug)]
struct KnownMachine {
    preferred: [PRegSet; 3],
    non_preferred: [PRegSet; 3],
    words: MachineWords,
}

impl Default for KnownMachine {
    fn default() -> Self {
        let none = [PRegSet::empty(); 3];
        KnownMachine { preferred: none, non_preferred: none, words: MachineWords::default() }
    }
}

impl KnownMachine {
    /// Returns the words of a machine's registers.
    fn words(&mut self, env: &MachineEnv) -> Result<&MachineWords, Unwritten> {
        if self.preferred != env.preferred_regs_by_class || self.non_preferred != env.non_preferred_regs_by_class {
            self.learn(env)?;
        }
        self.words.scratch = env.scratch_by_class.map(|reg| reg.map(|reg| reg.index() as u32));
        Ok(&self.words)
    }

    #[cold]
    fn learn(&mut self, env: &MachineEnv) -> Result<(), Unwritten> {
        let preferred = class_words(env.preferred_regs_by_class)?;
        let non_preferred = class_words(env.non_preferred_regs_by_class)?;
        self.words = MachineWords { preferred, non_preferred, ..self.words };
        (self.preferred, self.non_preferred) = (env.preferred_regs_by_class, env.non_preferred_regs_by_class);
        Ok(())
    }
}

/// The sets of clobbers by their numbers, of which code has few: the first ones in a list, the others in a table.
#[derive(Clone, Debug, Default)]
struct Sets {
    few: Vec<PRegSet>,
    others: HashMap<PRegSet, u32>,
    known: KnownSets,
}

impl Sets {
    fn clear(&mut self) {
        self.few.clear();
        self.others.clear();
    }

    /// Returns the number of a set, which is added to the columns if it isn't there. The empty one has the number 0.
    #[inline]
    fn number(&mut self, to: &mut Columns, set: PRegSet) -> Result<u32, Unwritten> {
        if set == NONE {
            Ok(0)
        } else {
            self.number_of_nonempty(to, set)
        }
    }

    #[inline(never)]
    fn number_of_nonempty(&mut self, to: &mut Columns, set: PRegSet) -> Result<u32, Unwritten> {
        match self.few.iter().position(|few| *few == set) {
            Some(k) => Ok(k as u32 + 1),
            None => self.find(to, set),
        }
    }

    #[inline(never)]
    fn find(&mut self, to: &mut Columns, set: PRegSet) -> Result<u32, Unwritten> {
        if let Some(number) = self.others.get(&set) {
            return Ok(*number);
        }
        let number = to.set(self.known.words(set)?);
        if self.few.len() < FEW_SETS {
            self.few.push(set);
        } else {
            self.others.insert(set, number);
        }
        Ok(number)
    }
}

/// Writes functions as words, and keeps the memory from one function to the next.
#[derive(Clone, Debug, Default)]
pub struct FunctionWords {
    columns: Columns,
    sets: Sets,
    machine: KnownMachine,
}

impl FunctionWords {
    /// Returns a writer without memory.
    pub fn new() -> Self {
        Self::default()
    }

    fn machine(&mut self, env: &MachineEnv) -> Result<(), Unwritten> {
        self.columns.machine(*self.machine.words(env)?, indexes(&env.fixed_stack_slots));
        Ok(())
    }

    fn insts(&mut self, f: &impl Function) -> Result<(), Unwritten> {
        for inst in (0..f.num_insts()).map(Inst::new) {
            let set = self.sets.number(&mut self.columns, f.inst_clobbers(inst))?;
            self.columns.inst(kind(f, inst), set, f.inst_operands(inst).iter().map(|op| op.bits()));
        }
        Ok(())
    }

    /// Writes a block, whose instructions end before `end`. A block that doesn't end in a branch passes no arguments.
    fn block(&mut self, f: &impl Function, block: Block, last: Inst, end: u32) {
        let branches = f.is_branch(last);
        for (k, succ) in f.block_succs(block).iter().enumerate() {
            let arguments = if branches { f.branch_blockparams(block, last, k) } else { &[] };
            self.columns.edge(succ.raw_u32(), bits(arguments));
        }
        self.columns.block(end, numbers(f.block_preds(block)), bits(f.block_params(block)));
    }

    fn blocks(&mut self, f: &impl Function) -> Result<(), Unwritten> {
        let (count, insts) = (f.num_blocks(), f.num_insts() as u32);
        let mut at = 0;
        for block in (0..count).map(Block::new) {
            let (first, last) = ends(f.block_insns(block)).ok_or(Unwritten::Block(block))?;
            let end = last.raw_u32().saturating_add(1);
            let is_last = block.index() + 1 == count;
            if first.raw_u32() != at || end > insts || is_last && end != insts {
                return Err(Unwritten::Block(block));
            }
            self.block(f, block, last, end);
            at = end;
        }
        Ok(())
    }

    fn labels(&mut self, f: &impl Function) {
        for (vreg, from, end, label) in f.debug_value_labels() {
            self.columns.label([vreg.bits() as u32, from.raw_u32(), end.raw_u32(), *label]);
        }
    }

    /// Returns the words of a function and its machine.
    ///
    /// # Errors
    ///
    /// [`Unwritten`] if the layout has no words for it.
    pub fn write(&mut self, f: &impl Function, env: &MachineEnv, which: Labels) -> Result<&[u32], Unwritten> {
        let (insts, blocks) = (f.num_insts(), f.num_blocks());
        if insts.max(blocks) >= u32::MAX as usize {
            return Err(Unwritten::TooLarge);
        }
        self.columns.clear();
        self.sets.clear();
        self.columns.reserve(insts.min(1 << 20), blocks.min(1 << 20));
        self.machine(env)?;
        self.insts(f)?;
        self.blocks(f)?;
        if which == Labels::LaidOut {
            self.labels(f);
        }
        let settings = Settings {
            entry: f.entry_block().raw_u32(),
            num_vregs: f.num_vregs(),
            slot_sizes: CLASSES.map(|class| f.spillslot_size(class)),
            named_by_last_slot: f.multi_spillslot_named_by_last_slot(),
            several_definitions: f.allow_multiple_vreg_defs(),
        };
        self.columns.words(settings).ok_or(Unwritten::TooLarge)
    }
}

/// Writes an output's moves: point, source and destination of each.
pub fn moves(to: &mut Vec<u32>, output: &Output) {
    to.clear();
    to.extend(output.edits.iter().flat_map(|(point, Edit::Move { from, to })| [point.to_index(), from.bits(), to.bits()]));
}

/// Writes the places of an output's operands.
pub fn places(to: &mut Vec<u32>, output: &Output) {
    to.clear();
    to.extend(output.allocs.iter().map(|place| place.bits()));
}

/// Returns the place of a word from the library; none if the word is no place's encoding.
pub fn place(word: u32) -> Allocation {
    let index = word as usize & ((1 << 29) - 1);
    match word >> 29 {
        1 if index < 192 => Allocation::reg(PReg::from_index(index)),
        2 if index <= SpillSlot::MAX => Allocation::stack(SpillSlot::new(index)),
        _ => Allocation::none(),
    }
}

/// Returns the vreg of a word from the library; the invalid vreg if the word has no class.
pub fn vreg(word: u32) -> VReg {
    if word & 3 == 3 {
        VReg::invalid()
    } else {
        VReg::from_bits(word)
    }
}

#[cfg(test)]
mod tests {
    use super::*;

    #[test]
    fn encodings_agree() {
        assert!(sys::agrees(), "version {:x}", sys::version());
        assert!(names_agree() && operands_agree());
    }

    #[test]
    fn sets_have_one_number_each() {
        let (mut sets, mut columns) = (Sets::default(), Columns::new());
        let set = |index| PRegSet::empty().with(PReg::from_index(index));
        for index in (0..3 * FEW_SETS).chain(0..3 * FEW_SETS) {
            assert_eq!(sets.number(&mut columns, set(index)), Ok(index as u32 + 1));
        }
        assert_eq!(sets.number(&mut columns, PRegSet::empty()), Ok(0));
        assert_eq!(sets.number(&mut columns, set(192)), Err(Unwritten::Register));
    }

    #[test]
    fn any_word_is_some_place() {
        let (reg, slot) = (PReg::new(63, RegClass::Vector), SpillSlot::new(SpillSlot::MAX));
        assert_eq!(place(Allocation::reg(reg).bits()), Allocation::reg(reg));
        assert_eq!(place(Allocation::stack(slot).bits()), Allocation::stack(slot));
        for word in [0, 192 | 1 << 29, 1 << 24 | 2 << 29, 3 << 29, u32::MAX] {
            assert_eq!(place(word), Allocation::none());
        }
        assert_eq!(vreg(u32::MAX), VReg::invalid());
        assert_eq!(vreg(21), VReg::new(5, RegClass::Float));
    }
}
