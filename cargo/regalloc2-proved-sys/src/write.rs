//! The words of a function, in columns. `regalloc2_c.h` has the layout.

/// The number of the layout, which is a function's first word.
pub const LAYOUT: u32 = 2;

/// The control flow of an instruction.
#[derive(Clone, Copy, Debug, PartialEq, Eq)]
pub enum InstKind {
    /// Execution continues with the next instruction.
    Op = 0,
    /// Execution leaves the function.
    Return = 1,
    /// Execution continues with a successor of the block.
    Branch = 2,
}

/// A set of registers: bit `index % 32` of word `index / 32` is 1 for each register of the set.
pub type SetWords = [u32; 6];

/// Adds a register to a set. Returns `None` if the index isn't below 192.
#[inline]
pub fn add_register(set: &mut SetWords, index: usize) -> Option<()> {
    *set.get_mut(index / 32)? |= 1 << (index % 32);
    Some(())
}

/// The registers of a machine, by class.
#[derive(Clone, Copy, Debug, Default)]
pub struct MachineWords {
    /// The preferred registers.
    pub preferred: [SetWords; 3],
    /// The non-preferred registers.
    pub non_preferred: [SetWords; 3],
    /// The index of the scratch register, if any.
    pub scratch: [Option<u32>; 3],
}

/// The numbers of a function that are in no column.
#[derive(Clone, Copy, Debug)]
pub struct Settings {
    /// The entry block.
    pub entry: u32,
    /// A number above that of each defined vreg.
    pub num_vregs: usize,
    /// The units of a slot by class.
    pub slot_sizes: [usize; 3],
    /// Whether a slot of several units is named by its last unit.
    pub named_by_last_slot: bool,
    /// Whether vregs may have several definitions.
    pub several_definitions: bool,
}

/// A function under construction. Instructions, edges and blocks are added in their order.
///
/// [`Columns::clear`] keeps the memory.
#[derive(Clone, Debug, Default)]
pub struct Columns {
    machine: MachineWords,
    slots: Vec<u32>,
    sets: Vec<SetWords>,
    kinds: Vec<u32>,
    operand_ends: Vec<u32>,
    operands: Vec<[u32; 2]>,
    inst_ends: Vec<u32>,
    pred_ends: Vec<u32>,
    succ_ends: Vec<u32>,
    param_ends: Vec<u32>,
    preds: Vec<u32>,
    succs: Vec<u32>,
    params: Vec<u32>,
    argument_ends: Vec<u32>,
    arguments: Vec<u32>,
    labels: Vec<[u32; 4]>,
    words: Vec<u32>,
}

/// Returns the logarithm of a slot's size; for a size that is no power of two a number that the library rejects.
fn logarithm(size: usize) -> u32 {
    if size.is_power_of_two() { size.ilog2() } else { 255 }
}

/// Returns a count as a word, if it fits.
fn word(count: usize) -> Option<u32> {
    u32::try_from(count).ok()
}

impl Columns {
    /// Returns a function of nothing.
    pub fn new() -> Self {
        Self::default()
    }

    /// Removes all that was added, and keeps the memory.
    pub fn clear(&mut self) {
        let Columns { machine, slots, sets, kinds, operand_ends, operands, labels, words, .. } = self;
        *machine = MachineWords::default();
        sets.clear();
        operands.clear();
        labels.clear();
        [slots, kinds, operand_ends, words].into_iter().for_each(Vec::clear);
        let Columns { inst_ends, pred_ends, succ_ends, param_ends, preds, succs, params, argument_ends, arguments, .. } = self;
        [inst_ends, pred_ends, succ_ends, param_ends, preds, succs, params, argument_ends, arguments]
            .into_iter()
            .for_each(Vec::clear);
    }

    /// Reserves memory for so many instructions, with two operands each, and so many blocks, with one edge each.
    pub fn reserve(&mut self, insts: usize, blocks: usize) {
        self.operands.reserve(2 * insts);
        [&mut self.kinds, &mut self.operand_ends].into_iter().for_each(|column| column.reserve(insts));
        let Columns { inst_ends, pred_ends, succ_ends, param_ends, preds, succs, argument_ends, .. } = self;
        [inst_ends, pred_ends, succ_ends, param_ends, preds, succs, argument_ends]
            .into_iter()
            .for_each(|column| column.reserve(blocks));
    }

    /// Sets the machine: its registers, and the indexes of the registers that are fixed stack slots.
    pub fn machine(&mut self, registers: MachineWords, slots: impl Iterator<Item = u32>) {
        self.machine = registers;
        self.slots.clear();
        self.slots.extend(slots);
    }

    /// Adds a set of clobbers, and returns its number, which is never 0.
    pub fn set(&mut self, set: SetWords) -> u32 {
        self.sets.push(set);
        self.sets.len() as u32
    }

    /// Adds an instruction: the number of its set of clobbers, 0 for none, and the encodings of its operands.
    #[inline]
    pub fn inst(&mut self, kind: InstKind, set: u32, operands: impl Iterator<Item = u64>) {
        self.kinds.push(set << 2 | kind as u32);
        // instructions have few operands, for which `extend` does more than this loop
        for bits in operands {
            self.operands.push([bits as u32, (bits >> 32) as u32]);
        }
        self.operand_ends.push(self.operands.len() as u32);
    }

    /// Adds an edge of the block that [`Columns::block`] is to add next: its successor and the arguments.
    #[inline]
    pub fn edge(&mut self, succ: u32, arguments: impl Iterator<Item = u32>) {
        self.succs.push(succ);
        self.arguments.extend(arguments);
        self.argument_ends.push(self.arguments.len() as u32);
    }

    /// Adds a block, whose edges have been added: one past its last instruction, its predecessors and its parameters.
    #[inline]
    pub fn block(&mut self, end: u32, preds: impl Iterator<Item = u32>, params: impl Iterator<Item = u32>) {
        self.preds.extend(preds);
        self.params.extend(params);
        self.inst_ends.push(end);
        self.pred_ends.push(self.preds.len() as u32);
        self.succ_ends.push(self.succs.len() as u32);
        self.param_ends.push(self.params.len() as u32);
    }

    /// Adds a label: a vreg, its first instruction, the one past its last, and the label.
    #[inline]
    pub fn label(&mut self, label: [u32; 4]) {
        self.labels.push(label);
    }

    /// Returns the header, or `None` if some count doesn't fit a word.
    ///
    /// More vregs than fit a word are as many as do, which the library rejects too.
    fn header(&self, settings: Settings) -> Option<[u32; 15]> {
        let [int, float, vector] = settings.slot_sizes.map(logarithm);
        Some([
            LAYOUT,
            settings.entry,
            word(self.kinds.len())?,
            word(self.inst_ends.len())?,
            word(self.operands.len())?,
            word(self.sets.len())?,
            word(self.succs.len())?,
            word(self.preds.len())?,
            word(self.params.len())?,
            word(self.arguments.len())?,
            word(settings.num_vregs).unwrap_or(u32::MAX),
            word(self.labels.len())?,
            word(self.slots.len())?,
            u32::from(settings.named_by_last_slot) | u32::from(settings.several_definitions) << 1,
            int | float << 8 | vector << 16,
        ])
    }

    /// Returns the words of what was added, or `None` if some count doesn't fit a word.
    pub fn words(&mut self, settings: Settings) -> Option<&[u32]> {
        let header = self.header(settings)?;
        let MachineWords { preferred, non_preferred, scratch } = &self.machine;
        let scratch = scratch.map(|register| register.map_or(0, |index| index.saturating_add(1)));
        let columns: [&[u32]; 15] = [
            &self.slots,
            self.sets.as_flattened(),
            &self.kinds,
            &self.operand_ends,
            self.operands.as_flattened(),
            &self.inst_ends,
            &self.pred_ends,
            &self.succ_ends,
            &self.param_ends,
            &self.preds,
            &self.succs,
            &self.params,
            &self.argument_ends,
            &self.arguments,
            self.labels.as_flattened(),
        ];
        let fixed = header.len() + preferred.as_flattened().len() + non_preferred.as_flattened().len() + scratch.len();
        self.words.clear();
        self.words.reserve(fixed + columns.iter().map(|column| column.len()).sum::<usize>());
        self.words.extend_from_slice(&header);
        self.words.extend_from_slice(preferred.as_flattened());
        self.words.extend_from_slice(non_preferred.as_flattened());
        self.words.extend_from_slice(&scratch);
        columns.into_iter().filter(|column| !column.is_empty()).for_each(|column| self.words.extend_from_slice(column));
        Some(&self.words)
    }
}

#[cfg(test)]
mod tests {
    use super::*;

    const SETTINGS: Settings =
        Settings { entry: 0, num_vregs: 2, slot_sizes: [1, 1, 2], named_by_last_slot: false, several_definitions: true };

    /// A function of two blocks: the first defines v0 and passes it to the parameter v1 of the second, which returns
    /// it.
    fn two_blocks(columns: &mut Columns) {
        let mut registers = MachineWords { scratch: [Some(3), None, Some(129)], ..MachineWords::default() };
        for (index, set) in [(0, 0), (1, 0), (64, 1)] {
            add_register(&mut registers.preferred[set], index).unwrap();
        }
        add_register(&mut registers.non_preferred[0], 2).unwrap();
        add_register(&mut registers.non_preferred[2], 191).unwrap();
        columns.machine(registers, [5].into_iter());
        let set = columns.set([2, 0, 0, 1, 0, 0]);
        columns.inst(InstKind::Op, set, [4 << 32].into_iter());
        columns.inst(InstKind::Branch, 0, [].into_iter());
        columns.inst(InstKind::Return, 0, [8 << 32 | 1].into_iter());
        columns.edge(1, [0].into_iter());
        columns.block(2, [].into_iter(), [].into_iter());
        columns.block(3, [0].into_iter(), [4].into_iter());
        columns.label([0, 0, 2, 7]);
    }

    #[test]
    fn a_function() {
        let wanted: [&[u32]; 10] = [
            &[2, 0, 3, 2, 2, 1, 1, 1, 1, 1, 2, 1, 1, 2, 65536],
            &[3, 0, 0, 0, 0, 0, 0, 0, 1, 0, 0, 0, 0, 0, 0, 0, 0, 0],
            &[4, 0, 0, 0, 0, 0, 0, 0, 0, 0, 0, 0, 0, 0, 0, 0, 0, 1 << 31],
            &[4, 0, 130, 5],
            &[2, 0, 0, 1, 0, 0],
            &[4, 2, 1, 1, 1, 2],
            &[0, 4, 1, 8],
            &[2, 3, 0, 1, 1, 1, 0, 1],
            &[0, 1, 4, 1, 0],
            &[0, 0, 2, 7],
        ];
        let mut columns = Columns::new();
        for _ in 0..3 {
            columns.clear();
            two_blocks(&mut columns);
            assert_eq!(columns.words(SETTINGS), Some(&wanted.concat()[..]));
        }
    }

    #[test]
    fn settings() {
        let mut columns = Columns::new();
        let sizes = Settings { slot_sizes: [0, 3, 1 << 40], named_by_last_slot: true, num_vregs: 1 << 32, entry: 9, ..SETTINGS };
        let words = columns.words(sizes).unwrap();
        assert_eq!((words.len(), words[1], words[10], words[13], words[14]), (54, 9, u32::MAX, 3, 255 | 255 << 8 | 40 << 16));
        assert_eq!(add_register(&mut [0; 6], 192), None);
    }
}
