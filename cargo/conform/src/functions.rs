//! Generated functions: forks, loops with parameters, calls in fixed registers, reuses, temporaries, fixed stack slots.

use regalloc2::{
    Algorithm, Block, Function, Inst, InstRange, MachineEnv, Operand, OperandConstraint, OperandKind, OperandPos, PReg, PRegSet,
    RegClass, RegallocOptions, VReg,
};

/// A xorshift generator.
pub struct Random(u64);

impl Random {
    pub fn new(seed: u64) -> Self {
        Random(seed.wrapping_mul(0x9e37_79b9_7f4a_7c15) | 1)
    }

    pub fn below(&mut self, bound: usize) -> usize {
        self.0 ^= self.0 << 13;
        self.0 ^= self.0 >> 7;
        self.0 ^= self.0 << 17;
        (self.0 % bound as u64) as usize
    }
}

/// What an instruction is.
#[derive(Clone, Copy, Debug, PartialEq)]
pub enum Kind {
    /// It goes on to the next one.
    Op,
    /// It returns.
    Ret,
    /// It branches.
    Branch,
}

/// An instruction.
#[derive(Clone, Debug)]
pub struct Line {
    /// What it is.
    pub kind: Kind,
    /// Its operands.
    pub operands: Vec<Operand>,
    /// The registers that it clobbers.
    pub clobbers: PRegSet,
}

impl Line {
    /// An instruction without clobbers.
    pub fn new(kind: Kind, operands: &[Operand]) -> Line {
        Line { kind, operands: operands.to_vec(), clobbers: PRegSet::empty() }
    }
}

/// A block.
#[derive(Clone, Debug, Default)]
pub struct Part {
    /// Its instructions.
    pub lines: Vec<Line>,
    /// Its successors.
    pub succs: Vec<Block>,
    /// The arguments for each successor.
    pub arguments: Vec<Vec<VReg>>,
    /// Its parameters.
    pub params: Vec<VReg>,
}

/// A function, kept in lists. Its slots take one unit for an integer, two for a float and four for a vector.
#[derive(Clone, Debug)]
pub struct Code {
    /// The instructions.
    pub lines: Vec<Line>,
    /// The blocks' instructions.
    pub ranges: Vec<InstRange>,
    /// The blocks' successors.
    pub succs: Vec<Vec<Block>>,
    /// The blocks' predecessors.
    pub preds: Vec<Vec<Block>>,
    /// The blocks' parameters.
    pub params: Vec<Vec<VReg>>,
    /// By block and successor the arguments.
    pub arguments: Vec<Vec<Vec<VReg>>>,
    /// Above the number of each vreg.
    pub num_vregs: usize,
    /// Debug labels.
    pub labels: Vec<(VReg, Inst, Inst, u32)>,
}

impl Function for Code {
    fn num_insts(&self) -> usize {
        self.lines.len()
    }
    fn num_blocks(&self) -> usize {
        self.ranges.len()
    }
    fn entry_block(&self) -> Block {
        Block::new(0)
    }
    fn block_insns(&self, block: Block) -> InstRange {
        self.ranges[block.index()]
    }
    fn block_succs(&self, block: Block) -> &[Block] {
        &self.succs[block.index()]
    }
    fn block_preds(&self, block: Block) -> &[Block] {
        &self.preds[block.index()]
    }
    fn block_params(&self, block: Block) -> &[VReg] {
        &self.params[block.index()]
    }
    fn is_ret(&self, insn: Inst) -> bool {
        self.lines[insn.index()].kind == Kind::Ret
    }
    fn is_branch(&self, insn: Inst) -> bool {
        self.lines[insn.index()].kind == Kind::Branch
    }
    fn branch_blockparams(&self, block: Block, _insn: Inst, succ_idx: usize) -> &[VReg] {
        &self.arguments[block.index()][succ_idx]
    }
    fn inst_operands(&self, insn: Inst) -> &[Operand] {
        &self.lines[insn.index()].operands
    }
    fn inst_clobbers(&self, insn: Inst) -> PRegSet {
        self.lines[insn.index()].clobbers
    }
    fn num_vregs(&self) -> usize {
        self.num_vregs
    }
    fn debug_value_labels(&self) -> &[(VReg, Inst, Inst, u32)] {
        &self.labels
    }
    fn spillslot_size(&self, class: RegClass) -> usize {
        [1, 2, 4][class as usize]
    }
}

/// An integer register.
pub fn int(number: usize) -> PReg {
    PReg::new(number, RegClass::Int)
}

impl Code {
    /// A label for every fourth vreg, from its definition to a use.
    fn some_labels(&self) -> Vec<(VReg, Inst, Inst, u32)> {
        let operands = || self.lines.iter().enumerate().flat_map(|(k, line)| line.operands.iter().map(move |op| (k, *op)));
        (0..self.num_vregs)
            .step_by(4)
            .filter_map(|k| {
                let (from, def) = operands().find(|(_, op)| op.vreg().vreg() == k && op.kind() == OperandKind::Def)?;
                let (to, _) = operands().find(|(_, op)| op.vreg() == def.vreg() && op.kind() == OperandKind::Use)?;
                (from < to).then(|| (def.vreg(), Inst::new(from + 1), Inst::new(to), 100 + k as u32))
            })
            .collect()
    }
}

struct Builder {
    random: Random,
    parts: Vec<Part>,
    count: usize,
    left: usize,
}

impl Builder {
    fn vreg(&mut self, class: RegClass) -> VReg {
        self.count += 1;
        VReg::new(self.count - 1, class)
    }

    fn class(&mut self) -> RegClass {
        if self.random.below(4) == 0 { RegClass::Float } else { RegClass::Int }
    }

    fn pick(&mut self, known: &[VReg], class: Option<RegClass>) -> Option<VReg> {
        // mostly of the latest
        for _ in 0..4 {
            if known.is_empty() {
                return None;
            }
            let near = known.len().min(if self.random.below(24) == 0 { known.len() } else { 12 });
            let vreg = known[known.len() - 1 - self.random.below(near)];
            if class.is_none_or(|class| vreg.class() == class) {
                return Some(vreg);
            }
        }
        None
    }

    /// A call: its arguments and its result in fixed registers, other registers clobbered.
    fn call(&mut self, known: &[VReg]) -> Line {
        let mut operands = Vec::new();
        for k in 0..self.random.below(4) {
            if let Some(vreg) = self.pick(known, Some(RegClass::Int)) {
                operands.push(Operand::reg_fixed_use(vreg, int(k)));
            }
        }
        let result = self.vreg(RegClass::Int);
        operands.push(Operand::reg_fixed_def(result, int(0)));
        let mut clobbers: PRegSet = (1..6).map(int).collect();
        clobbers.add(PReg::new(1, RegClass::Float));
        Line { kind: Kind::Op, operands, clobbers }
    }

    fn line(&mut self, known: &mut Vec<VReg>) -> Line {
        let mut operands = Vec::new();
        let mut clobbers = PRegSet::empty();
        match self.random.below(10) {
            0 => {
                let line = self.call(known);
                known.extend(line.operands.iter().filter(|op| op.kind() == OperandKind::Def).map(|op| op.vreg()));
                return line;
            }
            // two addresses: the result reuses the first use
            1..=3 if !known.is_empty() => {
                let first = self.pick(known, None).unwrap_or(known[0]);
                let result = self.vreg(first.class());
                operands.push(Operand::reg_use(first));
                if let Some(second) = self.pick(known, None) {
                    operands.push(Operand::any_use(second));
                }
                operands.push(Operand::reg_reuse_def(result, 0));
                known.push(result);
            }
            4 => {
                let class = self.class();
                let temp = self.vreg(class);
                operands.push(Operand::reg_temp(temp));
                if let Some(vreg) = self.pick(known, None) {
                    operands.push(Operand::reg_use(vreg));
                }
            }
            5 if !known.is_empty() => {
                let vreg = known[self.random.below(known.len())];
                operands.push(Operand::new(vreg, OperandConstraint::Stack, OperandKind::Use, OperandPos::Early));
                operands.push(Operand::fixed_nonallocatable(int(30)));
            }
            _ => {
                for _ in 0..self.random.below(4) {
                    let Some(vreg) = self.pick(known, None) else { break };
                    operands.push(match self.random.below(3) {
                        0 => Operand::any_use(vreg),
                        1 => Operand::reg_use_at_end(vreg),
                        _ => Operand::reg_use(vreg),
                    });
                }
                if self.random.below(3) > 0 {
                    let class = self.class();
                    let vreg = self.vreg(class);
                    operands.push(if self.random.below(3) == 0 { Operand::any_def(vreg) } else { Operand::reg_def(vreg) });
                    known.push(vreg);
                }
                if self.random.below(8) == 0 {
                    clobbers.add(int(self.random.below(2)));
                }
            }
        }
        Line { kind: Kind::Op, operands, clobbers }
    }

    fn body(&mut self, block: usize, known: &mut Vec<VReg>) {
        for _ in 0..self.random.below(8) {
            let line = self.line(known);
            self.parts[block].lines.push(line);
            self.left = self.left.saturating_sub(1);
        }
    }

    fn part(&mut self, params: Vec<VReg>) -> usize {
        self.parts.push(Part { params, ..Part::default() });
        self.parts.len() - 1
    }

    fn edge(&mut self, from: usize, to: usize, arguments: Vec<VReg>) {
        self.parts[from].succs.push(Block::new(to));
        self.parts[from].arguments.push(arguments);
    }

    fn end(&mut self, block: usize, operands: Vec<Operand>) {
        let kind = if self.parts[block].succs.is_empty() { Kind::Ret } else { Kind::Branch };
        self.parts[block].lines.push(Line { kind, operands, clobbers: PRegSet::empty() });
    }

    /// Arguments, and as many parameters of their classes.
    fn passed(&mut self, known: &[VReg], most: usize) -> (Vec<VReg>, Vec<VReg>) {
        let mut arguments = Vec::new();
        for _ in 0..self.random.below(most + 1) {
            arguments.extend(self.pick(known, None));
        }
        let params = arguments.iter().map(|v| self.vreg(v.class())).collect();
        (arguments, params)
    }

    /// What the fork tests.
    fn test(&mut self, known: &[VReg]) -> Vec<Operand> {
        self.pick(known, None).map(Operand::any_use).into_iter().collect()
    }

    fn further(&mut self, mut block: usize, known: &mut Vec<VReg>, depth: usize) -> usize {
        while self.left > 0 {
            self.body(block, known);
            match self.random.below(if depth < 3 { 4 } else { 2 }) {
                0 => {
                    let (arguments, params) = self.passed(known, 3);
                    let next = self.part(params.clone());
                    self.edge(block, next, arguments);
                    self.end(block, vec![]);
                    known.extend(params);
                    block = next;
                }
                1 => {
                    // two arms that meet
                    let test = self.test(known);
                    let (arm, other) = (self.part(vec![]), self.part(vec![]));
                    self.edge(block, arm, vec![]);
                    self.edge(block, other, vec![]);
                    self.end(block, test);
                    let (arguments, params) = self.passed(known, 3);
                    let join = self.part(params.clone());
                    for arm in [arm, other] {
                        let mut inner = known.clone();
                        self.body(arm, &mut inner);
                        let given = arguments.iter().map(|v| self.pick(&inner, Some(v.class())).unwrap_or(*v)).collect();
                        self.edge(arm, join, given);
                        self.end(arm, vec![]);
                    }
                    known.extend(params);
                    block = join;
                }
                2 => {
                    // a loop: its head has parameters, its body passes others
                    let (arguments, params) = self.passed(known, 4);
                    let head = self.part(params.clone());
                    self.edge(block, head, arguments);
                    self.end(block, vec![]);
                    known.extend(params.clone());
                    self.body(head, known);
                    let body = self.part(vec![]);
                    let budget = self.left;
                    self.left = budget.min(12);
                    self.edge(head, body, vec![]);
                    let mut inner = known.clone();
                    let last = self.further(body, &mut inner, depth + 1);
                    self.left = budget.saturating_sub(12);
                    let given = params.iter().map(|v| self.pick(&inner, Some(v.class())).unwrap_or(*v)).collect();
                    self.edge(last, head, given);
                    self.end(last, vec![]);
                    let after = self.part(vec![]);
                    self.edge(head, after, vec![]);
                    let test = self.test(known);
                    self.end(head, test);
                    block = after;
                }
                _ => {}
            }
        }
        block
    }
}

impl Code {
    /// The function of these blocks.
    pub fn of(parts: Vec<Part>, num_vregs: usize) -> Code {
        let mut code = Code {
            lines: Vec::new(),
            ranges: Vec::new(),
            succs: Vec::new(),
            preds: vec![Vec::new(); parts.len()],
            params: Vec::new(),
            arguments: Vec::new(),
            num_vregs,
            labels: Vec::new(),
        };
        for (number, part) in parts.into_iter().enumerate() {
            let first = code.lines.len();
            code.lines.extend(part.lines);
            code.ranges.push(InstRange::new(Inst::new(first), Inst::new(code.lines.len())));
            for succ in &part.succs {
                code.preds[succ.index()].push(Block::new(number));
            }
            code.succs.push(part.succs);
            code.arguments.push(part.arguments);
            code.params.push(part.params);
        }
        code
    }
}

/// The function of a seed, of about so many instructions.
pub fn generated(seed: u64, insts: usize) -> Code {
    let mut builder = Builder { random: Random::new(seed), parts: vec![Part::default()], count: 0, left: insts };
    let mut known: Vec<VReg> = (0..3).map(|_| builder.vreg(RegClass::Int)).collect();
    let operands = known.iter().enumerate().map(|(k, v)| Operand::reg_fixed_def(*v, int(k))).collect();
    builder.parts[0].lines.push(Line { kind: Kind::Op, operands, clobbers: PRegSet::empty() });
    let last = builder.further(0, &mut known, 0);
    let result = builder.pick(&known, Some(RegClass::Int)).unwrap_or(known[0]);
    builder.end(last, vec![Operand::reg_fixed_use(result, int(0))]);
    let mut code = Code::of(builder.parts, builder.count);
    if seed.is_multiple_of(3) {
        code.labels = code.some_labels();
    }
    code
}

/// A function of one block, whose last instruction returns.
pub fn straight(lines: &[&[Operand]], num_vregs: usize) -> Code {
    let mut lines: Vec<Line> = lines.iter().map(|operands| Line::new(Kind::Op, operands)).collect();
    lines.push(Line::new(Kind::Ret, &[]));
    Code::of(vec![Part { lines, ..Part::default() }], num_vregs)
}

/// Fifteen integer and sixteen float registers, as on x86-64, without scratch registers.
pub fn machine() -> MachineEnv {
    let regs = |numbers: std::ops::Range<usize>, class| numbers.map(|k| PReg::new(k, class)).collect::<PRegSet>();
    MachineEnv {
        preferred_regs_by_class: [regs(0..9, RegClass::Int), regs(0..8, RegClass::Float), PRegSet::empty()],
        non_preferred_regs_by_class: [regs(9..15, RegClass::Int), regs(8..16, RegClass::Float), PRegSet::empty()],
        scratch_by_class: [None; 3],
        fixed_stack_slots: Vec::new(),
    }
}

/// The options for an algorithm. The tests of the function aren't asked for: the copy of upstream may have no
/// dominator tree.
pub fn options(algorithm: Algorithm) -> RegallocOptions {
    RegallocOptions { algorithm, ..RegallocOptions::default() }
}
