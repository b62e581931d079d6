//! A back end for functions over 64-bit integers: selects instructions, allocates registers, and runs what comes of it.

use regalloc2::checker::Checker;
use regalloc2::{
    run, Algorithm, Allocation, Block, Edit, Function, Inst, InstOrEdit, InstRange, MachineEnv, Operand, Output, PReg, PRegSet,
    RegClass, RegallocOptions, VReg,
};
use std::collections::HashMap;

const ARGUMENTS: [PReg; 3] = [PReg::new(0, RegClass::Int), PReg::new(1, RegClass::Int), PReg::new(2, RegClass::Int)];
const RESULT: PReg = PReg::new(0, RegClass::Int);
const CLOBBERED: PRegSet =
    PRegSet::empty().with(PReg::new(1, RegClass::Int)).with(PReg::new(2, RegClass::Int)).with(PReg::new(3, RegClass::Int));

#[derive(Clone, Copy, Debug)]
enum Op {
    Entry,
    Const(i64),
    Add,
    Sub,
    Mul,
    /// Adds its arguments, weighted.
    Call,
    Jump,
    /// To the first successor if the operand isn't 0.
    Branch,
    Return,
}

struct Line {
    op: Op,
    operands: Vec<Operand>,
}

#[derive(Default)]
struct Body {
    lines: Vec<Line>,
    ranges: Vec<InstRange>,
    succs: Vec<Vec<Block>>,
    preds: Vec<Vec<Block>>,
    params: Vec<Vec<VReg>>,
    arguments: Vec<Vec<Vec<VReg>>>,
    vregs: usize,
}

impl Function for Body {
    fn num_insts(&self) -> usize {
        self.lines.len()
    }
    fn num_blocks(&self) -> usize {
        self.ranges.len()
    }
    fn entry_block(&self) -> Block {
        Block::new(0)
    }
    fn block_insns(&self, block: Block) -> InstRange {
        self.ranges[block.index()]
    }
    fn block_succs(&self, block: Block) -> &[Block] {
        &self.succs[block.index()]
    }
    fn block_preds(&self, block: Block) -> &[Block] {
        &self.preds[block.index()]
    }
    fn block_params(&self, block: Block) -> &[VReg] {
        &self.params[block.index()]
    }
    fn is_ret(&self, insn: Inst) -> bool {
        matches!(self.lines[insn.index()].op, Op::Return)
    }
    fn is_branch(&self, insn: Inst) -> bool {
        matches!(self.lines[insn.index()].op, Op::Jump | Op::Branch)
    }
    fn branch_blockparams(&self, block: Block, _: Inst, succ: usize) -> &[VReg] {
        &self.arguments[block.index()][succ]
    }
    fn inst_operands(&self, insn: Inst) -> &[Operand] {
        &self.lines[insn.index()].operands
    }
    fn inst_clobbers(&self, insn: Inst) -> PRegSet {
        if matches!(self.lines[insn.index()].op, Op::Call) {
            CLOBBERED
        } else {
            PRegSet::empty()
        }
    }
    fn num_vregs(&self) -> usize {
        self.vregs
    }
    fn spillslot_size(&self, _: RegClass) -> usize {
        1
    }
}

impl Body {
    fn vreg(&mut self) -> VReg {
        self.vregs += 1;
        VReg::new(self.vregs - 1, RegClass::Int)
    }

    fn line(&mut self, op: Op, operands: Vec<Operand>) {
        self.lines.push(Line { op, operands });
    }

    fn constant(&mut self, value: i64) -> VReg {
        let to = self.vreg();
        self.line(Op::Const(value), vec![Operand::reg_def(to)]);
        to
    }

    /// Two addresses: the result is where the first operand was.
    fn binary(&mut self, op: Op, a: VReg, b: VReg) -> VReg {
        let to = self.vreg();
        self.line(op, vec![Operand::reg_use(a), Operand::any_use(b), Operand::reg_reuse_def(to, 0)]);
        to
    }

    fn call(&mut self, arguments: &[VReg]) -> VReg {
        let to = self.vreg();
        let mut operands: Vec<Operand> =
            arguments.iter().zip(ARGUMENTS).map(|(v, reg)| Operand::reg_fixed_use(*v, reg)).collect();
        operands.push(Operand::reg_fixed_def(to, RESULT));
        self.line(Op::Call, operands);
        to
    }

    /// Ends a block: its parameters, where it goes, and with which arguments.
    fn end(&mut self, params: &[VReg], succs: &[(usize, &[VReg])]) {
        let first = self.ranges.last().map_or(Inst::new(0), |range| range.last().next());
        self.ranges.push(InstRange::new(first, Inst::new(self.lines.len())));
        self.params.push(params.to_vec());
        self.succs.push(succs.iter().map(|(block, _)| Block::new(*block)).collect());
        self.arguments.push(succs.iter().map(|(_, arguments)| arguments.to_vec()).collect());
    }

    fn finish(mut self) -> Body {
        self.preds = vec![Vec::new(); self.ranges.len()];
        for block in 0..self.succs.len() {
            for succ in self.succs[block].clone() {
                self.preds[succ.index()].push(Block::new(block));
            }
        }
        self
    }
}

/// Fibonacci's numbers, and beside them `width` values that live through the loop and its call.
fn sample(width: usize) -> Body {
    let mut f = Body::default();
    let (n, x) = (f.vreg(), f.vreg());
    f.line(Op::Entry, vec![Operand::reg_fixed_def(n, ARGUMENTS[0]), Operand::reg_fixed_def(x, ARGUMENTS[1])]);
    let (zero, one) = (f.constant(0), f.constant(1));
    let mut live = vec![x];
    for k in 0..width {
        let factor = f.constant(k as i64 + 2);
        let last = live[k];
        live.push(f.binary(Op::Mul, last, factor));
    }
    f.line(Op::Jump, vec![]);
    f.end(&[], &[(1, &[n, zero, one])]);
    // the loop: how often, and two numbers
    let (left, a, b) = (f.vreg(), f.vreg(), f.vreg());
    f.line(Op::Branch, vec![Operand::any_use(left)]);
    f.end(&[left, a, b], &[(2, &[]), (3, &[])]);
    let less = f.binary(Op::Sub, left, one);
    let next = f.binary(Op::Add, a, b);
    let called = f.call(&[next, live[0], live[width / 2]]);
    let nothing = f.binary(Op::Sub, called, called);
    let next = f.binary(Op::Add, next, nothing);
    f.line(Op::Jump, vec![]);
    f.end(&[], &[(1, &[less, b, next])]);
    let mut sum = a;
    for v in &live {
        sum = f.binary(Op::Add, sum, *v);
    }
    f.line(Op::Return, vec![Operand::reg_fixed_use(sum, RESULT)]);
    f.end(&[], &[]);
    f.finish()
}

/// What the function returns, without registers.
fn expected(width: usize, n: i64, x: i64) -> i64 {
    let (mut a, mut b, mut sum, mut last) = (0i64, 1i64, x, x);
    for _ in 0..n {
        (a, b) = (b, a.wrapping_add(b));
    }
    for k in 0..width {
        last = last.wrapping_mul(k as i64 + 2);
        sum = sum.wrapping_add(last);
    }
    a.wrapping_add(sum)
}

struct Machine(HashMap<Allocation, i64>);

impl Machine {
    fn read(&self, place: Allocation) -> i64 {
        self.0.get(&place).copied().unwrap_or(i64::MIN)
    }

    /// Runs an instruction; gives the successor if it goes to one.
    fn step(&mut self, line: &Line, places: &[Allocation]) -> Option<usize> {
        let read = |k: usize| self.read(places[k]);
        match line.op {
            Op::Entry | Op::Return => None,
            Op::Jump => Some(0),
            Op::Branch => Some(usize::from(read(0) == 0)),
            Op::Const(value) => self.write(places[0], value),
            Op::Add => self.write(places[2], read(0).wrapping_add(read(1))),
            Op::Sub => self.write(places[2], read(0).wrapping_sub(read(1))),
            Op::Mul => self.write(places[2], read(0).wrapping_mul(read(1))),
            Op::Call => {
                let sum = (0..places.len() - 1).fold(0i64, |sum, k| sum.wrapping_add(read(k).wrapping_mul(k as i64 + 1)));
                CLOBBERED.into_iter().for_each(|reg| drop(self.0.remove(&Allocation::reg(reg))));
                self.write(places[places.len() - 1], sum)
            }
        }
    }

    fn write(&mut self, place: Allocation, value: i64) -> Option<usize> {
        self.0.insert(place, value);
        None
    }
}

/// Runs the code that an output says.
fn execute(f: &Body, output: &Output, n: i64, x: i64) -> i64 {
    let mut machine = Machine(HashMap::from([(Allocation::reg(ARGUMENTS[0]), n), (Allocation::reg(ARGUMENTS[1]), x)]));
    let mut block = f.entry_block();
    loop {
        let mut goes_to = None;
        for item in output.block_insts_and_edits(f, block) {
            match item {
                InstOrEdit::Edit(Edit::Move { from, to }) => {
                    let value = machine.read(*from);
                    machine.write(*to, value);
                }
                InstOrEdit::Inst(inst) => goes_to = machine.step(&f.lines[inst.index()], output.inst_allocs(inst)),
            }
        }
        match goes_to {
            Some(k) => block = f.succs[block.index()][k],
            None => return machine.read(Allocation::reg(RESULT)),
        }
    }
}

fn main() {
    let regs = |numbers: std::ops::Range<usize>| numbers.map(|k| PReg::new(k, RegClass::Int)).collect::<PRegSet>();
    let none = PRegSet::empty();
    let env = MachineEnv {
        preferred_regs_by_class: [regs(0..4), none, none],
        non_preferred_regs_by_class: [regs(4..7), none, none],
        scratch_by_class: [None; 3],
        fixed_stack_slots: Vec::new(),
    };
    for algorithm in [Algorithm::Fastalloc, Algorithm::Ion] {
        for width in [0, 3, 12, 40] {
            let f = sample(width);
            let output =
                run(&f, &env, &RegallocOptions { algorithm, ..RegallocOptions::default() }).expect("registers are allocated");
            let mut checker = Checker::new(&f, &env);
            checker.prepare(&output);
            checker.run().expect("upstream's checker accepts the output");
            for (n, x) in [(0, 5), (1, -3), (10, 7), (50, i64::MAX)] {
                let result = execute(&f, &output, n, x);
                assert_eq!(result, expected(width, n, x));
                println!("{algorithm:?}, width {width}, ({n}, {x}): {result}");
            }
        }
    }
}
