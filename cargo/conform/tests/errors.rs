//! Functions that are refused: the errors are upstream's, and what upstream can do is still done.

use regalloc2::judged::judge;
use regalloc2::{
    Algorithm, Block, Inst, InstRange, MachineEnv, Operand, OperandConstraint, OperandKind, OperandPos, RegAllocError, RegClass,
    RegallocOptions, VReg, run,
};
use regalloc2_conform::functions::{Code, Kind, Line, Part, int, machine, options, straight};
use std::panic;
use std::sync::atomic::{AtomicBool, Ordering};

fn v(number: usize) -> VReg {
    VReg::new(number, RegClass::Int)
}

fn part(kind: Kind, operands: &[Operand], succs: &[(usize, &[VReg])]) -> Part {
    Part {
        lines: vec![Line::new(kind, operands)],
        succs: succs.iter().map(|(block, _)| Block::new(*block)).collect(),
        arguments: succs.iter().map(|(_, arguments)| arguments.to_vec()).collect(),
        params: vec![],
    }
}

fn tested(algorithm: Algorithm) -> RegallocOptions {
    RegallocOptions { validate_ssa: true, ..options(algorithm) }
}

/// The error of a function that upstream tests, and that upstream has the same one.
#[track_caller]
fn error(code: &Code) -> String {
    let [fast, ion] = [Algorithm::Fastalloc, Algorithm::Ion].map(|a| format!("{:?}", run(code, &machine(), &tested(a)).err()));
    let theirs = format!("{:?}", upstream::run(code, &machine(), &tested(Algorithm::Fastalloc)).err());
    assert_eq!((&fast, &ion), (&theirs, &theirs));
    fast
}

#[test]
fn errors_are_upstream_s() {
    // block0 goes to block1 and block2, block1 to block2
    let parts =
        vec![part(Kind::Branch, &[], &[(1, &[]), (2, &[])]), part(Kind::Branch, &[], &[(2, &[])]), part(Kind::Ret, &[], &[])];
    assert_eq!(error(&Code::of(parts, 0)), "Some(CritEdge(Block(0), Block(2)))");
    let code = straight(&[&[Operand::reg_use(v(0))], &[Operand::reg_def(v(0))]], 1);
    assert_eq!(error(&code), "Some(SSA(VReg(vreg = 0, class = Int), Inst(0)))");
    let code = straight(&[&[Operand::reg_def(v(0))], &[Operand::reg_def(v(0))]], 1);
    assert_eq!(error(&code), "Some(SSA(VReg(vreg = 0, class = Int), Inst(1)))");
    let mut code = straight(&[&[]], 0);
    code.lines[1].kind = Kind::Op;
    assert_eq!(error(&code), "Some(BB(Block(0)))");
    let mut parts = vec![part(Kind::Branch, &[], &[(1, &[])]), part(Kind::Ret, &[], &[])];
    parts[1].params.push(v(0));
    assert_eq!(error(&Code::of(parts, 1)), "Some(Branch(Inst(0)))");
}

/// Blocks that don't follow one another from the first instruction to the last: no output can be judged.
#[test]
fn blocks_that_are_out_of_order() {
    let range = |first, end| InstRange::new(Inst::new(first), Inst::new(end));
    for (block, wrong) in [(0, range(1, 1)), (1, range(0, 2)), (1, range(1, 1)), (1, range(1, 3))] {
        let mut code = Code::of(vec![part(Kind::Branch, &[], &[(1, &[])]), part(Kind::Ret, &[], &[])], 0);
        code.ranges[block] = wrong;
        let error = run(&code, &machine(), &options(Algorithm::Fastalloc)).unwrap_err();
        assert!(matches!(error, RegAllocError::BB(at) if at == Block::new(block)), "{error:?}");
    }
}

#[test]
fn too_many_registers_are_needed() {
    let defs: Vec<Operand> = (0..20).map(|k| Operand::reg_def(v(k))).collect();
    let code = straight(&[&defs], 20);
    for algorithm in [Algorithm::Fastalloc, Algorithm::Ion] {
        assert!(matches!(run(&code, &machine(), &options(algorithm)), Err(RegAllocError::TooManyLiveRegs)));
    }
}

/// Some path reads what it doesn't write: no output is right, and the error names the operand.
#[test]
fn a_function_that_reads_first() {
    let parts = vec![
        part(Kind::Branch, &[], &[(1, &[]), (2, &[])]),
        part(Kind::Branch, &[Operand::reg_fixed_def(v(0), int(0))], &[(3, &[])]),
        part(Kind::Branch, &[], &[(4, &[])]),
        part(Kind::Ret, &[], &[]),
        part(Kind::Ret, &[Operand::reg_use(v(0))], &[]),
    ];
    let code = Code::of(parts, 1);
    for algorithm in [Algorithm::Fastalloc, Algorithm::Ion] {
        let error = run(&code, &machine(), &options(algorithm)).unwrap_err();
        assert_eq!(format!("{error:?}"), "SSA(VReg(vreg = 0, class = Int), Inst(4))");
    }
}

fn scratch_that_is_allocatable() -> MachineEnv {
    let mut env = machine();
    env.scratch_by_class[0] = Some(int(3));
    env
}

/// What the proved allocator refuses and upstream does: its output is judged and returned.
#[test]
fn upstream_does_it() {
    let code = straight(&[&[Operand::reg_def(v(0))], &[Operand::reg_use(v(0))]], 1);
    let env = scratch_that_is_allocatable();
    let output = run(&code, &env, &options(Algorithm::Fastalloc)).unwrap();
    assert_eq!(judge(&code, &env, &output), Ok(()));
    // blocks out of order: block2 defines what block1 reads
    let parts = vec![
        part(Kind::Branch, &[], &[(2, &[])]),
        part(Kind::Ret, &[Operand::reg_use(v(0))], &[]),
        part(Kind::Branch, &[Operand::reg_fixed_def(v(1), int(0)), Operand::any_def(v(0))], &[(1, &[])]),
    ];
    let code = Code::of(parts, 2);
    for algorithm in [Algorithm::Fastalloc, Algorithm::Ion] {
        match run(&code, &machine(), &options(algorithm)) {
            Ok(output) => assert_eq!(judge(&code, &machine(), &output), Ok(())),
            Err(error) => assert!(matches!(error, RegAllocError::SSA(..)), "{error:?}"),
        }
    }
}

/// Upstream's fast allocator panics over limits, and isn't called. The error names the instruction.
#[test]
fn a_form_that_nobody_does() {
    static PANICS: AtomicBool = AtomicBool::new(false);
    let hook = panic::take_hook();
    panic::set_hook(Box::new(move |info| {
        let is_limit = info.payload_as_str().is_some_and(|text| text.contains("limit constraints"));
        PANICS.fetch_or(is_limit, Ordering::Relaxed);
        hook(info);
    }));
    let limit = Operand::new(v(0), OperandConstraint::Limit(4), OperandKind::Use, OperandPos::Early);
    let code = straight(&[&[Operand::reg_def(v(0))], &[limit]], 1);
    let error = run(&code, &machine(), &options(Algorithm::Fastalloc)).unwrap_err();
    assert!(matches!(error, RegAllocError::SSA(vreg, inst) if vreg == VReg::invalid() && inst == Inst::new(1)), "{error:?}");
    assert!(!PANICS.load(Ordering::Relaxed));
}
