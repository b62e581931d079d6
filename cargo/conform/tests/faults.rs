//! Each kind of fault once, with its words.

use regalloc2::judged::{Fault, OperandFault, OrderFault, Rejection, Unjudged, judge};
use regalloc2::{
    Allocation, Block, Edit, Inst, InstRange, MachineEnv, Operand, OperandConstraint, OperandKind, OperandPos, Output, PReg,
    ProgPoint, RegClass, SpillSlot, VReg,
};
use regalloc2_conform::functions::{Code, int, machine, straight};
use regalloc2_proved_sys::Status;

fn v(number: usize) -> VReg {
    VReg::new(number, RegClass::Int)
}

fn float(number: usize) -> VReg {
    VReg::new(number, RegClass::Float)
}

fn p(number: usize) -> Allocation {
    Allocation::reg(int(number))
}

fn s(number: usize) -> Allocation {
    Allocation::stack(SpillSlot::new(number))
}

fn under(vreg: VReg, constraint: OperandConstraint) -> Operand {
    Operand::new(vreg, constraint, OperandKind::Use, OperandPos::Early)
}

/// An output with moves before instructions, and a place for each operand.
fn output(code: &Code, num_spillslots: usize, moves: &[(usize, Allocation, Allocation)], places: &[Allocation]) -> Output {
    let (mut offsets, mut count) = (Vec::new(), 0);
    for line in &code.lines {
        offsets.push(count);
        count += line.operands.len() as u32;
    }
    let edit = |(inst, from, to): &(usize, _, _)| (ProgPoint::before(Inst::new(*inst)), Edit::Move { from: *from, to: *to });
    Output {
        num_spillslots,
        edits: moves.iter().map(edit).collect(),
        allocs: places.to_vec(),
        inst_alloc_offsets: offsets,
        ..Output::default()
    }
}

#[track_caller]
fn rejected(code: &Code, env: &MachineEnv, output: &Output) -> Rejection {
    judge(code, env, output).expect_err("the output is accepted")
}

#[track_caller]
fn faults(code: &Code, output: &Output, words: &[&str]) {
    let rejection = rejected(code, &machine(), output);
    assert_eq!(rejection.to_string(), format!("the output is wrong:\n  {}", words.join("\n  ")));
    assert_eq!(rejection.faults().len(), words.len());
}

/// inst0 defines v0, inst1 reads it.
fn one_value() -> Code {
    straight(&[&[Operand::reg_def(v(0))], &[Operand::reg_use(v(0))]], 1)
}

#[test]
fn a_right_output_has_none() {
    let code = one_value();
    assert_eq!(judge(&code, &machine(), &output(&code, 0, &[], &[p(3), p(3)])), Ok(()));
    assert_eq!(judge(&code, &machine(), &output(&code, 0, &[(1, p(3), p(4))], &[p(3), p(4)])), Ok(()));
}

#[test]
fn values() {
    let code = one_value();
    faults(
        &code,
        &output(&code, 0, &[], &[Allocation::none(), p(0)]),
        &[
            "inst0 operand 0 `Def: v0i reg` in none: the operand has no place",
            "inst1 operand 0 `Use: v0i reg` in p0i: on some path the place holds no value",
        ],
    );
    let code =
        straight(&[&[Operand::reg_def(v(0)), Operand::reg_def(v(1))], &[Operand::reg_use(v(1)), Operand::reg_use(v(0))]], 2);
    let other = output(&code, 0, &[], &[p(0), p(1), p(1), p(1)]);
    faults(&code, &other, &["inst1 operand 1 `Use: v0i reg` in p1i: the place holds v1 and not the operand's value"]);
    let Rejection::Faulty(found) = rejected(&code, &machine(), &other) else { panic!() };
    let Fault::Operand { inst, index, op, place, what } = &found[0] else { panic!() };
    assert_eq!((inst.index(), *index, op.vreg(), *place), (1, 1, v(0), p(1)));
    assert_eq!(*what, OperandFault::OtherValues(vec![v(1)]));
    // the same operand three times: the index is that of the first one in the wrong place
    let uses = [Operand::reg_use(v(0)); 3];
    let code = straight(&[&[Operand::reg_def(v(0)), Operand::reg_def(v(1))], &uses], 2);
    faults(
        &code,
        &output(&code, 0, &[], &[p(0), p(1), p(0), p(1), p(1)]),
        &["inst1 operand 1 `Use: v0i reg` in p1i: the place holds v1 and not the operand's value"],
    );
}

#[test]
fn constraints() {
    let with = |op: Operand| straight(&[&[Operand::any_def(v(0))], &[op]], 1);
    let code = with(under(v(0), OperandConstraint::Reg));
    faults(&code, &output(&code, 1, &[], &[s(0), s(0)]), &["inst1 operand 0 `Use: v0i reg` in stack0: the place is no register"]);
    let code = with(under(v(0), OperandConstraint::FixedReg(int(2))));
    faults(
        &code,
        &output(&code, 0, &[], &[p(1), p(1)]),
        &["inst1 operand 0 `Use: v0i fixed(p2i)` in p1i: the place isn't the fixed register, p2i"],
    );
    let code = with(under(v(0), OperandConstraint::Stack));
    faults(
        &code,
        &output(&code, 0, &[], &[p(1), p(1)]),
        &["inst1 operand 0 `Use: v0i stack` in p1i: the place isn't on the stack"],
    );
    let code = with(under(v(0), OperandConstraint::Limit(4)));
    faults(
        &code,
        &output(&code, 0, &[], &[p(5), p(5)]),
        &["inst1 operand 0 `Use: v0i limit(0..=3)` in p5i: the register's number isn't below 4"],
    );
    let code = straight(&[&[Operand::reg_def(v(0))], &[Operand::reg_use(v(0)), Operand::reg_reuse_def(v(1), 0)]], 2);
    faults(
        &code,
        &output(&code, 0, &[], &[p(1), p(1), p(2)]),
        &["inst1 operand 1 `Def: v1i reuse(0)` in p2i: the place isn't p1i, the reused operand's"],
    );
    let code = straight(&[&[Operand::reg_def(v(0))], &[Operand::reg_use(v(0)), Operand::reg_reuse_def(v(1), 5)]], 2);
    faults(
        &code,
        &output(&code, 0, &[], &[p(1), p(1), p(1)]),
        &["inst1 operand 1 `Def: v1i reuse(5)` in p1i: the reused operand doesn't exist"],
    );
}

#[test]
fn moves() {
    let code = straight(&[&[Operand::any_def(v(0))], &[Operand::any_use(v(0))]], 1);
    faults(
        &code,
        &output(&code, 2, &[(1, s(0), s(1))], &[s(0), s(1)]),
        &["edit 0 before inst1, stack0 to stack1: a move from one stack place to another"],
    );
    // the same move twice, each with its index
    faults(
        &code,
        &output(&code, 2, &[(1, s(0), s(1)), (1, s(0), p(3)), (1, s(0), s(1))], &[s(0), s(1)]),
        &[
            "edit 0 before inst1, stack0 to stack1: a move from one stack place to another",
            "edit 2 before inst1, stack0 to stack1: a move from one stack place to another",
        ],
    );
    let code = one_value();
    faults(
        &code,
        &output(&code, 0, &[(1, p(0), p(20))], &[p(0), p(0)]),
        &["edit 0 before inst1, p0i to p20i: an end is no allocatable register and no slot of the frame"],
    );
    let p1f = Allocation::reg(PReg::new(1, RegClass::Float));
    faults(
        &code,
        &output(&code, 0, &[(1, p(0), p1f)], &[p(0), p(0)]),
        &["edit 0 before inst1, p0i to p1f: a move to a register of another class"],
    );
}

#[test]
fn places() {
    let code = one_value();
    faults(
        &code,
        &output(&code, 0, &[], &[p(15), p(15)]),
        &["inst0 operand 0 `Def: v0i reg` in p15i: the place is no allocatable register of the class and no slot of the frame"],
    );
    let code = straight(&[&[Operand::any_def(float(0)), Operand::any_def(v(1))], &[Operand::any_use(float(0))]], 2);
    faults(&code, &output(&code, 1, &[], &[s(0), p(0), s(0)]), &["stack0: the slot isn't within the frame"]);
}

#[test]
fn order() {
    let code = one_value();
    let fine = output(&code, 0, &[(0, p(1), p(2)), (1, p(1), p(2))], &[p(0), p(0)]);
    assert_eq!(judge(&code, &machine(), &fine), Ok(()));
    let says = |change: fn(&mut Output), what: OrderFault, words: &str| {
        let mut other = fine.clone();
        change(&mut other);
        faults(&code, &other, &[&format!("the output isn't in order: {words}")]);
        assert_eq!(rejected(&code, &machine(), &other).faults(), [Fault::Order(what)]);
    };
    says(|o| o.inst_alloc_offsets.truncate(2), OrderFault::Offsets { offsets: 2, insts: 3 }, "2 offsets for 3 instructions");
    says(|o| o.inst_alloc_offsets[0] = 1, OrderFault::Places(Inst::new(0)), "the places of inst0 are out of range");
    says(|o| o.inst_alloc_offsets[1] = 3, OrderFault::Places(Inst::new(0)), "the places of inst0 are out of range");
    says(|o| o.inst_alloc_offsets[1] = 2, OrderFault::TooManyPlaces(Inst::new(0)), "inst0 has more places than operands");
    says(|o| o.edits.swap(0, 1), OrderFault::Edit(1), "edit 1 is at an earlier point than its predecessor");
    says(
        |o| o.edits[1].1 = Edit::Move { from: Allocation::none(), to: Allocation::none() },
        OrderFault::NoPlace(1),
        "edit 1 has no source or no destination",
    );
}

#[test]
fn no_verdict() {
    let (code, env) = (one_value(), machine());
    let fine = output(&code, 0, &[], &[p(0), p(0)]);
    let says = |code: &Code, output: &Output, why: Unjudged, words: &str| {
        let rejection = rejected(code, &env, output);
        assert_eq!(rejection, Rejection::Unjudged(why));
        assert_eq!(rejection.to_string(), format!("no verdict on the output: {words}"));
    };
    let mut other = fine.clone();
    // no kind of place
    other.allocs[0] = Allocation::from_bits(7 << 29);
    says(&code, &other, Unjudged::BadOutput, "a number of the output is no encoding");
    let mut other = code.clone();
    other.preds[0].push(Block::new(1));
    says(&other, &fine, Unjudged::BadFunction(2), &Status::BadFunction(2).to_string());
    let mut other = code.clone();
    other.lines[0].operands[0] = Operand::from_bits(3 << 32);
    says(&other, &fine, Unjudged::BadFunction(3), &Status::BadFunction(3).to_string());
    let mut other = code.clone();
    other.lines[0].clobbers.add(PReg::from_index(192));
    says(&other, &fine, Unjudged::BadFunction(3), &Status::BadFunction(3).to_string());
    let mut other = code.clone();
    other.num_vregs = usize::MAX;
    says(&other, &fine, Unjudged::BadFunction(4), &Status::BadFunction(4).to_string());
    let mut other = code.clone();
    other.succs[0].push(Block::new(0));
    other.arguments[0].push(vec![]);
    says(&other, &fine, Unjudged::NotFramed, "the function isn't structurally valid");
    for (first, end) in [(1, 3), (0, 2), (2, 2), (0, 4)] {
        let mut other = code.clone();
        other.ranges[0] = InstRange::new(Inst::new(first), Inst::new(end));
        says(&other, &fine, Unjudged::NotFramed, "the function isn't structurally valid");
    }
}

/// Two slots that share a unit; the values are right by the names of places.
#[test]
fn slots_that_share_a_unit() {
    let lines: [&[Operand]; 4] =
        [&[Operand::any_def(float(0))], &[Operand::any_def(v(1))], &[Operand::any_use(float(0))], &[Operand::any_use(v(1))]];
    let code = straight(&lines, 2);
    assert_eq!(judge(&code, &machine(), &output(&code, 3, &[], &[s(0), s(2), s(0), s(2)])), Ok(()));
    faults(&code, &output(&code, 3, &[], &[s(0), s(1), s(0), s(1)]), &["stack0: the slot shares a unit with stack1"]);
}
