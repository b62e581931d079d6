//! Numbers that name nothing, at random: no call panics, and whatever `run` returns is accepted.

use regalloc2::judged::{Judge, Rejection, on_rejection};
use regalloc2::{
    Algorithm, Allocation, Block, Ctx, Edit, Inst, InstRange, MachineEnv, Operand, Output, PReg, PRegSet, ProgPoint, VReg,
    run_with_ctx,
};
use regalloc2_conform::functions::{Code, Kind, Random, generated, machine, options};

/// A place of some kind, or, where upstream asserts that there is none, of no kind.
fn place(random: &mut Random) -> Allocation {
    match random.below(3) {
        0 => Allocation::reg(PReg::from_index(random.below(256))),
        1 => Allocation::stack(regalloc2::SpillSlot::new(random.below(1 << 24))),
        _ => Allocation::from_bits((5 + random.below(3) as u32) << 29 | random.below(1 << 28) as u32),
    }
}

fn small_or_any(random: &mut Random, small: usize) -> usize {
    if random.below(3) > 0 { random.below(small + 1) } else { random.below(1 << 32) }
}

fn damage_an_instruction(random: &mut Random, code: &mut Code) {
    let at = random.below(code.lines.len());
    let line = &mut code.lines[at];
    match random.below(4) {
        0 => line.kind = [Kind::Op, Kind::Ret, Kind::Branch][random.below(3)],
        1 => line.operands.push(Operand::from_bits((random.below(1 << 43)) as u64)),
        2 => line.clobbers.add(PReg::from_index(random.below(256))),
        _ => {
            if let Some(op) = line.operands.first_mut() {
                *op = Operand::from_bits(op.bits() ^ 1 << random.below(43));
            }
        }
    }
}

fn damage_a_block(random: &mut Random, code: &mut Code) {
    let at = random.below(code.ranges.len());
    let block = Block(small_or_any(random, code.ranges.len()) as u32);
    let vreg = VReg::from_bits(small_or_any(random, 4 * code.num_vregs) as u32);
    match random.below(7) {
        0 => {
            let first = small_or_any(random, code.lines.len()).min(u32::MAX as usize - 2);
            code.ranges[at] = InstRange::new(Inst::new(first), Inst::new(first + random.below(2)));
        }
        1 => {
            code.succs[at].push(block);
            code.arguments[at].push(vec![vreg]);
        }
        2 => code.preds[at].push(block),
        3 => code.params[at].push(vreg),
        4 => code.arguments[at].iter_mut().for_each(|list| list.push(vreg)),
        5 => code.labels.push((vreg, Inst(block.0), Inst(small_or_any(random, 9) as u32), 1)),
        _ => code.num_vregs = random.below(code.num_vregs + 2),
    }
}

fn damage_the_machine(random: &mut Random, env: &mut MachineEnv) {
    let reg = PReg::from_index(random.below(256));
    match random.below(4) {
        0 => env.preferred_regs_by_class[random.below(3)].add(reg),
        1 => env.fixed_stack_slots.push(reg),
        2 => env.scratch_by_class[random.below(3)] = Some(reg),
        _ => env.non_preferred_regs_by_class[random.below(3)] = PRegSet::empty(),
    }
}

fn damage_an_output(random: &mut Random, output: &mut Output) {
    match random.below(5) {
        0 => output.allocs.push(place(random)),
        1 => output.inst_alloc_offsets.push(small_or_any(random, 9) as u32),
        2 => output.num_spillslots = usize::MAX - random.below(9),
        3 => {
            let edit = Edit::Move { from: place(random), to: place(random) };
            output.edits.push((ProgPoint::from_index(small_or_any(random, 99) as u32), edit));
        }
        _ => output.allocs.iter_mut().take(1).for_each(|it| *it = place(random)),
    }
}

#[test]
fn any_output_of_any_function_is_judged() {
    let (mut judge, mut random) = (Judge::new(), Random::new(3));
    let mut counts = [0; 3];
    for seed in 0..6000 {
        let (mut code, mut env) = (generated(seed / 4, 3 + seed as usize % 30), machine());
        let mut output = regalloc2::run(&code, &env, &options(Algorithm::Fastalloc)).unwrap();
        for _ in 0..random.below(3) {
            damage_an_output(&mut random, &mut output);
        }
        match random.below(8) {
            0..=1 => damage_an_instruction(&mut random, &mut code),
            2..=3 => damage_a_block(&mut random, &mut code),
            4 => damage_the_machine(&mut random, &mut env),
            _ => {}
        }
        let verdict = judge.judge(&code, &env, &output);
        if let Err(rejection) = &verdict {
            assert!(rejection.to_string().len() > 20);
        }
        counts[match verdict {
            Ok(()) => 0,
            Err(Rejection::Faulty(_)) => 1,
            Err(Rejection::Unjudged(_)) => 2,
        }] += 1;
    }
    println!("accepted {}, faulty {}, without a verdict {}", counts[0], counts[1], counts[2]);
    assert!(counts.iter().all(|n| *n > 300));
}

#[test]
fn any_function_is_allocated_or_refused() {
    // upstream panics over many of these functions, which is caught
    std::panic::set_hook(Box::new(|info| {
        if info.location().is_some_and(|at| at.file().contains("regalloc2-") || at.file().contains("hostile")) {
            eprintln!("{info}");
        }
    }));
    on_rejection(|_, _| {});
    let (mut judge, mut random, mut ctx) = (Judge::new(), Random::new(4), Ctx::default());
    let mut counts = [[0; 2]; 2];
    for seed in 0..6000 {
        let (mut code, mut env) = (generated(seed / 4, 3 + seed as usize % 30), machine());
        for _ in 0..random.below(2) + 1 {
            match random.below(5) {
                0..=1 => damage_an_instruction(&mut random, &mut code),
                2..=3 => damage_a_block(&mut random, &mut code),
                _ => damage_the_machine(&mut random, &mut env),
            }
        }
        for (k, algorithm) in [Algorithm::Fastalloc, Algorithm::Ion].into_iter().enumerate() {
            let output = run_with_ctx(&code, &env, &options(algorithm), &mut ctx);
            counts[k][usize::from(output.is_err())] += 1;
            match output {
                Ok(output) => judge.judge(&code, &env, output).unwrap_or_else(|r| panic!("seed {seed}: {r}")),
                Err(error) => assert!(!format!("{error:?}").is_empty()),
            }
        }
    }
    println!(
        "Fastalloc: {} outputs, {} errors; Ion: {} outputs, {} errors",
        counts[0][0], counts[0][1], counts[1][0], counts[1][1]
    );
    assert!(counts.iter().flatten().all(|n| *n > 300));
}
