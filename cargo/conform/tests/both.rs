//! 2,000 functions through both algorithms, over the drop-in, beside upstream's checker.

use regalloc2::checker::Checker;
use regalloc2::judged::judge;
use regalloc2::{Algorithm, Ctx, MachineEnv, Output, run, run_with_ctx};
use regalloc2_conform::functions::{Code, generated, machine, options};

const COUNT: u64 = 2000;

fn code(seed: u64) -> Code {
    generated(seed, 6 + seed as usize % 60)
}

/// Upstream's own verdict.
fn upstream_accepts(code: &Code, env: &MachineEnv, output: &Output) -> bool {
    let mut checker = Checker::new(code, env);
    checker.prepare(output);
    checker.run().is_ok()
}

fn same(a: &Output, b: &Output) -> bool {
    format!("{:?} {:?} {:?}", a.edits, a.allocs, a.debug_locations)
        == format!("{:?} {:?} {:?}", b.edits, b.allocs, b.debug_locations)
}

#[test]
fn the_proved_allocator() {
    let (env, mut ctx) = (machine(), Ctx::default());
    let (mut insts, mut edits, mut locations) = (0, 0, 0);
    for seed in 0..COUNT {
        let code = code(seed);
        let output = run(&code, &env, &options(Algorithm::Fastalloc)).unwrap_or_else(|e| panic!("seed {seed}: {e}"));
        judge(&code, &env, &output).unwrap_or_else(|r| panic!("seed {seed}: {r}"));
        assert!(upstream_accepts(&code, &env, &output), "seed {seed}");
        let again = run_with_ctx(&code, &env, &options(Algorithm::Fastalloc), &mut ctx).unwrap();
        assert!(same(&output, again), "seed {seed}");
        insts += code.lines.len();
        edits += output.edits.len();
        locations += output.debug_locations.len();
    }
    println!("{COUNT} functions, {insts} instructions, {edits} moves, {locations} debug locations");
    assert!(edits > 1000 && locations > 1000);
}

/// Ion, or its stand-in: what it gives is accepted, and comes back as it is.
#[test]
fn upstream_s_own_output() {
    let (env, mut ctx) = (machine(), Ctx::default());
    let (mut unchanged, mut upstream_accepted) = (0, 0);
    for seed in 0..COUNT {
        let code = code(seed);
        let theirs = upstream::run(&code, &env, &options(Algorithm::Ion)).unwrap_or_else(|e| panic!("seed {seed}: {e}"));
        let output = run(&code, &env, &options(Algorithm::Ion)).unwrap_or_else(|e| panic!("seed {seed}: {e}"));
        judge(&code, &env, &output).unwrap_or_else(|r| panic!("seed {seed}: {r}"));
        unchanged += usize::from(same(&theirs, &output));
        upstream_accepted += usize::from(upstream_accepts(&code, &env, &output));
        let again = run_with_ctx(&code, &env, &options(Algorithm::Ion), &mut ctx).unwrap();
        assert!(same(&output, again), "seed {seed}");
    }
    println!("{COUNT} functions: {unchanged} outputs as upstream gave them, {upstream_accepted} accepted by its checker");
    assert_eq!(upstream_accepted, COUNT as usize);
}

/// Threads allocate and judge at once, each with a context of its own.
#[test]
fn threads() {
    let both = |seed: u64, ctx: &mut Ctx| {
        [Algorithm::Fastalloc, Algorithm::Ion]
            .map(|algorithm| run_with_ctx(&code(seed), &machine(), &options(algorithm), ctx).unwrap().clone())
    };
    let alone: Vec<[Output; 2]> = (0..60).map(|seed| both(seed, &mut Ctx::default())).collect();
    std::thread::scope(|scope| {
        for k in 0..8 {
            let alone = &alone;
            scope.spawn(move || {
                let mut ctx = Ctx::default();
                for seed in (0..60).map(|seed| (seed + 7 * k) % 60) {
                    let outputs = both(seed, &mut ctx);
                    assert!(outputs.iter().zip(&alone[seed as usize]).all(|(a, b)| same(a, b)), "seed {seed}");
                }
            });
        }
    });
}

#[cfg(feature = "stand-in")]
mod stand_in {
    use super::*;
    use regalloc2::judged::{Cause, on_rejection};
    use regalloc2::stand_in::change;
    use regalloc2::{Allocation, PReg, RegClass};
    use regalloc2_conform::forge;
    use regalloc2_conform::functions::Random;
    use std::cell::Cell;

    thread_local! {
        static SEED: Cell<u64> = const { Cell::new(0) };
        static TOLD: Cell<usize> = const { Cell::new(0) };
    }

    fn corrupt(output: &mut Output) {
        forge::corrupt(&mut Random::new(SEED.get() + 77), output);
    }

    fn tell(algorithm: Algorithm, cause: &Cause) {
        assert!(matches!(algorithm, Algorithm::Ion));
        assert!(!cause.to_string().is_empty());
        TOLD.set(TOLD.get() + 1);
    }

    /// Whether upstream's checker accepts an output that may be out of order, over which it panics.
    fn upstream_s_verdict(code: &Code, env: &MachineEnv, output: &Output) -> Option<bool> {
        std::panic::catch_unwind(|| upstream_accepts(code, env, output)).ok()
    }

    #[test]
    fn a_wrong_output_is_replaced() {
        on_rejection(tell);
        std::panic::set_hook(Box::new(|_| {}));
        let (env, mut ctx) = (machine(), Ctx::default());
        let mut counts = [[0; 3]; 2];
        for seed in 0..COUNT {
            let code = code(seed);
            SEED.set(seed);
            change(Some(corrupt));
            let theirs = upstream::run(&code, &env, &options(Algorithm::Ion)).unwrap();
            let before = TOLD.get();
            let output = run_with_ctx(&code, &env, &options(Algorithm::Ion), &mut ctx).unwrap();
            let replaced = TOLD.get() - before;
            judge(&code, &env, output).unwrap_or_else(|r| panic!("seed {seed}: {r}"));
            assert!(upstream_accepts(&code, &env, output), "seed {seed}");
            assert_eq!(replaced, usize::from(judge(&code, &env, &theirs).is_err()), "seed {seed}");
            assert!(replaced == 1 || same(&theirs, output), "seed {seed}");
            let verdict = upstream_s_verdict(&code, &env, &theirs).map_or(2, |accepted| usize::from(!accepted));
            counts[replaced][verdict] += 1;
        }
        let [[both, accepted, _], [judge_alone, neither, panics]] = counts;
        println!(
            "{COUNT} outputs: accepted by the judge and upstream's checker {both}, by the judge alone {accepted}; rejected by both \
             {neither}, by the judge alone {judge_alone}; upstream's checker panics over {panics} rejected ones"
        );
        assert!(both > 100 && neither > 100);
    }

    /// What only the judge sees: a value in the stack pointer.
    #[test]
    fn the_stack_pointer_is_no_place() {
        change(Some(|output| {
            let (p7, p15) = (Allocation::reg(PReg::new(7, RegClass::Int)), Allocation::reg(PReg::new(15, RegClass::Int)));
            output.allocs.iter_mut().filter(|place| **place == p7).for_each(|place| *place = p15);
        }));
        let env = machine();
        let mut seen = 0;
        for seed in 0..40 {
            let code = code(seed);
            let theirs = upstream::run(&code, &env, &options(Algorithm::Ion)).unwrap();
            let p15 = Allocation::reg(PReg::new(15, RegClass::Int));
            seen += usize::from(theirs.allocs.contains(&p15) && upstream_accepts(&code, &env, &theirs));
            assert!(!run(&code, &env, &options(Algorithm::Ion)).unwrap().allocs.contains(&p15));
        }
        println!("upstream's checker accepts {seen} of them");
    }

    #[test]
    fn a_panic_of_upstream_s_is_caught() {
        let (env, code, mut ctx) = (machine(), code(5), Ctx::default());
        for round in 0..3 {
            change(if round == 1 { Some(|_| panic!("a test")) } else { None });
            let output = run_with_ctx(&code, &env, &options(Algorithm::Ion), &mut ctx).unwrap();
            assert_eq!(judge(&code, &env, output), Ok(()), "round {round}");
            assert!(run(&code, &env, &options(Algorithm::Ion)).is_ok());
        }
    }
}
