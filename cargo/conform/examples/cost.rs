//! Does one thing with a stored function so many times, to be counted by callgrind or timed.
//!
//!     cost TASK FILE RUNS
//!
//!     run             the drop-in's `run` with `Fastalloc`
//!     run-ctx         its `run_with_ctx`
//!     judge           the judge on upstream's output, with memory that is kept
//!     judge-new       the same with new memory
//!     layout          the function's words alone
//!     upstream-run    upstream's `run` with `Fastalloc`, without its tests
//!     upstream-tested the same with `validate_ssa`
//!     upstream-check  upstream's checker on upstream's output

use regalloc2::checker::Checker;
use regalloc2::judged::{Judge, judge};
use regalloc2::{Algorithm, Ctx, RegallocOptions, run, run_with_ctx};
use regalloc2_conform::functions::options;
use regalloc2_conform::json;
use regalloc2_judge::words::{FunctionWords, Labels};
use std::hint::black_box;
use std::time::{Duration, Instant};

fn main() {
    let args: Vec<String> = std::env::args().skip(1).collect();
    let [task, file, runs] = &args[..] else { panic!("cost TASK FILE RUNS") };
    let (code, env) = json::read(&std::fs::read_to_string(file).expect("a file"));
    let output = upstream::run(&code, &env, &options(Algorithm::Fastalloc)).expect("upstream allocates");
    let (mut kept, mut ctx, mut words) = (Judge::new(), Ctx::default(), FunctionWords::new());
    let mut once = || match task.as_str() {
        "run" => drop(black_box(run(&code, &env, &options(Algorithm::Fastalloc)).expect("an output"))),
        "run-ctx" => {
            black_box(run_with_ctx(&code, &env, &options(Algorithm::Fastalloc), &mut ctx).expect("an output"));
        }
        "judge" => kept.judge(&code, &env, &output).expect("accepted"),
        "judge-new" => judge(&code, &env, &output).expect("accepted"),
        "layout" => {
            black_box(words.write(&code, &env, Labels::LaidOut).expect("words"));
        }
        "upstream-run" => drop(black_box(upstream::run(&code, &env, &options(Algorithm::Fastalloc)).expect("an output"))),
        "upstream-tested" => {
            let options = RegallocOptions { validate_ssa: true, ..options(Algorithm::Fastalloc) };
            drop(black_box(upstream::run(&code, &env, &options).expect("an output")))
        }
        "upstream-check" => {
            let mut checker = Checker::new(&code, &env);
            checker.prepare(&output);
            checker.run().expect("accepted");
        }
        _ => panic!("no such task"),
    };
    let mut least = Duration::MAX;
    for _ in 0..runs.parse().expect("a number of runs") {
        let start = Instant::now();
        once();
        least = least.min(start.elapsed());
    }
    println!("{task}: {} instructions, {least:?}", code.lines.len());
}
