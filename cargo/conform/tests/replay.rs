//! 20,000 corrupted outputs: the verdict is that of `ra2 replay`, fault by fault, and of a second test of places.
//!
//! RA2 names the program; without it the test ends at once, and says so. OUTPUTS is another number of outputs.

use regalloc2::judged::{Fault, Judge, MoveFault, OperandFault, Rejection, Unjudged};
use regalloc2::{Algorithm, Output, run};
use regalloc2_conform::functions::{Code, Random, generated, machine, options};
use regalloc2_conform::{forge, places};
use regalloc2_judge::dump;
use std::env;
use std::io::Write;
use std::process::{Command, Stdio};
use std::thread;

/// What `ra2 replay` prints and its status.
fn replayed(program: &str, input: &str) -> (Option<i32>, String) {
    let mut child = Command::new(program)
        .arg("replay")
        .stdin(Stdio::piped())
        .stdout(Stdio::piped())
        .stderr(Stdio::piped())
        .spawn()
        .expect("the program that RA2 names runs");
    child.stdin.take().unwrap().write_all(input.as_bytes()).unwrap();
    let done = child.wait_with_output().unwrap();
    (done.status.code(), String::from_utf8([done.stdout, done.stderr].concat()).unwrap())
}

/// A fault of the checker as `ra2` prints it, or `None` for one of places.
fn line(fault: &Fault) -> Option<String> {
    let number = match fault {
        Fault::Operand { what, .. } => match what {
            OperandFault::Missing => 1,
            OperandFault::NoValue => 2,
            OperandFault::OtherValues(_) => 4,
            OperandFault::NoSuchOperand => 5,
            OperandFault::NotRegister => 6,
            OperandFault::NotFixedRegister => 7,
            OperandFault::NotReused(_) => 8,
            OperandFault::NotStack => 9,
            OperandFault::OutsideLimit(_) => 11,
            _ => return None,
        },
        Fault::Move { from, to, what: MoveFault::StackToStack, .. } => return Some(format!("error 10 {from} -> {to}\n")),
        Fault::Order(_) => return Some("error 12\n".into()),
        _ => return None,
    };
    let Fault::Operand { inst, op, place, .. } = fault else { return None };
    Some(format!("error {number} inst{} {op} [{place}]\n", inst.index()))
}

/// How many outputs there were of each kind: accepted, faulty, with faults of places alone, and without a verdict.
#[derive(Debug, Default, PartialEq)]
struct Counts([usize; 4]);

fn compare(program: &str, judge: &mut Judge, seed: u64, code: &Code, output: &Output) -> usize {
    let env = machine();
    let verdict = judge.judge(code, &env, output);
    let (status, text) = replayed(program, &dump::json(code, &env, output));
    let checked = status == Some(0);
    match &verdict {
        Ok(()) => {
            assert!(checked && text == "checked\n", "seed {seed}: accepted, and {text}");
            assert!(places::are_cells(code, &env, output), "seed {seed}: places");
            0
        }
        Err(Rejection::Faulty(faults)) => {
            let lines: Vec<String> = faults.iter().filter_map(line).collect();
            assert!(!faults.iter().any(|fault| matches!(fault, Fault::Unlocated { .. })), "seed {seed}: {faults:?}");
            if lines.is_empty() {
                assert!(checked, "seed {seed}: {faults:?}, and {text}");
                assert!(!places::are_cells(code, &env, output), "seed {seed}: {faults:?}");
                return 2;
            }
            assert_eq!(status, Some(1), "seed {seed}");
            assert_eq!(lines.concat(), text, "seed {seed}");
            1
        }
        Err(Rejection::Unjudged(why)) => {
            assert_eq!((status, *why), (Some(2), Unjudged::BadOutput), "seed {seed}: {text}");
            3
        }
    }
}

fn compared(program: &str, seeds: impl Iterator<Item = u64>) -> Counts {
    let (mut judge, mut counts) = (Judge::new(), Counts::default());
    for seed in seeds {
        let code = generated(seed / 8, 4 + seed as usize / 8 % 40);
        let mut random = Random::new(seed + 1_000_000);
        let mut output = run(&code, &machine(), &options(Algorithm::Fastalloc)).unwrap();
        forge::corrupt(&mut random, &mut output);
        counts.0[compare(program, &mut judge, seed, &code, &output)] += 1;
    }
    counts
}

#[test]
fn the_verdict_is_that_of_replay() {
    let Ok(program) = env::var("RA2") else {
        println!("RA2 names no program: nothing is compared");
        return;
    };
    let count: u64 = env::var("OUTPUTS").ok().and_then(|count| count.parse().ok()).unwrap_or(20_000);
    let threads = 4;
    let mut sum = [0; 4];
    thread::scope(|scope| {
        let program = &program;
        let parts: Vec<_> =
            (0..threads).map(|k| scope.spawn(move || compared(program, (k..count).step_by(threads as usize)))).collect();
        for part in parts {
            let counts = part.join().expect("the verdicts are the same");
            (0..4).for_each(|k| sum[k] += counts.0[k]);
        }
    });
    println!(
        "{count} outputs: {} accepted, {} faulty, {} with faults of places alone, {} without a verdict",
        sum[0], sum[1], sum[2], sum[3]
    );
    assert_eq!(sum.iter().sum::<usize>() as u64, count);
    assert!(count < 1000 || sum[..3].iter().all(|n| *n > count as usize / 200), "{sum:?}");
}
