//! A rejected output is written to the folder that REGALLOC2_DUMP names, and read by `ra2 replay` if RA2 names that program.
//!
//! One test alone, because the variable is the process's.

use regalloc2::judged::{Judge, Rejection};
use regalloc2::{Algorithm, Allocation, run};
use regalloc2_conform::functions::{generated, machine, options};
use regalloc2_judge::dump;
use std::fs::{self, File};
use std::path::PathBuf;
use std::process::Command;

fn files(folder: &PathBuf) -> Vec<PathBuf> {
    let Ok(entries) = fs::read_dir(folder) else { return vec![] };
    entries.map(|entry| entry.unwrap().path()).collect()
}

#[test]
fn rejected_outputs_are_kept() {
    let folder = std::env::temp_dir().join(format!("regalloc2-dump-{}", std::process::id()));
    let (env, mut judge) = (machine(), Judge::new());
    let code = generated(1, 60);
    let right = run(&code, &env, &options(Algorithm::Fastalloc)).expect("an output");
    let mut wrong = right.clone();
    wrong.allocs.iter_mut().for_each(|place| *place = Allocation::none());

    let mut rejected = || assert!(matches!(judge.judge(&code, &env, &wrong), Err(Rejection::Faulty(_))));
    rejected();
    assert_eq!(files(&folder), Vec::<PathBuf>::new());
    // SAFETY: no other thread of this program reads or writes variables.
    unsafe { std::env::set_var(dump::FOLDER, &folder) };
    rejected();
    rejected();
    assert_eq!(judge.judge(&code, &env, &right), Ok(()));
    assert!(judge.can_judge(&code, &env));

    let kept = files(&folder);
    assert_eq!(kept.len(), 2);
    assert_eq!(fs::read_to_string(&kept[0]).unwrap(), dump::json(&code, &env, &wrong));
    if let Some(program) = std::env::var_os("RA2") {
        let done = Command::new(program).arg("replay").stdin(File::open(&kept[1]).unwrap()).output().unwrap();
        assert!(String::from_utf8_lossy(&done.stdout).starts_with("error 1 "), "{done:?}");
    }
    fs::remove_dir_all(&folder).unwrap();
}
