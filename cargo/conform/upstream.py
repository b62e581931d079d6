#!/usr/bin/env python3
"""upstream.py COPY OUT: prints the folder of a crate `regalloc2` 0.15.2 with the sources of COPY, and `stand-in` if Ion isn't among them.

COPY is a checkout of upstream, which is printed as it is, or a crate of another name with upstream's sources. Such a crate is written
to OUT, with a manifest of upstream's name. If the source says `no ion here`, the module `stand_in` replaces Ion: it calls the fast
allocator, and changes the output as a test requires.
"""
import os, re, shutil, sys

STAND_IN = '''//! Replaces Ion: the fast allocator, whose output a test may change.
use crate::{Ctx, Function, MachineEnv, Output, RegAllocError, RegallocOptions};
use std::cell::Cell;

std::thread_local! {
    static CHANGE: Cell<Option<fn(&mut Output)>> = const { Cell::new(None) };
}

/// Sets the change to this thread's outputs.
pub fn change(to: Option<fn(&mut Output)>) {
    CHANGE.set(to);
}

pub(crate) fn run<F: Function>(f: &F, env: &MachineEnv, ctx: &mut Ctx, options: &RegallocOptions) -> Result<(), RegAllocError> {
    ctx.output = crate::fastalloc::run(f, env, options.verbose_log, options.validate_ssa)?;
    if let Some(change) = CHANGE.get() {
        change(&mut ctx.output);
    }
    Ok(())
}
'''
MANIFEST = '''[package]
name = "regalloc2"
version = "0.15.2"
edition = "2021"

[features]
trace-log = []
enable-serde = []
fuzzing = []
'''

copy, out = sys.argv[1], sys.argv[2]
manifest = open(os.path.join(copy, "Cargo.toml")).read()
lib = open(os.path.join(copy, "src", "lib.rs")).read()
missing = 'panic!("no ion here"),'
if missing not in lib and re.search(r'^name = "regalloc2"', manifest, re.M):
    print(os.path.abspath(copy))
    sys.exit()
shutil.rmtree(out, ignore_errors=True)
shutil.copytree(copy, out, ignore=shutil.ignore_patterns("target", "main.rs"), copy_function=shutil.copyfile)
dependencies = re.search(r"^\[dependencies\]\n(?:.+\n)*", manifest, re.M)
with open(os.path.join(out, "Cargo.toml"), "w") as file:
    file.write(MANIFEST + "\n" + (dependencies.group(0) if dependencies else ""))
print(os.path.abspath(out))
if missing in lib:
    lib = lib.replace(missing, "stand_in::run(func, env, ctx, options)?,").replace("pub mod ssa;", "pub mod ssa;\npub mod stand_in;")
    with open(os.path.join(out, "src", "lib.rs"), "w") as file:
        file.write(lib)
    with open(os.path.join(out, "src", "stand_in.rs"), "w") as file:
        file.write(STAND_IN)
    print("stand-in")
