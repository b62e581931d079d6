//! Links `libregalloc2_c.a`: from the folder that `REGALLOC2_C` names, else from `lib/TARGET` of this package. With the feature `optional`, a
//! target other than x86-64 Linux gets no library, but a warning.

use std::{env, path::PathBuf};

fn variable(name: &str) -> String {
    env::var(name).unwrap_or_default()
}

/// Whether a proved library is built for the target.
fn is_supported() -> bool {
    variable("CARGO_CFG_TARGET_ARCH") == "x86_64" && variable("CARGO_CFG_TARGET_OS") == "linux"
}

fn main() {
    println!("cargo::rustc-check-cfg=cfg(regalloc2_c_absent)");
    println!("cargo::rerun-if-changed=build.rs");
    println!("cargo::rerun-if-env-changed=REGALLOC2_C");
    println!("cargo::rerun-if-env-changed=DOCS_RS");
    if env::var_os("DOCS_RS").is_some() {
        return;
    }
    let target = variable("TARGET");
    if env::var_os("CARGO_FEATURE_OPTIONAL").is_some() && !is_supported() {
        println!("cargo::warning=there is no proved library for {target}: nothing is allocated, and no output is judged");
        println!("cargo::rustc-cfg=regalloc2_c_absent");
        return;
    }
    let here = PathBuf::from(env::var_os("CARGO_MANIFEST_DIR").unwrap_or_default());
    let folder = env::var_os("REGALLOC2_C").map_or_else(|| here.join("lib").join(&target), PathBuf::from);
    let library = folder.join("libregalloc2_c.a");
    println!("cargo::rerun-if-changed={}", library.display());
    if !library.exists() {
        let remedy = if is_supported() {
            "`make -C c cargo-lib` puts it there, or REGALLOC2_C names its folder"
        } else {
            "the feature `optional` builds other targets without it"
        };
        println!("cargo::error={} isn't there. The proved library is built for x86-64 Linux alone; {remedy}", library.display());
        return;
    }
    println!("cargo::rustc-link-search=native={}", folder.display());
    println!("cargo::rustc-link-lib=static=regalloc2_c");
}
