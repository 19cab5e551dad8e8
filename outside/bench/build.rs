//! Compiles the small C file through which FLINT is called, if FLINT's headers are there; without them the benchmark
//! leaves FLINT out.

use std::path::Path;
use std::process::Command;

fn main() {
    println!("cargo:rerun-if-changed=c/flint.c");
    println!("cargo:rerun-if-changed=/usr/include/flint/nmod_mat.h");
    println!("cargo:rustc-check-cfg=cfg(flint)");
    let out = std::env::var("OUT_DIR").expect("cargo sets OUT_DIR");
    let object = Path::new(&out).join("flint.o");
    let archive = Path::new(&out).join("libflint_batch.a");
    let done = |command: &mut Command| command.output().is_ok_and(|output| output.status.success());
    let compiled = done(Command::new("cc").args(["-O2", "-Wall", "-c", "c/flint.c", "-o"]).arg(&object));
    if compiled && done(Command::new("ar").arg("rcs").arg(&archive).arg(&object)) {
        println!("cargo:rustc-cfg=flint");
        println!("cargo:rustc-link-search=native={out}");
        println!("cargo:rustc-link-lib=static=flint_batch");
        println!("cargo:rustc-link-lib=flint");
    } else {
        println!("cargo:warning=FLINT's headers are not here (libflint-dev), so the benchmark leaves FLINT out");
    }
}
