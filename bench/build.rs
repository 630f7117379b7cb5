//! Links the program with our reader, the archive that `LIBMAPS` names, and with the C of this folder: `steps.c`, which calls
//! our reader as the header has it, and the loops of `skip.c`, all compiled with `cc -O2`; the loops a second time with
//! `clang -O2`, where there is one.

use std::env;
use std::path::{Path, PathBuf};
use std::process::Command;

const CLANG: &str = "clang";

fn main() {
    let out = PathBuf::from(env::var("OUT_DIR").unwrap());
    let reader = env::var("LIBMAPS").expect("LIBMAPS names the archive of our reader");
    println!("cargo:rerun-if-env-changed=LIBMAPS");
    println!("cargo:rerun-if-changed={reader}");
    println!("cargo:rerun-if-changed=skip.c");
    println!("cargo:rerun-if-changed=steps.c");
    println!("cargo:rerun-if-changed=../include/ion_map.h");
    println!("cargo:rerun-if-changed=build.rs");
    println!("cargo:rustc-check-cfg=cfg(clang)");

    let compiler = env::var("CC").unwrap_or_else(|_| "cc".to_string());
    compile(&compiler, "steps.c", &[], &out.join("steps.o"));
    compile(&compiler, "skip.c", &[], &out.join("skip.o"));
    if Command::new(CLANG).arg("--version").output().is_ok() {
        let names = [
            "-Dskip_count=clang_skip_count",
            "-Dskip_records=clang_skip_records",
        ];
        compile(CLANG, "skip.c", &names, &out.join("clang_skip.o"));
        println!("cargo:rustc-cfg=clang");
    }
    println!("cargo:rustc-link-arg={reader}");
}

fn compile(compiler: &str, source: &str, names: &[&str], object: &Path) {
    let status = Command::new(compiler)
        .args(["-O2", "-std=c99", "-Wall", "-Wextra", "-c", source, "-o"])
        .arg(object)
        .args(names)
        .status()
        .unwrap_or_else(|error| panic!("{compiler}: {error}"));
    assert!(status.success(), "{compiler} failed");
    println!("cargo:rustc-link-arg={}", object.display());
}
