//! Finds the archive `libion_map.a` and links it.

use std::env;
use std::fs;
use std::path::{Path, PathBuf};
use std::process;

const VARIABLE: &str = "ION_MAP_LIB";
const ARCHIVE: &str = "libion_map.a";
const MADE_HERE: &str = "../../target";

fn main() {
    println!("cargo:rerun-if-env-changed={VARIABLE}");
    println!("cargo:rerun-if-changed=build.rs");

    test_target();
    let archive = archive();
    println!("cargo:rerun-if-changed={}", archive.display());
    if !archive.is_file() {
        refuse(&format!("there is no archive at {}", archive.display()), &needed());
    }
    link(&archive);
}

/// The archive holds machine code.
fn test_target() {
    let says = |name: &str| env::var(name).unwrap_or_default();
    let (arch, os) = (says("CARGO_CFG_TARGET_ARCH"), says("CARGO_CFG_TARGET_OS"));
    if (arch.as_str(), os.as_str()) != ("x86_64", "linux") {
        refuse(
            &format!("it can't be built for {}", says("TARGET")),
            &format!("{ARCHIVE} is machine code for x86-64 Linux, and there is none for other targets."),
        );
    }
}

/// The archive that the variable names, by itself or by its folder; without it the one that `./archive` makes.
fn archive() -> PathBuf {
    match env::var_os(VARIABLE).filter(|named| !named.is_empty()) {
        Some(named) => in_folder(from_crate(Path::new(&named))),
        None => from_crate(Path::new(MADE_HERE)).join(ARCHIVE),
    }
}

fn in_folder(named: PathBuf) -> PathBuf {
    if named.is_dir() {
        named.join(ARCHIVE)
    } else {
        named
    }
}

fn from_crate(path: &Path) -> PathBuf {
    cargo_says("CARGO_MANIFEST_DIR").join(path)
}

/// Links a copy, since the linker asks for a certain name and the variable may name a file of any other.
fn link(archive: &Path) {
    let folder = cargo_says("OUT_DIR");
    if let Err(error) = fs::copy(archive, folder.join(ARCHIVE)) {
        refuse(&format!("{} can't be copied: {error}", archive.display()), &needed());
    }
    println!("cargo:rustc-link-search=native={}", folder.display());
    println!("cargo:rustc-link-lib=static=ion_map");
}

fn cargo_says(name: &str) -> PathBuf {
    match env::var_os(name) {
        Some(path) => PathBuf::from(path),
        None => refuse(&format!("{name} is not set: build with cargo"), ""),
    }
}

fn needed() -> String {
    format!(
        "The crate needs {ARCHIVE}. Make it with `./archive` at the top of the repository, which writes\n\
         target/{ARCHIVE}, or set {VARIABLE} to the archive or its folder, such as PREFIX/lib of `make install`."
    )
}

fn refuse(why: &str, what_to_do: &str) -> ! {
    eprintln!("ion_map: {why}");
    eprintln!();
    eprintln!("{what_to_do}");
    process::exit(1);
}
