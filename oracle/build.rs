//! Lays out the source tree that `src/lib.rs` compiles: the Rust's own files, taken from the folder
//! that `ION_RUST` names and checked against `files.sha256`, and the stand-ins of `src/standins` in
//! the places of the files that are missing. Nothing here changes a byte of either.

use std::env;
use std::fs;
use std::path::{Path, PathBuf};

fn main() {
    let here = PathBuf::from(env::var("CARGO_MANIFEST_DIR").unwrap());
    let out = PathBuf::from(env::var("OUT_DIR").unwrap());
    let tree = out.join("ion");
    let given = match env::var_os("ION_RUST") {
        Some(folder) => PathBuf::from(folder),
        None => here.join("../../shared/docs/src"),
    };
    println!("cargo:rerun-if-env-changed=ION_RUST");
    println!("cargo:rerun-if-changed=build.rs");
    println!("cargo:rerun-if-changed=files.sha256");
    println!("cargo:rerun-if-changed=src/standins");

    if tree.exists() {
        fs::remove_dir_all(&tree).unwrap();
    }

    // The Rust's own files.
    let list = fs::read_to_string(here.join("files.sha256")).unwrap();
    let mut report = String::new();
    for line in list.lines().filter(|line| !line.is_empty()) {
        let (wanted, path) = line.split_once("  ").expect("a line is `hash  path`");
        let source = given.join(path);
        println!("cargo:rerun-if-changed={}", source.display());
        let bytes = fs::read(&source).unwrap_or_else(|error| {
            fail(&format!(
                "{}: {error} (set ION_RUST to a checkout of ion-rust, or run oracle/setup FOLDER)",
                source.display()
            ))
        });
        let found = hex(&sha256(&bytes));
        if found != wanted {
            fail(&format!(
                "{} isn't that of the ion-rust that is compared with: its sha256 is {found}, not {wanted}",
                source.display()
            ));
        }
        place(&tree.join(path), &bytes);
        report.push_str(&format!("{found}  {path}\n"));
    }
    fs::write(out.join("compiled.sha256"), report).unwrap();

    // The stand-ins, each in the place of the file it stands for.
    let standins = here.join("src/standins");
    copy_all(&standins, &tree.join("src"));

    // `#[path]` takes a literal only, so the literals are written here.
    let mut root = String::new();
    for module in [
        "binary",
        "catalog",
        "ion_data",
        "lazy",
        "position",
        "read_config",
        "result",
        "text",
        "types",
    ] {
        let folder = tree.join("src").join(module).join("mod.rs");
        let file = tree.join("src").join(format!("{module}.rs"));
        let path = if folder.exists() { folder } else { file };
        root.push_str(&format!("#[path = {path:?}]\npub mod {module};\n"));
    }
    fs::write(out.join("root.rs"), root).unwrap();

    for program in ["compare", "fuzz"] {
        if env::var_os(format!("CARGO_FEATURE_{}", program.to_uppercase())).is_some() {
            link_reader(&here, &out, program);
        }
    }
}

/// Ends the build with a sentence.
fn fail(why: &str) -> ! {
    eprintln!("oracle: {why}");
    std::process::exit(1);
}

/// The functions that the comparison calls.
const EXPORTS: [&str; 26] = [
    "ion_map_step",
    "ion_map_steps",
    "ion_map_annotation",
    "ion_map_step_in",
    "ion_map_scalar",
    "ion_map_timestamp",
    "ion_map_number",
    "ion_map_decimal",
    "ion_map_walked",
    "ion_map_ids",
    "ion_map_text",
    "ion_map_symbols",
    "ion_map_symbol_text",
    "ion_map_step_bounded",
    "ion_map_check",
    "ion_map_packed_size",
    "ion_map_pack",
    "ion_map_write_null",
    "ion_map_write_bool",
    "ion_map_write_int",
    "ion_map_write_float",
    "ion_map_write_symbol",
    "ion_map_write_pad",
    "ion_map_write_scalar",
    "ion_map_write_container",
    "ion_map_write_wrapper",
];

/// Links a program with our reader, and the fuzzer's with libFuzzer.
fn link_reader(here: &Path, out: &Path, program: &str) {
    let given = match env::var_os("LIBMAPS") {
        Some(archive) => PathBuf::from(archive),
        None => here.join("../target/libion_map.a"),
    };
    let archive = fs::read(&given).unwrap_or_else(|error| panic!("{}: {error}", given.display()));
    fs::write(out.join("missing.rs"), missing(&archive)).unwrap();
    println!("cargo:rerun-if-env-changed=LIBMAPS");
    println!("cargo:rerun-if-changed={}", given.display());
    println!("cargo:rustc-link-arg-bin={program}={}", given.display());
    if program == "fuzz" {
        let fuzzer = env::var("LIBFUZZER").expect("LIBFUZZER names libFuzzer's archive");
        println!("cargo:rerun-if-env-changed=LIBFUZZER");
        println!("cargo:rustc-link-arg-bin=fuzz={fuzzer}");
        println!("cargo:rustc-link-arg-bin=fuzz=-lstdc++");
    }
}

/// Functions in the places of those that an archive hasn't got, so that the others can be compared.
/// The comparison names them, doesn't call them, and fails at its end.
fn missing(archive: &[u8]) -> String {
    let is_missing = |name: &&&str| {
        let symbol = format!("{name}\0");
        !archive
            .windows(symbol.len())
            .any(|bytes| bytes == symbol.as_bytes())
    };
    let missing: Vec<&&str> = EXPORTS.iter().filter(is_missing).collect();
    let mut text = format!("pub const MISSING: &[&str] = &{missing:?};\n");
    for name in missing {
        text.push_str(&format!(
            "#[no_mangle]\nextern \"C\" fn {name}() -> u64 {{\n    u64::MAX\n}}\n"
        ));
    }
    text
}

fn place(path: &Path, bytes: &[u8]) {
    fs::create_dir_all(path.parent().unwrap()).unwrap();
    assert!(
        !path.exists(),
        "{} is both given and stood in for",
        path.display()
    );
    fs::write(path, bytes).unwrap();
}

fn copy_all(from: &Path, to: &Path) {
    for entry in fs::read_dir(from).unwrap() {
        let path = entry.unwrap().path();
        let target = to.join(path.file_name().unwrap());
        if path.is_dir() {
            copy_all(&path, &target);
        } else {
            println!("cargo:rerun-if-changed={}", path.display());
            place(&target, &fs::read(&path).unwrap());
        }
    }
}

fn hex(bytes: &[u8]) -> String {
    bytes.iter().map(|byte| format!("{byte:02x}")).collect()
}

/// SHA-256 as FIPS 180-4 has it.
fn sha256(message: &[u8]) -> [u8; 32] {
    const K: [u32; 64] = [
        0x428a2f98, 0x71374491, 0xb5c0fbcf, 0xe9b5dba5, 0x3956c25b, 0x59f111f1, 0x923f82a4,
        0xab1c5ed5, 0xd807aa98, 0x12835b01, 0x243185be, 0x550c7dc3, 0x72be5d74, 0x80deb1fe,
        0x9bdc06a7, 0xc19bf174, 0xe49b69c1, 0xefbe4786, 0x0fc19dc6, 0x240ca1cc, 0x2de92c6f,
        0x4a7484aa, 0x5cb0a9dc, 0x76f988da, 0x983e5152, 0xa831c66d, 0xb00327c8, 0xbf597fc7,
        0xc6e00bf3, 0xd5a79147, 0x06ca6351, 0x14292967, 0x27b70a85, 0x2e1b2138, 0x4d2c6dfc,
        0x53380d13, 0x650a7354, 0x766a0abb, 0x81c2c92e, 0x92722c85, 0xa2bfe8a1, 0xa81a664b,
        0xc24b8b70, 0xc76c51a3, 0xd192e819, 0xd6990624, 0xf40e3585, 0x106aa070, 0x19a4c116,
        0x1e376c08, 0x2748774c, 0x34b0bcb5, 0x391c0cb3, 0x4ed8aa4a, 0x5b9cca4f, 0x682e6ff3,
        0x748f82ee, 0x78a5636f, 0x84c87814, 0x8cc70208, 0x90befffa, 0xa4506ceb, 0xbef9a3f7,
        0xc67178f2,
    ];
    let mut state: [u32; 8] = [
        0x6a09e667, 0xbb67ae85, 0x3c6ef372, 0xa54ff53a, 0x510e527f, 0x9b05688c, 0x1f83d9ab,
        0x5be0cd19,
    ];
    let mut padded = message.to_vec();
    padded.push(0x80);
    while padded.len() % 64 != 56 {
        padded.push(0);
    }
    padded.extend_from_slice(&(message.len() as u64 * 8).to_be_bytes());
    for block in padded.chunks(64) {
        let mut w = [0u32; 64];
        for (i, word) in block.chunks(4).enumerate() {
            w[i] = u32::from_be_bytes(word.try_into().unwrap());
        }
        for i in 16..64 {
            let s0 = w[i - 15].rotate_right(7) ^ w[i - 15].rotate_right(18) ^ (w[i - 15] >> 3);
            let s1 = w[i - 2].rotate_right(17) ^ w[i - 2].rotate_right(19) ^ (w[i - 2] >> 10);
            w[i] = w[i - 16]
                .wrapping_add(s0)
                .wrapping_add(w[i - 7])
                .wrapping_add(s1);
        }
        let [mut a, mut b, mut c, mut d, mut e, mut f, mut g, mut h] = state;
        for i in 0..64 {
            let s1 = e.rotate_right(6) ^ e.rotate_right(11) ^ e.rotate_right(25);
            let choice = (e & f) ^ (!e & g);
            let t1 = h
                .wrapping_add(s1)
                .wrapping_add(choice)
                .wrapping_add(K[i])
                .wrapping_add(w[i]);
            let s0 = a.rotate_right(2) ^ a.rotate_right(13) ^ a.rotate_right(22);
            let majority = (a & b) ^ (a & c) ^ (b & c);
            let t2 = s0.wrapping_add(majority);
            (h, g, f, e, d, c, b, a) = (g, f, e, d.wrapping_add(t1), c, b, a, t1.wrapping_add(t2));
        }
        for (word, new) in state.iter_mut().zip([a, b, c, d, e, f, g, h]) {
            *word = word.wrapping_add(new);
        }
    }
    let mut digest = [0; 32];
    for (i, word) in state.iter().enumerate() {
        digest[4 * i..4 * i + 4].copy_from_slice(&word.to_be_bytes());
    }
    digest
}
