//! The stored maps, and what `mapspans` prints of them. Each file of tests uses a part of this.

#![allow(dead_code)]

use std::fs;
use std::path::PathBuf;

pub struct Stored {
    pub name: String,
    pub map: Vec<u8>,
    pub listing: Vec<String>,
}

/// All stored maps, in the order of their listings.
pub fn stored() -> Vec<Stored> {
    let printed = fs::read_to_string(folder().join("stdout")).expect("the stored listings");
    let mut maps: Vec<Stored> = Vec::new();
    for line in printed.lines() {
        match line.strip_suffix(':') {
            Some(name) => maps.push(read(name)),
            None => maps.last_mut().expect("a name").listing.push(line.to_string()),
        }
    }
    maps
}

/// The stored maps that are short enough for tests that try every place of a map beside every other.
pub fn short() -> Vec<Stored> {
    stored().into_iter().filter(|stored| stored.map.len() <= 1500).collect()
}

/// The names of the files that there are.
pub fn files() -> Vec<String> {
    let entries = fs::read_dir(folder().join("data")).expect("the stored maps");
    let mut names: Vec<String> = entries
        .map(|entry| entry.expect("a file").file_name().into_string().expect("a name"))
        .collect();
    names.sort();
    names
}

fn read(name: &str) -> Stored {
    Stored {
        name: name.to_string(),
        map: fs::read(folder().join("data").join(name)).expect("a stored map"),
        listing: Vec::new(),
    }
}

fn folder() -> PathBuf {
    PathBuf::from(env!("CARGO_MANIFEST_DIR")).join("../../crates/mapspans_cases")
}
