//! Measures packing a map, and its size alone, beside the check, which both make first, beside the Rust's reader with everything read, and beside a copy of the bytes.

use crate::checks::{best, checked, rust};
use oracle::asking::Limits;
use oracle::lazy::expanded::EncodingContext;

extern "C" {
    fn ion_map_packed_size(
        map: *const u8,
        length: usize,
        annotations: usize,
        depth: usize,
        out: *mut u8,
        room: usize,
    ) -> u64;
    fn ion_map_pack(
        map: *const u8,
        length: usize,
        annotations: usize,
        depth: usize,
        packed: *mut u8,
        packed_length: usize,
        out: *mut u8,
        room: usize,
    ) -> u64;
}

const WORDS: usize = 9;

/// The size word of a record; the call must not be refused.
fn size_of_record(refused: u64, out: [u64; WORDS]) -> usize {
    assert!(refused == 0, "the maps are good");
    out[3] as usize
}

fn packed_size(map: &[u8]) -> usize {
    let mut out = [0u64; WORDS];
    let Limits { annotations, depth } = Limits::USUAL;
    // The call lends the map and the buffer for its own length, and nothing is kept.
    let refused = unsafe {
        ion_map_packed_size(
            map.as_ptr(),
            map.len(),
            annotations,
            depth,
            out.as_mut_ptr().cast(),
            size_of_val(&out),
        )
    };
    size_of_record(refused, out)
}

fn pack(map: &[u8], packed: &mut [u8]) -> usize {
    let mut out = [0u64; WORDS];
    let Limits { annotations, depth } = Limits::USUAL;
    // As above, with a second buffer, which overlaps neither.
    let refused = unsafe {
        ion_map_pack(
            map.as_ptr(),
            map.len(),
            annotations,
            depth,
            packed.as_mut_ptr(),
            packed.len(),
            out.as_mut_ptr().cast(),
            size_of_val(&out),
        )
    };
    size_of_record(refused, out)
}

pub fn print(maps: &[(String, Vec<u8>)], rounds: usize) {
    println!("| Map | Items | Packed to | check | size | pack | a copy of the bytes | Rust, all read | pack, times the Rust's speed |");
    println!("|---|---|---|---|---|---|---|---|---|");
    let mut context = EncodingContext::empty();
    for (name, map) in maps {
        let items = rust(map, &mut context).expect("the maps are good");
        let size = packed_size(map);
        let mut packed = vec![0; map.len()];
        assert!(pack(map, &mut packed) == size);
        let check = best(items, rounds, || checked(map));
        let sized = best(items, rounds, || items + (packed_size(map) - size) as u64);
        let ours = best(items, rounds, || items + (pack(map, &mut packed) - size) as u64);
        let copy = best(items, rounds, || {
            packed.copy_from_slice(map);
            items + (packed.len() - map.len()) as u64
        });
        let theirs = best(items, rounds, || rust(map, &mut context).expect("the maps are good"));
        let share = 100.0 * size as f64 / map.len() as f64;
        println!(
            "| {name} | {items} | {share:.1} % | {check:.1} | {sized:.1} | {ours:.1} | {copy:.1} | {theirs:.1} | {:.2} |",
            theirs / ours
        );
    }
    println!();
}
