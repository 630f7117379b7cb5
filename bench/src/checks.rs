//! Measures the check of a whole map beside the Rust's reader, which goes through the same map and reads every
//! annotation and every scalar.

use oracle::asking::Limits;
use oracle::lazy::any_encoding::IonEncoding;
use oracle::lazy::binary::raw::reader::LazyRawBinaryReader_1_0;
use oracle::lazy::binary::raw::value::LazyRawBinaryValue_1_0;
use oracle::lazy::decoder::{LazyRawReader, LazyRawSequence, LazyRawValue};
use oracle::lazy::expanded::{EncodingContext, EncodingContextRef};
use oracle::lazy::raw_stream_item::RawStreamItem;
use oracle::lazy::raw_value_ref::RawValueRef;
use oracle::lazy::streaming_raw_reader::RawReaderState;
use oracle::IonResult;
use std::hint::black_box;
use std::time::{Duration, Instant};

extern "C" {
    fn ion_map_check(
        map: *const u8,
        length: usize,
        annotations: usize,
        depth: usize,
        out: *mut u8,
        room: usize,
    ) -> u64;
}

const WORDS: usize = 16;
const LEAST: Duration = Duration::from_millis(3);

/// How many markers and values there are, by our check's counts.
pub fn checked(map: &[u8]) -> u64 {
    let mut out = [0u64; WORDS];
    let Limits { annotations, depth } = Limits::USUAL;
    // The call lends the map and the buffer for its own length, and nothing is kept.
    let refused = unsafe {
        ion_map_check(
            map.as_ptr(),
            map.len(),
            annotations,
            depth,
            out.as_mut_ptr().cast(),
            size_of_val(&out),
        )
    };
    assert!(refused == 0, "the maps are good");
    out[1] + out[3..].iter().sum::<u64>()
}

/// As ion-rust's own reader goes on, with everything read.
pub fn rust(map: &[u8], context: &mut EncodingContext) -> IonResult<u64> {
    let mut items = 0;
    let mut at = 0;
    loop {
        context.reset();
        let state = RawReaderState::new(&map[at..], at, false, IonEncoding::Binary_1_0);
        let mut reader: LazyRawBinaryReader_1_0<'_> =
            LazyRawReader::resume(EncodingContextRef::new(context), state);
        match reader.next()? {
            RawStreamItem::VersionMarker(_) => items += 1,
            RawStreamItem::Value(value) => rust_value(value, &mut items)?,
            RawStreamItem::EndOfStream(_) => return Ok(items),
        }
        at = reader.position();
    }
}

fn rust_value(value: &LazyRawBinaryValue_1_0<'_>, items: &mut u64) -> IonResult<()> {
    *items += 1;
    for id in LazyRawValue::annotations(&value) {
        black_box(id?);
    }
    match value.read()? {
        RawValueRef::List(list) => {
            for value in list.iter() {
                rust_value(value?, items)?;
            }
        }
        RawValueRef::SExp(sexp) => {
            for value in sexp.iter() {
                rust_value(value?, items)?;
            }
        }
        RawValueRef::Struct(fields) => {
            for field in fields.iter() {
                rust_value(field?.value(), items)?;
            }
        }
        scalar => {
            black_box(scalar);
        }
    }
    Ok(())
}

/// The best of `rounds`, in nanoseconds an item.
pub fn best(items: u64, rounds: usize, mut read: impl FnMut() -> u64) -> f64 {
    let mut passes = 1u32;
    loop {
        let from = Instant::now();
        (0..passes).for_each(|_| assert!(black_box(read()) == items));
        if from.elapsed() >= LEAST {
            break;
        }
        passes *= 2;
    }
    (0..rounds)
        .map(|_| {
            let from = Instant::now();
            (0..passes).for_each(|_| assert!(black_box(read()) == items));
            from.elapsed().as_secs_f64() * 1e9 / f64::from(passes) / items as f64
        })
        .fold(f64::INFINITY, f64::min)
}

pub fn print(maps: &[(String, Vec<u8>)], rounds: usize) {
    println!("| Map | Items | check, ns an item | Rust, all read, ns an item | times the Rust's speed |");
    println!("|---|---|---|---|---|");
    let mut context = EncodingContext::empty();
    for (name, map) in maps {
        let items = rust(map, &mut context).expect("the maps are good");
        let ours = best(items, rounds, || checked(map));
        let theirs = best(items, rounds, || rust(map, &mut context).expect("the maps are good"));
        println!("| {name} | {items} | {ours:.1} | {theirs:.1} | {:.2} |", theirs / ours);
    }
    println!();
}
