//! The comparison as a target of libFuzzer, which makes the maps, guided by the code that they
//! reach in the Rust. It has the program's `main`.
#![no_main]

#[allow(dead_code)]
mod expected;
#[allow(dead_code)]
mod inputs;
#[allow(dead_code)]
mod judge;
#[allow(dead_code)]
#[path = "../generate/maps.rs"]
mod maps;
#[allow(dead_code)]
mod ours;
#[allow(dead_code)]
mod packing;
#[allow(dead_code)]
mod pads;
#[allow(dead_code)]
mod question;
#[allow(dead_code)]
mod session;
#[allow(dead_code)]
mod shrink;
#[allow(dead_code)]
mod walking;
#[allow(dead_code)]
mod writing;

use inputs::{ask_at, ask_whole, cut};
use ours::{Exports, Part};
use session::Session;
use std::cell::RefCell;

thread_local! {
    static SESSION: RefCell<Session<Exports>> = RefCell::new(Session::quiet(Exports));
}

/// libFuzzer calls this with each of its inputs.
///
/// # Safety
/// The bytes are `size` many and stay as they are during the call.
#[no_mangle]
pub unsafe extern "C" fn LLVMFuzzerTestOneInput(bytes: *const u8, size: usize) -> i32 {
    let map = if size == 0 {
        &[]
    } else {
        std::slice::from_raw_parts(bytes, size)
    };
    SESSION.with(|session| compare(&mut session.borrow_mut(), map));
    0
}

/// A map's first and last byte choose a position and an end.
fn ask(session: &mut Session<Exports>, map: &[u8]) {
    let whole = Part::whole(map);
    ask_whole(session, map, whole);
    if let (Some(first), Some(last)) = (map.first(), map.last()) {
        let places = map.len() + 1;
        ask_at(session, map, whole.at(*first as usize % places));
        ask_whole(session, map, cut(*last as usize % places));
    }
}

/// A difference ends the program, so that libFuzzer keeps the map.
fn compare(session: &mut Session<Exports>, map: &[u8]) {
    ask(session, map);
    let differences = session.differences();
    for case in &differences {
        eprintln!("differs: {}", session.written(case));
    }
    if !differences.is_empty() {
        std::process::abort();
    }
}
