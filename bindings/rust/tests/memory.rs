//! Memory that is refused: a refusal, and what was written before stays.

#![cfg(feature = "alloc")]

use ion_map::{pack, MapWriter, Refusal, Thing};
use std::alloc::{GlobalAlloc, Layout, System};
use std::cell::Cell;
use std::ptr;

/// Gives what the system gives, but refuses what a thread wants refused: more than so many bytes at once, and all after so
/// many times.
struct Refusing;

thread_local! {
    static MOST: Cell<usize> = const { Cell::new(usize::MAX) };
    static TIMES: Cell<usize> = const { Cell::new(usize::MAX) };
}

fn refuses(size: usize) -> bool {
    let times = TIMES.get();
    if times != usize::MAX {
        TIMES.set(times.saturating_sub(1));
    }
    size > MOST.get() || times == 0
}

// SAFETY: all that is given comes from the system's allocator and goes back to it.
unsafe impl GlobalAlloc for Refusing {
    unsafe fn alloc(&self, layout: Layout) -> *mut u8 {
        match refuses(layout.size()) {
            true => ptr::null_mut(),
            false => System.alloc(layout),
        }
    }

    unsafe fn dealloc(&self, pointer: *mut u8, layout: Layout) {
        System.dealloc(pointer, layout)
    }

    unsafe fn realloc(&self, pointer: *mut u8, layout: Layout, size: usize) -> *mut u8 {
        match refuses(size) {
            true => ptr::null_mut(),
            false => System.realloc(pointer, layout, size),
        }
    }
}

#[global_allocator]
static ALLOCATOR: Refusing = Refusing;

/// What a call answers while no more than so many bytes are given at once, and nothing after so many times.
fn with<T>(most: usize, times: usize, call: impl FnOnce() -> T) -> T {
    MOST.set(most);
    TIMES.set(times);
    let answer = call();
    MOST.set(usize::MAX);
    TIMES.set(usize::MAX);
    answer
}

fn no_memory<T>(position: usize) -> Result<T, Refusal> {
    Err(Refusal {
        number: Refusal::NO_MEMORY,
        position,
    })
}

#[test]
fn a_pad_that_there_is_no_memory_for() {
    let mut map = MapWriter::new();
    map.marker().unwrap();
    for size in [1 << 20, 1 << 46] {
        let answer = with(1 << 16, usize::MAX, || map.thing(Thing::Pad(size)));
        assert_eq!(answer, no_memory(4));
        assert_eq!(map.bytes(), [0xE0, 0x01, 0x00, 0xEA]);
    }
    map.thing(Thing::Pad(1 << 20)).unwrap();
    assert_eq!(map.bytes().len(), 4 + (1 << 20));
}

/// Whichever time memory is refused: the map is as before, and once there is some it is written.
#[test]
fn each_time() {
    let ids: Vec<u64> = (10..60).collect();
    let text = "tree".repeat(50);
    let write = |map: &mut MapWriter| {
        map.annotated(&ids, |value| {
            value.structure(|fields| {
                fields.field(200, |value| value.thing(Thing::Pad(600)))?;
                fields.field(201, |value| value.sexp(|sexp| sexp.thing(Thing::String(&text))))
            })
        })
    };
    let mut whole = MapWriter::new();
    whole.marker().unwrap();
    let before = whole.bytes().to_vec();
    write(&mut whole).unwrap();

    let mut refusals = 0;
    for times in 0.. {
        let mut map = MapWriter::new();
        map.marker().unwrap();
        let answer = with(usize::MAX, times, || write(&mut map));
        match answer {
            Err(refusal) => {
                refusals += 1;
                assert_eq!(refusal.number, Refusal::NO_MEMORY);
                assert!(refusal.position >= before.len());
                assert_eq!(map.bytes(), before);
                write(&mut map).unwrap();
            }
            Ok(()) => break,
        }
        assert_eq!(map.bytes(), whole.bytes());
    }
    assert!(refusals >= 5, "{refusals}");
}

#[test]
fn a_marker_and_an_id() {
    let mut map = MapWriter::new();
    assert_eq!(with(usize::MAX, 0, || map.marker()), no_memory(0));
    assert_eq!(
        with(usize::MAX, 0, || map
            .annotated(&[4], |value| value.thing(Thing::Bool(true)))),
        no_memory(0)
    );
    assert_eq!(
        with(usize::MAX, 0, || map.structure(|fields| {
            fields.field(4, |value| value.thing(Thing::Bool(true)))
        })),
        no_memory(0)
    );
    assert_eq!(map.bytes(), []);
}

#[test]
fn packing() {
    let map = [0x20; 100];
    assert_eq!(with(usize::MAX, 0, || pack(&map)), no_memory(0));
    assert_eq!(pack(&map).as_deref(), Ok(&map[..]));
}
