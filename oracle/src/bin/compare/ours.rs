//! Our reader and writer: the functions that `libion_map.a` exports, and the layer through which they are asked.

use crate::question::Thing;
use oracle::asking::Limits;
pub use oracle::RECORD_WORDS as WORDS;
use std::ops::RangeInclusive;

/// The bytes of a word, and those of a record.
pub const WORD: usize = size_of::<u64>();
pub const RECORD: usize = WORDS * WORD;

/// The words of a check's record, and its bytes.
pub const CHECK_WORDS: usize = 16;
pub const CHECK: usize = CHECK_WORDS * WORD;

mod exported {
    extern "C" {
        pub fn ion_map_step(
            map: *const u8,
            length: usize,
            start: usize,
            end: usize,
            position: usize,
            kind: u64,
            annotations: usize,
            out: *mut u8,
            room: usize,
        ) -> u64;
        pub fn ion_map_steps(
            map: *const u8,
            length: usize,
            start: usize,
            end: usize,
            position: usize,
            kind: u64,
            annotations: usize,
            out: *mut u8,
            room: usize,
            count: *mut u64,
        ) -> u64;
        pub fn ion_map_annotation(
            map: *const u8,
            length: usize,
            start: usize,
            end: usize,
            position: usize,
            out: *mut u8,
            room: usize,
        ) -> u64;
        pub fn ion_map_step_in(
            map: *const u8,
            length: usize,
            start: usize,
            end: usize,
            position: usize,
            annotations: usize,
            out: *mut u8,
            room: usize,
        ) -> u64;
        pub fn ion_map_scalar(
            map: *const u8,
            length: usize,
            start: usize,
            end: usize,
            position: usize,
            annotations: usize,
            out: *mut u8,
            room: usize,
        ) -> u64;
        pub fn ion_map_timestamp(
            map: *const u8,
            length: usize,
            start: usize,
            end: usize,
            position: usize,
            annotations: usize,
            out: *mut u8,
            room: usize,
        ) -> u64;
        pub fn ion_map_number(
            map: *const u8,
            length: usize,
            start: usize,
            end: usize,
            position: usize,
            form: u64,
            size: usize,
            out: *mut u8,
            room: usize,
        ) -> u64;
        pub fn ion_map_decimal(
            map: *const u8,
            length: usize,
            start: usize,
            end: usize,
            out: *mut u8,
            room: usize,
        ) -> u64;
        pub fn ion_map_walked(
            map: *const u8,
            length: usize,
            most: u64,
            annotations: usize,
            depth: usize,
        ) -> u64;
        pub fn ion_map_step_bounded(
            map: *const u8,
            length: usize,
            start: usize,
            end: usize,
            position: usize,
            kind: u64,
            most: usize,
            annotations: usize,
            out: *mut u8,
            room: usize,
        ) -> u64;
        pub fn ion_map_check(
            map: *const u8,
            length: usize,
            annotations: usize,
            depth: usize,
            out: *mut u8,
            room: usize,
        ) -> u64;
        pub fn ion_map_ids(
            map: *const u8,
            length: usize,
            start: usize,
            end: usize,
            position: usize,
            annotations: usize,
        ) -> u64;
        pub fn ion_map_packed_size(
            map: *const u8,
            length: usize,
            annotations: usize,
            depth: usize,
            out: *mut u8,
            room: usize,
        ) -> u64;
        pub fn ion_map_pack(
            map: *const u8,
            length: usize,
            annotations: usize,
            depth: usize,
            to: *mut u8,
            to_room: usize,
            out: *mut u8,
            room: usize,
        ) -> u64;
        pub fn ion_map_write_null(
            code: usize,
            to: *mut u8,
            to_room: usize,
            out: *mut u8,
            room: usize,
        ) -> u64;
        pub fn ion_map_write_bool(
            value: u64,
            to: *mut u8,
            to_room: usize,
            out: *mut u8,
            room: usize,
        ) -> u64;
        pub fn ion_map_write_int(
            magnitude: *const u8,
            length: usize,
            negative: u64,
            to: *mut u8,
            to_room: usize,
            out: *mut u8,
            room: usize,
        ) -> u64;
        pub fn ion_map_write_float(
            bits: u64,
            to: *mut u8,
            to_room: usize,
            out: *mut u8,
            room: usize,
        ) -> u64;
        pub fn ion_map_write_symbol(
            id: u64,
            to: *mut u8,
            to_room: usize,
            out: *mut u8,
            room: usize,
        ) -> u64;
        pub fn ion_map_write_pad(
            size: usize,
            to: *mut u8,
            to_room: usize,
            out: *mut u8,
            room: usize,
        ) -> u64;
        pub fn ion_map_write_scalar(
            code: usize,
            body: *const u8,
            length: usize,
            to: *mut u8,
            to_room: usize,
            out: *mut u8,
            room: usize,
        ) -> u64;
        pub fn ion_map_write_container(
            code: usize,
            body: *const u8,
            length: usize,
            annotations: usize,
            depth: usize,
            to: *mut u8,
            to_room: usize,
            out: *mut u8,
            room: usize,
        ) -> u64;
        pub fn ion_map_write_wrapper(
            annotation_bytes: *const u8,
            annotation_length: usize,
            value: *const u8,
            value_length: usize,
            annotations: usize,
            depth: usize,
            to: *mut u8,
            to_room: usize,
            out: *mut u8,
            room: usize,
        ) -> u64;
    }
}

/// Written by `build.rs`: the names of the functions that the archive hasn't got.
mod absent {
    include!(concat!(env!("OUT_DIR"), "/missing.rs"));
}
pub use absent::MISSING;

/// A part of the map and a position in it, as every entry takes them, and the limits of those that take any.
#[derive(Clone, Copy, Debug, PartialEq)]
pub struct Part {
    pub start: usize,
    pub end: usize,
    pub position: usize,
    pub limits: Limits,
}

/// What a limit may be; all else is refusal 68.
pub const ANNOTATIONS: RangeInclusive<usize> = 255..=65535;
pub const DEPTHS: RangeInclusive<usize> = 1..=64;

impl Part {
    pub fn new(start: usize, end: usize, position: usize) -> Self {
        Part {
            start,
            end,
            position,
            limits: Limits::USUAL,
        }
    }

    pub fn whole(map: &[u8]) -> Self {
        Part::new(0, map.len(), 0)
    }

    pub fn at(self, position: usize) -> Self {
        Part { position, ..self }
    }

    /// The part from its position on.
    pub fn from_position(self) -> Self {
        Part {
            start: self.position,
            ..self
        }
    }

    /// The caller's duty: all else is refusal 50.
    pub fn is_inside(self, map: &[u8]) -> bool {
        self.start <= self.position && self.position <= self.end && self.end <= map.len()
    }
}

/// What is lent to be written: a magnitude, a representation, a body, or annotation bytes and a value.
#[derive(Clone, Copy)]
pub struct Lent<'a> {
    pub first: &'a [u8],
    pub value: &'a [u8],
    pub limits: Limits,
}

#[derive(Clone, Copy, Debug, PartialEq)]
pub struct Record(pub [u64; WORDS]);

/// The first words of these bytes.
pub fn words_of<const N: usize>(bytes: &[u8]) -> [u64; N] {
    let mut words = [0; N];
    for (word, bytes) in words.iter_mut().zip(bytes.chunks_exact(WORD)) {
        *word = u64::from_le_bytes(bytes.try_into().expect("eight bytes"));
    }
    words
}

impl Record {
    pub fn read(bytes: &[u8]) -> Self {
        Record(words_of(bytes))
    }

    pub fn write(self, bytes: &mut [u8]) {
        for (bytes, word) in bytes.chunks_exact_mut(WORD).zip(self.0) {
            bytes.copy_from_slice(&word.to_le_bytes());
        }
    }

    pub fn kind(self) -> u64 {
        self.0[0]
    }

    /// A non-null container's, so that there is a body to step into.
    pub fn is_open(self) -> bool {
        let [kind, byte, ..] = self.0;
        (kind == 2 || kind == 3) && (11..=13).contains(&(byte >> 4)) && byte & 15 != 15
    }
}

/// What is asked. The exports are one reader, each wrong reader is another.
pub trait Reader {
    fn step(&self, map: &[u8], part: Part, kind: u64, out: &mut [u8]) -> u64;
    fn steps(&self, map: &[u8], part: Part, kind: u64, out: &mut [u8], count: &mut u64) -> u64;
    fn annotation(&self, map: &[u8], part: Part, out: &mut [u8]) -> u64;
    fn step_in(&self, map: &[u8], part: Part, out: &mut [u8]) -> u64;
    fn scalar(&self, map: &[u8], part: Part, out: &mut [u8]) -> u64;
    fn timestamp(&self, map: &[u8], part: Part, out: &mut [u8]) -> u64;
    fn number(&self, map: &[u8], part: Part, form: u64, size: usize, out: &mut [u8]) -> u64;
    /// The body is the part from its position on.
    fn decimal(&self, map: &[u8], part: Part, out: &mut [u8]) -> u64;
    fn walked(&self, map: &[u8], most: u64, limits: Limits) -> u64;
    fn check(&self, map: &[u8], limits: Limits, out: &mut [u8]) -> u64;
    fn ids(&self, map: &[u8], part: Part) -> u64;
    fn step_bounded(&self, map: &[u8], part: Part, kind: u64, most: usize, out: &mut [u8]) -> u64;
    fn packed_size(&self, map: &[u8], limits: Limits, out: &mut [u8]) -> u64;
    fn pack(&self, map: &[u8], limits: Limits, to: &mut [u8], out: &mut [u8]) -> u64;
    fn write(&self, thing: Thing, lent: Lent<'_>, to: &mut [u8], out: &mut [u8]) -> u64;

    /// The cursor for the next call: past an item, at the end, and after a refusal the one given.
    fn cursor(&self, _map: &[u8], part: Part, _kind: u64, record: Record) -> usize {
        match record.kind() {
            0 | 4 => record.0[2] as usize,
            9 => part.position,
            _ => record.0[6] as usize,
        }
    }
}

pub struct Exports;

// Each call lends the map and the buffer for its own length, and nothing is kept.
impl Reader for Exports {
    fn step(&self, map: &[u8], part: Part, kind: u64, out: &mut [u8]) -> u64 {
        unsafe {
            exported::ion_map_step(
                map.as_ptr(),
                map.len(),
                part.start,
                part.end,
                part.position,
                kind,
                part.limits.annotations,
                out.as_mut_ptr(),
                out.len(),
            )
        }
    }

    fn steps(&self, map: &[u8], part: Part, kind: u64, out: &mut [u8], count: &mut u64) -> u64 {
        unsafe {
            exported::ion_map_steps(
                map.as_ptr(),
                map.len(),
                part.start,
                part.end,
                part.position,
                kind,
                part.limits.annotations,
                out.as_mut_ptr(),
                out.len(),
                count,
            )
        }
    }

    fn annotation(&self, map: &[u8], part: Part, out: &mut [u8]) -> u64 {
        unsafe {
            exported::ion_map_annotation(
                map.as_ptr(),
                map.len(),
                part.start,
                part.end,
                part.position,
                out.as_mut_ptr(),
                out.len(),
            )
        }
    }

    fn step_in(&self, map: &[u8], part: Part, out: &mut [u8]) -> u64 {
        unsafe {
            exported::ion_map_step_in(
                map.as_ptr(),
                map.len(),
                part.start,
                part.end,
                part.position,
                part.limits.annotations,
                out.as_mut_ptr(),
                out.len(),
            )
        }
    }

    fn scalar(&self, map: &[u8], part: Part, out: &mut [u8]) -> u64 {
        unsafe {
            exported::ion_map_scalar(
                map.as_ptr(),
                map.len(),
                part.start,
                part.end,
                part.position,
                part.limits.annotations,
                out.as_mut_ptr(),
                out.len(),
            )
        }
    }

    fn timestamp(&self, map: &[u8], part: Part, out: &mut [u8]) -> u64 {
        unsafe {
            exported::ion_map_timestamp(
                map.as_ptr(),
                map.len(),
                part.start,
                part.end,
                part.position,
                part.limits.annotations,
                out.as_mut_ptr(),
                out.len(),
            )
        }
    }

    fn number(&self, map: &[u8], part: Part, form: u64, size: usize, out: &mut [u8]) -> u64 {
        unsafe {
            exported::ion_map_number(
                map.as_ptr(),
                map.len(),
                part.start,
                part.end,
                part.position,
                form,
                size,
                out.as_mut_ptr(),
                out.len(),
            )
        }
    }

    fn decimal(&self, map: &[u8], part: Part, out: &mut [u8]) -> u64 {
        unsafe {
            exported::ion_map_decimal(
                map.as_ptr(),
                map.len(),
                part.position,
                part.end,
                out.as_mut_ptr(),
                out.len(),
            )
        }
    }

    fn walked(&self, map: &[u8], most: u64, limits: Limits) -> u64 {
        let Limits { annotations, depth } = limits;
        unsafe { exported::ion_map_walked(map.as_ptr(), map.len(), most, annotations, depth) }
    }

    fn check(&self, map: &[u8], limits: Limits, out: &mut [u8]) -> u64 {
        let Limits { annotations, depth } = limits;
        let (at, room) = (out.as_mut_ptr(), out.len());
        unsafe { exported::ion_map_check(map.as_ptr(), map.len(), annotations, depth, at, room) }
    }

    fn ids(&self, map: &[u8], part: Part) -> u64 {
        unsafe {
            exported::ion_map_ids(
                map.as_ptr(),
                map.len(),
                part.start,
                part.end,
                part.position,
                part.limits.annotations,
            )
        }
    }

    fn step_bounded(&self, map: &[u8], part: Part, kind: u64, most: usize, out: &mut [u8]) -> u64 {
        unsafe {
            exported::ion_map_step_bounded(
                map.as_ptr(),
                map.len(),
                part.start,
                part.end,
                part.position,
                kind,
                most,
                part.limits.annotations,
                out.as_mut_ptr(),
                out.len(),
            )
        }
    }

    fn packed_size(&self, map: &[u8], limits: Limits, out: &mut [u8]) -> u64 {
        let Limits { annotations, depth } = limits;
        let (at, room) = (out.as_mut_ptr(), out.len());
        unsafe {
            exported::ion_map_packed_size(map.as_ptr(), map.len(), annotations, depth, at, room)
        }
    }

    fn pack(&self, map: &[u8], limits: Limits, to: &mut [u8], out: &mut [u8]) -> u64 {
        unsafe {
            exported::ion_map_pack(
                map.as_ptr(),
                map.len(),
                limits.annotations,
                limits.depth,
                to.as_mut_ptr(),
                to.len(),
                out.as_mut_ptr(),
                out.len(),
            )
        }
    }

    fn write(&self, thing: Thing, lent: Lent<'_>, to: &mut [u8], out: &mut [u8]) -> u64 {
        let (to, to_room) = (to.as_mut_ptr(), to.len());
        let (out, room) = (out.as_mut_ptr(), out.len());
        let (first, length) = (lent.first.as_ptr(), lent.first.len());
        let Limits { annotations, depth } = lent.limits;
        unsafe {
            match thing {
                Thing::Null(code) => exported::ion_map_write_null(code, to, to_room, out, room),
                Thing::Bool(value) => exported::ion_map_write_bool(value, to, to_room, out, room),
                Thing::Int(negative) => {
                    exported::ion_map_write_int(first, length, negative, to, to_room, out, room)
                }
                Thing::Float(bits) => exported::ion_map_write_float(bits, to, to_room, out, room),
                Thing::Symbol(id) => exported::ion_map_write_symbol(id, to, to_room, out, room),
                Thing::Pad(size) => exported::ion_map_write_pad(size, to, to_room, out, room),
                Thing::Scalar(code) => {
                    exported::ion_map_write_scalar(code, first, length, to, to_room, out, room)
                }
                Thing::Container(code) => exported::ion_map_write_container(
                    code,
                    first,
                    length,
                    annotations,
                    depth,
                    to,
                    to_room,
                    out,
                    room,
                ),
                Thing::Wrapper => exported::ion_map_write_wrapper(
                    first,
                    length,
                    lent.value.as_ptr(),
                    lent.value.len(),
                    annotations,
                    depth,
                    to,
                    to_room,
                    out,
                    room,
                ),
            }
        }
    }
}
