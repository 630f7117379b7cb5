//! The readers that are measured. Each goes through a whole map, into every container that isn't null,
//! and says how many items it met and the sum of the positions where they end.

use oracle::asking::Limits;
use oracle::lazy::any_encoding::IonEncoding;
use oracle::lazy::binary::raw::r#struct::RawBinaryStructIterator_1_0;
use oracle::lazy::binary::raw::reader::LazyRawBinaryReader_1_0;
use oracle::lazy::binary::raw::sequence::RawBinarySequenceIterator_1_0;
use oracle::lazy::binary::raw::value::LazyRawBinaryValue_1_0;
use oracle::lazy::decoder::{HasRange, LazyRawReader, LazyRawSequence};
use oracle::lazy::expanded::{EncodingContext, EncodingContextRef};
use oracle::lazy::raw_stream_item::RawStreamItem;
use oracle::lazy::raw_value_ref::RawValueRef;
use oracle::lazy::streaming_raw_reader::RawReaderState;
use oracle::{IonResult, IonType, RECORD_WORDS};

mod linked {
    use super::Part;

    extern "C" {
        // Our reader: libion_map.a.
        pub fn ion_map_walked(
            map: *const u8,
            length: usize,
            most: u64,
            annotations: usize,
            depth: usize,
        ) -> u64;
        // Callers of it by the header: steps.c.
        pub fn header_step(
            map: *const u8,
            length: usize,
            ends: *mut u64,
            above: *mut Part,
            room: usize,
        ) -> u64;
        pub fn header_steps(
            map: *const u8,
            length: usize,
            ends: *mut u64,
            records: *mut u8,
            batch: usize,
            parts: *mut Part,
            room: usize,
        ) -> u64;
        // The C loops: skip.c.
        pub fn skip_count(map: *const u8, length: usize, ends: *mut u64) -> u64;
        pub fn skip_records(
            map: *const u8,
            length: usize,
            ends: *mut u64,
            records: *mut u64,
            room: usize,
        ) -> u64;
        #[cfg(clang)]
        pub fn clang_skip_count(map: *const u8, length: usize, ends: *mut u64) -> u64;
    }
}

/// A record.
type Record = [u64; RECORD_WORDS];

#[derive(Clone, Copy, Debug, PartialEq)]
pub struct Met {
    pub items: u64,
    /// `None` where the reader only counts.
    pub ends: Option<u64>,
}

#[derive(Clone, Copy, Debug, PartialEq)]
pub enum Reader {
    Steps16,
    Steps1024,
    Step,
    Walk,
    CrateItems,
    CrateWalk,
    Rust,
    Skip,
    #[cfg(clang)]
    ClangSkip,
    SkipRecords,
}

pub const ALL: &[Reader] = &[
    Reader::Steps16,
    Reader::Steps1024,
    Reader::Step,
    Reader::Walk,
    Reader::CrateItems,
    Reader::CrateWalk,
    Reader::Rust,
    Reader::Skip,
    #[cfg(clang)]
    Reader::ClangSkip,
    Reader::SkipRecords,
];

/// What the readers need beside the map, made once and outside the measurements.
pub struct Room {
    records: Vec<Record>,
    parts: Vec<Part>,
    context: EncodingContext,
}

impl Room {
    pub fn new() -> Self {
        Room {
            records: vec![[0; RECORD_WORDS]; 1024],
            parts: vec![Part::default(); 1 << 16],
            context: EncodingContext::empty(),
        }
    }
}

impl Reader {
    pub fn name(self) -> &'static str {
        match self {
            Reader::Steps16 => "steps, 16",
            Reader::Steps1024 => "steps, 1024",
            Reader::Step => "step",
            Reader::Walk => "walk",
            Reader::CrateItems => "crate, items",
            Reader::CrateWalk => "crate, walk",
            Reader::Rust => "Rust",
            Reader::Skip => "C skip",
            #[cfg(clang)]
            Reader::ClangSkip => "C skip, clang",
            Reader::SkipRecords => "C records",
        }
    }

    pub fn read(self, map: &[u8], room: &mut Room) -> Met {
        match self {
            Reader::Steps16 => steps(map, 16, room),
            Reader::Steps1024 => steps(map, 1024, room),
            Reader::Step => single_steps(map, room),
            Reader::Walk => walk(map),
            Reader::CrateItems => crate_items(map).expect("the maps are good"),
            Reader::CrateWalk => crate_walk(map).expect("the maps are good"),
            Reader::Rust => rust(map, room).expect("the maps are good"),
            Reader::Skip => skip(map),
            #[cfg(clang)]
            Reader::ClangSkip => clang_skip(map),
            Reader::SkipRecords => skip_records(map, room),
        }
    }
}

// ===== Ours, from C =====

/// A part of the map, as steps.c has it.
#[derive(Clone, Copy, Default)]
#[repr(C)]
pub struct Part {
    start: usize,
    end: usize,
    at: usize,
    kind: u64,
}

/// One call for each item and each end, a container's body before what follows it.
fn single_steps(map: &[u8], room: &mut Room) -> Met {
    let (above, mut ends) = (&mut room.parts, 0);
    // The call lends the map and the room for its own length, and nothing is kept.
    let items = unsafe {
        linked::header_step(
            map.as_ptr(),
            map.len(),
            &mut ends,
            above.as_mut_ptr(),
            above.len(),
        )
    };
    Met {
        items,
        ends: Some(ends),
    }
}

/// `batch` records a call; the bodies that a call hands out are put on a stack and read later.
fn steps(map: &[u8], batch: usize, room: &mut Room) -> Met {
    let Room { records, parts, .. } = room;
    let (records, mut ends) = (&mut records[..batch], 0);
    let items = unsafe {
        linked::header_steps(
            map.as_ptr(),
            map.len(),
            &mut ends,
            records.as_mut_ptr().cast(),
            records.len(),
            parts.as_mut_ptr(),
            parts.len(),
        )
    };
    Met {
        items,
        ends: Some(ends),
    }
}

fn walk(map: &[u8]) -> Met {
    let Limits { annotations, depth } = Limits::USUAL;
    let items =
        unsafe { linked::ion_map_walked(map.as_ptr(), map.len(), u64::MAX, annotations, depth) };
    Met { items, ends: None }
}

// ===== Ours, by the crate in Rust =====

/// The items of each part, a container's body before what follows it, by recursion.
fn crate_items(map: &[u8]) -> Result<Met, ion_map::Refusal> {
    let (mut items, mut ends) = (0, 0);
    crate_part(map, ion_map::Part::stream(map), &mut items, &mut ends)?;
    Ok(Met {
        items,
        ends: Some(ends),
    })
}

fn crate_part(
    map: &[u8],
    part: ion_map::Part,
    items: &mut u64,
    ends: &mut u64,
) -> Result<(), ion_map::Refusal> {
    for item in ion_map::items(map, part) {
        let item = item?;
        *items += 1;
        *ends = ends.wrapping_add(item.span().end as u64);
        if let Some(body) = item.value().and_then(|value| value.part()) {
            crate_part(map, body, items, ends)?;
        }
    }
    Ok(())
}

fn crate_walk(map: &[u8]) -> Result<Met, ion_map::Refusal> {
    let (mut items, mut ends) = (0, 0u64);
    for met in ion_map::walk(map) {
        let (_, item) = met?;
        items += 1;
        ends = ends.wrapping_add(item.span().end as u64);
    }
    Ok(Met {
        items,
        ends: Some(ends),
    })
}

// ===== The Rust's =====

/// As ion-rust's own reader goes on: for each top-level item the arena is emptied and the raw reader
/// resumed where the one before left off.
fn rust(map: &[u8], room: &mut Room) -> IonResult<Met> {
    let context = &mut room.context;
    let (mut items, mut ends) = (0, 0);
    let mut at = 0;
    loop {
        context.reset();
        let state = RawReaderState::new(&map[at..], at, false, IonEncoding::Binary_1_0);
        let mut reader: LazyRawBinaryReader_1_0<'_> =
            LazyRawReader::resume(EncodingContextRef::new(context), state);
        match reader.next()? {
            RawStreamItem::VersionMarker(marker) => {
                items += 1;
                ends += marker.range().end as u64;
            }
            RawStreamItem::Value(value) => rust_value(value, &mut items, &mut ends)?,
            RawStreamItem::EndOfStream(_) => break,
        }
        at = reader.position();
    }
    Ok(Met {
        items,
        ends: Some(ends),
    })
}

fn rust_value(
    value: &LazyRawBinaryValue_1_0<'_>,
    items: &mut u64,
    ends: &mut u64,
) -> IonResult<()> {
    *items += 1;
    *ends = ends.wrapping_add(value.range().end as u64);
    let is_container = matches!(
        value.ion_type(),
        IonType::List | IonType::SExp | IonType::Struct
    );
    if !is_container || value.is_null() {
        return Ok(());
    }
    match value.read()? {
        RawValueRef::List(list) => rust_values(list.iter(), items, ends),
        RawValueRef::SExp(sexp) => rust_values(sexp.iter(), items, ends),
        RawValueRef::Struct(fields) => rust_fields(fields.iter(), items, ends),
        _ => unreachable!("the value is a container"),
    }
}

fn rust_values(
    values: RawBinarySequenceIterator_1_0<'_>,
    items: &mut u64,
    ends: &mut u64,
) -> IonResult<()> {
    for value in values {
        rust_value(value?, items, ends)?;
    }
    Ok(())
}

fn rust_fields(
    fields: RawBinaryStructIterator_1_0<'_>,
    items: &mut u64,
    ends: &mut u64,
) -> IonResult<()> {
    for field in fields {
        rust_value(field?.value(), items, ends)?;
    }
    Ok(())
}

// ===== C =====

fn skip(map: &[u8]) -> Met {
    let mut ends = 0;
    let items = unsafe { linked::skip_count(map.as_ptr(), map.len(), &mut ends) };
    Met {
        items,
        ends: Some(ends),
    }
}

#[cfg(clang)]
fn clang_skip(map: &[u8]) -> Met {
    let mut ends = 0;
    let items = unsafe { linked::clang_skip_count(map.as_ptr(), map.len(), &mut ends) };
    Met {
        items,
        ends: Some(ends),
    }
}

fn skip_records(map: &[u8], room: &mut Room) -> Met {
    let mut ends = 0;
    let records = &mut room.records;
    let items = unsafe {
        linked::skip_records(
            map.as_ptr(),
            map.len(),
            &mut ends,
            records.as_mut_ptr().cast(),
            records.len(),
        )
    };
    Met {
        items,
        ends: Some(ends),
    }
}
