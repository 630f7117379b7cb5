//! The exported functions as they are: numbers in, records out.
//!
//! A record has [`RECORD_WORDS`] words of 64 bits, least significant byte first, which [`words`] takes apart. The C
//! header says which word is which. A function returns 0 or a refusal's number; where a buffer is shorter than a record
//! it returns 51 and writes nothing. All that the header asks of pointers holds of any slices, so all of these are
//! safe.
//!
//! The rest of the crate is made of these functions, and no other module has unsafe code.

#![allow(unsafe_code)]

/// How many words a record has.
pub const RECORD_WORDS: usize = 9;

/// How many bytes a word has.
const WORD_SIZE: usize = size_of::<u64>();

/// How many bytes a record has.
pub const RECORD_SIZE: usize = RECORD_WORDS * WORD_SIZE;

/// A record.
pub type Record = [u8; RECORD_SIZE];

// As the C header declares them: `size_t` is `usize`.
extern "C" {
    fn ion_map_step(
        map: *const u8,
        map_len: usize,
        start: usize,
        end: usize,
        position: usize,
        kind: u64,
        annotations: usize,
        out: *mut u8,
        out_len: usize,
    ) -> u64;
    fn ion_map_step_bounded(
        map: *const u8,
        map_len: usize,
        start: usize,
        end: usize,
        position: usize,
        kind: u64,
        most: usize,
        annotations: usize,
        out: *mut u8,
        out_len: usize,
    ) -> u64;
    fn ion_map_annotation(
        map: *const u8,
        map_len: usize,
        start: usize,
        end: usize,
        position: usize,
        out: *mut u8,
        out_len: usize,
    ) -> u64;
    fn ion_map_step_in(
        map: *const u8,
        map_len: usize,
        start: usize,
        end: usize,
        position: usize,
        annotations: usize,
        out: *mut u8,
        out_len: usize,
    ) -> u64;
    fn ion_map_scalar(
        map: *const u8,
        map_len: usize,
        start: usize,
        end: usize,
        position: usize,
        annotations: usize,
        out: *mut u8,
        out_len: usize,
    ) -> u64;
    fn ion_map_timestamp(
        map: *const u8,
        map_len: usize,
        start: usize,
        end: usize,
        position: usize,
        annotations: usize,
        out: *mut u8,
        out_len: usize,
    ) -> u64;
    fn ion_map_number(
        map: *const u8,
        map_len: usize,
        start: usize,
        end: usize,
        position: usize,
        form: u64,
        length: usize,
        out: *mut u8,
        out_len: usize,
    ) -> u64;
    fn ion_map_decimal(map: *const u8, map_len: usize, start: usize, end: usize, out: *mut u8, out_len: usize) -> u64;
    fn ion_map_steps(
        map: *const u8,
        map_len: usize,
        start: usize,
        end: usize,
        position: usize,
        kind: u64,
        annotations: usize,
        out: *mut u8,
        out_len: usize,
        count: *mut u64,
    ) -> u64;
    fn ion_map_text(
        map: *const u8,
        map_len: usize,
        system: *const u8,
        system_len: usize,
        start: usize,
        end: usize,
        place: usize,
        id: usize,
        annotations: usize,
        out: *mut u8,
        out_len: usize,
    ) -> u64;
    fn ion_map_symbols(
        map: *const u8,
        map_len: usize,
        system: *const u8,
        system_len: usize,
        start: usize,
        end: usize,
        place: usize,
        annotations: usize,
        out: *mut u8,
        out_len: usize,
    ) -> u64;
    fn ion_map_symbol_text(
        map: *const u8,
        map_len: usize,
        system: *const u8,
        system_len: usize,
        start: usize,
        end: usize,
        id: usize,
        annotations: usize,
        out: *mut u8,
        out_len: usize,
    ) -> u64;
    fn ion_map_check(
        map: *const u8,
        map_len: usize,
        annotations: usize,
        depth: usize,
        out: *mut u8,
        out_len: usize,
    ) -> u64;
    fn ion_map_packed_size(
        map: *const u8,
        map_len: usize,
        annotations: usize,
        depth: usize,
        out: *mut u8,
        out_len: usize,
    ) -> u64;
    fn ion_map_pack(
        map: *const u8,
        map_len: usize,
        annotations: usize,
        depth: usize,
        packed: *mut u8,
        packed_len: usize,
        out: *mut u8,
        out_len: usize,
    ) -> u64;
    fn ion_map_walked(map: *const u8, map_len: usize, most: u64, annotations: usize, depth: usize) -> u64;
    fn ion_map_ids(
        map: *const u8,
        map_len: usize,
        start: usize,
        end: usize,
        position: usize,
        annotations: usize,
    ) -> u64;
}

/// The words of a record.
///
/// ```
/// let mut record = [0; ion_map::raw::RECORD_SIZE];
/// record[8] = 7;
/// assert_eq!(ion_map::raw::words(&record), [0, 7, 0, 0, 0, 0, 0, 0, 0]);
/// ```
#[inline]
pub fn words(record: &Record) -> [u64; RECORD_WORDS] {
    let mut words = [0; RECORD_WORDS];
    for (word, bytes) in words.iter_mut().zip(record.chunks_exact(WORD_SIZE)) {
        // Every chunk has eight bytes, so the other case never comes.
        *word = u64::from_le_bytes(bytes.try_into().unwrap_or_default());
    }
    words
}

/// Word I of a record, and nothing else of it.
#[inline]
pub(crate) fn word<const I: usize>(record: &Record) -> u64 {
    let bytes = record.get(WORD_SIZE * I..WORD_SIZE * (I + 1)).unwrap_or_default();
    u64::from_le_bytes(bytes.try_into().unwrap_or_default())
}

/// One step through the part `start..end`, which is a stream, a sequence or a struct (0, 1, 2); `annotations` is the
/// most bytes of a value's annotations.
///
/// ```
/// let mut record = [0; ion_map::raw::RECORD_SIZE];
/// assert_eq!(ion_map::raw::step(&[0x21, 0x07], 0, 2, 0, 0, 255, &mut record), 0);
/// assert_eq!(ion_map::raw::words(&record), [2, 0x21, 0, 0, 0, 1, 2, 0, 1]);
/// assert_eq!(ion_map::raw::step(&[0x21, 0x07], 0, 2, 0, 3, 255, &mut record), 50);
/// assert_eq!(ion_map::raw::step(&[0x21, 0x07], 0, 2, 0, 3, 254, &mut record), 68);
/// assert_eq!(ion_map::raw::step(&[0x21, 0x07], 0, 2, 0, 0, 255, &mut record[1..]), 51);
/// ```
#[inline]
pub fn step(
    map: &[u8],
    start: usize,
    end: usize,
    position: usize,
    kind: u64,
    annotations: usize,
    out: &mut [u8],
) -> u64 {
    // SAFETY: a slice's pointer is never null and has as many bytes as the slice, and `out`, being borrowed for
    // writing, overlaps nothing. The function reads within the first, writes within the second and keeps neither.
    unsafe {
        ion_map_step(
            map.as_ptr(),
            map.len(),
            start,
            end,
            position,
            kind,
            annotations,
            out.as_mut_ptr(),
            out.len(),
        )
    }
}

/// One step through the part `start..end` past `most` pads at most.
///
/// ```
/// let mut record = [0; ion_map::raw::RECORD_SIZE];
/// assert_eq!(ion_map::raw::step_bounded(&[0x00, 0x00], 0, 2, 0, 0, 1, 255, &mut record), 0);
/// assert_eq!(ion_map::raw::words(&record), [4, 1, 1, 0, 0, 0, 0, 0, 0]);
/// assert_eq!(ion_map::raw::step_bounded(&[0x00, 0x00], 0, 2, 0, 0, 0, 255, &mut record), 67);
/// ```
#[allow(clippy::too_many_arguments)]
#[inline]
pub fn step_bounded(
    map: &[u8],
    start: usize,
    end: usize,
    position: usize,
    kind: u64,
    most: usize,
    annotations: usize,
    out: &mut [u8],
) -> u64 {
    // SAFETY: as in `step`.
    unsafe {
        ion_map_step_bounded(
            map.as_ptr(),
            map.len(),
            start,
            end,
            position,
            kind,
            most,
            annotations,
            out.as_mut_ptr(),
            out.len(),
        )
    }
}

/// The annotation at `position` of the annotation bytes `start..end`.
///
/// ```
/// let mut record = [0; ion_map::raw::RECORD_SIZE];
/// assert_eq!(ion_map::raw::annotation(&[0xE3, 0x81, 0x84, 0x20], 2, 3, 2, &mut record), 0);
/// assert_eq!(ion_map::raw::words(&record), [5, 0, 2, 4, 0, 0, 3, 0, 0]);
/// ```
#[inline]
pub fn annotation(map: &[u8], start: usize, end: usize, position: usize, out: &mut [u8]) -> u64 {
    // SAFETY: as in `step`.
    unsafe {
        ion_map_annotation(
            map.as_ptr(),
            map.len(),
            start,
            end,
            position,
            out.as_mut_ptr(),
            out.len(),
        )
    }
}

/// The body of the container at `position` of the part `start..end`.
///
/// ```
/// let mut record = [0; ion_map::raw::RECORD_SIZE];
/// assert_eq!(ion_map::raw::step_in(&[0xB1, 0x20], 0, 2, 0, 255, &mut record), 0);
/// assert_eq!(ion_map::raw::words(&record), [6, 1, 0, 0, 0, 1, 2, 0, 1]);
/// ```
#[inline]
pub fn step_in(map: &[u8], start: usize, end: usize, position: usize, annotations: usize, out: &mut [u8]) -> u64 {
    // SAFETY: as in `step`.
    unsafe {
        ion_map_step_in(
            map.as_ptr(),
            map.len(),
            start,
            end,
            position,
            annotations,
            out.as_mut_ptr(),
            out.len(),
        )
    }
}

/// The scalar at `position` of the part `start..end`.
///
/// ```
/// let mut record = [0; ion_map::raw::RECORD_SIZE];
/// assert_eq!(ion_map::raw::scalar(&[0x71, 0x0A], 0, 2, 0, 255, &mut record), 0);
/// assert_eq!(ion_map::raw::words(&record), [7, 0x71, 0, 6, 10, 0, 0, 0, 0]);
/// ```
#[inline]
pub fn scalar(map: &[u8], start: usize, end: usize, position: usize, annotations: usize, out: &mut [u8]) -> u64 {
    // SAFETY: as in `step`.
    unsafe {
        ion_map_scalar(
            map.as_ptr(),
            map.len(),
            start,
            end,
            position,
            annotations,
            out.as_mut_ptr(),
            out.len(),
        )
    }
}

/// What the timestamp at `position` says, and of a null or another type what [`scalar`] answers.
///
/// ```
/// let map = [0x63, 0xC0, 0x0F, 0xD0];
/// let mut record = [0; ion_map::raw::RECORD_SIZE];
/// assert_eq!(ion_map::raw::timestamp(&map, 0, 4, 0, 255, &mut record), 0);
/// assert_eq!(ion_map::raw::words(&record), [11, 1, 0, 0, 2000, 0, 0, 0, 0]);
/// ```
#[inline]
pub fn timestamp(map: &[u8], start: usize, end: usize, position: usize, annotations: usize, out: &mut [u8]) -> u64 {
    // SAFETY: as in `step`.
    unsafe {
        ion_map_timestamp(
            map.as_ptr(),
            map.len(),
            start,
            end,
            position,
            annotations,
            out.as_mut_ptr(),
            out.len(),
        )
    }
}

/// The number at `position` of the part `start..end`: a VarUInt, a VarInt or an Int of `length` bytes (0, 1, 2).
///
/// ```
/// let mut record = [0; ion_map::raw::RECORD_SIZE];
/// assert_eq!(ion_map::raw::number(&[0x0F, 0xD0], 0, 2, 0, 0, 0, &mut record), 0);
/// assert_eq!(ion_map::raw::words(&record), [8, 0, 0, 2000, 0, 2, 2, 0, 0]);
/// ```
#[inline]
pub fn number(map: &[u8], start: usize, end: usize, position: usize, form: u64, length: usize, out: &mut [u8]) -> u64 {
    // SAFETY: as in `step`.
    unsafe {
        ion_map_number(
            map.as_ptr(),
            map.len(),
            start,
            end,
            position,
            form,
            length,
            out.as_mut_ptr(),
            out.len(),
        )
    }
}

/// The decimal whose body is `start..end`.
///
/// ```
/// let mut record = [0; ion_map::raw::RECORD_SIZE];
/// assert_eq!(ion_map::raw::decimal(&[0x52, 0xC1, 0x63], 1, 3, &mut record), 0);
/// assert_eq!(ion_map::raw::words(&record), [10, 0, 1, 99, 1, 3, 3, 1, 0]);
/// ```
#[inline]
pub fn decimal(map: &[u8], start: usize, end: usize, out: &mut [u8]) -> u64 {
    // SAFETY: as in `step`.
    unsafe { ion_map_decimal(map.as_ptr(), map.len(), start, end, out.as_mut_ptr(), out.len()) }
}

/// As many steps as `out` has room for, a record each, up to an end or a refusal. Returns what the last one
/// returned, and how many there are.
///
/// ```
/// let mut records = [[0; ion_map::raw::RECORD_SIZE]; 4];
/// let (refused, count) = ion_map::raw::steps(&[0x20, 0x11], 0, 2, 0, 0, 255, records.as_flattened_mut());
/// assert_eq!((refused, count), (0, 3));
/// assert_eq!(ion_map::raw::words(&records[1]), [2, 0x11, 1, 1, 1, 2, 2, 0, 0]);
/// assert_eq!(ion_map::raw::words(&records[2]), [0, 0, 2, 0, 0, 0, 0, 0, 0]);
/// ```
#[inline]
pub fn steps(
    map: &[u8],
    start: usize,
    end: usize,
    position: usize,
    kind: u64,
    annotations: usize,
    out: &mut [u8],
) -> (u64, u64) {
    let mut count = 0;
    // SAFETY: as in `step`; the count is a variable of this function, which nothing else refers to.
    let refused = unsafe {
        ion_map_steps(
            map.as_ptr(),
            map.len(),
            start,
            end,
            position,
            kind,
            annotations,
            out.as_mut_ptr(),
            out.len(),
            &mut count,
        )
    };
    (refused, count)
}

/// How many markers and values a walk of the whole map meets, at most `most`, by limits of annotations and of depth.
///
/// ```
/// assert_eq!(ion_map::raw::walked(&[0xB1, 0x20], 100, 255, 32), 2);
/// assert_eq!(ion_map::raw::walked(&[0xB1, 0x20], 100, 255, 65), 0);
/// ```
#[inline]
pub fn walked(map: &[u8], most: u64, annotations: usize, depth: usize) -> u64 {
    // SAFETY: a slice's pointer is never null and has as many bytes as the slice; the function only reads them.
    unsafe { ion_map_walked(map.as_ptr(), map.len(), most, annotations, depth) }
}

/// How many field IDs the step at `position` in the struct's body `start..end` began to read; 0 where it is refused
/// with 68 or 50.
///
/// ```
/// assert_eq!(ion_map::raw::ids(&[0x80, 0x00, 0x84, 0x20], 0, 4, 0, 255), 2);
/// assert_eq!(ion_map::raw::ids(&[0x80, 0x00, 0x84, 0x20], 0, 5, 0, 255), 0);
/// ```
#[inline]
pub fn ids(map: &[u8], start: usize, end: usize, position: usize, annotations: usize) -> u64 {
    // SAFETY: as in `walked`.
    unsafe { ion_map_ids(map.as_ptr(), map.len(), start, end, position, annotations) }
}

/// The text of `id` at `place` of the stream `start..end`; `system` is the nine texts of the system, joined.
///
/// ```
/// use ion_map::{raw, SYSTEM_TEXT};
///
/// let mut record = [0; raw::RECORD_SIZE];
/// let map = [0xE7, 0x81, 0x83, 0xD4, 0x87, 0xB2, 0x81, 0x61]; // a symbol table with the text "a"
/// let system = SYSTEM_TEXT.as_bytes();
/// assert_eq!(raw::text(&map, system, 0, 8, 8, 10, 255, &mut record), 0);
/// assert_eq!(raw::words(&record), [13, 1, 0, 0, 0, 7, 8, 10, 1]);
/// assert_eq!(raw::text(&map, system, 0, 8, 8, 4, 255, &mut record), 0);
/// assert_eq!(raw::words(&record), [13, 2, 0, 0, 0, 29, 33, 4, 4]);
/// assert_eq!(raw::text(&map, b"", 0, 8, 8, 4, 255, &mut record), 66);
/// ```
#[allow(clippy::too_many_arguments)] // as many as the function has
#[inline]
pub fn text(
    map: &[u8],
    system: &[u8],
    start: usize,
    end: usize,
    place: usize,
    id: usize,
    annotations: usize,
    out: &mut [u8],
) -> u64 {
    // SAFETY: as in `step`, of two slices that are read.
    unsafe {
        ion_map_text(
            map.as_ptr(),
            map.len(),
            system.as_ptr(),
            system.len(),
            start,
            end,
            place,
            id,
            annotations,
            out.as_mut_ptr(),
            out.len(),
        )
    }
}

/// The list of the symbol table that rules at `place` of the stream `start..end`.
///
/// ```
/// use ion_map::{raw, SYSTEM_TEXT};
///
/// let mut record = [0; raw::RECORD_SIZE];
/// let map = [0xE7, 0x81, 0x83, 0xD4, 0x87, 0xB2, 0x81, 0x61];
/// assert_eq!(raw::symbols(&map, SYSTEM_TEXT.as_bytes(), 0, 8, 8, 255, &mut record), 0);
/// assert_eq!(raw::words(&record), [19, 1, 0, 0, 0, 6, 8, 0, 2]);
/// ```
#[inline]
pub fn symbols(
    map: &[u8],
    system: &[u8],
    start: usize,
    end: usize,
    place: usize,
    annotations: usize,
    out: &mut [u8],
) -> u64 {
    // SAFETY: as in `text`.
    unsafe {
        ion_map_symbols(
            map.as_ptr(),
            map.len(),
            system.as_ptr(),
            system.len(),
            start,
            end,
            place,
            annotations,
            out.as_mut_ptr(),
            out.len(),
        )
    }
}

/// The text of `id` under the symbol table whose list has the body `start..end`.
///
/// ```
/// use ion_map::{raw, SYSTEM_TEXT};
///
/// let mut record = [0; raw::RECORD_SIZE];
/// assert_eq!(raw::symbol_text(&[0x81, 0x61], SYSTEM_TEXT.as_bytes(), 0, 2, 10, 255, &mut record), 0);
/// assert_eq!(raw::words(&record), [13, 1, 0, 0, 0, 1, 2, 10, 1]);
/// ```
#[inline]
pub fn symbol_text(
    map: &[u8],
    system: &[u8],
    start: usize,
    end: usize,
    id: usize,
    annotations: usize,
    out: &mut [u8],
) -> u64 {
    // SAFETY: as in `text`.
    unsafe {
        ion_map_symbol_text(
            map.as_ptr(),
            map.len(),
            system.as_ptr(),
            system.len(),
            start,
            end,
            id,
            annotations,
            out.as_mut_ptr(),
            out.len(),
        )
    }
}

/// The words of a check's record.
pub const CHECK_WORDS: usize = 16;

/// The bytes of a check's record.
pub const CHECK_SIZE: usize = CHECK_WORDS * 8;

/// The check of a whole map: kind 12 and fifteen counts, or a refusal.
///
/// ```
/// let mut record = [0; ion_map::raw::CHECK_SIZE];
/// assert_eq!(ion_map::raw::check(&[0xB1, 0x20], 255, 32, &mut record), 0);
/// assert_eq!((record[0], record[8 * 5], record[8 * 13]), (12, 1, 1));
/// ```
#[inline]
pub fn check(map: &[u8], annotations: usize, depth: usize, out: &mut [u8]) -> u64 {
    // SAFETY: as in `step`.
    unsafe { ion_map_check(map.as_ptr(), map.len(), annotations, depth, out.as_mut_ptr(), out.len()) }
}

/// How many bytes a packed map has: kind 15, or a refusal.
///
/// ```
/// let mut record = [0; ion_map::raw::RECORD_SIZE];
/// assert_eq!(ion_map::raw::packed_size(&[0x2E, 0x81, 0x07, 0x00], 255, 32, &mut record), 0);
/// assert_eq!((record[0], record[8 * 3]), (15, 2));
/// ```
pub fn packed_size(map: &[u8], annotations: usize, depth: usize, out: &mut [u8]) -> u64 {
    // SAFETY: as in `step`.
    unsafe { ion_map_packed_size(map.as_ptr(), map.len(), annotations, depth, out.as_mut_ptr(), out.len()) }
}

/// Packs a map into `packed`: kind 16, or a refusal.
///
/// ```
/// let mut record = [0; ion_map::raw::RECORD_SIZE];
/// let mut packed = [0xAA; 3];
/// assert_eq!(ion_map::raw::pack(&[0x2E, 0x81, 0x07, 0x00], 255, 32, &mut packed, &mut record), 0);
/// assert_eq!((record[0], record[8 * 3], packed), (16, 2, [0x21, 0x07, 0xAA]));
/// ```
pub fn pack(map: &[u8], annotations: usize, depth: usize, packed: &mut [u8], out: &mut [u8]) -> u64 {
    // SAFETY: as in `step`; the two buffers are borrowed for the call alone, so that they overlap nothing.
    unsafe {
        ion_map_pack(
            map.as_ptr(),
            map.len(),
            annotations,
            depth,
            packed.as_mut_ptr(),
            packed.len(),
            out.as_mut_ptr(),
            out.len(),
        )
    }
}
