//! The check of a whole map.

use crate::answer::kind;
use crate::limits::Limits;
use crate::raw;
use crate::refusal::Refusal;

/// What a map holds, at every depth: nulls count under their type.
#[derive(Clone, Copy, Debug, Default, PartialEq, Eq, Hash)]
pub struct Counts {
    /// Version markers.
    pub markers: u64,
    /// Pads, one each, also where nothing follows them.
    pub pads: u64,
    /// Nulls of type null.
    pub nulls: u64,
    /// Bools.
    pub bools: u64,
    /// Ints of both signs.
    pub ints: u64,
    /// Floats.
    pub floats: u64,
    /// Decimals.
    pub decimals: u64,
    /// Timestamps.
    pub timestamps: u64,
    /// Symbols.
    pub symbols: u64,
    /// Strings.
    pub strings: u64,
    /// Clobs.
    pub clobs: u64,
    /// Blobs.
    pub blobs: u64,
    /// Lists.
    pub lists: u64,
    /// Sexps.
    pub sexps: u64,
    /// Structs.
    pub structs: u64,
}

impl Counts {
    /// How many values there are; of counts that no map has, and that are together 2^64 or more, `u64::MAX`.
    pub fn values(&self) -> u64 {
        let scalars = [
            self.nulls,
            self.bools,
            self.ints,
            self.floats,
            self.decimals,
            self.timestamps,
        ];
        let texts = [self.symbols, self.strings, self.clobs, self.blobs];
        let containers = [self.lists, self.sexps, self.structs];
        let all = scalars.iter().chain(&texts).chain(&containers);
        all.fold(0, |values: u64, count| values.saturating_add(*count))
    }
}

/// Checks a whole map before anything is made of it: every value's span, then each of its annotation IDs, then its
/// scalar, a decimal's and a timestamp's body included, or what is in it. Where it is accepted, no step, stepping in,
/// annotation, scalar, timestamp or decimal of what is in the map is refused. Texts of symbols may be: what a symbol table
/// says is not looked at.
///
/// ```
/// use ion_map::{check, symbol_text, Refusal};
///
/// let counts = check(&[0xE0, 0x01, 0x00, 0xEA, 0xB3, 0x21, 0x07, 0x00])?;
/// assert_eq!((counts.markers, counts.lists, counts.ints, counts.pads), (1, 1, 1, 1));
/// assert_eq!(check(&[0x12]).unwrap_err().number, Refusal::BAD_BOOL);
///
/// let map = [0xE5, 0x81, 0x83, 0xD2, 0x86, 0x20, 0x71, 0x0A]; // a symbol table with imports, and the symbol 10
/// assert_eq!(check(&map)?.symbols, 1);
/// assert_eq!(symbol_text(&map, 6, 10).unwrap_err().number, Refusal::HAS_IMPORTS);
/// # Ok::<(), Refusal>(())
/// ```
pub fn check(map: &[u8]) -> Result<Counts, Refusal> {
    check_by(Limits::DEFAULT, map)
}

pub(crate) fn check_by(limits: Limits, map: &[u8]) -> Result<Counts, Refusal> {
    let mut record = [0; raw::CHECK_SIZE];
    raw::check(map, limits.annotations, limits.depth, &mut record);
    let mut words = [0; raw::CHECK_WORDS];
    for (word, bytes) in words.iter_mut().zip(record.chunks_exact(8)) {
        *word = u64::from_le_bytes(bytes.try_into().map_err(|_| Refusal::unknown_answer())?);
    }
    let [is, markers, pads, nulls, bools, ints, floats, decimals, timestamps, symbols, strings, clobs, blobs, lists, sexps, structs] =
        words;
    if is == kind::REFUSED {
        return Err(Refusal {
            number: markers,
            position: usize::try_from(pads).map_err(|_| Refusal::unknown_answer())?,
        });
    }
    if is != kind::CHECKED {
        return Err(Refusal::unknown_answer());
    }
    Ok(Counts {
        markers,
        pads,
        nulls,
        bools,
        ints,
        floats,
        decimals,
        timestamps,
        symbols,
        strings,
        clobs,
        blobs,
        lists,
        sexps,
        structs,
    })
}
