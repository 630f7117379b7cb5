//! The limits of a title.

use crate::bounded::{self, Bounded, BoundedItems};
use crate::check::{self, Counts};
use crate::item::Item;
use crate::packed;
use crate::part::Part;
use crate::refusal::Refusal;
use crate::scalar::{self, Scalar};
use crate::steps::{self, Body, Items};
use crate::symbols::{self, Symbols};
use crate::timestamp::{self, TimestampOr};
use crate::walk::{self, Walk};
use core::ops::{Range, RangeInclusive};

/// What a title's maps may have. The functions of this crate read by the usual limits, [`Limits::DEFAULT`]; a title
/// that sets others calls those that take limits as methods here.
///
/// Any numbers may be put in: with one out of its range every reading is refused with 68, and [`walked`](Self::walked)
/// and [`ids_begun`](Self::ids_begun) are 0.
///
/// ```
/// use ion_map::{Limits, Part, Refusal};
///
/// let mut map = vec![0xEE, 0x02, 0x83, 0x02, 0x80]; // 256 bytes of annotations, and the int 0
/// map.extend([0x84; 256]);
/// map.push(0x20);
/// let stream = Part::stream(&map);
/// assert_eq!(ion_map::step(&map, stream, 0).unwrap_err().number, Refusal::TOO_MANY_ANNOTATIONS);
///
/// let limits = Limits { annotations: 300, ..Limits::default() };
/// assert_eq!(limits.step(&map, stream, 0)?.span(), 0..262);
///
/// let none = Limits { annotations: 254, ..limits };
/// assert_eq!(none.step(&map, stream, 0).unwrap_err().number, Refusal::LIMIT_OUT_OF_RANGE);
/// # Ok::<(), Refusal>(())
/// ```
#[derive(Clone, Copy, Debug, PartialEq, Eq, Hash)]
pub struct Limits {
    /// The most bytes that a value's annotations may have.
    pub annotations: usize,
    /// How deep a walk goes. The stream is depth 0; a container at this depth is handed out and not entered.
    pub depth: usize,
}

impl Limits {
    /// The usual limits. That of annotations is ion-rust's too, which has none of depth.
    pub const DEFAULT: Limits = Limits {
        annotations: 255,
        depth: 32,
    };

    /// What may be asked for of annotations.
    pub const ANNOTATIONS: RangeInclusive<usize> = 255..=65535;

    /// What may be asked for of depth.
    pub const DEPTH: RangeInclusive<usize> = 1..=64;

    /// [`step`](crate::step) by these limits.
    pub fn step(self, map: &[u8], part: Part, position: usize) -> Result<Item, Refusal> {
        steps::step_by(self, map, part, position)
    }

    /// [`items`](crate::items) by these limits.
    pub fn items(self, map: &[u8], part: Part) -> Items<'_> {
        Items::new(self, map, part)
    }

    /// [`step_bounded`](crate::step_bounded) by these limits.
    pub fn step_bounded(self, map: &[u8], part: Part, position: usize, most: usize) -> Result<Bounded, Refusal> {
        bounded::step_bounded_by(self, map, part, position, most)
    }

    /// [`items_bounded`](crate::items_bounded) by these limits.
    pub fn items_bounded(self, map: &[u8], part: Part, most: usize) -> BoundedItems<'_> {
        BoundedItems::new(self, map, part, most)
    }

    /// [`ids_begun`](crate::ids_begun) by these limits; 0 where that of annotations is out of its range.
    pub fn ids_begun(self, map: &[u8], body: Range<usize>, position: usize) -> u64 {
        steps::ids_begun_by(self, map, body, position)
    }

    /// [`step_in`](crate::step_in) by these limits.
    pub fn step_in(self, map: &[u8], part: Part, position: usize) -> Result<Body, Refusal> {
        steps::step_in_by(self, map, part, position)
    }

    /// [`scalar`](crate::scalar) by these limits.
    pub fn scalar(self, map: &[u8], part: Part, position: usize) -> Result<Scalar<'_>, Refusal> {
        scalar::scalar_by(self, map, part, position)
    }

    /// [`timestamp`](crate::timestamp) by these limits.
    pub fn timestamp(self, map: &[u8], part: Part, position: usize) -> Result<TimestampOr<'_>, Refusal> {
        timestamp::timestamp_by(self, map, part, position)
    }

    /// [`walk`](crate::walk) by these limits.
    ///
    /// ```
    /// use ion_map::{Limits, Refusal};
    ///
    /// let map = [0xB2, 0xB1, 0xB0]; // a list in a list in a list
    /// let limits = Limits { depth: 1, ..Limits::default() };
    /// let mut walk = limits.walk(&map);
    /// assert_eq!(walk.next().unwrap()?.0, 0);
    /// assert_eq!(walk.next().unwrap()?.0, 1);
    /// assert_eq!(walk.next().unwrap().unwrap_err().number, Refusal::TOO_DEEP);
    /// # Ok::<(), Refusal>(())
    /// ```
    pub fn walk(self, map: &[u8]) -> Walk<'_> {
        Walk::new(self, map)
    }

    /// [`Symbols::at`] by these limits.
    pub fn symbols(self, map: &[u8], place: usize) -> Result<Symbols<'_>, Refusal> {
        Symbols::at_by(self, map, place)
    }

    /// [`symbol_text`](crate::symbol_text) by these limits.
    pub fn symbol_text(self, map: &[u8], place: usize, id: u64) -> Result<Option<&str>, Refusal> {
        symbols::symbol_text_by(self, map, place, id)
    }

    /// [`check`](crate::check) by these limits.
    pub fn check(self, map: &[u8]) -> Result<Counts, Refusal> {
        check::check_by(self, map)
    }

    /// [`packed_size`](crate::packed_size) by these limits.
    pub fn packed_size(self, map: &[u8]) -> Result<usize, Refusal> {
        packed::packed_size_by(self, map)
    }

    /// [`pack`](crate::pack) by these limits. With the feature `alloc`.
    #[cfg(feature = "alloc")]
    pub fn pack(self, map: &[u8]) -> Result<alloc::vec::Vec<u8>, Refusal> {
        packed::pack_by(self, map)
    }

    /// [`pack_into`](crate::pack_into) by these limits.
    pub fn pack_into(self, map: &[u8], packed: &mut [u8]) -> Result<usize, Refusal> {
        packed::pack_into_by(self, map, packed)
    }

    /// [`walked`](crate::walked) by these limits; 0 where one is out of its range.
    pub fn walked(self, map: &[u8], most: u64) -> u64 {
        walk::walked_by(self, map, most)
    }
}

impl Default for Limits {
    fn default() -> Limits {
        Limits::DEFAULT
    }
}
