//! Parts of a map.

use core::ops::Range;

/// What a part of a map is, which says how it is stepped through.
#[derive(Clone, Copy, Debug, PartialEq, Eq, Hash)]
#[non_exhaustive]
pub enum PartKind {
    /// The whole map, or a part taken as one: markers and values.
    Stream,
    /// The body of a list or a sexp: values.
    Sequence,
    /// The body of a struct: values, each after its field ID.
    Struct,
}

impl PartKind {
    #[inline]
    pub(crate) fn code(self) -> u64 {
        match self {
            PartKind::Stream => 0,
            PartKind::Sequence => 1,
            PartKind::Struct => 2,
        }
    }

    pub(crate) fn of_code(code: u64) -> Option<PartKind> {
        match code {
            0 => Some(PartKind::Stream),
            1 => Some(PartKind::Sequence),
            2 => Some(PartKind::Struct),
            _ => None,
        }
    }
}

/// A part of a map: its span, and what it is. Any numbers may be put in; a function that gets a part outside its
/// map refuses with 50.
///
/// ```
/// use ion_map::{Part, PartKind};
///
/// let map = [0xB1, 0x20];
/// assert_eq!(Part::stream(&map), Part::new(PartKind::Stream, 0..2));
/// assert_eq!(Part::new(PartKind::Sequence, 1..2).span(), 1..2);
/// ```
#[derive(Clone, Copy, Debug, PartialEq, Eq, Hash)]
pub struct Part {
    /// What it is.
    pub kind: PartKind,
    /// Its first byte.
    pub start: usize,
    /// Where it ends.
    pub end: usize,
}

impl Part {
    /// The part of this kind and span.
    #[inline]
    pub fn new(kind: PartKind, span: Range<usize>) -> Part {
        Part {
            kind,
            start: span.start,
            end: span.end,
        }
    }

    /// The whole map as a stream.
    #[inline]
    pub fn stream(map: &[u8]) -> Part {
        Part::new(PartKind::Stream, 0..map.len())
    }

    /// Its span.
    pub fn span(&self) -> Range<usize> {
        self.start..self.end
    }
}
