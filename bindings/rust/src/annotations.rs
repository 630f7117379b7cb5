//! A value's annotations.

use crate::answer::{kind, Answer};
use crate::raw;
use crate::refusal::Refusal;
use core::iter::FusedIterator;
use core::ops::Range;

/// An annotation: a symbol's ID.
#[derive(Clone, Debug, PartialEq, Eq, Hash)]
pub struct Annotation {
    /// The ID.
    pub id: u64,
    /// Its bytes.
    pub span: Range<usize>,
}

/// The annotation at `position` of a value's annotation bytes, or nothing at their end. Go on from the end of the
/// annotation's span.
///
/// ```
/// use ion_map::annotation;
///
/// let map = [0xE3, 0x81, 0x84, 0x20];
/// assert_eq!(annotation(&map, 2..3, 2)?.map(|a| (a.id, a.span)), Some((4, 2..3)));
/// assert_eq!(annotation(&map, 2..3, 3)?, None);
/// # Ok::<(), ion_map::Refusal>(())
/// ```
pub fn annotation(map: &[u8], annotations: Range<usize>, position: usize) -> Result<Option<Annotation>, Refusal> {
    let answer = Answer::of(|out| raw::annotation(map, annotations.start, annotations.end, position, out))?;
    match answer.kind() {
        kind::END => Ok(None),
        kind::ANNOTATION => Ok(Some(Annotation {
            id: answer.word::<3>(),
            span: answer.span::<2, 6>(),
        })),
        _ => Err(Refusal::unknown_answer()),
    }
}

/// The annotations of a value, in order, from its annotation bytes.
///
/// ```
/// use ion_map::{annotations, step, Part};
///
/// let map = [0xE4, 0x82, 0x84, 0x87, 0x20]; // an int with the annotations 4 and 7
/// let item = step(&map, Part::stream(&map), 0)?;
/// let bytes = item.value().map_or(0..0, |v| v.annotations.clone());
/// let ids: Result<Vec<u64>, _> = annotations(&map, bytes).map(|a| a.map(|a| a.id)).collect();
/// assert_eq!(ids?, [4, 7]);
/// # Ok::<(), ion_map::Refusal>(())
/// ```
pub fn annotations(map: &[u8], annotations: Range<usize>) -> Annotations<'_> {
    Annotations {
        map,
        position: annotations.start,
        annotations,
        ended: false,
    }
}

/// The iterator that [`annotations`] gives. It stops at the annotations' end, or after the first refusal.
#[derive(Clone, Debug)]
pub struct Annotations<'a> {
    map: &'a [u8],
    annotations: Range<usize>,
    position: usize,
    ended: bool,
}

impl Iterator for Annotations<'_> {
    type Item = Result<Annotation, Refusal>;

    fn next(&mut self) -> Option<Self::Item> {
        if self.ended {
            return None;
        }
        let read = annotation(self.map, self.annotations.clone(), self.position).transpose();
        match &read {
            Some(Ok(annotation)) => self.position = annotation.span.end,
            _ => self.ended = true,
        }
        read
    }
}

impl FusedIterator for Annotations<'_> {}
