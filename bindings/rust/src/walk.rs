//! The walk of a whole map.

use crate::answer::{kind, Answer};
use crate::item::Item;
use crate::limits::Limits;
use crate::part::Part;
use crate::raw;
use crate::refusal::Refusal;
use crate::steps::ask_step;
use core::fmt;
use core::iter::FusedIterator;

/// The markers and values of a whole map, each with its depth, a container before what is in it. Scalars aren't read.
///
/// A container at the limit of depth that isn't null is handed out, and refusal 37 follows; the limit is 32 here, and
/// [`Limits`] has others.
///
/// ```
/// use ion_map::{walk, Item};
///
/// let map = [0xE0, 0x01, 0x00, 0xEA, 0xB3, 0x21, 0x07, 0x00];
/// let mut spans = Vec::new();
/// for met in walk(&map) {
///     let (depth, item) = met?;
///     spans.push((depth, item.span()));
/// }
/// assert_eq!(spans, [(0, 0..4), (0, 4..8), (1, 5..7)]);
/// # Ok::<(), ion_map::Refusal>(())
/// ```
pub fn walk(map: &[u8]) -> Walk<'_> {
    Walk::new(Limits::DEFAULT, map)
}

/// How many markers and values [`walk`] hands out before its end or its refusal, at most `most`. It is faster than to
/// count them.
///
/// ```
/// let map = [0xE0, 0x01, 0x00, 0xEA, 0xB3, 0x21, 0x07, 0x00];
/// assert_eq!(ion_map::walked(&map, u64::MAX), 3);
/// assert_eq!(ion_map::walked(&map, 2), 2);
/// ```
pub fn walked(map: &[u8], most: u64) -> u64 {
    walked_by(Limits::DEFAULT, map, most)
}

pub(crate) fn walked_by(limits: Limits, map: &[u8], most: u64) -> u64 {
    raw::walked(map, most, limits.annotations, limits.depth)
}

/// How many parts a walk is in at most: the stream, and a body at each depth.
const PARTS: usize = *Limits::DEPTH.end() + 1;

/// The iterator that [`walk`] gives. It stops at the map's end, or after the first refusal.
#[derive(Clone)]
pub struct Walk<'a> {
    limits: Limits,
    map: &'a [u8],
    /// The parts from the stream down to `depth`.
    parts: [Part; PARTS],
    depth: usize,
    position: usize,
    /// The depth of the last item.
    handed: usize,
    next: Next,
    /// Room for the record of a step, kept so that it isn't cleared for each.
    answer: Answer,
}

/// What the next call does.
#[derive(Clone, Copy, Debug)]
enum Next {
    Step,
    /// Refuses to enter the container with this descriptor, or a limit.
    Refuse(Refusal),
    Nothing,
}

impl<'a> Walk<'a> {
    /// The steps test the limit of annotations, and the walk that of depth.
    pub(crate) fn new(limits: Limits, map: &'a [u8]) -> Walk<'a> {
        let next = match Limits::DEPTH.contains(&limits.depth) {
            true => Next::Step,
            false => Next::Refuse(Refusal {
                number: Refusal::LIMIT_OUT_OF_RANGE,
                position: 0,
            }),
        };
        Walk {
            limits,
            map,
            parts: [Part::stream(map); PARTS],
            depth: 0,
            position: 0,
            handed: 0,
            next,
            answer: Answer::EMPTY,
        }
    }

    /// The part that handed out the last item, which a reading or stepping in asks for; the stream at first.
    ///
    /// ```
    /// use ion_map::{scalar, walk, Part, PartKind, Scalar};
    ///
    /// let map = [0xB1, 0x11];
    /// let mut walk = walk(&map);
    /// walk.next();
    /// assert_eq!(walk.part(), Part::stream(&map));
    /// walk.next();
    /// assert_eq!(walk.part(), Part::new(PartKind::Sequence, 1..2));
    /// assert_eq!(scalar(&map, walk.part(), 1)?, Scalar::Bool(true));
    /// # Ok::<(), ion_map::Refusal>(())
    /// ```
    pub fn part(&self) -> Part {
        self.parts.get(self.handed).copied().unwrap_or(Part::stream(self.map))
    }

    /// Where the next step begins. After the end it is the end's position.
    ///
    /// ```
    /// let mut walk = ion_map::walk(&[0xB1, 0x20, 0x00]);
    /// assert_eq!(walk.by_ref().count(), 2);
    /// assert_eq!(walk.position(), 3);
    /// ```
    pub fn position(&self) -> usize {
        self.position
    }

    #[inline]
    fn step(&mut self) -> Option<Result<(usize, Item), Refusal>> {
        loop {
            let depth = self.depth;
            let part = *self.parts.get(depth)?;
            if let Err(refusal) = ask_step(&mut self.answer, self.limits, self.map, part, self.position) {
                return Some(Err(refusal));
            }
            if self.answer.kind() != kind::END {
                return Some(self.take(depth));
            }
            self.position = part.end;
            if depth == 0 {
                return None;
            }
            // The container ends where its body does.
            self.depth -= 1;
        }
    }

    /// The item that the record is of, at this depth.
    #[inline]
    fn take(&mut self, depth: usize) -> Result<(usize, Item), Refusal> {
        let item = Item::from_answer(&self.answer)?;
        self.handed = depth;
        self.position = item.end();
        if let Some((value, body)) = item.value().and_then(|value| Some((value, value.part()?))) {
            self.enter(value.descriptor(), body);
        }
        Ok((depth, item))
    }

    /// Goes on in the body of the container with this descriptor.
    #[inline]
    fn enter(&mut self, descriptor: usize, body: Part) {
        let below = self.depth + 1;
        match self.parts.get_mut(below) {
            Some(part) if below <= self.limits.depth => {
                *part = body;
                self.depth = below;
                self.position = body.start;
            }
            _ => {
                self.next = Next::Refuse(Refusal {
                    number: Refusal::TOO_DEEP,
                    position: descriptor,
                })
            }
        }
    }
}

impl Iterator for Walk<'_> {
    type Item = Result<(usize, Item), Refusal>;

    #[inline]
    fn next(&mut self) -> Option<Self::Item> {
        let met = match self.next {
            Next::Step => self.step(),
            Next::Refuse(refusal) => Some(Err(refusal)),
            Next::Nothing => None,
        };
        if !matches!(met, Some(Ok(_))) {
            self.next = Next::Nothing;
        }
        met
    }
}

impl FusedIterator for Walk<'_> {}

impl fmt::Debug for Walk<'_> {
    // Of the parts those that the walk is in, and nothing of the record.
    fn fmt(&self, f: &mut fmt::Formatter<'_>) -> fmt::Result {
        f.debug_struct("Walk")
            .field("parts", &self.parts.get(..=self.depth))
            .field("position", &self.position)
            .field("next", &self.next)
            .finish_non_exhaustive()
    }
}
