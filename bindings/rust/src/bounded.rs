//! Steps that come back behind a largest number of pads.

use crate::answer::{kind, Answer};
use crate::item::Item;
use crate::limits::Limits;
use crate::part::Part;
use crate::raw;
use crate::refusal::Refusal;
use core::iter::FusedIterator;

/// What a bounded step answers.
#[derive(Clone, Debug, PartialEq, Eq, Hash)]
#[non_exhaustive]
pub enum Bounded {
    /// What [`step`](crate::step) answers: an item, or the end.
    Reached(Item),
    /// As many pads were passed as may be, and another pad's descriptor comes next.
    More {
        /// How many pads were passed: the largest number that was given.
        pads: usize,
        /// Where to go on: after the last pad passed, in a struct before the next field ID.
        position: usize,
    },
}

impl Bounded {
    /// Where the next step begins.
    pub fn position(&self) -> usize {
        match self {
            Bounded::Reached(item) => item.span().end,
            Bounded::More { position, .. } => *position,
        }
    }
}

/// One step past `most` pads at most, so that it comes back soon also where a map holds nothing but pads.
///
/// Go on from [`Bounded::position`]: repeated, it reaches the item, the end or the refusal that [`step`](crate::step)
/// gives. Refusal 67 where `most` is 0.
///
/// ```
/// use ion_map::{step_bounded, Bounded, Item, Part};
///
/// let map = [0x00, 0x00, 0x00, 0x11]; // three pads and the bool true
/// let stream = Part::stream(&map);
/// let met = step_bounded(&map, stream, 0, 2)?;
/// assert_eq!(met, Bounded::More { pads: 2, position: 2 });
/// let Bounded::Reached(Item::Value(value)) = step_bounded(&map, stream, met.position(), 2)? else { panic!() };
/// assert_eq!(value.span(), 3..4);
/// # Ok::<(), ion_map::Refusal>(())
/// ```
pub fn step_bounded(map: &[u8], part: Part, position: usize, most: usize) -> Result<Bounded, Refusal> {
    step_bounded_by(Limits::DEFAULT, map, part, position, most)
}

pub(crate) fn step_bounded_by(
    limits: Limits,
    map: &[u8],
    part: Part,
    position: usize,
    most: usize,
) -> Result<Bounded, Refusal> {
    let Part { kind, start, end } = part;
    let limit = limits.annotations;
    let answer = Answer::of(|out| raw::step_bounded(map, start, end, position, kind.code(), most, limit, out))?;
    match answer.kind() {
        kind::MORE => Ok(Bounded::More {
            pads: answer.at::<1>(),
            position: answer.at::<2>(),
        }),
        _ => Item::from_answer(&answer).map(Bounded::Reached),
    }
}

/// The markers, values and fields of a part, in order, by bounded steps: between two items it yields to its caller with
/// [`Bounded::More`] each time that it has passed `most` pads and another comes.
///
/// ```
/// use ion_map::{items_bounded, Bounded, Part};
///
/// let map = [0x11, 0x00, 0x00, 0x00, 0x20]; // a bool, three pads, an int
/// let (mut items, mut pauses) = (0, 0);
/// for met in items_bounded(&map, Part::stream(&map), 1) {
///     match met? {
///         Bounded::Reached(_) => items += 1,
///         _ => pauses += 1, // time for something else
///     }
/// }
/// assert_eq!((items, pauses), (2, 2));
/// # Ok::<(), ion_map::Refusal>(())
/// ```
pub fn items_bounded(map: &[u8], part: Part, most: usize) -> BoundedItems<'_> {
    BoundedItems::new(Limits::DEFAULT, map, part, most)
}

/// The iterator that [`items_bounded`] gives. It stops at the part's end, or after the first refusal.
#[derive(Clone, Debug)]
pub struct BoundedItems<'a> {
    limits: Limits,
    map: &'a [u8],
    part: Part,
    position: usize,
    most: usize,
    ended: bool,
}

impl<'a> BoundedItems<'a> {
    pub(crate) fn new(limits: Limits, map: &'a [u8], part: Part, most: usize) -> BoundedItems<'a> {
        BoundedItems {
            limits,
            map,
            part,
            position: part.start,
            most,
            ended: false,
        }
    }

    /// The part that is stepped through.
    pub fn part(&self) -> Part {
        self.part
    }

    /// Where the next step begins. After the end it is the end's position, and after a refusal it is where the refused
    /// step began, which may be behind pads that steps before it passed.
    pub fn position(&self) -> usize {
        self.position
    }
}

impl Iterator for BoundedItems<'_> {
    type Item = Result<Bounded, Refusal>;

    fn next(&mut self) -> Option<Self::Item> {
        if self.ended {
            return None;
        }
        let met = step_bounded_by(self.limits, self.map, self.part, self.position, self.most);
        if let Ok(bounded) = &met {
            self.position = bounded.position();
        }
        self.ended = matches!(met, Ok(Bounded::Reached(Item::End { .. })) | Err(_));
        match met {
            Ok(Bounded::Reached(Item::End { .. })) => None,
            other => Some(other),
        }
    }
}

impl FusedIterator for BoundedItems<'_> {}
