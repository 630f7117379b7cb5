//! Steps through a part of a map.

use crate::answer::{kind, Answer};
use crate::item::Item;
use crate::limits::Limits;
use crate::part::{Part, PartKind};
use crate::raw;
use crate::refusal::Refusal;
use core::fmt;
use core::iter::FusedIterator;
use core::ops::Range;

/// One step: passes the pads at `position` and hands out the marker, value or field after them, or the end.
///
/// Go on from the end of the item's span. The same step gives the same answer, also after an end or a refusal. A
/// container is handed out whole, and of a value's body and annotations nothing is read.
///
/// ```
/// use ion_map::{step, Item, Part, PartKind};
///
/// let map = [0xD5, 0x84, 0x00, 0x85, 0x21, 0x07]; // a struct with a pad, and the field 5
/// let Item::Field { id, value } = step(&map, Part::new(PartKind::Struct, 1..6), 1)? else { panic!() };
/// assert_eq!((id, value.span(), value.body), (5, 3..6, 5..6));
/// # Ok::<(), ion_map::Refusal>(())
/// ```
pub fn step(map: &[u8], part: Part, position: usize) -> Result<Item, Refusal> {
    step_by(Limits::DEFAULT, map, part, position)
}

pub(crate) fn step_by(limits: Limits, map: &[u8], part: Part, position: usize) -> Result<Item, Refusal> {
    let mut answer = Answer::EMPTY;
    ask_step(&mut answer, limits, map, part, position)?;
    Item::from_answer(&answer)
}

/// Puts the record of a step into `answer`.
#[inline]
pub(crate) fn ask_step(
    answer: &mut Answer,
    limits: Limits,
    map: &[u8],
    part: Part,
    position: usize,
) -> Result<(), Refusal> {
    let Part { kind, start, end } = part;
    answer.ask(|out| raw::step(map, start, end, position, kind.code(), limits.annotations, out))
}

/// The markers, values and fields of a part, in order.
///
/// ```
/// use ion_map::{items, Part, Type};
///
/// let map = [0xE0, 0x01, 0x00, 0xEA, 0xB3, 0x21, 0x07, 0x00];
/// for item in items(&map, Part::stream(&map)) {
///     if let Some(list) = item?.value() {
///         assert_eq!((list.ion_type, list.body.clone()), (Type::List, 5..8));
///     }
/// }
/// # Ok::<(), ion_map::Refusal>(())
/// ```
pub fn items(map: &[u8], part: Part) -> Items<'_> {
    Items::new(Limits::DEFAULT, map, part)
}

/// The iterator that [`items`] gives. It stops at the part's end, or after the first refusal.
#[derive(Clone)]
pub struct Items<'a> {
    limits: Limits,
    map: &'a [u8],
    part: Part,
    position: usize,
    ended: bool,
    /// Room for the record of a step, kept so that it isn't cleared for each.
    answer: Answer,
}

impl<'a> Items<'a> {
    pub(crate) fn new(limits: Limits, map: &'a [u8], part: Part) -> Items<'a> {
        Items {
            limits,
            map,
            part,
            position: part.start,
            ended: false,
            answer: Answer::EMPTY,
        }
    }

    /// The part that is stepped through.
    pub fn part(&self) -> Part {
        self.part
    }

    /// Where the next step begins. After the end it is the end's position, and after a refusal it is where the
    /// refused step began.
    ///
    /// ```
    /// use ion_map::{items, Part};
    ///
    /// let map = [0x20, 0x00, 0x00]; // an int and two pads
    /// let mut items = items(&map, Part::stream(&map));
    /// items.next();
    /// assert_eq!(items.position(), 1);
    /// assert_eq!(items.next(), None);
    /// assert_eq!(items.position(), 3);
    /// ```
    pub fn position(&self) -> usize {
        self.position
    }

    #[inline]
    fn step(&mut self) -> Result<Item, Refusal> {
        ask_step(&mut self.answer, self.limits, self.map, self.part, self.position)?;
        let item = Item::from_answer(&self.answer)?;
        self.position = item.end();
        Ok(item)
    }
}

impl Iterator for Items<'_> {
    type Item = Result<Item, Refusal>;

    #[inline]
    fn next(&mut self) -> Option<Self::Item> {
        if self.ended {
            return None;
        }
        let met = self.step();
        self.ended = matches!(met, Ok(Item::End { .. }) | Err(_));
        match met {
            Ok(Item::End { .. }) => None,
            other => Some(other),
        }
    }
}

impl FusedIterator for Items<'_> {}

impl fmt::Debug for Items<'_> {
    // The record's bytes would say nothing.
    fn fmt(&self, f: &mut fmt::Formatter<'_>) -> fmt::Result {
        f.debug_struct("Items")
            .field("part", &self.part)
            .field("position", &self.position)
            .field("ended", &self.ended)
            .finish_non_exhaustive()
    }
}

/// How many field IDs the step at `position` in a struct's body began to read: one for each pad that it passes, and one
/// more unless it ends there, also where that ID or what follows it is refused. 0 where it is refused with 50.
///
/// ```
/// let map = [0xD5, 0x84, 0x00, 0x85, 0x21, 0x07]; // a struct with a pad, and the field 5
/// assert_eq!(ion_map::ids_begun(&map, 1..6, 1), 2);
/// assert_eq!(ion_map::ids_begun(&map, 1..6, 6), 0);
/// ```
pub fn ids_begun(map: &[u8], body: Range<usize>, position: usize) -> u64 {
    ids_begun_by(Limits::DEFAULT, map, body, position)
}

pub(crate) fn ids_begun_by(limits: Limits, map: &[u8], body: Range<usize>, position: usize) -> u64 {
    raw::ids(map, body.start, body.end, position, limits.annotations)
}

/// A container's body.
#[derive(Clone, Copy, Debug, PartialEq, Eq, Hash)]
pub struct Body {
    /// The container's descriptor's position.
    pub descriptor: usize,
    /// The body, for further steps.
    pub part: Part,
    /// How many bytes the body has.
    pub body_len: usize,
}

/// The body of the container at `position`, its descriptor's or its wrapper's. `part` is the one that handed the
/// container out.
///
/// ```
/// use ion_map::{step_in, Part, PartKind, Refusal};
///
/// let map = [0xE3, 0x81, 0x84, 0xB0]; // an empty list with the annotation 4
/// let body = step_in(&map, Part::stream(&map), 0)?;
/// assert_eq!((body.descriptor, body.part), (3, Part::new(PartKind::Sequence, 4..4)));
///
/// let refusal = step_in(&[0x20], Part::stream(&[0x20]), 0).unwrap_err();
/// assert_eq!(refusal.number, Refusal::NOT_A_CONTAINER);
/// # Ok::<(), Refusal>(())
/// ```
pub fn step_in(map: &[u8], part: Part, position: usize) -> Result<Body, Refusal> {
    step_in_by(Limits::DEFAULT, map, part, position)
}

pub(crate) fn step_in_by(limits: Limits, map: &[u8], part: Part, position: usize) -> Result<Body, Refusal> {
    let answer = Answer::of(|out| raw::step_in(map, part.start, part.end, position, limits.annotations, out))?;
    match (answer.kind(), PartKind::of_code(answer.word::<1>())) {
        (kind::BODY, Some(kind)) => Ok(Body {
            descriptor: answer.at::<2>(),
            part: Part::new(kind, answer.span::<5, 6>()),
            body_len: answer.at::<8>(),
        }),
        _ => Err(Refusal::unknown_answer()),
    }
}
