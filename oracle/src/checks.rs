//! Checks whole maps by the Rust's readers, in the order of the change request A.5: of each value its span, its
//! annotation IDs, then its scalar, the body of a decimal or timestamp included, or what is in it.

use crate::asking::{self, Annotation, Annotations, Asked, Item, Refusal, Rules, Scalar, Spans};
use crate::requests::{self, Steps};
use crate::timestamps::{self, Stamp};

/// How many types there are.
pub const TYPES: usize = 13;

/// What an accepted map holds. The Rust keeps its pads to itself.
#[derive(Clone, Copy, Debug, Default, PartialEq)]
pub struct Counts {
    pub markers: u64,
    /// From null to struct.
    pub types: [u64; TYPES],
}

/// Why a map isn't accepted.
#[derive(Clone, Copy, Debug, PartialEq)]
pub enum Stop {
    Refused(Refusal),
    /// By the ranges of the timestamp whose descriptor stands here: 62 or 63.
    OutOfRange(usize),
    /// The Rust's answer doesn't decide: one of the two readers alone may accept the timestamp whose descriptor stands
    /// here (A.4), or a number is too long for the stand-in integer.
    Open(usize),
}

/// A step that was made and not refused: where from, to which end, by which rules.
#[derive(Clone, Copy, Debug, PartialEq)]
pub struct Stepped {
    pub at: usize,
    pub end: usize,
    pub rules: Rules,
}

struct Check<'a, 'b, F> {
    map: &'b Asked<'a>,
    counts: Counts,
    stepped: F,
}

/// Checks the part as a map, and tells every step to `stepped`.
pub fn check(map: &Asked<'_>, stepped: impl FnMut(Stepped)) -> Result<Counts, Stop> {
    let counts = Counts::default();
    let mut check = Check {
        map,
        counts,
        stepped,
    };
    check.part(map, Rules::Stream, 0)?;
    Ok(check.counts)
}

impl<F: FnMut(Stepped)> Check<'_, '_, F> {
    /// The values of a part in order.
    fn part(&mut self, part: &Asked<'_>, rules: Rules, depth: usize) -> Result<(), Stop> {
        let mut steps = Steps::new(part, rules);
        let (mut at, end) = (part.at(), part.end());
        loop {
            let item = steps.next();
            if let Item::Refused(refusal) = item {
                return Err(Stop::Refused(refusal));
            }
            (self.stepped)(Stepped { at, end, rules });
            match item {
                Item::Marker { end: next, .. } => {
                    self.counts.markers += 1;
                    at = next;
                }
                Item::Value(spans) | Item::Field(_, spans) => {
                    self.value(spans, depth)?;
                    at = spans.end;
                }
                _ => return Ok(()),
            }
        }
    }

    fn value(&mut self, spans: Spans, depth: usize) -> Result<(), Stop> {
        self.ids(spans)?;
        let is_container = self.scalar(spans)?;
        // Both codes of an int are one type.
        let code = (spans.byte >> 4) as usize;
        self.counts.types[if code < 3 { code } else { code - 1 }] += 1;
        if !is_container {
            return Ok(());
        }
        if depth == self.map.limits().depth {
            let refusal = Refusal::own(37, Some(spans.descriptor));
            return Err(Stop::Refused(refusal));
        }
        let rules = match code {
            13 => Rules::Struct,
            _ => Rules::Sequence,
        };
        let body = self.map.sub(spans.body, spans.end);
        self.part(&body, rules, depth + 1)
    }

    /// Every annotation ID is read.
    fn ids(&self, spans: Spans) -> Result<(), Stop> {
        let part = self.map.within(spans.annotations, spans.descriptor);
        let mut ids = Annotations::new(part);
        loop {
            match ids.next() {
                Annotation::Id { .. } => {}
                Annotation::End => return Ok(()),
                Annotation::Refused(refusal) => return Err(Stop::Refused(refusal)),
            }
        }
    }

    /// Reads the value's scalar, and says whether it is a container.
    fn scalar(&self, spans: Spans) -> Result<bool, Stop> {
        let value = self.map.sub(spans.descriptor, spans.end);
        let body = self.map.sub(spans.body, spans.end);
        let reading = asking::scalar(&value, spans.descriptor)
            .map_err(|rust| Stop::Refused(requests::refusal(&value, rust)))?;
        match reading.scalar {
            Scalar::Container => return Ok(true),
            Scalar::LongInt => return Err(Stop::Open(spans.descriptor)),
            Scalar::Part(crate::IonType::Decimal, ..) => {
                asking::decimal(&body).map_err(Stop::Refused)?;
            }
            Scalar::Part(crate::IonType::Timestamp, ..) => stamp(&body, spans.descriptor)?,
            _ => {}
        }
        Ok(false)
    }
}

/// A timestamp that isn't null, by its body.
fn stamp(body: &Asked<'_>, descriptor: usize) -> Result<(), Stop> {
    match timestamps::timestamp(body) {
        // The Rust has no position for an hour alone.
        Err(refusal) if refusal.number == 61 => Err(Stop::Refused(Refusal {
            position: Some(descriptor),
            ..refusal
        })),
        Err(refusal) => Err(Stop::Refused(refusal)),
        Ok(Stamp::Accepted(_)) if !timestamps::only_there(body) => Ok(()),
        Ok(Stamp::Rejected) if !timestamps::only_here(body) => Err(Stop::OutOfRange(descriptor)),
        Ok(_) => Err(Stop::Open(descriptor)),
    }
}
