//! Asks the Rust for timestamps, and says which of them one of the two readers alone accepts.

use crate::asking::{self, Asked, Refusal, INT_LIMIT};
use crate::lazy::binary::binary_buffer::BinaryBuffer;
use crate::lazy::binary::raw::sequence::RawBinarySequenceIterator_1_0;
use crate::lazy::raw_value_ref::RawValueRef;
use crate::types::timestamp::{Timestamp, TimestampPrecision};
use crate::IonError;

/// A timestamp as far as both readers show it: fields in UTC, and the fraction by its value.
#[derive(Clone, Copy, Debug, PartialEq)]
pub struct Instant {
    /// 1 year, 2 month, 3 day, 4 minute, 5 second. The Rust shows no fraction without digits.
    pub precision: u64,
    /// Minutes and 1440; 0 where it is unknown.
    pub offset: u64,
    /// Those past the precision are 0.
    pub fields: [u64; 6],
    pub attoseconds: u64,
}

/// The most places of a fraction that the Rust has.
pub const MOST_PLACES: u64 = 18;

/// What the Rust makes of a timestamp whose numbers can all be read.
#[derive(Clone, Copy, Debug, PartialEq)]
pub enum Stamp {
    Accepted(Instant),
    /// It isn't one, by the Rust's ranges.
    Rejected,
    /// A coefficient of more than 15 bytes: the Rust isn't asked.
    Unasked,
}

/// `read` of the timestamp whose body, of two bytes or more, is the part, put behind a descriptor.
/// The Rust counts positions from the body's start.
pub fn timestamp(asked: &Asked<'_>) -> Result<Stamp, Refusal> {
    let body = asked.bytes(asked.at(), asked.end());
    let mut value = asking::head(6, body.len());
    value.extend_from_slice(body);
    let part = BinaryBuffer::new_with_offset(asked.context(), &value, 0);
    if Parts::of(asked).is_ok_and(|parts| parts.coefficient > INT_LIMIT) {
        return Ok(Stamp::Unasked);
    }
    let read = match RawBinarySequenceIterator_1_0::new(part).next() {
        Some(Ok(value)) => value.read(),
        other => unreachable!("the bytes are a timestamp: {other:?}"),
    };
    match read {
        Ok(RawValueRef::Timestamp(timestamp)) => Ok(Stamp::Accepted(instant(&timestamp))),
        Ok(other) => unreachable!("a timestamp is read as one: {other:?}"),
        Err(IonError::IllegalOperation(_)) => Ok(Stamp::Rejected),
        Err(error) => {
            let refusal = Refusal::from(error);
            let position = refusal.position.map(|position| asked.at() + position);
            Err(Refusal {
                position,
                ..refusal
            })
        }
    }
}

fn instant(timestamp: &Timestamp) -> Instant {
    let precision = match timestamp.precision() {
        TimestampPrecision::Year => 1,
        TimestampPrecision::Month => 2,
        TimestampPrecision::Day => 3,
        TimestampPrecision::HourAndMinute => 4,
        TimestampPrecision::Second => 5,
    };
    let utc = timestamp.to_utc();
    let mut fields = [
        utc.year(),
        utc.month(),
        utc.day(),
        utc.hour(),
        utc.minute(),
        utc.second(),
    ]
    .map(u64::from);
    // An hour stands with its minute.
    let count = [1, 2, 3, 5, 6][precision - 1];
    fields[count..].fill(0);
    Instant {
        precision: precision as u64,
        offset: timestamp
            .offset()
            .map_or(0, |minutes| (minutes + 1440) as u64),
        fields,
        attoseconds: timestamp.attoseconds(),
    }
}

// ===== What one of the two alone accepts =====

/// The numbers of a body, by the Rust's own readings.
struct Parts {
    negative: bool,
    offset: u128,
    fields: Vec<u128>,
    /// Of a fraction.
    places: u128,
    /// How many bytes it has.
    coefficient: usize,
}

impl Parts {
    fn of(asked: &Asked<'_>) -> Result<Parts, Refusal> {
        let offset = asking::var_int(asked.part())?;
        let (mut at, mut fields) = (offset.next, Vec::new());
        while fields.len() < 6 && (at < asked.end() || fields.is_empty()) {
            let field = asking::var_uint(asked.within(at, asked.end()))?;
            fields.push(field.magnitude);
            at = field.next;
        }
        let (mut places, mut coefficient) = (0, 0);
        if at < asked.end() {
            let exponent = asking::var_int(asked.within(at, asked.end()))?;
            places = if exponent.negative { exponent.magnitude } else { 0 };
            coefficient = asked.end() - exponent.next;
        }
        Ok(Parts {
            negative: offset.negative,
            offset: offset.magnitude,
            fields,
            places,
            coefficient,
        })
    }

    fn has_hour(&self) -> bool {
        self.fields.len() > 3
    }

    /// The minutes of the local day, before it, or behind it.
    fn local_minutes(&self) -> i128 {
        let offset = self.offset as i128;
        let utc = self.fields[3] as i128 * 60 + self.fields[4] as i128;
        utc + if self.negative { -offset } else { offset }
    }
}

/// Whether the Rust takes this body and we don't, as docs/DIFFERENCES.md says: it narrows a wide
/// number, doesn't test an offset where no hour follows, or takes a UTC year of 0.
pub fn only_there(asked: &Asked<'_>) -> bool {
    Parts::of(asked).is_ok_and(|parts| {
        let is_wide = parts.fields.iter().any(|field| *field > u32::MAX as u128)
            || parts.offset > i32::MAX as u128;
        is_wide || !parts.has_hour() && parts.offset > 1439 || parts.fields[0] == 0
    })
}

/// Whether we take this body and the Rust doesn't, as docs/DIFFERENCES.md says: its fraction has over
/// 18 places, or its local year is outside 1 to 9999.
pub fn only_here(asked: &Asked<'_>) -> bool {
    Parts::of(asked).is_ok_and(|parts| {
        let is_long = parts.places > MOST_PLACES as u128;
        is_long
            || parts.has_hour()
                && match parts.fields[..3] {
                    [1, 1, 1] => parts.local_minutes() < 0,
                    [9999, 12, 31] => parts.local_minutes() >= 24 * 60,
                    _ => false,
                }
    })
}
