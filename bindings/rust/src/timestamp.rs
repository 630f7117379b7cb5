//! Timestamps.

use crate::answer::{kind, Answer};
use crate::limits::Limits;
use crate::part::Part;
use crate::raw;
use crate::refusal::Refusal;
use crate::scalar::{self, Scalar};
#[cfg(feature = "alloc")]
use alloc::{format, string::String, string::ToString};

/// How far a timestamp goes. An hour stands with its minute.
#[derive(Clone, Copy, Debug, PartialEq, Eq, PartialOrd, Ord, Hash)]
#[non_exhaustive]
pub enum Precision {
    /// To the year.
    Year,
    /// To the month.
    Month,
    /// To the day.
    Day,
    /// To the minute.
    Minute,
    /// To the second.
    Second,
    /// To a fraction of a second.
    Fraction,
}

/// A timestamp: its fields in UTC, of which those past its precision are 0, and the offset that it was written with.
/// Two are equal where they were written alike, but for leading zeros and an offset that is unknown.
///
/// ```
/// use ion_map::{timestamp, Part, TimestampOr};
///
/// let map = [0x6B, 0x43, 0xA4, 0x0F, 0xD0, 0x81, 0x81, 0x82, 0x80, 0x80, 0xC1, 0x05];
/// let TimestampOr::Timestamp(bake) = timestamp(&map, Part::stream(&map), 0)? else { panic!() };
/// assert_eq!((bake.year, bake.hour, bake.offset), (2000, 2, Some(-420)));
/// # #[cfg(feature = "alloc")]
/// assert_eq!(bake.to_rfc3339().unwrap(), "1999-12-31T19:00:00.5-07:00");
/// # Ok::<(), ion_map::Refusal>(())
/// ```
#[derive(Clone, Copy, Debug, PartialEq, Eq, Hash)]
pub struct Timestamp {
    /// How far it goes.
    pub precision: Precision,
    /// By how many minutes local time is ahead of UTC, -1439 to 1439; nothing where that is unknown.
    pub offset: Option<i16>,
    /// 1 to 9999.
    pub year: u16,
    /// 1 to 12.
    pub month: u8,
    /// 1 to the month's last.
    pub day: u8,
    /// 0 to 23.
    pub hour: u8,
    /// 0 to 59.
    pub minute: u8,
    /// 0 to 59.
    pub second: u8,
    /// The coefficient of the fraction of a second, which is below 1: it is times ten to the exponent.
    pub coefficient: u64,
    /// The exponent, as it was written; of a coefficient of 0 it says nothing.
    pub exponent: i64,
}

/// The most digits behind a second that are written out.
#[cfg(feature = "alloc")]
const MOST_PLACES: u64 = 1000;

#[cfg(feature = "alloc")]
impl Timestamp {
    /// RFC 3339's text, in local time: a date and time where there is a second, a date where a day is the last field. An
    /// unknown offset is `-00:00`. There is no such text of any other precision, of a local year outside 0 to 9999, of a
    /// fraction of more than a thousand digits, and where a field is out of its range, which what [`timestamp`] reads never
    /// is. With the feature `alloc`.
    ///
    /// ```
    /// use ion_map::{Precision, Timestamp};
    ///
    /// let day = Timestamp {
    ///     precision: Precision::Day,
    ///     offset: None,
    ///     year: 2004,
    ///     month: 2,
    ///     day: 29,
    ///     hour: 0,
    ///     minute: 0,
    ///     second: 0,
    ///     coefficient: 0,
    ///     exponent: 0,
    /// };
    /// assert_eq!(day.to_rfc3339().as_deref(), Some("2004-02-29"));
    /// let second = Timestamp { precision: Precision::Second, offset: Some(60), hour: 23, second: 7, ..day };
    /// assert_eq!(second.to_rfc3339().as_deref(), Some("2004-03-01T00:00:07+01:00"));
    /// let unknown = Timestamp { offset: None, ..second };
    /// assert_eq!(unknown.to_rfc3339().as_deref(), Some("2004-02-29T23:00:07-00:00"));
    /// assert_eq!(Timestamp { year: 2003, ..day }.to_rfc3339(), None); // which has no such day
    /// ```
    pub fn to_rfc3339(&self) -> Option<String> {
        if !self.in_range() {
            return None;
        }
        let (year, month, day, minutes) = self.local();
        if !(0..=9999).contains(&year) {
            return None;
        }
        let date = format!("{year:04}-{month:02}-{day:02}");
        match self.precision {
            Precision::Day => Some(date),
            Precision::Second | Precision::Fraction => {
                let (hour, minute, second) = (minutes / 60, minutes % 60, self.second);
                let (digits, offset) = (self.digits()?, self.offset_text());
                Some(format!("{date}T{hour:02}:{minute:02}:{second:02}{digits}{offset}"))
            }
            _ => None,
        }
    }

    /// Whether each field is in its range: anything may have been put into them.
    fn in_range(&self) -> bool {
        (1..=9999).contains(&self.year)
            && (1..=12).contains(&self.month)
            && (1..=days_in(i32::from(self.year), self.month)).contains(&self.day)
            && self.hour < 24
            && self.minute < 60
            && self.second < 60
            && (-1439..=1439).contains(&self.offset.unwrap_or(0))
            && self.below_1()
    }

    /// Whether the fraction is below 1.
    fn below_1(&self) -> bool {
        if self.exponent >= 0 {
            return self.coefficient == 0;
        }
        let places = u32::try_from(self.exponent.unsigned_abs()).ok();
        // From twenty places on any coefficient is.
        let one = places.and_then(|places| 10u64.checked_pow(places));
        one.map_or(true, |one| self.coefficient < one)
    }

    /// Local year, month and day, and the minutes of that day.
    fn local(&self) -> (i32, u8, u8, i32) {
        const DAY: i32 = 24 * 60;
        let minutes = i32::from(self.hour) * 60 + i32::from(self.minute) + i32::from(self.offset.unwrap_or(0));
        let (year, month, day) = (i32::from(self.year), self.month, self.day);
        if minutes < 0 {
            let (year, month, day) = day_before(year, month, day);
            return (year, month, day, minutes + DAY);
        }
        if minutes >= DAY {
            let (year, month, day) = day_after(year, month, day);
            return (year, month, day, minutes - DAY);
        }
        (year, month, day, minutes)
    }

    /// The digits behind the second with their point, and nothing where there are none.
    fn digits(&self) -> Option<String> {
        let places = match self.precision {
            Precision::Fraction if self.exponent < 0 => self.exponent.unsigned_abs(),
            _ => return Some(String::new()),
        };
        if places > MOST_PLACES {
            return None;
        }
        let width = places as usize;
        Some(format!(".{:0width$}", self.coefficient))
    }

    fn offset_text(&self) -> String {
        match self.offset {
            None => "-00:00".to_string(),
            Some(0) => "Z".to_string(),
            Some(offset) => {
                let sign = if offset < 0 { '-' } else { '+' };
                let minutes = offset.unsigned_abs();
                format!("{sign}{:02}:{:02}", minutes / 60, minutes % 60)
            }
        }
    }
}

#[cfg(feature = "alloc")]
fn days_in(year: i32, month: u8) -> u8 {
    match month {
        2 if year % 4 == 0 && (year % 100 != 0 || year % 400 == 0) => 29,
        2 => 28,
        4 | 6 | 9 | 11 => 30,
        _ => 31,
    }
}

#[cfg(feature = "alloc")]
fn day_before(year: i32, month: u8, day: u8) -> (i32, u8, u8) {
    match (month, day) {
        (1, 1) => (year - 1, 12, 31),
        (_, 1) => (year, month - 1, days_in(year, month - 1)),
        _ => (year, month, day - 1),
    }
}

#[cfg(feature = "alloc")]
fn day_after(year: i32, month: u8, day: u8) -> (i32, u8, u8) {
    match (month, day) {
        (12, 31) => (year + 1, 1, 1),
        _ if day == days_in(year, month) => (year, month + 1, 1),
        _ => (year, month, day + 1),
    }
}

/// A value where a timestamp is asked for.
#[derive(Clone, Copy, Debug, PartialEq)]
#[non_exhaustive]
pub enum TimestampOr<'a> {
    /// A timestamp.
    Timestamp(Timestamp),
    /// A null or another type, as [`scalar`](crate::scalar) reads it.
    Scalar(Scalar<'a>),
}

/// Reads the timestamp at `position`, its descriptor's or its wrapper's. `part` is the one that handed it out. A null or
/// a value of another type is read as its scalar.
///
/// ```
/// use ion_map::{timestamp, Part, Refusal, Scalar, TimestampOr, Type};
///
/// let map = [0x6F, 0x11, 0x62, 0x80, 0x80];
/// let stream = Part::stream(&map);
/// assert_eq!(timestamp(&map, stream, 0)?, TimestampOr::Scalar(Scalar::Null(Type::Timestamp)));
/// assert_eq!(timestamp(&map, stream, 1)?, TimestampOr::Scalar(Scalar::Bool(true)));
/// let year_0 = timestamp(&map, stream, 2).unwrap_err();
/// assert_eq!((year_0.number, year_0.position), (Refusal::TIMESTAMP_OUT_OF_RANGE, 2));
/// # Ok::<(), Refusal>(())
/// ```
pub fn timestamp(map: &[u8], part: Part, position: usize) -> Result<TimestampOr<'_>, Refusal> {
    timestamp_by(Limits::DEFAULT, map, part, position)
}

pub(crate) fn timestamp_by(
    limits: Limits,
    map: &[u8],
    part: Part,
    position: usize,
) -> Result<TimestampOr<'_>, Refusal> {
    let answer = Answer::of(|out| raw::timestamp(map, part.start, part.end, position, limits.annotations, out))?;
    match answer.kind() {
        kind::TIMESTAMP => from_answer(&answer).map(TimestampOr::Timestamp),
        kind::SCALAR => scalar::from_answer(map, &answer).map(TimestampOr::Scalar),
        _ => Err(Refusal::unknown_answer()),
    }
}

fn from_answer(answer: &Answer) -> Result<Timestamp, Refusal> {
    let precision = match answer.word::<1>() {
        1 => Precision::Year,
        2 => Precision::Month,
        3 => Precision::Day,
        4 => Precision::Minute,
        5 => Precision::Second,
        6 => Precision::Fraction,
        _ => return Err(Refusal::unknown_answer()),
    };
    let offset = match answer.word::<3>() {
        0 => None,
        word => Some(i16::try_from(word).map_err(|_| Refusal::unknown_answer())? - 1440),
    };
    let fields = answer.word::<4>().to_le_bytes();
    let exponent = i64::try_from(answer.word::<5>()).map_err(|_| Refusal::unknown_answer())?;
    Ok(Timestamp {
        precision,
        offset,
        year: u16::from_le_bytes([fields[0], fields[1]]),
        month: fields[2],
        day: fields[3],
        hour: fields[4],
        minute: fields[5],
        second: fields[6],
        coefficient: answer.word::<7>(),
        exponent: if answer.word::<6>() != 0 { -exponent } else { exponent },
    })
}
