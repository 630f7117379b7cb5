//! Scalars.

use crate::answer::{bytes, kind, Answer};
use crate::item::Type;
use crate::limits::Limits;
use crate::part::Part;
use crate::raw;
use crate::refusal::Refusal;
use core::str;

/// What a value is. Parts are the map's own bytes.
#[derive(Clone, Copy, Debug, PartialEq)]
#[non_exhaustive]
pub enum Scalar<'a> {
    /// A null of this type.
    Null(Type),
    /// A bool.
    Bool(bool),
    /// An int.
    Int {
        /// Whether it is below zero.
        negative: bool,
        /// Its magnitude, most significant byte first, without leading zero bytes: zero has none.
        magnitude: &'a [u8],
    },
    /// A float, also where the map has 32 bits of it or none.
    Float(f64),
    /// A decimal's body, which [`decimal`](crate::decimal) splits.
    Decimal(&'a [u8]),
    /// A timestamp's body; [`timestamp`](crate::timestamp) reads it.
    Timestamp(&'a [u8]),
    /// A symbol's ID.
    Symbol(u64),
    /// A string's text.
    String(&'a str),
    /// A clob's bytes.
    Clob(&'a [u8]),
    /// A blob's bytes.
    Blob(&'a [u8]),
    /// No scalar but a container of this type that isn't null: step in.
    Container(Type),
}

impl<'a> Scalar<'a> {
    /// A string's text; nothing of any other type.
    ///
    /// ```
    /// use ion_map::{scalar, Part};
    ///
    /// let map = [0x82, 0x68, 0x69, 0x71, 0x0A]; // the string "hi", and the symbol 10
    /// assert_eq!(scalar(&map, Part::stream(&map), 0)?.as_str(), Some("hi"));
    /// assert_eq!(scalar(&map, Part::stream(&map), 3)?.as_str(), None);
    /// # Ok::<(), ion_map::Refusal>(())
    /// ```
    pub fn as_str(&self) -> Option<&'a str> {
        match self {
            Scalar::String(text) => Some(text),
            _ => None,
        }
    }

    /// Which bool it is; nothing of any other type.
    pub fn as_bool(&self) -> Option<bool> {
        match self {
            Scalar::Bool(is) => Some(*is),
            _ => None,
        }
    }

    /// A float's value; nothing of any other type, ints and decimals included.
    pub fn as_f64(&self) -> Option<f64> {
        match self {
            Scalar::Float(number) => Some(*number),
            _ => None,
        }
    }

    /// An int's value, where it fits; nothing of any other type.
    ///
    /// ```
    /// use ion_map::{scalar, Part};
    ///
    /// let map = [0x38, 0x80, 0, 0, 0, 0, 0, 0, 0, 0x28, 0x80, 0, 0, 0, 0, 0, 0, 0]; // -2^63 and 2^63
    /// assert_eq!(scalar(&map, Part::stream(&map), 0)?.as_i64(), Some(i64::MIN));
    /// assert_eq!(scalar(&map, Part::stream(&map), 9)?.as_i64(), None);
    /// # Ok::<(), ion_map::Refusal>(())
    /// ```
    pub fn as_i64(&self) -> Option<i64> {
        self.to_i128().and_then(|number| i64::try_from(number).ok())
    }

    /// An int's value, where it has room.
    ///
    /// ```
    /// use ion_map::{scalar, Part};
    ///
    /// let map = [0x32, 0x01, 0x00];
    /// assert_eq!(scalar(&map, Part::stream(&map), 0)?.to_i128(), Some(-256));
    /// # Ok::<(), ion_map::Refusal>(())
    /// ```
    pub fn to_i128(&self) -> Option<i128> {
        match self {
            Scalar::Int { negative, magnitude } => signed(*negative, big_endian(0, magnitude)?),
            _ => None,
        }
    }
}

/// The number that `first` and the bytes after it are, where it has room.
pub(crate) fn big_endian(first: u8, rest: &[u8]) -> Option<u128> {
    rest.iter().try_fold(u128::from(first), |number, byte| {
        let shifted = number.checked_mul(256)?;
        Some(shifted | u128::from(*byte))
    })
}

pub(crate) fn signed(negative: bool, magnitude: u128) -> Option<i128> {
    if negative {
        0i128.checked_sub_unsigned(magnitude)
    } else {
        i128::try_from(magnitude).ok()
    }
}

/// Reads the scalar at `position`, its descriptor's or its wrapper's. `part` is the one that handed it out.
///
/// ```
/// use ion_map::{scalar, Part, Refusal, Scalar, Type};
///
/// let map = [0x83, 0xE2, 0x82, 0xAC, 0x8F, 0x12];
/// let stream = Part::stream(&map);
/// assert_eq!(scalar(&map, stream, 0)?, Scalar::String("€"));
/// assert_eq!(scalar(&map, stream, 4)?, Scalar::Null(Type::String));
/// assert_eq!(scalar(&map, stream, 5).unwrap_err().number, Refusal::BAD_BOOL);
/// # Ok::<(), Refusal>(())
/// ```
pub fn scalar(map: &[u8], part: Part, position: usize) -> Result<Scalar<'_>, Refusal> {
    scalar_by(Limits::DEFAULT, map, part, position)
}

pub(crate) fn scalar_by(limits: Limits, map: &[u8], part: Part, position: usize) -> Result<Scalar<'_>, Refusal> {
    let answer = Answer::of(|out| raw::scalar(map, part.start, part.end, position, limits.annotations, out))?;
    match answer.kind() {
        kind::SCALAR => from_answer(map, &answer),
        _ => Err(Refusal::unknown_answer()),
    }
}

pub(crate) fn from_answer<'a>(map: &'a [u8], answer: &Answer) -> Result<Scalar<'a>, Refusal> {
    let ion_type = Type::of_byte(answer.byte::<1>()?).ok_or(Refusal::unknown_answer())?;
    let number = answer.word::<4>();
    let part = bytes(map, answer.span::<5, 6>())?;
    match answer.word::<3>() {
        0 => Ok(Scalar::Null(ion_type)),
        1 => Ok(Scalar::Bool(number != 0)),
        2 => Ok(Scalar::Int {
            negative: number != 0,
            magnitude: part,
        }),
        3 => Ok(Scalar::Float(f64::from_bits(number))),
        4 => Ok(Scalar::Decimal(part)),
        5 => Ok(Scalar::Timestamp(part)),
        6 => Ok(Scalar::Symbol(number)),
        7 => text(part, answer.at::<2>()).map(Scalar::String),
        8 => Ok(Scalar::Clob(part)),
        9 => Ok(Scalar::Blob(part)),
        10 => Ok(Scalar::Container(ion_type)),
        _ => Err(Refusal::unknown_answer()),
    }
}

/// The text, which the library has found to be UTF-8 already. Asking again costs little beside unsafe code that
/// relies on it, and were it not UTF-8 the answer would be the library's own.
fn text(part: &[u8], descriptor: usize) -> Result<&str, Refusal> {
    str::from_utf8(part).map_err(|_| Refusal {
        number: Refusal::BAD_UTF8,
        position: descriptor,
    })
}
