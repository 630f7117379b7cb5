//! Decimals.

use crate::answer::{bytes, kind, Answer};
#[cfg(feature = "alloc")]
use crate::digits;
use crate::raw;
use crate::refusal::Refusal;
use crate::scalar::{big_endian, signed};
#[cfg(feature = "alloc")]
use core::fmt;
use core::ops::Range;

/// A decimal: its coefficient times ten to its exponent. Two are equal where they were written alike: `10d0` and `1d1`
/// aren't.
///
/// ```
/// let map = [0x53, 0xC2, 0x01, 0x2C];
/// let price = ion_map::decimal(&map, 1..4)?;
/// # #[cfg(feature = "alloc")]
/// assert_eq!(price.to_string(), "300d-2");
/// assert_eq!(price.to_i64_and_scale(), Some((300, 2)));
/// # Ok::<(), ion_map::Refusal>(())
/// ```
#[derive(Clone, Copy, Debug, PartialEq, Eq, Hash)]
pub struct Decimal<'a> {
    /// Whether the coefficient's sign is negative, also of a negative zero.
    pub negative: bool,
    /// The low seven bits of the coefficient's first byte: the most significant part of its magnitude.
    pub first: u8,
    /// The magnitude's further bytes, the map's own.
    pub rest: &'a [u8],
    /// The exponent.
    pub exponent: i64,
}

impl Decimal<'_> {
    /// The coefficient and how many of its digits stand behind the point, where the coefficient has room. Nothing is
    /// rounded; negative zero is zero here.
    ///
    /// ```
    /// assert_eq!(ion_map::decimal(&[0xC1, 0x83], 0..2)?.to_i64_and_scale(), Some((-3, 1)));
    /// assert_eq!(ion_map::decimal(&[0x82, 0x83], 0..2)?.to_i64_and_scale(), Some((-3, -2)));
    /// # Ok::<(), ion_map::Refusal>(())
    /// ```
    pub fn to_i64_and_scale(&self) -> Option<(i64, i64)> {
        let coefficient = signed(self.negative, big_endian(self.first, self.rest)?)?;
        Some((i64::try_from(coefficient).ok()?, self.exponent.checked_neg()?))
    }
}

/// As Ion's text has it, by coefficient and exponent: `99d-1`, and `-0d0` for negative zero. With the feature `alloc`.
///
/// All digits of the coefficient are written, however many they are. That takes time that grows with the coefficient's length
/// to the power 1.6, and seven bytes of memory for each of its bytes: one of 80 KB has 190,000 digits and takes a tenth
/// of a second. A map from anybody may hold such a one, and `rest` says how long it is.
#[cfg(feature = "alloc")]
impl fmt::Display for Decimal<'_> {
    fn fmt(&self, f: &mut fmt::Formatter<'_>) -> fmt::Result {
        if self.negative {
            f.write_str("-")?;
        }
        let groups = digits::groups(self.first, self.rest);
        let mut from_the_top = groups.iter().rev().skip_while(|group| **group == 0);
        write!(f, "{}", from_the_top.next().unwrap_or(&0))?;
        for group in from_the_top {
            write!(f, "{group:09}")?;
        }
        write!(f, "d{}", self.exponent)
    }
}

/// Splits the decimal whose body this is: a value's `body`, or all of the bytes in [`Scalar::Decimal`](crate::Scalar).
///
/// ```
/// use ion_map::{decimal, Refusal};
///
/// let negative_zero = decimal(&[0x80, 0x80], 0..2)?;
/// assert_eq!((negative_zero.negative, negative_zero.to_i64_and_scale()), (true, Some((0, 0))));
/// assert_eq!(decimal(&[], 0..0)?.to_i64_and_scale(), Some((0, 0)));
/// assert_eq!(decimal(&[0x01], 0..1).unwrap_err().number, Refusal::VAR_INT_CUT);
/// # Ok::<(), Refusal>(())
/// ```
pub fn decimal(map: &[u8], body: Range<usize>) -> Result<Decimal<'_>, Refusal> {
    let answer = Answer::of(|out| raw::decimal(map, body.start, body.end, out))?;
    if answer.kind() != kind::DECIMAL {
        return Err(Refusal::unknown_answer());
    }
    let exponent = signed(answer.word::<4>() != 0, u128::from(answer.word::<7>()));
    Ok(Decimal {
        negative: answer.word::<1>() != 0,
        first: answer.byte::<3>()?,
        rest: bytes(map, answer.span::<5, 6>())?,
        exponent: exponent
            .and_then(|exponent| i64::try_from(exponent).ok())
            .ok_or(Refusal::unknown_answer())?,
    })
}
