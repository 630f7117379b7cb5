//! The numbers of which a map is made: VarUInt, VarInt and Int.

use crate::answer::{bytes, kind, Answer};
use crate::raw;
use crate::refusal::Refusal;
use crate::scalar::{big_endian, signed};
use core::ops::Range;

const VAR_UINT: u64 = 0;
const VAR_INT: u64 = 1;
const INT: u64 = 2;

/// A VarUInt: seven bits a byte, most significant first.
#[derive(Clone, Debug, PartialEq, Eq, Hash)]
pub struct VarUInt {
    /// Its value.
    pub value: u64,
    /// Its bytes.
    pub span: Range<usize>,
}

/// A VarInt: a VarUInt with a sign.
#[derive(Clone, Debug, PartialEq, Eq, Hash)]
pub struct VarInt {
    /// Whether its sign is negative, also of a negative zero.
    pub negative: bool,
    /// Its magnitude.
    pub magnitude: u64,
    /// Its bytes.
    pub span: Range<usize>,
}

impl VarInt {
    /// Its value, where it has room. Negative zero is zero here.
    pub fn to_i64(&self) -> Option<i64> {
        let value = signed(self.negative, u128::from(self.magnitude))?;
        i64::try_from(value).ok()
    }
}

/// An Int: a sign and a magnitude of any number of bytes.
#[derive(Clone, Debug, PartialEq, Eq, Hash)]
pub struct Int<'a> {
    /// Whether its sign is negative, also of a negative zero.
    pub negative: bool,
    /// The low seven bits of its first byte.
    pub first: u8,
    /// Its further bytes, the map's own.
    pub rest: &'a [u8],
    /// All its bytes.
    pub span: Range<usize>,
}

impl Int<'_> {
    /// Its value, where it has room. Negative zero is zero here.
    pub fn to_i128(&self) -> Option<i128> {
        signed(self.negative, big_endian(self.first, self.rest)?)
    }
}

/// Reads the VarUInt at `position` of a part.
///
/// ```
/// let number = ion_map::var_uint(&[0x0F, 0xD0], 0..2, 0)?;
/// assert_eq!((number.value, number.span), (2000, 0..2));
/// # Ok::<(), ion_map::Refusal>(())
/// ```
pub fn var_uint(map: &[u8], part: Range<usize>, position: usize) -> Result<VarUInt, Refusal> {
    let answer = number(map, part, position, VAR_UINT, 0)?;
    Ok(VarUInt {
        value: answer.word::<3>(),
        span: answer.span::<2, 6>(),
    })
}

/// Reads the VarInt at `position` of a part.
///
/// ```
/// let number = ion_map::var_int(&[0x40, 0x81], 0..2, 0)?;
/// assert_eq!((number.to_i64(), number.span), (Some(-1), 0..2));
///
/// let negative_zero = ion_map::var_int(&[0xC0], 0..1, 0)?;
/// assert_eq!((negative_zero.negative, negative_zero.magnitude), (true, 0));
/// # Ok::<(), ion_map::Refusal>(())
/// ```
pub fn var_int(map: &[u8], part: Range<usize>, position: usize) -> Result<VarInt, Refusal> {
    let answer = number(map, part, position, VAR_INT, 0)?;
    Ok(VarInt {
        negative: answer.word::<1>() != 0,
        magnitude: answer.word::<3>(),
        span: answer.span::<2, 6>(),
    })
}

/// Reads the Int of `length` bytes at `position` of a part.
///
/// ```
/// let number = ion_map::int(&[0x80, 0x81], 0..2, 0, 2)?;
/// assert_eq!((number.negative, number.first, number.rest), (true, 0, &[0x81][..]));
/// assert_eq!(number.to_i128(), Some(-129));
/// # Ok::<(), ion_map::Refusal>(())
/// ```
pub fn int(map: &[u8], part: Range<usize>, position: usize, length: usize) -> Result<Int<'_>, Refusal> {
    let answer = number(map, part, position, INT, length)?;
    Ok(Int {
        negative: answer.word::<1>() != 0,
        first: answer.byte::<3>()?,
        rest: bytes(map, answer.span::<5, 6>())?,
        span: answer.span::<2, 6>(),
    })
}

fn number(map: &[u8], part: Range<usize>, position: usize, form: u64, length: usize) -> Result<Answer, Refusal> {
    let answer = Answer::of(|out| raw::number(map, part.start, part.end, position, form, length, out))?;
    match answer.kind() {
        kind::NUMBER => Ok(answer),
        _ => Err(Refusal::unknown_answer()),
    }
}
