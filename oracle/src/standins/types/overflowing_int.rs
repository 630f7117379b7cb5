// Stands for `types/overflowing_int.rs`: a sign and a magnitude of any size. Up to 16 bytes the
// machine's `from_be_bytes` makes the number, beyond that `num-bigint` does. It holds numbers that
// the Rust hands to it; which bytes those are, and with which sign, the Rust decides. It decodes
// nothing of a map. No answer uses it for more than 15 bytes.

use crate::types::decimal::Sign;
use num_bigint::{BigInt, BigUint};
use num_traits::ToPrimitive;
use std::cmp::Ordering;
use std::fmt;

#[derive(Clone, Debug, PartialEq, Eq, Hash)]
enum Size {
    Small(u128),
    Big(BigUint),
}

#[derive(Clone, Debug, PartialEq, Eq, Hash)]
pub struct OverflowingInt {
    sign: Sign,
    size: Size,
}

pub enum Magnitude<'a> {
    Small(u128),
    Big(&'a BigUint),
}

impl Magnitude<'_> {
    pub fn number_of_decimal_digits(&self) -> u32 {
        let digits = match self {
            Magnitude::Small(small) => small.to_string(),
            Magnitude::Big(big) => big.to_string(),
        };
        digits.len() as u32
    }
}

fn positive(size: BigUint) -> OverflowingInt {
    OverflowingInt {
        sign: Sign::Positive,
        size: match size.to_u128() {
            Some(small) => Size::Small(small),
            None => Size::Big(size),
        },
    }
}

impl OverflowingInt {
    pub const ZERO: OverflowingInt = OverflowingInt {
        sign: Sign::Positive,
        size: Size::Small(0),
    };

    pub const NEGATIVE_ZERO: OverflowingInt = OverflowingInt {
        sign: Sign::Negative,
        size: Size::Small(0),
    };

    pub fn from_unsigned_be_bytes(bytes: &[u8]) -> Self {
        if bytes.len() <= 16 {
            let mut wide = [0; 16];
            wide[16 - bytes.len()..].copy_from_slice(bytes);
            return u128::from_be_bytes(wide).into();
        }
        positive(BigUint::from_bytes_be(bytes))
    }

    pub fn from_unsigned_le_bytes(bytes: &[u8]) -> Self {
        positive(BigUint::from_bytes_le(bytes))
    }

    pub fn from_le_signed_bytes(bytes: &[u8]) -> Self {
        if bytes.len() <= 16 {
            let fill = match bytes.last() {
                Some(last) if *last >= 0x80 => 0xFF,
                _ => 0,
            };
            let mut wide = [fill; 16];
            wide[..bytes.len()].copy_from_slice(bytes);
            return i128::from_le_bytes(wide).into();
        }
        let value = BigInt::from_signed_bytes_le(bytes);
        let mut result = positive(value.magnitude().clone());
        if value.sign() == num_bigint::Sign::Minus {
            result.sign = Sign::Negative;
        }
        result
    }

    pub fn from_str_radix(text: &str, radix: u32) -> Option<Self> {
        BigUint::parse_bytes(text.as_bytes(), radix).map(positive)
    }

    pub fn sign(&self) -> Sign {
        self.sign
    }

    pub fn is_zero(&self) -> bool {
        self.size == Size::Small(0)
    }

    pub fn magnitude_ref(&self) -> Magnitude<'_> {
        match &self.size {
            Size::Small(small) => Magnitude::Small(*small),
            Size::Big(big) => Magnitude::Big(big),
        }
    }

    pub fn abs(&self) -> Self {
        OverflowingInt {
            sign: Sign::Positive,
            size: self.size.clone(),
        }
    }

    /// The negation; zero stays positive.
    pub fn negate(self) -> Self {
        let sign = match self.sign {
            Sign::Positive if !self.is_zero() => Sign::Negative,
            _ => Sign::Positive,
        };
        OverflowingInt { sign, ..self }
    }

    pub fn as_u128(&self) -> Option<u128> {
        match (&self.size, self.sign) {
            (Size::Small(0), _) => Some(0),
            (Size::Small(small), Sign::Positive) => Some(*small),
            _ => None,
        }
    }

    pub fn as_i128(&self) -> Option<i128> {
        self.to_bigint().to_i128()
    }

    fn to_biguint(&self) -> BigUint {
        match &self.size {
            Size::Small(small) => BigUint::from(*small),
            Size::Big(big) => big.clone(),
        }
    }

    pub fn to_bigint(&self) -> BigInt {
        let sign = match self.sign {
            Sign::Positive => num_bigint::Sign::Plus,
            Sign::Negative => num_bigint::Sign::Minus,
        };
        BigInt::from_biguint(sign, self.to_biguint())
    }

    pub fn cmp_magnitude(&self, other: &Self) -> Ordering {
        self.to_biguint().cmp(&other.to_biguint())
    }

    pub fn format_text<W: fmt::Write>(&self, output: &mut W) -> fmt::Result {
        write!(output, "{}", self.to_bigint())
    }
}

impl PartialOrd for OverflowingInt {
    fn partial_cmp(&self, other: &Self) -> Option<Ordering> {
        Some(self.cmp(other))
    }
}

impl Ord for OverflowingInt {
    fn cmp(&self, other: &Self) -> Ordering {
        self.to_bigint().cmp(&other.to_bigint())
    }
}

impl From<u128> for OverflowingInt {
    fn from(value: u128) -> Self {
        OverflowingInt {
            sign: Sign::Positive,
            size: Size::Small(value),
        }
    }
}

impl From<i128> for OverflowingInt {
    fn from(value: i128) -> Self {
        let sign = if value < 0 { Sign::Negative } else { Sign::Positive };
        OverflowingInt {
            sign,
            size: Size::Small(value.unsigned_abs()),
        }
    }
}

impl From<BigUint> for OverflowingInt {
    fn from(value: BigUint) -> Self {
        positive(value)
    }
}

impl fmt::Display for OverflowingInt {
    fn fmt(&self, f: &mut fmt::Formatter<'_>) -> fmt::Result {
        self.format_text(f)
    }
}
