// Stands for `types/decimal/coefficient.rs`: a decimal's coefficient, a sign and a magnitude that the
// Rust hands to it. It decodes nothing.

use crate::types::integer::{Int, UInt};
use crate::types::overflowing_int::{Magnitude, OverflowingInt};
use std::cmp::Ordering;

#[derive(Clone, Copy, Debug, PartialEq, Eq, PartialOrd, Ord, Hash)]
pub enum Sign {
    Negative,
    Positive,
}

#[derive(Clone, Debug, PartialEq, Eq, Hash)]
pub struct Coefficient {
    data: OverflowingInt,
}

impl Coefficient {
    pub const ZERO: Coefficient = Coefficient {
        data: OverflowingInt::ZERO,
    };

    pub const NEGATIVE_ZERO: Coefficient = Coefficient {
        data: OverflowingInt::NEGATIVE_ZERO,
    };

    pub fn new(value: impl Into<Int>) -> Self {
        Coefficient {
            data: value.into().into(),
        }
    }

    pub fn negative_zero() -> Self {
        Coefficient::NEGATIVE_ZERO
    }

    pub fn from_sign_and_value(sign: Sign, value: u128) -> Self {
        if sign == Sign::Negative && value == 0 {
            return Coefficient::NEGATIVE_ZERO;
        }
        let data = OverflowingInt::from(value);
        Coefficient {
            data: if sign == Sign::Negative { data.negate() } else { data },
        }
    }

    pub fn sign(&self) -> Sign {
        self.data.sign()
    }

    pub fn is_zero(&self) -> bool {
        self.data.is_zero()
    }

    pub fn magnitude(&self) -> UInt {
        self.data.magnitude_ref().into()
    }

    pub(crate) fn magnitude_ref(&self) -> Magnitude<'_> {
        self.data.magnitude_ref()
    }

    pub fn number_of_decimal_digits(&self) -> u32 {
        self.data.magnitude_ref().number_of_decimal_digits()
    }

    pub(crate) fn cmp_magnitude_scaled(&self, _power: u64, _other: &Self) -> Ordering {
        unreachable!("decimals are not compared")
    }

    pub(crate) fn div_rem_pow10(&self, _power: u64) -> (Coefficient, Coefficient) {
        unreachable!("decimals are not divided")
    }
}

macro_rules! coefficient_from {
    ($($t:ty),*) => ($(
        impl From<$t> for Coefficient {
            fn from(value: $t) -> Self {
                Coefficient::new(value)
            }
        }
    )*)
}

coefficient_from!(i8, i16, i32, i64, i128, isize, u8, u16, u32, u64, u128, usize, Int);
