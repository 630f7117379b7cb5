// Stands for `result/conversion.rs`: errors of type conversions after reading. Never used. It
// decodes nothing.

use std::marker::PhantomData;
use thiserror::Error;

pub trait TypeExpectation {}
pub trait ValueTypeExpectation {}
pub trait IonTypeExpectation {}

pub struct ConversionOperationError<FromType, ToType>(PhantomData<(FromType, ToType)>);

pub type ConversionOperationResult<FromType, ToType> =
    Result<ToType, ConversionOperationError<FromType, ToType>>;

#[derive(Clone, Debug, Error, PartialEq)]
#[error("a conversion failed")]
pub struct ConversionError;

impl<FromType, ToType> From<ConversionOperationError<FromType, ToType>> for ConversionError {
    fn from(_error: ConversionOperationError<FromType, ToType>) -> Self {
        ConversionError
    }
}
