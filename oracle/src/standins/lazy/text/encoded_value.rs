// Stands for `lazy/text/encoded_value.rs`: a text value's parts. Never made. It decodes nothing.

use crate::lazy::encoding::TextEncoding;
use crate::lazy::text::matched::MatchedValue;
use crate::IonType;
use std::marker::PhantomData;

#[derive(Clone, Copy, Debug)]
pub struct EncodedTextValue<'top, E: TextEncoding>(PhantomData<(&'top (), E)>);

impl<'top, E: TextEncoding> EncodedTextValue<'top, E> {
    pub fn new(_matched: MatchedValue<'top, E>) -> Self {
        unreachable!("no text is read")
    }

    pub fn as_scalar(&self) -> Option<EncodedTextScalar> {
        unreachable!("no text is read")
    }

    pub fn ion_type(&self) -> IonType {
        unreachable!("no text is read")
    }

    pub fn data_offset_u16(&self) -> u16 {
        unreachable!("no text is read")
    }
}

#[derive(Clone, Copy, Debug)]
pub struct EncodedTextScalar;

impl EncodedTextScalar {
    pub fn ion_type(&self) -> IonType {
        unreachable!("no text is read")
    }

    pub fn is_null(&self) -> bool {
        unreachable!("no text is read")
    }

    pub fn has_annotations(&self) -> bool {
        unreachable!("no text is read")
    }

    pub fn data_offset(&self) -> usize {
        unreachable!("no text is read")
    }

    pub fn to_encoded_value<'top, E: TextEncoding>(&self) -> EncodedTextValue<'top, E> {
        unreachable!("no text is read")
    }
}
