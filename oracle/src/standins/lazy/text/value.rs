// Stands for `lazy/text/value.rs`: text values and markers. Never made. It decodes nothing.
#![allow(non_camel_case_types)]

use crate::lazy::any_encoding::IonEncoding;
use crate::lazy::decoder::{HasRange, HasSpan, LazyRawValue, RawVersionMarker};
use crate::lazy::encoding::{TextEncoding, TextEncoding_1_0};
use crate::lazy::raw_value_ref::{RawSymbolRef, RawValueRef};
use crate::lazy::span::Span;
use crate::lazy::text::buffer::TextBuffer;
use crate::lazy::text::encoded_value::EncodedTextValue;
use crate::{IonResult, IonType};
use std::marker::PhantomData;
use std::ops::Range;

#[derive(Clone, Copy, Debug)]
pub struct LazyRawTextValue<'top, E: TextEncoding> {
    pub(crate) encoded_value: EncodedTextValue<'top, E>,
    pub(crate) input: TextBuffer<'top>,
}

pub type LazyRawTextValue_1_0<'top> = LazyRawTextValue<'top, TextEncoding_1_0>;

impl<'top, E: TextEncoding> LazyRawTextValue<'top, E> {
    pub fn new(encoded_value: EncodedTextValue<'top, E>, input: TextBuffer<'top>) -> Self {
        LazyRawTextValue {
            encoded_value,
            input,
        }
    }
}

impl<E: TextEncoding> HasRange for LazyRawTextValue<'_, E> {
    fn range(&self) -> Range<usize> {
        unreachable!("no text is read")
    }
}

impl<'top, E: TextEncoding> HasSpan<'top> for LazyRawTextValue<'top, E> {
    fn span(&self) -> Span<'top> {
        unreachable!("no text is read")
    }
}

impl<'top, E: TextEncoding> LazyRawValue<'top, E> for LazyRawTextValue<'top, E> {
    fn ion_type(&self) -> IonType {
        unreachable!("no text is read")
    }

    fn is_null(&self) -> bool {
        unreachable!("no text is read")
    }

    fn is_delimited(&self) -> bool {
        unreachable!("no text is read")
    }

    fn has_annotations(&self) -> bool {
        unreachable!("no text is read")
    }

    fn annotations(&self) -> RawTextAnnotationsIterator<'top> {
        unreachable!("no text is read")
    }

    fn read(&self) -> IonResult<RawValueRef<'top, E>> {
        unreachable!("no text is read")
    }

    fn annotations_span(&self) -> Span<'top> {
        unreachable!("no text is read")
    }

    fn value_span(&self) -> Span<'top> {
        unreachable!("no text is read")
    }

    fn encoding(&self) -> IonEncoding {
        unreachable!("no text is read")
    }
}

#[derive(Clone, Copy, Debug)]
pub struct LazyRawTextVersionMarker_1_0<'top>(PhantomData<&'top ()>);

impl HasRange for LazyRawTextVersionMarker_1_0<'_> {
    fn range(&self) -> Range<usize> {
        unreachable!("no text is read")
    }
}

impl<'top> HasSpan<'top> for LazyRawTextVersionMarker_1_0<'top> {
    fn span(&self) -> Span<'top> {
        unreachable!("no text is read")
    }
}

impl<'top> RawVersionMarker<'top> for LazyRawTextVersionMarker_1_0<'top> {
    fn major_minor(&self) -> (u8, u8) {
        unreachable!("no text is read")
    }

    fn stream_encoding_before_marker(&self) -> IonEncoding {
        unreachable!("no text is read")
    }
}

pub struct RawTextAnnotationsIterator<'top>(PhantomData<&'top ()>);

impl<'top> RawTextAnnotationsIterator<'top> {
    pub fn new(_input: TextBuffer<'top>) -> Self {
        unreachable!("no text is read")
    }
}

impl<'top> Iterator for RawTextAnnotationsIterator<'top> {
    type Item = IonResult<RawSymbolRef<'top>>;

    fn next(&mut self) -> Option<Self::Item> {
        unreachable!("no text is read")
    }
}
