// Stands for `lazy/text/raw/struct.rs`: text structs and field names. Never made. It decodes nothing.

use crate::lazy::decoder::private::LazyContainerPrivate;
use crate::lazy::decoder::{
    Decoder, HasRange, HasSpan, LazyRawContainer, LazyRawFieldExpr, LazyRawFieldName, LazyRawStruct,
};
use crate::lazy::encoding::TextEncoding;
use crate::lazy::raw_value_ref::RawSymbolRef;
use crate::lazy::span::Span;
use crate::lazy::text::buffer::TextBuffer;
use crate::lazy::text::matched::MatchedFieldName;
use crate::lazy::text::value::{LazyRawTextValue, RawTextAnnotationsIterator};
use crate::IonResult;
use std::marker::PhantomData;
use std::ops::Range;

#[derive(Clone, Copy, Debug)]
pub struct LazyRawTextStruct<'top, E: TextEncoding>(PhantomData<(&'top (), E)>);

impl<'top, E: TextEncoding> LazyContainerPrivate<'top, E> for LazyRawTextStruct<'top, E> {
    fn from_value(_value: LazyRawTextValue<'top, E>) -> Self {
        unreachable!("no text is read")
    }
}

impl<'top, E: TextEncoding> LazyRawContainer<'top, E> for LazyRawTextStruct<'top, E> {
    fn as_value(&self) -> LazyRawTextValue<'top, E> {
        unreachable!("no text is read")
    }
}

impl<'top, E: TextEncoding> LazyRawStruct<'top, E> for LazyRawTextStruct<'top, E> {
    type Iterator = RawTextStructIterator<'top, E>;

    fn annotations(&self) -> RawTextAnnotationsIterator<'top> {
        unreachable!("no text is read")
    }

    fn iter(&self) -> Self::Iterator {
        unreachable!("no text is read")
    }
}

#[derive(Clone, Copy, Debug)]
pub struct RawTextStructIterator<'top, E: TextEncoding>(PhantomData<(&'top (), E)>);

impl<'top, E: TextEncoding> RawTextStructIterator<'top, E> {
    pub fn new(_input: TextBuffer<'top>) -> Self {
        unreachable!("no text is read")
    }
}

impl<'top, E: TextEncoding> Iterator for RawTextStructIterator<'top, E> {
    type Item = IonResult<LazyRawFieldExpr<'top, E>>;

    fn next(&mut self) -> Option<Self::Item> {
        unreachable!("no text is read")
    }
}

#[derive(Clone, Copy, Debug)]
pub struct LazyRawTextFieldName<'top, E: TextEncoding>(PhantomData<(&'top (), E)>);

impl<'top, E: TextEncoding> LazyRawTextFieldName<'top, E> {
    pub fn new(_matched: MatchedFieldName<'top>) -> Self {
        unreachable!("no text is read")
    }
}

impl<E: TextEncoding> HasRange for LazyRawTextFieldName<'_, E> {
    fn range(&self) -> Range<usize> {
        unreachable!("no text is read")
    }
}

impl<'top, E: TextEncoding> HasSpan<'top> for LazyRawTextFieldName<'top, E> {
    fn span(&self) -> Span<'top> {
        unreachable!("no text is read")
    }
}

impl<'top, E: TextEncoding + Decoder<FieldName<'top> = Self>> LazyRawFieldName<'top, E>
    for LazyRawTextFieldName<'top, E>
{
    fn read(&self) -> IonResult<RawSymbolRef<'top>> {
        unreachable!("no text is read")
    }
}
