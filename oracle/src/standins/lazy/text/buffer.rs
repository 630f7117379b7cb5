// Stands for `lazy/text/buffer.rs`, the text reader's input. No text is read. It decodes nothing.

use crate::lazy::encoding::TextEncoding;
use crate::lazy::expanded::EncodingContextRef;
use crate::lazy::span::Span;
use crate::lazy::text::matched::MatchedFieldName;
use crate::lazy::text::parse_result::{IonParseError, IonParseResult};
use crate::lazy::text::value::LazyRawTextValue;
use winnow::{Parser, Stream, Unused};

#[derive(Clone, Copy, Debug)]
pub struct TextBuffer<'top> {
    span: Span<'top>,
    pub(crate) context: EncodingContextRef<'top>,
}

impl<'top> TextBuffer<'top> {
    pub fn from_span(
        context: EncodingContextRef<'top>,
        span: Span<'top>,
        _is_final_data: bool,
    ) -> Self {
        TextBuffer { span, context }
    }

    pub fn context(&self) -> EncodingContextRef<'top> {
        self.context
    }

    pub fn bytes(&self) -> &'top [u8] {
        self.span.bytes()
    }

    pub fn offset(&self) -> usize {
        self.span.offset()
    }

    pub fn len(&self) -> usize {
        self.span.len()
    }

    pub fn is_empty(&self) -> bool {
        self.span.is_empty()
    }

    pub fn slice(&self, _offset: usize, _length: usize) -> Self {
        unreachable!("no text is read")
    }

    pub fn slice_to_end(&self, _offset: usize) -> Self {
        unreachable!("no text is read")
    }

    pub fn incomplete<T>(&self, _label: &'static str) -> IonParseResult<'top, T> {
        unreachable!("no text is read")
    }

    pub fn invalid(&self, _message: String) -> IonParseError<'top> {
        unreachable!("no text is read")
    }

    pub fn match_annotated_value<E: TextEncoding>(
        &mut self,
    ) -> IonParseResult<'top, LazyRawTextValue<'top, E>> {
        unreachable!("no text is read")
    }

    pub fn match_struct_field_name(&mut self) -> IonParseResult<'top, MatchedFieldName<'top>> {
        unreachable!("no text is read")
    }
}

impl<'top> Stream for TextBuffer<'top> {
    type Slice = TextBuffer<'top>;
    type Error = IonParseError<'top>;
}

pub trait IonParser<'top, O>: Parser<TextBuffer<'top>, O, IonParseError<'top>> {}

impl<'top, O, P> IonParser<'top, O> for P where P: Parser<TextBuffer<'top>, O, IonParseError<'top>> {}

pub fn whitespace_and_then<'top, O>(
    _parser: impl IonParser<'top, O>,
) -> Unused<TextBuffer<'top>, O, IonParseError<'top>> {
    Unused::new()
}
