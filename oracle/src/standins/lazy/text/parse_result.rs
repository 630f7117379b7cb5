// Stands for `lazy/text/parse_result.rs`, errors of the text reader. Never made. It decodes nothing.

use crate::lazy::text::buffer::TextBuffer;
use crate::IonResult;
use std::marker::PhantomData;

pub struct IonParseError<'top>(PhantomData<&'top ()>);

pub type IonParseResult<'top, T> = Result<T, IonParseError<'top>>;

impl<'top> IonParseError<'top> {
    pub fn context(self, _label: &'static str) -> Self {
        self
    }

    pub fn cut<T>(self) -> IonParseResult<'top, T> {
        Err(self)
    }
}

pub trait WithContext<'top, T> {
    fn with_context(self, label: &'static str, input: TextBuffer<'top>) -> IonResult<T>;
}

impl<'top, T> WithContext<'top, T> for IonParseResult<'top, T> {
    fn with_context(self, _label: &'static str, _input: TextBuffer<'top>) -> IonResult<T> {
        unreachable!("no text is read")
    }
}
