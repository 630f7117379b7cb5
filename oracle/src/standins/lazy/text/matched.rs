// Stands for `lazy/text/matched.rs`: what the text parsers matched. Never made. It decodes nothing.

use crate::lazy::decoder::LazyRawFieldExpr;
use crate::lazy::encoding::TextEncoding;
use crate::lazy::text::value::LazyRawTextValue;
use std::marker::PhantomData;

pub enum MatchedValue<'top, E: TextEncoding> {
    List(&'top [LazyRawTextValue<'top, E>]),
    SExp(&'top [LazyRawTextValue<'top, E>]),
    Struct(&'top [LazyRawFieldExpr<'top, E>]),
}

#[derive(Clone, Copy, Debug)]
pub struct MatchedFieldName<'top>(PhantomData<&'top ()>);
