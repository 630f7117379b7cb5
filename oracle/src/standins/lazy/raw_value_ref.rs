// Stands for `lazy/raw_value_ref.rs`: what reading a value hands out. It decodes nothing.

use crate::lazy::bytes_ref::BytesRef;
use crate::lazy::decoder::Decoder;
use crate::lazy::expanded::EncodingContextRef;
use crate::lazy::str_ref::StrRef;
use crate::types::SymbolId;
use crate::{Decimal, Int, IonResult, IonType, Timestamp, ValueRef};
use std::fmt;

#[derive(Clone, Copy, Debug, PartialEq)]
pub enum RawSymbolRef<'a> {
    SymbolId(SymbolId),
    Text(&'a str),
}

pub enum RawValueRef<'top, D: Decoder> {
    Null(IonType),
    Bool(bool),
    Int(Int),
    Float(f64),
    Decimal(Decimal),
    Timestamp(Timestamp),
    String(StrRef<'top>),
    Symbol(RawSymbolRef<'top>),
    Blob(BytesRef<'top>),
    Clob(BytesRef<'top>),
    SExp(D::SExp<'top>),
    List(D::List<'top>),
    Struct(D::Struct<'top>),
}

impl<'top, D: Decoder> RawValueRef<'top, D> {
    pub fn resolve(self, _context: EncodingContextRef<'top>) -> IonResult<ValueRef<'top, D>> {
        unreachable!("symbols are not resolved")
    }
}

impl<D: Decoder> fmt::Debug for RawValueRef<'_, D> {
    fn fmt(&self, _f: &mut fmt::Formatter<'_>) -> fmt::Result {
        unreachable!("values are not printed")
    }
}
