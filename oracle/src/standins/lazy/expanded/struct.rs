// Stands for `lazy/expanded/struct.rs`: fields with their names resolved. Never made. It decodes
// nothing.

use super::{EncodingContextRef, LazyExpandedValue};
use crate::lazy::decoder::Decoder;

pub enum FieldExpr<'top, D: Decoder> {
    NameValue(LazyExpandedFieldName<'top, D>, LazyExpandedValue<'top, D>),
}

pub enum LazyExpandedFieldName<'top, D: Decoder> {
    RawName(EncodingContextRef<'top>, D::FieldName<'top>),
}
