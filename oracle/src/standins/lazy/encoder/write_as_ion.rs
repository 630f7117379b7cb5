// Stands for `lazy/encoder/write_as_ion.rs`: values that a writer takes. Nothing is written. It
// decodes nothing.

use crate::lazy::decoder::{Decoder, LazyRawValue};
use std::marker::PhantomData;

pub trait WriteAsIon {}

pub struct WriteableRawValue<'a, V, D>(PhantomData<(&'a (), V, D)>);

impl<'a, V: LazyRawValue<'a, D>, D: Decoder> WriteableRawValue<'a, V, D> {
    pub fn new(_value: V) -> Self {
        WriteableRawValue(PhantomData)
    }
}

impl<V, D> WriteAsIon for WriteableRawValue<'_, V, D> {}
