// Stands for `lazy/any_encoding.rs`: the names of the encodings. It decodes nothing.
#![allow(non_camel_case_types)]

use std::marker::PhantomData;

#[derive(Debug, Copy, Clone, PartialEq, Eq)]
pub enum IonEncoding {
    Text_1_0,
    Binary_1_0,
}

impl IonEncoding {
    pub fn is_binary(&self) -> bool {
        *self == IonEncoding::Binary_1_0
    }

    pub fn is_text(&self) -> bool {
        *self == IonEncoding::Text_1_0
    }

    pub fn version(&self) -> IonVersion {
        IonVersion::v1_0
    }
}

#[derive(Debug, Copy, Clone, PartialEq, Eq)]
pub enum IonVersion {
    v1_0,
}

/// A value of either encoding. Never made.
pub struct LazyRawAnyValue<'top>(PhantomData<&'top ()>);
