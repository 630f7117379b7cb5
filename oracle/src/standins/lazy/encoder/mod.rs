// Stands for `lazy/encoder`: the writers and their settings. Nothing is written. It decodes nothing.

pub mod text;
pub mod write_as_ion;

use crate::lazy::encoder::write_as_ion::WriteAsIon;
use crate::lazy::encoding::{BinaryEncoding_1_0, TextEncoding_1_0};
use crate::IonResult;
use std::io::Write;
use std::marker::PhantomData;

pub trait Encoder {}

impl Encoder for BinaryEncoding_1_0 {}
impl Encoder for TextEncoding_1_0 {}

pub mod private {
    pub trait ManagedWriterEncoding {
        const INITIAL_DATA_BUFFER_CAPACITY: usize;
    }
}

pub trait LazyRawWriter<W: Write> {
    fn write<V: WriteAsIon>(&mut self, value: V) -> IonResult<&mut Self>;
    fn write_version_marker(&mut self) -> IonResult<()>;
    fn flush(&mut self) -> IonResult<()>;
}

#[derive(Clone, Copy, Debug, Default)]
pub enum TextFormat {
    #[default]
    Compact,
}

pub enum FieldNameEncoding {
    SymbolIds,
    InlineText,
}

pub enum AnnotationsEncoding {
    SymbolIds,
    InlineText,
}

pub enum ContainerEncoding {
    LengthPrefixed,
    Delimited,
}

pub enum SymbolValueEncoding {
    SymbolIds,
    InlineText,
}

pub struct ValueWriterConfig;

impl ValueWriterConfig {
    pub fn binary() -> Self {
        ValueWriterConfig
    }

    pub fn text() -> Self {
        ValueWriterConfig
    }

    pub fn with_field_name_encoding(self, _encoding: FieldNameEncoding) -> Self {
        self
    }

    pub fn with_annotations_encoding(self, _encoding: AnnotationsEncoding) -> Self {
        self
    }

    pub fn with_container_encoding(self, _encoding: ContainerEncoding) -> Self {
        self
    }

    pub fn with_symbol_value_encoding(self, _encoding: SymbolValueEncoding) -> Self {
        self
    }
}

pub struct WriteConfig<E>(PhantomData<E>);

impl WriteConfig<BinaryEncoding_1_0> {
    pub fn new() -> Self {
        WriteConfig(PhantomData)
    }
}

impl WriteConfig<TextEncoding_1_0> {
    pub fn new(_format: TextFormat) -> Self {
        WriteConfig(PhantomData)
    }
}

impl<E> WriteConfig<E> {
    pub fn encode_to<V: WriteAsIon, W: Write>(&self, _value: V, _output: W) -> IonResult<W> {
        unreachable!("nothing is written")
    }

    pub fn encode_all_to<V: WriteAsIon, I: IntoIterator<Item = V>, W: Write>(
        &self,
        _output: W,
        _values: I,
    ) -> IonResult<W> {
        unreachable!("nothing is written")
    }
}
