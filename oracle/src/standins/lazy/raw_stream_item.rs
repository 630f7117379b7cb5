// Stands for `lazy/raw_stream_item.rs`: what a stream step hands out. It decodes nothing.

use crate::lazy::any_encoding::IonEncoding;
use crate::lazy::decoder::Decoder;

#[derive(Clone, Copy, Debug)]
pub enum RawStreamItem<M, V> {
    VersionMarker(M),
    Value(V),
    EndOfStream(EndPosition),
}

pub type LazyRawStreamItem<'top, D> =
    RawStreamItem<<D as Decoder>::VersionMarker<'top>, <D as Decoder>::Value<'top>>;

#[derive(Clone, Copy, Debug, PartialEq)]
pub struct EndPosition {
    encoding: IonEncoding,
    position: usize,
}

impl EndPosition {
    pub fn new(encoding: IonEncoding, position: usize) -> Self {
        EndPosition { encoding, position }
    }

    pub fn encoding(&self) -> IonEncoding {
        self.encoding
    }

    pub fn position(&self) -> usize {
        self.position
    }
}
