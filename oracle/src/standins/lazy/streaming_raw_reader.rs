// Stands for `lazy/streaming_raw_reader.rs`: what a reader keeps between buffers. It decodes nothing.

use crate::lazy::any_encoding::IonEncoding;
use std::ops::Range;

#[derive(Clone, Copy, Debug)]
pub struct RawReaderState<'a> {
    data: &'a [u8],
    offset: usize,
    is_final_data: bool,
    encoding: IonEncoding,
}

impl<'a> RawReaderState<'a> {
    pub fn new(data: &'a [u8], offset: usize, is_final_data: bool, encoding: IonEncoding) -> Self {
        RawReaderState {
            data,
            offset,
            is_final_data,
            encoding,
        }
    }

    pub fn data(&self) -> &'a [u8] {
        self.data
    }

    pub fn offset(&self) -> usize {
        self.offset
    }

    pub fn is_final_data(&self) -> bool {
        self.is_final_data
    }

    pub fn encoding(&self) -> IonEncoding {
        self.encoding
    }
}

/// The bytes of a stream that is read in pieces. Never made.
#[derive(Clone, Debug)]
pub struct IoBuffer;

impl IoBuffer {
    pub fn bytes_for_stream_range(&self, _range: Range<usize>) -> &[u8] {
        unreachable!("no stream is read in pieces")
    }

    pub fn all_bytes(&self) -> &[u8] {
        unreachable!("no stream is read in pieces")
    }
}
