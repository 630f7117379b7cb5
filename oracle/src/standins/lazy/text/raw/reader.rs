// Stands for `lazy/text/raw/reader.rs`, the text reader. Never made. It decodes nothing.
#![allow(non_camel_case_types)]

use crate::lazy::any_encoding::IonEncoding;
use crate::lazy::decoder::LazyRawReader;
use crate::lazy::encoding::TextEncoding_1_0;
use crate::lazy::expanded::EncodingContextRef;
use crate::lazy::raw_stream_item::LazyRawStreamItem;
use crate::lazy::streaming_raw_reader::RawReaderState;
use crate::IonResult;
use std::marker::PhantomData;

pub struct LazyRawTextReader_1_0<'data>(PhantomData<&'data ()>);

impl<'data> LazyRawReader<'data, TextEncoding_1_0> for LazyRawTextReader_1_0<'data> {
    fn new(_context: EncodingContextRef<'data>, _data: &'data [u8], _is_final_data: bool) -> Self {
        unreachable!("no text is read")
    }

    fn resume(_context: EncodingContextRef<'data>, _state: RawReaderState<'data>) -> Self {
        unreachable!("no text is read")
    }

    fn save_state(&self) -> RawReaderState<'data> {
        unreachable!("no text is read")
    }

    fn next(&mut self) -> IonResult<LazyRawStreamItem<'data, TextEncoding_1_0>> {
        unreachable!("no text is read")
    }

    fn position(&self) -> usize {
        unreachable!("no text is read")
    }

    fn encoding(&self) -> IonEncoding {
        unreachable!("no text is read")
    }
}
