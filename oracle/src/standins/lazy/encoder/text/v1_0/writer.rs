// Stands for `lazy/encoder/text/v1_0/writer.rs`, the text writer. Never made. It decodes nothing.
#![allow(non_camel_case_types)]

use crate::lazy::encoder::write_as_ion::WriteAsIon;
use crate::lazy::encoder::LazyRawWriter;
use crate::IonResult;
use std::io::Write;
use std::marker::PhantomData;

pub struct LazyRawTextWriter_1_0<W: Write>(PhantomData<W>);

impl<W: Write> LazyRawWriter<W> for LazyRawTextWriter_1_0<W> {
    fn write<V: WriteAsIon>(&mut self, _value: V) -> IonResult<&mut Self> {
        unreachable!("nothing is written")
    }

    fn write_version_marker(&mut self) -> IonResult<()> {
        unreachable!("nothing is written")
    }

    fn flush(&mut self) -> IonResult<()> {
        unreachable!("nothing is written")
    }
}
