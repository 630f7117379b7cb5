// Stands for `text/text_formatter.rs`, which writes values as Ion text. It decodes nothing.

use crate::result::IonResult;
use std::fmt::{self, Write};

pub struct FmtValueFormatter<'a, W: Write> {
    pub output: &'a mut W,
}

impl<W: Write> FmtValueFormatter<'_, W> {
    pub fn format_string(&mut self, text: &str) -> IonResult<()> {
        write!(self.output, "{text:?}")?;
        Ok(())
    }
}

pub fn write_zero_padded<W: Write>(output: &mut W, value: u64, width: usize) -> fmt::Result {
    write!(output, "{value:0width$}")
}
