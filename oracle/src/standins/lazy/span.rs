// Stands for `lazy/span.rs`: lent bytes and the position where they begin. It decodes nothing.

use std::ops::Range;

#[derive(Copy, Clone, Debug, PartialEq)]
pub struct Span<'a> {
    offset: usize,
    bytes: &'a [u8],
}

impl<'a> Span<'a> {
    pub fn with_offset(offset: usize, bytes: &'a [u8]) -> Self {
        Span { offset, bytes }
    }

    pub fn bytes(&self) -> &'a [u8] {
        self.bytes
    }

    pub fn offset(&self) -> usize {
        self.offset
    }

    pub fn len(&self) -> usize {
        self.bytes.len()
    }

    pub fn is_empty(&self) -> bool {
        self.bytes.is_empty()
    }

    pub fn range(&self) -> Range<usize> {
        self.offset..self.offset + self.bytes.len()
    }
}
