// Stands for `lazy/bytes_ref.rs`: a lent part of the input, as it is. It decodes nothing.

#[derive(Copy, Clone, Debug, PartialEq)]
pub struct BytesRef<'data> {
    data: &'data [u8],
}

impl<'data> BytesRef<'data> {
    pub fn data(&self) -> &'data [u8] {
        self.data
    }
}

impl<'data> From<&'data [u8]> for BytesRef<'data> {
    fn from(data: &'data [u8]) -> Self {
        BytesRef { data }
    }
}

impl<'data> From<&'data str> for BytesRef<'data> {
    fn from(text: &'data str) -> Self {
        BytesRef {
            data: text.as_bytes(),
        }
    }
}
