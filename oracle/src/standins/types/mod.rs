// Stands for `types/mod.rs`: names the modules and the Ion types. It decodes nothing.

pub mod bytes;
pub mod decimal;
pub mod integer;
pub mod lob;
pub mod null;
pub mod overflowing_int;
pub mod timestamp;

pub use decimal::Decimal;
pub use integer::{Int, UInt};
pub use timestamp::Timestamp;

pub type SymbolId = usize;

#[derive(Debug, PartialEq, Eq, PartialOrd, Ord, Copy, Clone, Hash)]
pub enum IonType {
    Null,
    Bool,
    Int,
    Float,
    Decimal,
    Timestamp,
    Symbol,
    String,
    Clob,
    Blob,
    List,
    SExp,
    Struct,
}

/// An owned string. Never used.
#[derive(Debug, Clone, PartialEq, Eq)]
pub struct Str(String);

impl From<&str> for Str {
    fn from(text: &str) -> Self {
        Str(text.to_owned())
    }
}

impl From<String> for Str {
    fn from(text: String) -> Self {
        Str(text)
    }
}
