//! The Rust's own reader, compiled from its own files, and a harness that asks it questions.
//!
//! The modules come from the tree that `build.rs` lays out: the given files as they are, and the
//! stand-ins of `src/standins` for those that are missing. The names below are the ones that the
//! given files expect at the root of their crate.
#![allow(dead_code, unused_imports, unused_macros, deprecated)]
#![allow(unexpected_cfgs)]

/// Stands for the macro of that name in the missing root of the crate. It decodes nothing.
macro_rules! try_next {
    ($next:expr) => {
        match $next {
            Some(Ok(item)) => item,
            Some(Err(error)) => return Some(Err(error)),
            None => return None,
        }
    };
}
pub(crate) use try_next;

include!(concat!(env!("OUT_DIR"), "/root.rs"));

pub use lazy::any_encoding::IonEncoding;
pub use lazy::decoder::{Decoder, HasRange, LazyRawFieldExpr, LazyRawFieldName};
pub use lazy::encoder::{
    AnnotationsEncoding, ContainerEncoding, FieldNameEncoding, LazyRawWriter, SymbolValueEncoding,
    TextFormat, ValueWriterConfig, WriteConfig,
};
pub use lazy::encoding::Encoding;
pub use lazy::expanded::r#struct::{FieldExpr, LazyExpandedFieldName};
pub use lazy::expanded::{LazyExpandedValue, ValueRef};
pub use lazy::raw_stream_item::RawStreamItem;
pub use lazy::raw_value_ref::RawSymbolRef;
pub use result::{IonError, IonResult};
pub use types::{decimal, Decimal, Int, IonType, Str, SymbolId, Timestamp, UInt};

pub mod v1_0 {
    pub use crate::lazy::encoding::BinaryEncoding_1_0 as Binary;
}

pub mod asking;
pub mod checks;
pub mod harness;
pub mod packed;
pub mod refusals;
pub mod requests;
pub mod timestamps;

/// The words of a record, for the programs that call our reader beside the Rust.
pub const RECORD_WORDS: usize = 9;

/// The Rust's own files that were compiled, with the hashes that the build found.
pub const COMPILED: &str = include_str!(concat!(env!("OUT_DIR"), "/compiled.sha256"));
