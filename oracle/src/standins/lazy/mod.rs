// Stands for `lazy/mod.rs`: names the modules. It decodes nothing.

pub mod any_encoding;
pub mod binary;
pub mod bytes_ref;
pub mod decoder;
pub mod encoder;
pub mod encoding;
pub mod expanded;
pub mod raw_stream_item;
pub mod raw_value_ref;
pub mod span;
pub mod str_ref;
pub mod streaming_raw_reader;
pub mod text;
