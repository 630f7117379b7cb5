// Stands for `lazy/binary/raw/mod.rs`: names the modules. It decodes nothing.

pub mod annotations_iterator;
pub mod nibbles;
pub mod reader;
pub mod sequence;
pub mod r#struct;
pub mod type_descriptor;
pub mod value;
