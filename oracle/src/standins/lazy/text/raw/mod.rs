// Stands for `lazy/text/raw/mod.rs`: names the modules. It decodes nothing.

pub mod reader;
pub mod sequence;
pub mod r#struct;
