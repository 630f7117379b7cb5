// Stands for `lazy/binary/mod.rs`: names the modules. It decodes nothing.

pub mod binary_buffer;
pub mod encoded_value;
pub mod raw;
