// Stands for `lazy/encoder/text`: names the module. It decodes nothing.

pub mod v1_0;
