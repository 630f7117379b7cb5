// Stands for `lazy/encoder/text/v1_0`: names the module. It decodes nothing.

pub mod writer;
