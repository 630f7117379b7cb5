// Stands for `text/mod.rs`: names the module. It decodes nothing.

pub mod text_formatter;
