// Stands for `catalog.rs`, shared symbol tables by name. Never used. It decodes nothing.

pub trait Catalog {}
