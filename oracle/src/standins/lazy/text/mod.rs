// Stands for `lazy/text`, the text reader: the types that `lazy/encoding.rs` names. No question
// reads text; whatever would read it panics. It decodes nothing.

pub mod buffer;
pub mod encoded_value;
pub mod matched;
pub mod parse_result;
pub mod raw;
pub mod value;
