#![doc = include_str!("../README.md")]
#![no_std]
#![deny(missing_docs)]
#![deny(unsafe_code)]

#[cfg(feature = "alloc")]
extern crate alloc;

mod annotations;
mod answer;
mod bounded;
mod check;
mod decimal;
#[cfg(feature = "alloc")]
mod digits;
mod item;
mod limits;
mod number;
mod packed;
mod part;
pub mod raw;
pub mod raw_write;
mod refusal;
mod scalar;
mod steps;
mod symbols;
mod timestamp;
mod walk;
#[cfg(feature = "alloc")]
mod writing;

pub use annotations::{annotation, annotations, Annotation, Annotations};
pub use bounded::{items_bounded, step_bounded, Bounded, BoundedItems};
pub use check::{check, Counts};
pub use decimal::{decimal, Decimal};
pub use item::{Item, Marker, Type, Value};
pub use limits::Limits;
pub use number::{int, var_int, var_uint, Int, VarInt, VarUInt};
#[cfg(feature = "alloc")]
pub use packed::pack;
pub use packed::{pack_into, packed_size};
pub use part::{Part, PartKind};
pub use refusal::Refusal;
pub use scalar::{scalar, Scalar};
pub use steps::{ids_begun, items, step, step_in, Body, Items};
pub use symbols::{symbol_text, Symbols, SYSTEM_TEXT};
pub use timestamp::{timestamp, Precision, Timestamp, TimestampOr};
pub use walk::{walk, walked, Walk};
#[cfg(feature = "alloc")]
pub use writing::{MapWriter, SequenceWriter, StructWriter, Thing, ValueWriter};
