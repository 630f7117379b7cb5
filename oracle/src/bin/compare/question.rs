//! Questions that both readers are asked, and how they are written.

use crate::maps::hex;
use crate::ours::{Part, ANNOTATIONS, DEPTHS, MISSING};
use oracle::asking::Limits;
use std::fmt;

/// Parts are stepped by these rules; other numbers are refused.
pub const STREAM: u64 = 0;
pub const SEQUENCE: u64 = 1;
pub const STRUCT: u64 = 2;

/// Numbers are read in these forms; others are refused.
pub const VAR_UINT: u64 = 0;
pub const VAR_INT: u64 = 1;
pub const INT: u64 = 2;

/// The entries that fill a record.
#[derive(Clone, Copy, Debug, PartialEq)]
pub enum Entry {
    Step,
    Steps,
    Annotation,
    StepIn,
    Scalar,
    Timestamp,
    Number,
    Decimal,
    Bounded,
    Check,
    PackedSize,
    Pack,
}

pub const ENTRIES: [Entry; 12] = [
    Entry::Step,
    Entry::Steps,
    Entry::Annotation,
    Entry::StepIn,
    Entry::Scalar,
    Entry::Timestamp,
    Entry::Number,
    Entry::Decimal,
    Entry::Bounded,
    Entry::Check,
    Entry::PackedSize,
    Entry::Pack,
];

/// What is written. Types, bools and signs are the caller's numbers, also those that are refused.
#[derive(Clone, Copy, Debug, PartialEq)]
pub enum Thing {
    Null(usize),
    Bool(u64),
    /// Its sign; the magnitude is lent.
    Int(u64),
    Float(u64),
    Symbol(u64),
    Pad(usize),
    /// A type by its representation, which is lent.
    Scalar(usize),
    /// A type around a body, which is lent.
    Container(usize),
    /// Annotation bytes around a value; both are lent, one behind the other.
    Wrapper,
}

#[derive(Clone, Copy, Debug, PartialEq)]
pub enum Ask {
    /// Steps by these rules until an end or a refusal, and once more.
    Run(u64),
    /// Steps by these rules into a buffer of so many bytes.
    Batch(u64, usize),
    /// Annotation steps until an end or a refusal, and once more.
    Annotations,
    StepIn,
    Scalar,
    Timestamp,
    /// A number of this form; an Int of so many bytes.
    Number(u64, usize),
    /// The decimal whose body is the part from its position on.
    Decimal,
    /// Every line of the walk of the part.
    Walk,
    /// How many items the walk of the part hands out in so many calls.
    Walked(u64),
    /// Whether the part is accepted as a map, and what it holds.
    Check,
    /// The part as a map, packed.
    Pack,
    /// This thing, of the part's bytes; a wrapper's value begins at the position.
    Write(Thing),
    /// How many field IDs the struct step begins to read.
    Ids,
    /// Steps by these rules past so many pads at most, until an end or a refusal, and once more.
    Bounded(u64, usize),
    /// An entry with a buffer of so many bytes, fewer than a record has.
    Short(Entry, usize),
}

#[derive(Clone, Copy, Debug, PartialEq)]
pub struct Question {
    pub ask: Ask,
    pub part: Part,
}

/// What is counted apart, in the order of the report.
pub const KINDS: [&str; 23] = [
    "runs of stream steps",
    "runs of sequence steps",
    "runs of struct steps",
    "many steps in a call",
    "runs of annotation steps",
    "stepping in",
    "scalars",
    "VarUInts",
    "VarInts",
    "Ints",
    "decimals",
    "walks, line by line",
    "items of a walk, counted",
    "parts outside (50)",
    "short buffers (51)",
    "limits out of range (68)",
    "field IDs begun, by the pads counted",
    "timestamps, and scalars as such",
    "runs of bounded steps",
    "no pads allowed (67)",
    "whole maps, checked and counted",
    "whole maps, packed",
    "values and pads, written and read back",
];

impl Thing {
    /// Whether it is one of those that are written: all else is refusal 50.
    pub fn is_known(self) -> bool {
        match self {
            Thing::Null(code) => code <= 13,
            Thing::Bool(number) | Thing::Int(number) => number <= 1,
            Thing::Scalar(code) => matches!(code, 5 | 6 | 8..=10),
            Thing::Container(code) => matches!(code, 11..=13),
            Thing::Float(_) | Thing::Symbol(_) | Thing::Pad(_) | Thing::Wrapper => true,
        }
    }

    /// Its function, and the check of what is to be written.
    fn needs(self) -> &'static [&'static str] {
        match self {
            Thing::Null(_) => &["ion_map_write_null", "ion_map_check"],
            Thing::Bool(_) => &["ion_map_write_bool", "ion_map_check"],
            Thing::Int(_) => &["ion_map_write_int", "ion_map_check"],
            Thing::Float(_) => &["ion_map_write_float", "ion_map_check"],
            Thing::Symbol(_) => &["ion_map_write_symbol", "ion_map_check"],
            Thing::Pad(_) => &["ion_map_write_pad", "ion_map_check"],
            Thing::Scalar(_) => &["ion_map_write_scalar", "ion_map_check"],
            Thing::Container(_) => &["ion_map_write_container", "ion_map_check"],
            Thing::Wrapper => &["ion_map_write_wrapper", "ion_map_check"],
        }
    }
}

impl Question {
    pub fn new(ask: Ask, part: Part) -> Self {
        Question { ask, part }
    }

    /// The index in `KINDS`.
    pub fn kind(&self, map: &[u8]) -> usize {
        match self.ask {
            Ask::Short(..) => 14,
            _ if self.is_out_of_range() => 15,
            _ if self.is_outside(map) => 13,
            Ask::Run(rules) => rules as usize,
            Ask::Batch(..) => 3,
            Ask::Annotations => 4,
            Ask::StepIn => 5,
            Ask::Scalar => 6,
            Ask::Timestamp => 17,
            Ask::Number(form, _) => 7 + form as usize,
            Ask::Decimal => 10,
            Ask::Walk => 11,
            Ask::Walked(_) => 12,
            Ask::Ids => 16,
            Ask::Bounded(_, 0) => 19,
            Ask::Bounded(..) => 18,
            Ask::Check => 20,
            Ask::Pack => 21,
            Ask::Write(_) => 22,
        }
    }

    /// The exported functions that an answer needs.
    fn needs(&self) -> &'static [&'static str] {
        match self.ask {
            Ask::Run(_) | Ask::Short(Entry::Step, _) => &["ion_map_step"],
            Ask::Batch(..) => &["ion_map_step", "ion_map_steps"],
            Ask::Annotations | Ask::Short(Entry::Annotation, _) => &["ion_map_annotation"],
            Ask::StepIn | Ask::Short(Entry::StepIn, _) => &["ion_map_step_in"],
            Ask::Scalar | Ask::Short(Entry::Scalar, _) => &["ion_map_scalar"],
            Ask::Timestamp | Ask::Short(Entry::Timestamp, _) => &["ion_map_timestamp"],
            Ask::Number(..) | Ask::Short(Entry::Number, _) => &["ion_map_number"],
            Ask::Decimal | Ask::Short(Entry::Decimal, _) => &["ion_map_decimal"],
            Ask::Walk => &["ion_map_step", "ion_map_step_in"],
            Ask::Walked(_) => &["ion_map_walked"],
            Ask::Check | Ask::Short(Entry::Check, _) => &["ion_map_check"],
            Ask::Pack => &["ion_map_packed_size", "ion_map_pack", "ion_map_check"],
            Ask::Short(Entry::PackedSize, _) => &["ion_map_packed_size"],
            Ask::Short(Entry::Pack, _) => &["ion_map_pack"],
            Ask::Write(thing) => thing.needs(),
            Ask::Ids => &["ion_map_ids"],
            Ask::Bounded(..) | Ask::Short(Entry::Bounded, _) => &["ion_map_step_bounded"],
            Ask::Short(Entry::Steps, _) => &["ion_map_steps"],
        }
    }

    /// Whether the archive has all that an answer needs.
    pub fn can_be_asked(&self) -> bool {
        MISSING.is_empty() || !self.needs().iter().any(|name| MISSING.contains(name))
    }

    /// Whether a limit is refused, whatever the other arguments are.
    pub fn is_out_of_range(&self) -> bool {
        let Limits { annotations, depth } = self.part.limits;
        let (is_many, is_deep) = (
            !ANNOTATIONS.contains(&annotations),
            !DEPTHS.contains(&depth),
        );
        match self.ask {
            Ask::Annotations | Ask::Number(..) | Ask::Decimal => false,
            Ask::Walk | Ask::Walked(_) | Ask::Check | Ask::Pack => is_many || is_deep,
            Ask::Write(Thing::Container(_) | Thing::Wrapper) => is_many || is_deep,
            Ask::Write(_) => false,
            _ => is_many,
        }
    }

    /// Whether the caller's arguments are refused, whatever the bytes are.
    pub fn is_outside(&self, map: &[u8]) -> bool {
        let part = match self.ask {
            Ask::Decimal => self.part.from_position(),
            _ => self.part,
        };
        let is_known = match self.ask {
            Ask::Run(rules) | Ask::Batch(rules, _) | Ask::Bounded(rules, _) => rules <= STRUCT,
            Ask::Number(form, _) => form <= INT,
            Ask::Write(thing) => thing.is_known(),
            _ => true,
        };
        !is_known || !part.is_inside(map)
    }

    /// The question as a person reads it.
    pub fn written(&self, map: &[u8]) -> String {
        let Part {
            start,
            end,
            position,
            limits,
        } = self.part;
        let limits = match limits {
            Limits::USUAL => String::new(),
            Limits { annotations, depth } => format!(" by {annotations} and {depth}"),
        };
        format!(
            "{} {} part {start}..{end} at {position}{limits}",
            self.ask,
            hex(map)
        )
    }
}

impl fmt::Display for Ask {
    fn fmt(&self, f: &mut fmt::Formatter<'_>) -> fmt::Result {
        match self {
            Ask::Run(STREAM) => write!(f, "stream"),
            Ask::Run(SEQUENCE) => write!(f, "sequence"),
            Ask::Run(STRUCT) => write!(f, "struct"),
            Ask::Run(other) => write!(f, "step of kind {other}"),
            Ask::Batch(rules, room) => write!(f, "steps of kind {rules} into {room} bytes"),
            Ask::Annotations => write!(f, "annotations"),
            Ask::StepIn => write!(f, "stepin"),
            Ask::Scalar => write!(f, "scalar"),
            Ask::Timestamp => write!(f, "timestamp"),
            Ask::Number(VAR_UINT, _) => write!(f, "varuint"),
            Ask::Number(VAR_INT, _) => write!(f, "varint"),
            Ask::Number(INT, size) => write!(f, "int of {size} bytes"),
            Ask::Number(form, size) => write!(f, "number of form {form}, {size} bytes"),
            Ask::Decimal => write!(f, "decimal"),
            Ask::Walk => write!(f, "walk"),
            Ask::Walked(most) => write!(f, "items of {most} calls of the walk"),
            Ask::Check => write!(f, "check"),
            Ask::Pack => write!(f, "pack"),
            Ask::Write(thing) => write!(f, "write {thing:?}"),
            Ask::Ids => write!(f, "field IDs begun"),
            Ask::Bounded(rules, most) => write!(f, "steps of kind {rules} past {most} pads"),
            Ask::Short(entry, room) => write!(f, "{entry:?} into {room} bytes"),
        }
    }
}
