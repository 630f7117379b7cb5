//! What a step hands out.

use crate::answer::{kind, Answer};
use crate::part::{Part, PartKind};
use crate::raw::Record;
use crate::refusal::Refusal;
use crate::scalar::{scalar, Scalar};
use crate::timestamp::{timestamp, TimestampOr};
use core::fmt;
use core::ops::Range;

/// A value's type: the high four bits of its descriptor byte.
#[derive(Clone, Copy, Debug, PartialEq, Eq, Hash)]
#[non_exhaustive]
pub enum Type {
    /// The null without another type.
    Null,
    /// `true` and `false`.
    Bool,
    /// An int of zero and above.
    Int,
    /// An int below zero; in Ion the same type.
    NegativeInt,
    /// A float of 0, 4 or 8 bytes.
    Float,
    /// A decimal.
    Decimal,
    /// A timestamp.
    Timestamp,
    /// A symbol, by its ID.
    Symbol,
    /// Text in UTF-8.
    String,
    /// Text in an encoding that the map doesn't say.
    Clob,
    /// Bytes.
    Blob,
    /// A list.
    List,
    /// An S-expression.
    Sexp,
    /// A struct.
    Struct,
}

impl Type {
    /// The type that a descriptor byte says, if it is a value's. Pads, which have the null's code, are not told
    /// from it here; no step hands one out.
    ///
    /// ```
    /// use ion_map::Type;
    ///
    /// assert_eq!(Type::of_byte(0xB3), Some(Type::List));
    /// assert_eq!(Type::of_byte(0xE3), None);
    /// ```
    #[inline]
    pub fn of_byte(byte: u8) -> Option<Type> {
        const TYPES: [Type; 14] = [
            Type::Null,
            Type::Bool,
            Type::Int,
            Type::NegativeInt,
            Type::Float,
            Type::Decimal,
            Type::Timestamp,
            Type::Symbol,
            Type::String,
            Type::Clob,
            Type::Blob,
            Type::List,
            Type::Sexp,
            Type::Struct,
        ];
        TYPES.get(usize::from(byte >> 4)).copied()
    }

    /// Its name in the Ion document; `int` for both signs.
    pub fn name(self) -> &'static str {
        match self {
            Type::Null => "null",
            Type::Bool => "bool",
            Type::Int | Type::NegativeInt => "int",
            Type::Float => "float",
            Type::Decimal => "decimal",
            Type::Timestamp => "timestamp",
            Type::Symbol => "symbol",
            Type::String => "string",
            Type::Clob => "clob",
            Type::Blob => "blob",
            Type::List => "list",
            Type::Sexp => "sexp",
            Type::Struct => "struct",
        }
    }

    /// How the body of such a container is stepped through; nothing for the other types.
    #[inline]
    pub fn body_kind(self) -> Option<PartKind> {
        match self {
            Type::List | Type::Sexp => Some(PartKind::Sequence),
            Type::Struct => Some(PartKind::Struct),
            _ => None,
        }
    }
}

impl fmt::Display for Type {
    fn fmt(&self, f: &mut fmt::Formatter<'_>) -> fmt::Result {
        f.write_str(self.name())
    }
}

/// The version marker of Ion 1.0: four bytes, E0, major, minor, EA. One with other numbers is refused.
#[derive(Clone, Debug, PartialEq, Eq, Hash)]
pub struct Marker {
    /// Its four bytes.
    pub span: Range<usize>,
    /// The version's first number, 1.
    pub major: u8,
    /// The version's second number, 0.
    pub minor: u8,
}

/// Where a value lies. Its bytes are in this order: field ID (in a struct), wrapper and annotations (if any),
/// descriptor, length (if any), body.
#[derive(Clone, Debug, PartialEq, Eq, Hash)]
pub struct Value {
    /// The value's own descriptor byte, never its wrapper's.
    pub byte: u8,
    /// The type that the byte says.
    pub ion_type: Type,
    /// Its first byte: of the field ID, else of the wrapper, else the descriptor.
    pub start: usize,
    /// The annotations' bytes, which end at the descriptor. Empty where there are none.
    pub annotations: Range<usize>,
    /// The body, which ends where the value does.
    pub body: Range<usize>,
    /// How many bytes the body has.
    pub body_len: usize,
}

impl Value {
    /// The descriptor's position.
    #[inline]
    pub fn descriptor(&self) -> usize {
        self.annotations.end
    }

    /// From its first byte to its end.
    #[inline]
    pub fn span(&self) -> Range<usize> {
        self.start..self.body.end
    }

    /// Whether it is a null, of whichever type.
    #[inline]
    pub fn is_null(&self) -> bool {
        self.byte & 0x0F == 0x0F
    }

    /// The body as a part for further steps, where the value is a list, a sexp or a struct and not null.
    ///
    /// ```
    /// use ion_map::{step, Part, PartKind};
    ///
    /// let map = [0xB1, 0x20, 0xBF];
    /// let list = step(&map, Part::stream(&map), 0)?;
    /// assert_eq!(list.value().and_then(|v| v.part()), Some(Part::new(PartKind::Sequence, 1..2)));
    ///
    /// let null_list = step(&map, Part::stream(&map), 2)?;
    /// assert_eq!(null_list.value().and_then(|v| v.part()), None);
    /// # Ok::<(), ion_map::Refusal>(())
    /// ```
    #[inline]
    pub fn part(&self) -> Option<Part> {
        if self.is_null() {
            return None;
        }
        let kind = self.ion_type.body_kind()?;
        Some(Part::new(kind, self.body.clone()))
    }

    /// What the value is, read from its map: what [`scalar`](crate::scalar) answers with the part that handed it out. It
    /// borrows nothing but the map, so that values can be read where a walk or an iterator hands them out.
    ///
    /// ```
    /// use ion_map::walk;
    ///
    /// let map = [0xB6, 0x21, 0x07, 0x82, 0x68, 0x69, 0x11]; // a list of 7, "hi" and true
    /// let (mut number, mut text, mut flag) = (None, None, None);
    /// for met in walk(&map) {
    ///     let (_, item) = met?;
    ///     if let Some(value) = item.value() {
    ///         let read = value.read(&map)?;
    ///         number = number.or(read.as_i64());
    ///         text = text.or(read.as_str());
    ///         flag = flag.or(read.as_bool());
    ///     }
    /// }
    /// assert_eq!((number, text, flag), (Some(7), Some("hi"), Some(true)));
    /// # Ok::<(), ion_map::Refusal>(())
    /// ```
    pub fn read<'a>(&self, map: &'a [u8]) -> Result<Scalar<'a>, Refusal> {
        scalar(map, self.itself(), self.descriptor())
    }

    /// The same with a timestamp's fields: what [`timestamp`](crate::timestamp) answers.
    pub fn read_timestamp<'a>(&self, map: &'a [u8]) -> Result<TimestampOr<'a>, Refusal> {
        timestamp(map, self.itself(), self.descriptor())
    }

    /// From the descriptor to the value's end, as a part: at its descriptor, a value that a step handed out is the same in
    /// it as in any part that it lies in.
    fn itself(&self) -> Part {
        Part::new(PartKind::Sequence, self.descriptor()..self.body.end)
    }
}

/// What a step hands out.
// So laid out, a value and a field's value stand at the same place, and the variant's number is that of the record.
#[derive(Clone, Debug, PartialEq, Eq, Hash)]
#[non_exhaustive]
#[repr(u8)]
pub enum Item {
    /// Nothing is left in the part. Only a single step hands it out; the iterators stop instead.
    End {
        /// The part's end.
        position: usize,
    },
    /// The version marker; only in a stream.
    Marker(Marker),
    /// A value of a stream or a sequence.
    Value(Value),
    /// A value of a struct.
    Field {
        /// The value; its span begins at the field ID.
        value: Value,
        /// Its field ID, a symbol's ID.
        id: u64,
    },
}

impl Item {
    /// The value, of a value or a field.
    #[inline]
    pub fn value(&self) -> Option<&Value> {
        match self {
            Item::Value(value) | Item::Field { value, .. } => Some(value),
            Item::End { .. } | Item::Marker(_) => None,
        }
    }

    /// The bytes of the item, its field ID included; of an end an empty span where it is.
    #[inline]
    pub fn span(&self) -> Range<usize> {
        match self {
            Item::End { position } => *position..*position,
            Item::Marker(marker) => marker.span.clone(),
            Item::Value(value) | Item::Field { value, .. } => value.span(),
        }
    }

    /// Where the item ends, and the next step begins.
    #[inline]
    pub(crate) fn end(&self) -> usize {
        match self {
            Item::End { position } => *position,
            Item::Marker(marker) => marker.span.end,
            Item::Value(value) | Item::Field { value, .. } => value.body.end,
        }
    }

    /// How many bytes the body has, of a value or a field; 0 for an end and a marker.
    ///
    /// ```
    /// use ion_map::{step, Part};
    ///
    /// let map = [0x82, 0x68, 0x69]; // the string "hi"
    /// assert_eq!(step(&map, Part::stream(&map), 0)?.body_len(), 2);
    /// assert_eq!(step(&map, Part::stream(&map), 3)?.body_len(), 0);
    /// # Ok::<(), ion_map::Refusal>(())
    /// ```
    pub fn body_len(&self) -> usize {
        self.value().map_or(0, |value| value.body_len)
    }

    /// What a record of [`raw::step`](crate::raw::step) or [`raw::steps`](crate::raw::steps) says.
    ///
    /// ```
    /// use ion_map::{raw, Item};
    ///
    /// let mut record = [0; raw::RECORD_SIZE];
    /// raw::step(&[], 0, 0, 0, 0, 255, &mut record);
    /// assert_eq!(Item::from_record(&record), Ok(Item::End { position: 0 }));
    /// ```
    #[inline]
    pub fn from_record(record: &Record) -> Result<Item, Refusal> {
        Item::from_answer(&Answer::from_record(record)?)
    }

    #[inline]
    pub(crate) fn from_answer(answer: &Answer) -> Result<Item, Refusal> {
        match answer.kind() {
            kind::END => Ok(Item::End {
                position: answer.at::<2>(),
            }),
            kind::MARKER => Ok(Item::Marker(marker(answer)?)),
            kind::VALUE => Ok(Item::Value(value(answer)?)),
            kind::FIELD => Ok(Item::Field {
                id: answer.word::<7>(),
                value: value(answer)?,
            }),
            _ => Err(Refusal::unknown_answer()),
        }
    }
}

#[inline]
fn marker(answer: &Answer) -> Result<Marker, Refusal> {
    Ok(Marker {
        span: answer.span::<2, 6>(),
        major: answer.byte::<3>()?,
        minor: answer.byte::<4>()?,
    })
}

#[inline]
fn value(answer: &Answer) -> Result<Value, Refusal> {
    let byte = answer.byte::<1>()?;
    Ok(Value {
        byte,
        ion_type: Type::of_byte(byte).ok_or(Refusal::unknown_answer())?,
        start: answer.at::<2>(),
        annotations: answer.span::<3, 4>(),
        body: answer.span::<5, 6>(),
        body_len: answer.at::<8>(),
    })
}
