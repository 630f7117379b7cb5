//! Writing values, and whole maps of them.

use crate::answer::{kind, Answer};
use crate::item::Type;
use crate::limits::Limits;
use crate::raw_write;
use crate::refusal::Refusal;
use alloc::vec::Vec;
use core::ops::Range;

/// Room for a descriptor and a length field, or a scalar of eight bytes behind them.
const HEADER: usize = 10;

/// A scalar, null or pad to be written.
#[derive(Clone, Copy, Debug, PartialEq)]
#[non_exhaustive]
pub enum Thing<'a> {
    /// A null of a type.
    Null(Type),
    /// A bool.
    Bool(bool),
    /// An int by its sign and its magnitude's bytes, the most significant first.
    Int {
        /// Whether it is negative.
        negative: bool,
        /// Its magnitude; leading zero bytes are not written.
        magnitude: &'a [u8],
    },
    /// A float, a NaN with its bits.
    Float(f64),
    /// A symbol by its ID.
    Symbol(u64),
    /// A decimal by its representation.
    Decimal(&'a [u8]),
    /// A timestamp by its representation.
    Timestamp(&'a [u8]),
    /// A string.
    String(&'a str),
    /// A clob.
    Clob(&'a [u8]),
    /// A blob.
    Blob(&'a [u8]),
    /// A pad of a total size, which stands behind a field ID in a struct and in no wrapper.
    Pad(usize),
}

/// A map while it is written: a stream of values, pads and markers.
///
/// ```
/// use ion_map::{check, MapWriter, Thing, Refusal};
///
/// let mut map = MapWriter::new();
/// map.marker()?;
/// map.annotated(&[4], |value| {
///     value.list(|list| {
///         list.thing(Thing::Int { negative: false, magnitude: &[7] })?;
///         list.thing(Thing::String("tree"))
///     })
/// })?;
/// map.structure(|fields| {
///     fields.field(4, |value| value.thing(Thing::Float(0.5)))
/// })?;
/// map.thing(Thing::Pad(16))?;
/// let bytes = map.into_bytes();
/// assert_eq!(bytes[..6], [0xE0, 0x01, 0x00, 0xEA, 0xEA, 0x81]);
/// assert_eq!(check(&bytes)?.values(), 5);
/// # Ok::<(), Refusal>(())
/// ```
///
/// What is refused leaves nothing behind, neither a field's ID nor what was written in a container or a wrapper, and what
/// was written before stays: the map can be gone on with. Memory that isn't there is a refusal too,
/// [`Refusal::NO_MEMORY`].
///
/// A refusal's position is counted in the whole map, as far as it is written: it is where the refused thing was to begin
/// and, where the fault lies in the bytes that it is made of, a decimal's body or what was written in a list, as many
/// bytes further on. Of what isn't finished the descriptors, lengths and annotations are not counted yet, since
/// they are written last.
///
/// ```
/// use ion_map::{MapWriter, Refusal, Thing};
///
/// let mut map = MapWriter::new();
/// map.marker()?;
/// let refused = map.structure(|fields| {
///     fields.field(4, |value| value.thing(Thing::Bool(true)))?; // two bytes, which the refusal takes back
///     fields.field(5, |value| value.thing(Thing::Pad(0)))
/// });
/// let refusal = Refusal { number: Refusal::NO_SUCH_LENGTH, position: 4 + 2 + 1 };
/// assert_eq!((refused, map.bytes().len()), (Err(refusal), 4));
/// # Ok::<(), Refusal>(())
/// ```
///
/// Each part takes what can stand in it: markers only a stream, fields only a struct, and a field one value.
///
/// ```compile_fail,E0599
/// # use ion_map::{MapWriter, Thing};
/// MapWriter::new().field(4, |value| value.thing(Thing::Bool(true)));
/// ```
///
/// ```compile_fail,E0599
/// # use ion_map::{MapWriter, Thing};
/// MapWriter::new().list(|list| list.field(4, |value| value.thing(Thing::Bool(true))));
/// ```
///
/// ```compile_fail,E0599
/// # use ion_map::{MapWriter, Thing};
/// MapWriter::new().list(|list| list.marker());
/// ```
///
/// ```compile_fail,E0599
/// # use ion_map::{MapWriter, Thing};
/// MapWriter::new().structure(|fields| fields.thing(Thing::Bool(true)));
/// ```
///
/// ```compile_fail,E0382
/// # use ion_map::{MapWriter, Thing};
/// MapWriter::new().structure(|fields| {
///     fields.field(4, |value| {
///         value.thing(Thing::Bool(true))?;
///         value.thing(Thing::Bool(false))
///     })
/// });
/// ```
#[derive(Clone, Debug, Default, PartialEq, Eq)]
pub struct MapWriter(Buffer);

impl MapWriter {
    /// An empty map, by the usual limits.
    pub fn new() -> MapWriter {
        MapWriter::default()
    }

    /// An empty map, by a title's limits.
    pub fn by(limits: Limits) -> MapWriter {
        MapWriter(Buffer {
            limits,
            ..Buffer::default()
        })
    }

    /// What is written so far.
    pub fn bytes(&self) -> &[u8] {
        &self.0.bytes
    }

    /// What is written.
    pub fn into_bytes(self) -> Vec<u8> {
        self.0.bytes
    }

    /// The version marker of Ion 1.0.
    pub fn marker(&mut self) -> Result<(), Refusal> {
        let number = extend(&mut self.0.bytes, &[0xE0, 0x01, 0x00, 0xEA]);
        number.map_err(|number| self.0.refusal(number))
    }
}

/// The body of a list or a sexp while it is written: values and pads.
#[derive(Debug)]
pub struct SequenceWriter<'a>(&'a mut Buffer);

/// The body of an unordered struct while it is written: fields.
#[derive(Debug)]
pub struct StructWriter<'a>(&'a mut Buffer);

impl StructWriter<'_> {
    /// A field: its ID, and the one value, or the pad, that is written in the closure. With none it is refused with
    /// [`Refusal::FIELD_CUT`].
    pub fn field(
        &mut self,
        id: u64,
        value: impl FnOnce(ValueWriter<'_>) -> Result<(), Refusal>,
    ) -> Result<(), Refusal> {
        self.0.attempt(|buffer| {
            let number = var_uint(&mut buffer.bytes, id);
            number.map_err(|number| buffer.refusal(number))?;
            let start = buffer.bytes.len();
            value(ValueWriter(buffer))?;
            if buffer.bytes.len() == start {
                return Err(buffer.refusal(Refusal::FIELD_CUT));
            }
            Ok(())
        })
    }
}

/// Where one value is written, behind a field ID or annotations: each method uses it up.
#[derive(Debug)]
pub struct ValueWriter<'a>(&'a mut Buffer);

// What a stream, a sequence, and a place of one value take alike.
macro_rules! takes_values {
    ($writer:ty, $this:ident: $receiver:ty) => {
        impl $writer {
            /// A null, a scalar or a pad.
            pub fn thing($this: $receiver, thing: Thing<'_>) -> Result<(), Refusal> {
                $this.0.thing(thing)
            }

            /// A list of what is written in the closure.
            pub fn list(
                $this: $receiver,
                body: impl FnOnce(&mut SequenceWriter<'_>) -> Result<(), Refusal>,
            ) -> Result<(), Refusal> {
                $this.0.container(11, |buffer| body(&mut SequenceWriter(buffer)))
            }

            /// A sexp of what is written in the closure.
            pub fn sexp(
                $this: $receiver,
                body: impl FnOnce(&mut SequenceWriter<'_>) -> Result<(), Refusal>,
            ) -> Result<(), Refusal> {
                $this.0.container(12, |buffer| body(&mut SequenceWriter(buffer)))
            }

            /// An unordered struct of the fields that are written in the closure.
            pub fn structure(
                $this: $receiver,
                body: impl FnOnce(&mut StructWriter<'_>) -> Result<(), Refusal>,
            ) -> Result<(), Refusal> {
                $this.0.container(13, |buffer| body(&mut StructWriter(buffer)))
            }

            /// The one value that is written in the closure, with annotations by their IDs.
            pub fn annotated(
                $this: $receiver,
                ids: &[u64],
                value: impl FnOnce(ValueWriter<'_>) -> Result<(), Refusal>,
            ) -> Result<(), Refusal> {
                $this.0.wrapper(ids, |buffer| value(ValueWriter(buffer)))
            }
        }
    };
}

takes_values!(MapWriter, self: &mut Self);
takes_values!(SequenceWriter<'_>, self: &mut Self);
takes_values!(ValueWriter<'_>, self: Self);

/// The map as far as it is written. What is in a container, or in a wrapper, is written before what stands around it, at
/// the place where that is to begin.
#[derive(Clone, Debug, Default, PartialEq, Eq)]
struct Buffer {
    limits: Limits,
    bytes: Vec<u8>,
    /// How many containers what is written next stands in.
    depth: usize,
}

impl Buffer {
    fn thing(&mut self, thing: Thing<'_>) -> Result<(), Refusal> {
        let start = self.bytes.len();
        self.attempt(|buffer| {
            buffer.put(start, room(&thing), |_, to, record| match thing {
                Thing::Null(of) => raw_write::null(code(of), to, record),
                Thing::Bool(value) => raw_write::bool(u64::from(value), to, record),
                Thing::Int { negative, magnitude } => raw_write::int(magnitude, u64::from(negative), to, record),
                Thing::Float(value) => raw_write::float(value.to_bits(), to, record),
                Thing::Symbol(id) => raw_write::symbol(id, to, record),
                Thing::Decimal(body) => raw_write::scalar(5, body, to, record),
                Thing::Timestamp(body) => raw_write::scalar(6, body, to, record),
                Thing::String(text) => raw_write::scalar(8, text.as_bytes(), to, record),
                Thing::Clob(body) => raw_write::scalar(9, body, to, record),
                Thing::Blob(body) => raw_write::scalar(10, body, to, record),
                Thing::Pad(size) => raw_write::pad(size, to, record),
            })
        })
    }

    fn container(&mut self, code: usize, body: impl FnOnce(&mut Buffer) -> Result<(), Refusal>) -> Result<(), Refusal> {
        let Limits { annotations, depth } = self.limits;
        let start = self.bytes.len();
        self.attempt(|buffer| {
            buffer.enter()?;
            body(buffer)?;
            buffer.put(start, HEADER, |body, to, record| {
                raw_write::container(code, body, annotations, depth, to, record)
            })
        })
    }

    /// One container deeper. The library would refuse the depth too, but once all is written, and a caller that calls
    /// itself for each container is to be stopped before its stack is.
    fn enter(&mut self) -> Result<(), Refusal> {
        if !Limits::DEPTH.contains(&self.limits.depth) {
            return Err(self.refusal(Refusal::LIMIT_OUT_OF_RANGE));
        }
        if self.depth >= self.limits.depth {
            return Err(self.refusal(Refusal::TOO_DEEP));
        }
        self.depth += 1;
        Ok(())
    }

    fn wrapper(&mut self, ids: &[u64], value: impl FnOnce(&mut Buffer) -> Result<(), Refusal>) -> Result<(), Refusal> {
        let Limits {
            annotations: most,
            depth,
        } = self.limits;
        let start = self.bytes.len();
        self.attempt(|buffer| {
            let mut annotations = Vec::new();
            for id in ids {
                var_uint(&mut annotations, *id).map_err(|number| buffer.refusal(number))?;
            }
            value(buffer)?;
            let room = HEADER.saturating_add(HEADER).saturating_add(annotations.len());
            buffer.put(start, room, |value, to, record| {
                raw_write::wrapper(&annotations, value, most, depth, to, record)
            })
        })
    }

    /// Writes, and takes back all that was written where it is refused, or where a closure of the caller panics.
    fn attempt(&mut self, write: impl FnOnce(&mut Buffer) -> Result<(), Refusal>) -> Result<(), Refusal> {
        struct Attempt<'a> {
            buffer: &'a mut Buffer,
            keep: usize,
            depth: usize,
        }
        impl Drop for Attempt<'_> {
            fn drop(&mut self) {
                self.buffer.bytes.truncate(self.keep);
                self.buffer.depth = self.depth;
            }
        }
        let (keep, depth) = (self.bytes.len(), self.depth);
        let mut attempt = Attempt {
            buffer: self,
            keep,
            depth,
        };
        write(attempt.buffer)?;
        attempt.keep = attempt.buffer.bytes.len();
        Ok(())
    }

    /// Puts what is made of the bytes from `start` on in their place. It has their length and `room` more at first; where
    /// that is too little, the library says what it needs.
    fn put(
        &mut self,
        start: usize,
        room: usize,
        write: impl Fn(&[u8], &mut [u8], &mut [u8]) -> u64,
    ) -> Result<(), Refusal> {
        let span = start..self.bytes.len();
        let length = match self.write(&span, room.saturating_add(span.len()), &write) {
            Err(Refusal {
                number: Refusal::NO_ROOM_TO_WRITE,
                position: needed,
            }) => self.write(&span, needed, &write),
            other => other,
        };
        let length = length.map_err(|refusal| Refusal {
            position: start.saturating_add(refusal.position),
            ..refusal
        })?;
        self.bytes.truncate(span.end + length);
        self.bytes.drain(span);
        Ok(())
    }

    /// Writes what is made of the bytes in `span`, which are the last, behind them: how many bytes that took, or a refusal
    /// with the library's position.
    fn write(
        &mut self,
        span: &Range<usize>,
        room: usize,
        write: impl Fn(&[u8], &mut [u8], &mut [u8]) -> u64,
    ) -> Result<usize, Refusal> {
        reserve(&mut self.bytes, room).map_err(|number| Refusal { number, position: 0 })?;
        self.bytes.resize(span.end + room, 0);
        let (written, to) = self.bytes.split_at_mut(span.end);
        let answer = Answer::of(|record| write(&written[span.start..], to, record))?;
        match (answer.kind(), answer.at::<3>()) {
            (kind::WRITTEN, length) if length <= room => Ok(length),
            _ => Err(Refusal::unknown_answer()),
        }
    }

    /// A refusal of what was to begin here.
    fn refusal(&self, number: u64) -> Refusal {
        Refusal {
            number,
            position: self.bytes.len(),
        }
    }
}

/// The first room for a thing. A pad is of any size, and the library is asked before there is room for it.
fn room(thing: &Thing<'_>) -> usize {
    match thing {
        Thing::Int { magnitude: body, .. }
        | Thing::Decimal(body)
        | Thing::Timestamp(body)
        | Thing::Clob(body)
        | Thing::Blob(body) => HEADER + body.len(),
        Thing::String(text) => HEADER + text.len(),
        Thing::Pad(_) => 0,
        Thing::Null(_) | Thing::Bool(_) | Thing::Float(_) | Thing::Symbol(_) => HEADER,
    }
}

// Of these three the refusal is its number.

/// Puts a VarUInt in the fewest bytes behind what is there; nine tell what is below 2^63.
fn var_uint(to: &mut Vec<u8>, id: u64) -> Result<(), u64> {
    if id >> 63 != 0 {
        return Err(Refusal::NUMBER_TOO_LONG);
    }
    let size = (u64::BITS - (id | 1).leading_zeros()).div_ceil(7);
    reserve(to, size as usize)?;
    for place in (0..size).rev() {
        let last = if place == 0 { 0x80 } else { 0 };
        to.push(last | (id >> (7 * place)) as u8 & 0x7F);
    }
    Ok(())
}

fn extend(to: &mut Vec<u8>, bytes: &[u8]) -> Result<(), u64> {
    reserve(to, bytes.len())?;
    to.extend_from_slice(bytes);
    Ok(())
}

fn reserve(bytes: &mut Vec<u8>, room: usize) -> Result<(), u64> {
    bytes.try_reserve(room).map_err(|_| Refusal::NO_MEMORY)
}

/// The type code of a type.
fn code(of: Type) -> usize {
    match of {
        Type::Null => 0,
        Type::Bool => 1,
        Type::Int => 2,
        Type::NegativeInt => 3,
        Type::Float => 4,
        Type::Decimal => 5,
        Type::Timestamp => 6,
        Type::Symbol => 7,
        Type::String => 8,
        Type::Clob => 9,
        Type::Blob => 10,
        Type::List => 11,
        Type::Sexp => 12,
        Type::Struct => 13,
    }
}
