//! Asks the Rust and returns its answers as values: what `harness` prints and `compare` compares.
//!
//! An answer that isn't the Rust's, because the Rust has no such entry, is marked `own`.

use crate::lazy::any_encoding::IonEncoding;
use crate::lazy::binary::binary_buffer::BinaryBuffer;
use crate::lazy::binary::raw::annotations_iterator::RawBinaryAnnotationsIterator;
use crate::lazy::binary::raw::r#struct::RawBinaryStructIterator_1_0;
use crate::lazy::binary::raw::reader::LazyRawBinaryReader_1_0;
use crate::lazy::binary::raw::sequence::RawBinarySequenceIterator_1_0;
use crate::lazy::binary::raw::value::LazyRawBinaryValue_1_0;
use crate::lazy::decoder::{HasRange, LazyRawFieldName, LazyRawReader, LazyRawSequence};
use crate::lazy::decoder::{LazyRawFieldExpr, RawVersionMarker};
use crate::lazy::encoding::BinaryEncoding_1_0;
use crate::lazy::expanded::{EncodingContext, EncodingContextRef};
use crate::lazy::raw_stream_item::RawStreamItem;
use crate::lazy::raw_value_ref::{RawSymbolRef, RawValueRef};
use crate::lazy::streaming_raw_reader::RawReaderState;
use crate::refusals;
use crate::requests::Request;
use crate::types::decimal::Sign;
use crate::{Int, IonError, IonType};

/// What a title's maps may have, by the change request A.9.
#[derive(Clone, Copy, Debug, PartialEq)]
pub struct Limits {
    /// The most bytes of a value's annotations.
    pub annotations: usize,
    /// The deepest level of the walk: a container there is handed out and not entered.
    pub depth: usize,
}

impl Limits {
    /// The Rust's own limit of annotations, whose number it keeps in a byte, and the scope paper's of
    /// depth, of which the Rust has none.
    pub const USUAL: Limits = Limits {
        annotations: 255,
        depth: 32,
    };
}

/// The stand-in integer answers for at most this many bytes.
pub const INT_LIMIT: usize = 15;

// ===== Answers =====

#[derive(Clone, Copy, Debug, PartialEq)]
pub struct Refusal {
    pub number: u32,
    /// The Rust's own; its decoding errors have none.
    pub position: Option<usize>,
    /// The harness's answer, not the Rust's.
    pub own: bool,
    /// The change request by which it is another than the Rust's.
    pub moved: Option<Request>,
}

impl Refusal {
    pub fn own(number: u32, position: Option<usize>) -> Self {
        Refusal {
            number,
            position,
            own: true,
            moved: None,
        }
    }

    pub fn moved(request: Request, number: u32, position: usize) -> Self {
        Refusal {
            moved: Some(request),
            ..Refusal::own(number, Some(position))
        }
    }
}

impl From<IonError> for Refusal {
    fn from(error: IonError) -> Self {
        let (number, position) = refusals::number(&error);
        Refusal {
            number,
            position,
            own: false,
            moved: None,
        }
    }
}

/// Where a value lies. `annotations..descriptor` are its annotation bytes, `body..end` its body, of
/// which the Rust keeps the length.
#[derive(Clone, Copy, Debug, PartialEq)]
pub struct Spans {
    pub byte: u8,
    pub start: usize,
    pub annotations: usize,
    pub descriptor: usize,
    pub body: usize,
    pub end: usize,
    pub length: usize,
}

/// What a step hands out.
#[derive(Clone, Copy, Debug, PartialEq)]
pub enum Item {
    Marker {
        start: usize,
        major: u8,
        minor: u8,
        end: usize,
    },
    Value(Spans),
    Field(usize, Spans),
    End(usize),
    Refused(Refusal),
}

/// What an annotation step hands out.
#[derive(Clone, Copy, Debug, PartialEq)]
pub enum Annotation {
    Id { id: usize, next: usize },
    End,
    Refused(Refusal),
}

/// A number and where it ends. Zero may be negative.
#[derive(Clone, Copy, Debug, PartialEq)]
pub struct Number {
    pub negative: bool,
    pub magnitude: u128,
    pub next: usize,
}

/// A decimal: its exponent, and its coefficient, whose zero may be negative.
#[derive(Clone, Copy, Debug, PartialEq)]
pub struct Decimal {
    pub exponent: i64,
    pub negative: bool,
    /// Nothing where it is too long for the stand-in integer.
    pub magnitude: Option<u128>,
    /// Where the coefficient begins. The Rust doesn't show it: the exponent is read a second time.
    pub coefficient: usize,
}

#[derive(Clone, Copy, Debug, PartialEq)]
pub enum Scalar {
    Null(IonType),
    Bool(bool),
    Int {
        negative: bool,
        magnitude: u128,
    },
    /// An int that the stand-in integer doesn't answer for.
    LongInt,
    Float(u64),
    Symbol(usize),
    /// A string, clob, blob, decimal or timestamp.
    Part(IonType, usize, usize),
    Container,
}

/// A value that was read, and where it lies.
#[derive(Clone, Copy, Debug, PartialEq)]
pub struct Reading {
    pub spans: Spans,
    pub scalar: Scalar,
}

/// The body that stepping in opens.
#[derive(Clone, Copy, Debug, PartialEq)]
pub struct Opened {
    pub is_struct: bool,
    pub descriptor: usize,
    pub body: usize,
    pub end: usize,
    pub length: usize,
}

/// What the walk hands out.
#[derive(Clone, Copy, Debug, PartialEq)]
pub enum Line {
    Marker {
        start: usize,
        major: u8,
        minor: u8,
        end: usize,
    },
    Value {
        depth: usize,
        ion_type: IonType,
        start: usize,
        descriptor: usize,
        body: usize,
        end: usize,
    },
    End(usize),
    Refused(Refusal),
}

// ===== Parts =====

/// The bytes, the part of them that is asked about, the limits and the Rust's context.
pub struct Asked<'a> {
    bytes: &'a [u8],
    at: usize,
    end: usize,
    limits: Limits,
    context: EncodingContextRef<'a>,
}

impl<'a> Asked<'a> {
    /// The part `at..end`. The Rust has no buffer for a part outside the bytes.
    pub fn new(
        context: &'a EncodingContext,
        bytes: &'a [u8],
        at: usize,
        end: usize,
    ) -> Result<Self, Refusal> {
        if !(at <= end && end <= bytes.len()) {
            return Err(Refusal::own(50, Some(0)));
        }
        Ok(Asked {
            bytes,
            at,
            end,
            limits: Limits::USUAL,
            context: EncodingContextRef::new(context),
        })
    }

    /// The same by other limits.
    pub fn by(self, limits: Limits) -> Self {
        Asked { limits, ..self }
    }

    pub fn limits(&self) -> Limits {
        self.limits
    }

    pub fn at(&self) -> usize {
        self.at
    }

    pub fn bytes(&self, start: usize, end: usize) -> &'a [u8] {
        &self.bytes[start..end]
    }

    pub fn end(&self) -> usize {
        self.end
    }

    pub(crate) fn context(&self) -> EncodingContextRef<'a> {
        self.context
    }

    /// The whole part as the Rust's buffer.
    pub fn part(&self) -> BinaryBuffer<'a> {
        self.part_from(self.at)
    }

    fn part_from(&self, at: usize) -> BinaryBuffer<'a> {
        self.within(at, self.end)
    }

    /// A part of the part, asked about by itself.
    pub fn sub(&self, at: usize, end: usize) -> Self {
        Asked { at, end, ..*self }
    }

    /// A part of the part.
    pub fn within(&self, start: usize, end: usize) -> BinaryBuffer<'a> {
        BinaryBuffer::new_with_offset(self.context, self.bytes(start, end), start)
    }

    fn reader(&self) -> LazyRawBinaryReader_1_0<'a> {
        let bytes = &self.bytes[self.at..self.end];
        let state = RawReaderState::new(bytes, self.at, false, IonEncoding::Binary_1_0);
        LazyRawReader::resume(self.context, state)
    }

    /// Where a part that the Rust handed out lies in the bytes.
    fn place(&self, part: &[u8]) -> (usize, usize) {
        let start = part.as_ptr() as usize - self.bytes.as_ptr() as usize;
        (start, start + part.len())
    }
}

// ===== Numbers =====

pub fn var_uint(part: BinaryBuffer<'_>) -> Result<Number, Refusal> {
    let (number, rest) = part.read_var_uint()?;
    Ok(Number {
        negative: false,
        magnitude: number.value() as u128,
        next: rest.offset(),
    })
}

pub fn var_int(part: BinaryBuffer<'_>) -> Result<Number, Refusal> {
    let (number, rest) = part.read_var_int()?;
    Ok(Number {
        negative: number.value() < 0 || number.is_negative_zero(),
        magnitude: number.value().unsigned_abs() as u128,
        next: rest.offset(),
    })
}

/// `Ok(None)`: it is too long for the stand-in integer.
pub fn int(part: BinaryBuffer<'_>, length: usize) -> Result<Option<Number>, Refusal> {
    let (number, rest) = part.read_int(length)?;
    if length > INT_LIMIT {
        return Ok(None);
    }
    Ok(Some(Number {
        negative: number.value().is_negative() || number.is_negative_zero(),
        magnitude: magnitude(number.value()),
        next: rest.offset(),
    }))
}

fn magnitude(value: &Int) -> u128 {
    value.unsigned_abs().as_u128().expect("at most 15 bytes")
}

// ===== Decimals =====

/// The descriptor of a type for a body of this length: an empty one has no length field.
pub fn head(type_code: u8, length: usize) -> Vec<u8> {
    if length < 14 {
        return vec![type_code << 4 | length as u8];
    }
    let mut head = vec![0x80 | (length % 128) as u8];
    let mut left = length / 128;
    while left > 0 {
        head.push((left % 128) as u8);
        left /= 128;
    }
    head.push(type_code << 4 | 14);
    head.reverse();
    head
}

/// `read` of the decimal whose body is the part, put behind a descriptor. The Rust counts positions
/// from the body's start.
pub fn decimal(asked: &Asked<'_>) -> Result<Decimal, Refusal> {
    let body = asked.bytes(asked.at, asked.end);
    let mut value = head(5, body.len());
    value.extend_from_slice(body);
    let part = BinaryBuffer::new_with_offset(asked.context, &value, 0);
    let read = match RawBinarySequenceIterator_1_0::new(part).next() {
        Some(Ok(value)) => value.read(),
        other => unreachable!("the bytes are a decimal: {other:?}"),
    };
    match read {
        Ok(RawValueRef::Decimal(decimal)) => {
            // An empty body has no exponent.
            let coefficient = var_int(asked.part()).map_or(asked.end, |exponent| exponent.next);
            let magnitude = decimal.coefficient().magnitude();
            let is_short = asked.end - coefficient <= INT_LIMIT;
            Ok(Decimal {
                exponent: decimal.exponent(),
                negative: decimal.coefficient().sign() == Sign::Negative,
                magnitude: is_short.then(|| magnitude.as_u128().expect("at most 15 bytes")),
                coefficient,
            })
        }
        Ok(other) => unreachable!("a decimal is read as one: {other:?}"),
        Err(error) => {
            let refusal = Refusal::from(error);
            let position = refusal.position.map(|position| asked.at + position);
            Err(Refusal {
                position,
                ..refusal
            })
        }
    }
}

// ===== Frames =====

/// The body's start and the length.
pub fn length(part: BinaryBuffer<'_>) -> Result<(usize, usize), Refusal> {
    let found = part.peek_type_descriptor()?;
    let header = found.to_header().ok_or(Refusal::own(22, None))?;
    let (length, rest) = part.consume(1).read_value_length(header)?;
    Ok((rest.offset(), length.value()))
}

/// The pad's end.
pub fn pad(part: BinaryBuffer<'_>) -> Result<usize, Refusal> {
    let (size, rest) = part.read_nop_pad()?;
    assert_eq!(part.offset() + size, rest.offset());
    Ok(rest.offset())
}

/// The annotations' start and end, and the length that is left for the value.
pub fn wrapper(part: BinaryBuffer<'_>) -> Result<(usize, usize, usize), Refusal> {
    let found = part.peek_type_descriptor()?;
    let (wrapper, rest) = part.read_annotations_wrapper(found)?;
    let start = part.offset() + wrapper.header_length as usize;
    assert_eq!(start + wrapper.sequence_length as usize, rest.offset());
    Ok((start, rest.offset(), wrapper.expected_value_length))
}

// ===== Steps =====

/// The value's own descriptor byte, from the Rust's header.
fn byte_of(value: &LazyRawBinaryValue_1_0<'_>) -> u8 {
    let header = value.encoded_value.header();
    header.ion_type_code.to_u8() << 4 | header.length_code
}

/// The Rust's spans of an item that begins at `start`.
fn spans_of(value: &LazyRawBinaryValue_1_0<'_>, start: usize) -> Spans {
    let encoded = &value.encoded_value;
    let descriptor = encoded.header_offset();
    let body = encoded.value_body_range();
    assert_eq!(encoded.annotated_value_range().end, body.end);
    Spans {
        byte: byte_of(value),
        start,
        annotations: encoded.annotations_sequence_offset().unwrap_or(descriptor),
        descriptor,
        body: body.start,
        end: body.end,
        length: encoded.value_body_length(),
    }
}

fn start_of(value: &LazyRawBinaryValue_1_0<'_>) -> usize {
    value.encoded_value.annotated_value_range().start
}

fn field_id(field: &LazyRawFieldExpr<'_, BinaryEncoding_1_0>) -> usize {
    match field.name().read() {
        Ok(RawSymbolRef::SymbolId(id)) => id,
        other => unreachable!("a binary field name is an ID: {other:?}"),
    }
}

#[derive(Clone, Copy, Debug, PartialEq)]
pub enum Rules {
    Stream,
    Sequence,
    Struct,
}

/// The Rust's reader of a part, one of three.
pub enum Steps<'a> {
    Stream(LazyRawBinaryReader_1_0<'a>),
    Sequence(RawBinarySequenceIterator_1_0<'a>, usize),
    Struct(RawBinaryStructIterator_1_0<'a>, usize),
}

impl<'a> Steps<'a> {
    pub fn new(asked: &Asked<'a>, rules: Rules) -> Self {
        let part = asked.part();
        match rules {
            Rules::Stream => Steps::Stream(asked.reader()),
            Rules::Sequence => Steps::Sequence(RawBinarySequenceIterator_1_0::new(part), asked.end),
            Rules::Struct => Steps::Struct(RawBinaryStructIterator_1_0::new(part), asked.end),
        }
    }

    /// One call of the Rust's `next`. The body iterators say only that they ended; the end is the
    /// part's.
    #[allow(clippy::should_implement_trait)]
    pub fn next(&mut self) -> Item {
        match self {
            Steps::Stream(reader) => stream_item(reader),
            Steps::Sequence(values, end) => match values.next() {
                Some(Ok(value)) => Item::Value(spans_of(value, start_of(value))),
                Some(Err(error)) => Item::Refused(error.into()),
                None => Item::End(*end),
            },
            Steps::Struct(fields, end) => match fields.next() {
                Some(Ok(field)) => Item::Field(
                    field_id(&field),
                    spans_of(field.value(), field.range().start),
                ),
                Some(Err(error)) => Item::Refused(error.into()),
                None => Item::End(*end),
            },
        }
    }
}

fn stream_item(reader: &mut LazyRawBinaryReader_1_0<'_>) -> Item {
    match reader.next() {
        Ok(RawStreamItem::VersionMarker(marker)) => {
            let (major, minor) = marker.major_minor();
            Item::Marker {
                start: marker.range().start,
                major,
                minor,
                end: marker.range().end,
            }
        }
        Ok(RawStreamItem::Value(value)) => Item::Value(spans_of(value, start_of(value))),
        Ok(RawStreamItem::EndOfStream(end)) => Item::End(end.position()),
        Err(error) => Item::Refused(error.into()),
    }
}

/// The Rust's annotations iterator. It doesn't show where it is, so its number is read a second
/// time beside it.
pub struct Annotations<'a> {
    ids: RawBinaryAnnotationsIterator<'a>,
    beside: BinaryBuffer<'a>,
}

impl<'a> Annotations<'a> {
    pub fn new(part: BinaryBuffer<'a>) -> Self {
        Annotations {
            ids: RawBinaryAnnotationsIterator::new(part),
            beside: part,
        }
    }

    #[allow(clippy::should_implement_trait)]
    pub fn next(&mut self) -> Annotation {
        match self.ids.next() {
            Some(Ok(RawSymbolRef::SymbolId(id))) => {
                let (same, rest) = self.beside.read_var_uint().expect("the iterator read it");
                assert_eq!(id, same.value());
                self.beside = rest;
                let next = rest.offset();
                Annotation::Id { id, next }
            }
            Some(Ok(other)) => unreachable!("a binary annotation is an ID: {other:?}"),
            None => Annotation::End,
            Some(Err(error)) => Annotation::Refused(error.into()),
        }
    }
}

// ===== Entries on a value =====

/// Frames the value that begins at `position`.
fn framed<'a>(
    asked: &Asked<'a>,
    position: usize,
) -> Result<&'a LazyRawBinaryValue_1_0<'a>, Refusal> {
    if position < asked.at || position > asked.end {
        return Err(Refusal::own(50, Some(0)));
    }
    let part = asked.part_from(position);
    // The iterator would say that the part ends, or step over the pad.
    let found = part
        .peek_type_descriptor()
        .map_err(|_| Refusal::own(1, Some(position)))?;
    if found.is_nop() {
        return Err(Refusal::own(22, None));
    }
    match RawBinarySequenceIterator_1_0::new(part).next() {
        Some(Ok(value)) => Ok(value),
        Some(Err(error)) => Err(error.into()),
        None => unreachable!("the part is not empty and begins with no pad"),
    }
}

pub fn scalar(asked: &Asked<'_>, position: usize) -> Result<Reading, Refusal> {
    let value = framed(asked, position)?;
    Ok(Reading {
        spans: spans_of(value, start_of(value)),
        scalar: scalar_of(asked, value)?,
    })
}

/// Decimals and timestamps are framed, not read; `decimal` and `timestamps` read their bodies.
fn scalar_of(asked: &Asked<'_>, value: &LazyRawBinaryValue_1_0<'_>) -> Result<Scalar, Refusal> {
    let body = value.encoded_value.value_body_range();
    if !value.is_null() {
        match value.ion_type() {
            IonType::Int if body.len() > INT_LIMIT => return Ok(Scalar::LongInt),
            ion_type @ (IonType::Decimal | IonType::Timestamp) => {
                return Ok(Scalar::Part(ion_type, body.start, body.end))
            }
            _ => {}
        }
    }
    let part_of = |ion_type, part: &[u8]| {
        let (start, end) = asked.place(part);
        Scalar::Part(ion_type, start, end)
    };
    Ok(match value.read()? {
        RawValueRef::Null(ion_type) => Scalar::Null(ion_type),
        RawValueRef::Bool(value) => Scalar::Bool(value),
        RawValueRef::Int(value) => Scalar::Int {
            negative: value.is_negative(),
            magnitude: magnitude(&value),
        },
        RawValueRef::Float(value) => Scalar::Float(value.to_bits()),
        RawValueRef::Symbol(RawSymbolRef::SymbolId(id)) => Scalar::Symbol(id),
        RawValueRef::String(text) => part_of(IonType::String, text.text().as_bytes()),
        RawValueRef::Clob(part) => part_of(IonType::Clob, part.data()),
        RawValueRef::Blob(part) => part_of(IonType::Blob, part.data()),
        RawValueRef::List(_) | RawValueRef::SExp(_) | RawValueRef::Struct(_) => Scalar::Container,
        RawValueRef::Symbol(_) | RawValueRef::Decimal(_) | RawValueRef::Timestamp(_) => {
            unreachable!("not read here")
        }
    })
}

fn is_open(value: &LazyRawBinaryValue_1_0<'_>) -> bool {
    let is_container = matches!(
        value.ion_type(),
        IonType::List | IonType::SExp | IonType::Struct
    );
    is_container && !value.is_null()
}

pub fn step_in(asked: &Asked<'_>, position: usize) -> Result<Opened, Refusal> {
    let value = framed(asked, position)?;
    if !is_open(value) {
        return Err(Refusal::own(52, None));
    }
    let body = value.available_body().range();
    Ok(Opened {
        is_struct: value.ion_type() == IonType::Struct,
        descriptor: value.encoded_value.header_offset(),
        body: body.start,
        end: body.end,
        length: value.encoded_value.value_body_length(),
    })
}

// ===== The walk =====

/// `Err(())`: the walk has ended with a refusal, which is handed out.
type Walked = Result<(), ()>;

/// Hands every line of the walk to `line`. The order is this recursion's; what is in a container,
/// the Rust's iterators say.
pub fn walk(asked: &Asked<'_>, line: &mut impl FnMut(Line)) {
    let mut reader = asked.reader();
    loop {
        match reader.next() {
            Ok(RawStreamItem::VersionMarker(marker)) => {
                let (major, minor) = marker.major_minor();
                line(Line::Marker {
                    start: marker.range().start,
                    major,
                    minor,
                    end: marker.range().end,
                })
            }
            Ok(RawStreamItem::Value(value)) => {
                if walk_value(value, start_of(value), Level::of_stream(asked), line).is_err() {
                    return;
                }
            }
            Ok(RawStreamItem::EndOfStream(end)) => return line(Line::End(end.position())),
            Err(error) => return line(Line::Refused(error.into())),
        }
    }
}

/// How deep the walk is, and how deep it goes.
#[derive(Clone, Copy)]
struct Level {
    depth: usize,
    most: usize,
}

impl Level {
    fn of_stream(asked: &Asked<'_>) -> Self {
        Level {
            depth: 0,
            most: asked.limits.depth,
        }
    }

    fn below(self) -> Self {
        Level {
            depth: self.depth + 1,
            ..self
        }
    }
}

fn walk_value(
    value: &LazyRawBinaryValue_1_0<'_>,
    start: usize,
    level: Level,
    line: &mut impl FnMut(Line),
) -> Walked {
    let spans = spans_of(value, start);
    line(Line::Value {
        depth: level.depth,
        ion_type: value.ion_type(),
        start,
        descriptor: spans.descriptor,
        body: spans.body,
        end: spans.end,
    });
    if !is_open(value) {
        return Ok(());
    }
    if level.depth == level.most {
        return refuse(line, Refusal::own(37, Some(spans.descriptor)));
    }
    match value.read() {
        Ok(RawValueRef::List(list)) => walk_values(list.iter(), level.below(), line),
        Ok(RawValueRef::SExp(sexp)) => walk_values(sexp.iter(), level.below(), line),
        Ok(RawValueRef::Struct(fields)) => walk_fields(fields.iter(), level.below(), line),
        Ok(_) => unreachable!("the value is a container"),
        Err(error) => refuse(line, error.into()),
    }
}

fn refuse(line: &mut impl FnMut(Line), refusal: Refusal) -> Walked {
    line(Line::Refused(refusal));
    Err(())
}

fn walk_values(
    values: RawBinarySequenceIterator_1_0<'_>,
    level: Level,
    line: &mut impl FnMut(Line),
) -> Walked {
    for value in values {
        match value {
            Ok(value) => walk_value(value, start_of(value), level, line)?,
            Err(error) => return refuse(line, error.into()),
        }
    }
    Ok(())
}

fn walk_fields(
    fields: RawBinaryStructIterator_1_0<'_>,
    level: Level,
    line: &mut impl FnMut(Line),
) -> Walked {
    for field in fields {
        match field {
            Ok(field) => walk_value(field.value(), field.range().start, level, line)?,
            Err(error) => return refuse(line, error.into()),
        }
    }
    Ok(())
}
