//! What a record must hold for the Rust's answer to be ours.

use crate::ours::{Part, Record, WORDS};
use oracle::asking::{
    Annotation, Decimal, Item, Limits, Number, Opened, Reading, Refusal, Scalar, Spans,
};
use oracle::requests::Request;
use oracle::timestamps::{Instant, MOST_PLACES};
use oracle::IonType;

/// Words, some of which the Rust leaves open, and a test of those.
#[derive(Clone, Copy, Debug)]
pub struct Expected {
    words: [u64; WORDS],
    /// A bit for each word that is open.
    open: u16,
    test: Test,
    /// The harness's answer, not the Rust's.
    own: bool,
    /// The change request by which it is another than the Rust's.
    moved: Option<Request>,
}

#[derive(Clone, Copy, Debug)]
enum Test {
    None,
    /// The Rust's decoding errors have no position. The byte at ours must be one that can be
    /// refused so.
    Stands,
    /// A 4-byte NaN.
    Nan,
    /// No part: its start and end are equal.
    NoPart,
    /// An int's magnitude, the last bytes of its body without leading zeros.
    Magnitude(u128),
    /// An Int: seven bits and the bytes after them.
    Further(u128),
    /// A timestamp's precision, the fraction taken as a second's, and its fraction by its value.
    Instant(u64, u64),
    /// Annotations that the Rust refuses, by a higher limit.
    HigherLimit,
}

impl Expected {
    fn exactly(words: [u64; WORDS]) -> Self {
        Expected {
            words,
            open: 0,
            test: Test::None,
            own: false,
            moved: None,
        }
    }

    fn except(words: [u64; WORDS], open: &[usize], test: Test) -> Self {
        let open = open.iter().fold(0, |bits, word| bits | 1 << word);
        Expected {
            words,
            open,
            test,
            own: false,
            moved: None,
        }
    }

    pub fn refused(refusal: Refusal) -> Self {
        let words = |position| [9, refusal.number as u64, position as u64, 0, 0, 0, 0, 0, 0];
        let expected = match refusal.position {
            _ if refusal.moved == Some(Request::HigherLimit) => {
                let all: Vec<usize> = (0..WORDS).collect();
                Expected::except(words(0), &all, Test::HigherLimit)
            }
            Some(position) => Expected::exactly(words(position)),
            None => Expected::except(words(0), &[2], Test::Stands),
        };
        Expected {
            own: refusal.own,
            moved: refusal.moved,
            ..expected
        }
    }

    fn end(position: usize) -> Self {
        Expected::exactly([0, 0, position as u64, 0, 0, 0, 0, 0, 0])
    }

    fn value(kind: u64, spans: Spans, id: usize) -> Self {
        Expected::exactly([
            kind,
            spans.byte as u64,
            spans.start as u64,
            spans.annotations as u64,
            spans.descriptor as u64,
            spans.body as u64,
            spans.end as u64,
            id as u64,
            spans.length as u64,
        ])
    }

    pub fn item(item: Item) -> Self {
        match item {
            Item::Marker {
                start,
                major,
                minor,
                end,
            } => Expected::exactly([
                1,
                224,
                start as u64,
                major as u64,
                minor as u64,
                end as u64,
                end as u64,
                0,
                0,
            ]),
            Item::Value(spans) => Expected::value(2, spans, 0),
            Item::Field(id, spans) => Expected::value(3, spans, id),
            Item::End(position) => Expected::end(position),
            Item::Refused(refusal) => Expected::refused(refusal),
        }
    }

    /// Kind 4: so many pads were passed, and the next step begins here.
    pub fn more(pads: usize, position: usize) -> Self {
        Expected::exactly([4, pads as u64, position as u64, 0, 0, 0, 0, 0, 0])
    }

    pub fn annotation(part: Part, annotation: Annotation) -> Self {
        match annotation {
            Annotation::Id { id, next } => {
                let (start, id, next) = (part.position as u64, id as u64, next as u64);
                Expected::exactly([5, 0, start, id, 0, 0, next, 0, 0])
            }
            Annotation::End => Expected::end(part.end),
            Annotation::Refused(refusal) => Expected::refused(refusal),
        }
    }

    pub fn opened(opened: Opened) -> Self {
        Expected::exactly([
            6,
            if opened.is_struct { 2 } else { 1 },
            opened.descriptor as u64,
            0,
            0,
            opened.body as u64,
            opened.end as u64,
            0,
            opened.length as u64,
        ])
    }

    pub fn scalar(map: &[u8], reading: Reading) -> Self {
        let spans = reading.spans;
        let words = |what, number, start: usize, end: usize| {
            [
                7,
                spans.byte as u64,
                spans.descriptor as u64,
                what,
                number,
                start as u64,
                end as u64,
                0,
                (end - start) as u64,
            ]
        };
        let without_part =
            |what, number| Expected::except(words(what, number, 0, 0), &[5, 6], Test::NoPart);
        match reading.scalar {
            Scalar::Null(_) => without_part(0, 0),
            Scalar::Bool(value) => without_part(1, value as u64),
            Scalar::Int {
                negative,
                magnitude,
            } => Expected::except(
                words(2, negative as u64, 0, spans.end),
                &[5, 8],
                Test::Magnitude(magnitude),
            ),
            Scalar::LongInt => long_int(map, spans, words),
            Scalar::Float(bits) if spans.byte == 0x44 && f64::from_bits(bits).is_nan() => {
                Expected::except(words(3, 0, 0, 0), &[4, 5, 6], Test::Nan)
            }
            Scalar::Float(bits) => without_part(3, bits),
            Scalar::Symbol(id) => without_part(6, id as u64),
            Scalar::Part(ion_type, start, end) => {
                Expected::exactly(words(part_word(ion_type), 0, start, end))
            }
            Scalar::Container => without_part(10, 0),
        }
    }

    pub fn var_uint_or_var_int(part: Part, number: Number) -> Self {
        Expected::exactly([
            8,
            number.negative as u64,
            part.position as u64,
            number.magnitude as u64,
            0,
            number.next as u64,
            number.next as u64,
            0,
            0,
        ])
    }

    pub fn int(part: Part, size: usize, number: Number) -> Self {
        let further = part.position + size.min(1);
        Expected::except(
            [
                8,
                number.negative as u64,
                part.position as u64,
                0,
                0,
                further as u64,
                number.next as u64,
                0,
                0,
            ],
            &[3],
            Test::Further(number.magnitude),
        )
    }

    /// An Int that the Rust isn't asked for: by the Ion document.
    pub fn wide_int(map: &[u8], part: Part, size: usize) -> Self {
        let first = map[part.position];
        Expected::exactly([
            8,
            (first >> 7) as u64,
            part.position as u64,
            (first & 0x7F) as u64,
            0,
            part.position as u64 + 1,
            (part.position + size) as u64,
            0,
            0,
        ])
    }

    pub fn instant(descriptor: usize, instant: Instant) -> Self {
        let shifted = instant.fields.iter().zip([0, 16, 24, 32, 40, 48]);
        let fields = shifted.fold(0, |word, (field, shift)| word | field << shift);
        Expected::except(
            [11, 0, descriptor as u64, instant.offset, fields, 0, 0, 0, 0],
            &[1, 5, 6, 7],
            Test::Instant(instant.precision, instant.attoseconds),
        )
    }

    pub fn decimal(map: &[u8], part: Part, decimal: Decimal) -> Self {
        let exponent = decimal.exponent;
        let first = map[decimal.coefficient..part.end].first().copied();
        let words = [
            10,
            decimal.negative as u64,
            part.position as u64,
            first.map_or(0, |first| (first & 0x7F) as u64),
            (exponent < 0) as u64,
            part.end.min(decimal.coefficient + 1) as u64,
            part.end as u64,
            exponent.unsigned_abs(),
            0,
        ];
        match decimal.magnitude {
            Some(magnitude) => Expected::except(words, &[3], Test::Further(magnitude)),
            // The Rust isn't asked for the coefficient: by the Ion document.
            None => Expected::exactly(words),
        }
    }

    pub fn is_refusal(&self) -> bool {
        self.words[0] == 9
    }

    pub fn is_own(&self) -> bool {
        self.own
    }

    pub fn moved(&self) -> Option<Request> {
        self.moved
    }

    pub fn is_end(&self) -> bool {
        self.words[0] == 0
    }

    pub fn number(&self) -> usize {
        self.words[1] as usize
    }

    /// Whether the Rust has no answer here, and none to what follows.
    pub fn is_by_higher_limit(&self) -> bool {
        self.moved == Some(Request::HigherLimit)
    }

    /// What the call that leaves this record returns.
    pub fn returned(&self, record: Record) -> u64 {
        let words = if self.is_by_higher_limit() {
            record.0
        } else {
            self.words
        };
        match words[0] {
            9 => words[1],
            _ => 0,
        }
    }

    /// Where the next call begins.
    pub fn cursor(&self, given: usize) -> usize {
        match self.words[0] {
            0 | 4 => self.words[2] as usize,
            9 => given,
            _ => self.words[6] as usize,
        }
    }

    pub fn is_met_by(&self, map: &[u8], part: Part, record: Record) -> bool {
        if self.open == 0 {
            return self.words == record.0;
        }
        let words = self.words.iter().zip(&record.0).enumerate();
        let settled = |word: usize| self.open >> word & 1 == 0;
        let same = words.fold(true, |same, (i, (ours, given))| {
            same & (!settled(i) || ours == given)
        });
        same && self.test.is_passed_by(map, part, record)
    }

    /// The words, `?` for those that the Rust leaves open.
    pub fn written(&self) -> String {
        let words = self.words.iter().enumerate();
        let word = |(i, word): (usize, &u64)| match self.open >> i & 1 {
            0 => word.to_string(),
            _ => "?".to_string(),
        };
        let words: Vec<String> = words.map(word).collect();
        match self.test {
            Test::None | Test::Stands | Test::NoPart => words.join(" "),
            Test::HigherLimit => "by the limit".to_string(),
            test => format!("{} {test:X?}", words.join(" ")),
        }
    }
}

/// The number for what a part is of.
fn part_word(ion_type: IonType) -> u64 {
    match ion_type {
        IonType::Decimal => 4,
        IonType::Timestamp => 5,
        IonType::String => 7,
        IonType::Clob => 8,
        IonType::Blob => 9,
        other => unreachable!("{other:?} has no part"),
    }
}

/// An int that the Rust isn't asked for: by the Ion document.
fn long_int(
    map: &[u8],
    spans: Spans,
    words: impl Fn(u64, u64, usize, usize) -> [u64; WORDS],
) -> Expected {
    let zeros = map[spans.body..spans.end]
        .iter()
        .take_while(|byte| **byte == 0);
    let start = spans.body + zeros.count();
    let negative = spans.byte >> 4 == 3;
    if negative && start == spans.end {
        return Expected::refused(Refusal::own(34, Some(spans.descriptor)));
    }
    Expected::exactly(words(2, negative as u64, start, spans.end))
}

impl Test {
    fn is_passed_by(self, map: &[u8], part: Part, record: Record) -> bool {
        let [_, number, position, word, float, start, end, _, length] = record.0;
        match self {
            Test::None => true,
            Test::Stands => {
                usize::try_from(position).is_ok_and(|at| may_stand(number, map, part, at))
            }
            Test::Nan => f64::from_bits(float).is_nan() && start == end,
            Test::NoPart => start == end,
            Test::Magnitude(magnitude) => match part_of(map, start, end) {
                Some(bytes) => {
                    bytes.first() != Some(&0)
                        && folded(0, bytes) == Some(magnitude)
                        && bytes.len() as u64 == length
                }
                None => false,
            },
            Test::Further(magnitude) => match part_of(map, start, end) {
                Some(bytes) => word < 0x80 && folded(word as u128, bytes) == Some(magnitude),
                None => false,
            },
            Test::Instant(precision, attoseconds) => {
                number.min(5) == precision && attoseconds_of(record) == Some(attoseconds)
            }
            Test::HigherLimit => is_by_limit(map, part, record),
        }
    }
}

/// A timestamp's fraction, where it has at most 18 places.
fn attoseconds_of(record: Record) -> Option<u64> {
    let [_, precision, _, _, _, exponent, is_negative, coefficient, _] = record.0;
    match (coefficient, is_negative) {
        (0, _) => Some(0),
        (_, 1) if precision == 6 && exponent <= MOST_PLACES => {
            coefficient.checked_mul(10u64.pow((MOST_PLACES - exponent) as u32))
        }
        _ => None,
    }
}

/// Whether this can be the answer at over 255 bytes of annotations: a value with no more than the limit has,
/// 26 where they are over it, or what is tested later.
fn is_by_limit(map: &[u8], part: Part, record: Record) -> bool {
    let [kind, number, position, annotations, descriptor, ..] = record.0;
    let within = Limits::USUAL.annotations + 1..=part.limits.annotations;
    match kind {
        2 | 3 => within.contains(&(descriptor.wrapping_sub(annotations) as usize)),
        6 | 7 | 11 => true,
        9 if number == 26 => is_over_limit(map, part, position as usize),
        9 => matches!(number, 1 | 3 | 4 | 8 | 20 | 22 | 27..=36 | 52 | 61..=63),
        _ => false,
    }
}

/// Whether a wrapper stands at `at` whose annotations are over the limit: by the Ion document.
pub fn is_over_limit(map: &[u8], part: Part, at: usize) -> bool {
    let is_wrapper = may_stand(26, map, part, at);
    let found = is_wrapper
        .then(|| inside_wrapper(map, at, part.end))
        .flatten();
    found.is_some_and(|(start, inner)| inner - start > part.limits.annotations)
}

/// Where the VarUInt at `at` ends, and what it is.
pub fn var_uint(map: &[u8], at: usize, end: usize) -> Option<(usize, usize)> {
    let mut number = 0usize;
    for next in at..end {
        number = number.wrapping_shl(7) | (map[next] & 0x7F) as usize;
        if map[next] >= 0x80 {
            return Some((number, next + 1));
        }
    }
    None
}

/// Where the annotations and the value of the wrapper at `at` begin.
pub fn inside_wrapper(map: &[u8], at: usize, end: usize) -> Option<(usize, usize)> {
    let lengths = match map[at] & 15 {
        14 => var_uint(map, at + 1, end)?.1,
        _ => at + 1,
    };
    let (size, start) = var_uint(map, lengths, end)?;
    Some((start, start + size))
}

fn part_of(map: &[u8], start: u64, end: u64) -> Option<&[u8]> {
    map.get(usize::try_from(start).ok()?..usize::try_from(end).ok()?)
}

/// The number with these first bits and these bytes after them.
fn folded(first: u128, bytes: &[u8]) -> Option<u128> {
    if bytes.len() > 15 {
        return None;
    }
    let add = |number, byte: &u8| number << 8 | *byte as u128;
    Some(bytes.iter().fold(first, add))
}

/// Whether a refusal that the Rust has no position for can stand at this place: by the byte there.
pub fn may_stand(number: u64, map: &[u8], part: Part, at: usize) -> bool {
    if at < part.position || at >= part.end {
        return false;
    }
    let byte = map[at];
    let is_wrapper = byte > 0xE0 && byte < 0xF0;
    let is_pad = byte < 0x0F;
    let is_container = (11..=13).contains(&(byte >> 4)) && byte & 15 != 15;
    match number {
        20 => is_long_number(&map[at..part.end]),
        21 => byte == 0xE0,
        22 => is_pad || byte == 0xE0 || byte >= 0xF0,
        23..=27 | 29 => is_wrapper,
        28 => is_pad,
        30 => byte >> 4 == 4,
        31 | 61 => byte >> 4 == 6,
        32 => byte == 0xD1,
        33 => byte >> 4 == 1,
        34 => byte >> 4 == 3,
        35 => byte >> 4 == 7,
        36 => byte >> 4 == 8,
        52 => !is_container,
        _ => false,
    }
}

/// The last byte of the number comes, and after more than eight others.
fn is_long_number(bytes: &[u8]) -> bool {
    let last = bytes.iter().position(|byte| *byte >= 0x80);
    last.is_some_and(|last| last > 8)
}
