//! Compares what is written with what the change request A.13 says is to be written, and lets the Rust read it back.

use crate::judge::{written, Bench, Verdict, FILL, GUARD};
use crate::maps::hex;
use crate::ours::{Lent, Part, Reader, Record, RECORD};
use crate::packing::told;
use crate::question::{Ask, Question, Thing};
use oracle::asking::{self, Asked, Item, Limits, Rules, Scalar, Spans, Steps, INT_LIMIT};
use oracle::packed::{framed, shortest, wrapper};
use oracle::requests::Request;
use oracle::IonType;

/// The kind of the record.
const WRITTEN: u64 = 17;

/// The largest pad: its length is the highest of nine VarUInt bytes.
const LARGEST_PAD: usize = (1 << 63) + 9;

/// Pads over this size are not made here.
const MOST_MADE: usize = 1 << 22;

/// The types by their codes.
const TYPES: [IonType; 14] = [
    IonType::Null,
    IonType::Bool,
    IonType::Int,
    IonType::Int,
    IonType::Float,
    IonType::Decimal,
    IonType::Timestamp,
    IonType::Symbol,
    IonType::String,
    IonType::Clob,
    IonType::Blob,
    IonType::List,
    IonType::SExp,
    IonType::Struct,
];

// ===== What is to be written =====

/// Of two VarUInt lengths the pad's is the one in fewer bytes that gives the size.
fn pad(size: usize) -> Vec<u8> {
    if size < 15 {
        let mut bytes = vec![0; size];
        bytes[0] = size as u8 - 1;
        return bytes;
    }
    let fits = |width: &usize| shortest(size - 1 - width).len() <= *width;
    let width = (1..=9).find(fits).expect("at most nine bytes");
    let length = shortest(size - 1 - width);
    let mut bytes = vec![0x0E];
    bytes.resize(1 + width - length.len(), 0);
    bytes.extend(length);
    bytes.resize(size, 0);
    bytes
}

fn without_zeros(bytes: &[u8]) -> &[u8] {
    let zeros = bytes.iter().take_while(|byte| **byte == 0).count();
    &bytes[zeros..]
}

/// The bytes of a known thing with the shortest lengths; those that are refused are not written.
fn to_be_written(thing: Thing, lent: Lent<'_>) -> Vec<u8> {
    match thing {
        Thing::Null(3) => vec![0x2F],
        Thing::Null(code) => vec![(code as u8) << 4 | 15],
        Thing::Bool(value) => vec![0x10 | value as u8],
        Thing::Int(negative) => framed(2 + negative as u8, without_zeros(lent.first)),
        Thing::Float(0) => vec![0x40],
        Thing::Float(bits) => framed(4, &bits.to_be_bytes()),
        Thing::Symbol(id) => framed(7, without_zeros(&id.to_be_bytes())),
        Thing::Pad(size) => pad(size),
        Thing::Container(13) if lent.first.len() == 1 => vec![0xDE, 0x81, lent.first[0]],
        Thing::Scalar(code) | Thing::Container(code) => framed(code as u8, lent.first),
        Thing::Wrapper => wrapper(lent.first, lent.value),
    }
}

/// A position of the bytes to be written, of a refusal with this number, counted in those of them that are lent.
fn in_lent(thing: Thing, lent: Lent<'_>, bytes: &[u8], number: u64, position: usize) -> usize {
    // All that is lent stands at the end.
    let before = bytes.len() - lent.first.len().min(bytes.len());
    let value = bytes.len() - lent.value.len();
    match thing {
        _ if position == 0 => 0,
        // An annotation without a last byte is refused at the end of the annotations.
        Thing::Wrapper if position > value || position == value && number != 3 => position - value,
        Thing::Wrapper => position - (value - lent.first.len()),
        _ => position - before,
    }
}

/// What is refused before anything is read.
fn own_refusal(question: &Question, thing: Thing) -> Option<u64> {
    match thing {
        _ if question.is_out_of_range() => Some(68),
        _ if !thing.is_known() => Some(50),
        Thing::Pad(size) if size == 0 || size > LARGEST_PAD => Some(71),
        _ => None,
    }
}

fn refused(number: u64, position: usize) -> Record {
    Record([9, number, position as u64, 0, 0, 0, 0, 0, 0])
}

// ===== Comparing =====

impl<'a, R: Reader> Bench<'a, R> {
    /// The part's bytes, and those from its position on as a wrapper's value.
    pub fn write(&mut self, thing: Thing, part: Part) -> Verdict {
        let map = self.map;
        let lent = match thing {
            Thing::Wrapper => Lent {
                first: &map[part.start..part.position],
                value: &map[part.position..part.end],
                limits: part.limits,
            },
            _ => Lent {
                first: &map[part.start..part.end],
                value: &[],
                limits: part.limits,
            },
        };
        let is_short_refused = self.writes_nothing(thing, lent, map.len() % RECORD);
        let question = Question::new(Ask::Write(thing), part);
        if let Some(number) = own_refusal(&question, thing) {
            self.refusals.count(number as usize, true);
            let fine = self.is_refused(thing, lent, refused(number, 0));
            return self.verdict_of(fine && is_short_refused);
        }
        if let Thing::Pad(size @ MOST_MADE..) = thing {
            self.refusals.count(70, true);
            let fine = self.is_refused(thing, lent, refused(70, size));
            return self.verdict_of(fine && is_short_refused);
        }
        let (fine, is_open) = self.judged(thing, lent);
        match self.verdict_of(fine && is_short_refused) {
            Verdict::Agree if is_open => Verdict::Apart,
            verdict => verdict,
        }
    }

    /// What is to be written, taken as a map, is refused as the check says, or written and read back. Also whether the
    /// Rust decides nothing further.
    fn judged(&mut self, thing: Thing, lent: Lent<'_>) -> (bool, bool) {
        let bytes = to_be_written(thing, lent);
        let limits = match thing {
            Thing::Container(_) | Thing::Wrapper => lent.limits,
            _ => Limits::USUAL,
        };
        let whole = Part {
            limits,
            ..Part::whole(&bytes)
        };
        let (is_checked, is_open, checked) = self.checks(&bytes, whole);
        if !is_checked {
            return (false, is_open);
        }
        let fine = match checked[..3] {
            [9, number, position] => {
                let position = in_lent(thing, lent, &bytes, number, position as usize);
                self.is_refused(thing, lent, refused(number, position))
            }
            _ => self.is_written(thing, lent, &bytes) && self.is_back(thing, lent),
        };
        (fine, is_open)
    }

    /// With room for it, with more, and with too little. What was written with room for it is left there.
    fn is_written(&mut self, thing: Thing, lent: Lent<'_>, bytes: &[u8]) -> bool {
        let length = bytes.len();
        let answer = Record([WRITTEN, 0, 0, length as u64, 0, 0, 0, 0, 0]);
        self.refusals.count(70, true);
        self.writes(thing, lent, length - 1, refused(70, length), &[])
            && self.writes(thing, lent, length + 1 + length % 8, answer, bytes)
            && self.writes(thing, lent, length, answer, bytes)
    }

    /// Whatever room there is.
    fn is_refused(&mut self, thing: Thing, lent: Lent<'_>, refusal: Record) -> bool {
        let rooms = [0, lent.first.len() + lent.value.len() + GUARD];
        rooms
            .into_iter()
            .all(|room| self.writes(thing, lent, room, refusal, &[]))
    }

    /// Writes into so many bytes: this record, these bytes, and all behind them as it was.
    fn writes(&mut self, thing: Thing, lent: Lent<'_>, room: usize, wanted: Record, bytes: &[u8]) -> bool {
        let out_room = RECORD + (room & 1) * GUARD;
        let (to, out) = self.desk.lend_both(room, out_room);
        let returned = self.reader.write(thing, lent, to, out);
        let ours = self.desk.record();
        let fine = ours == wanted
            && returned == told(wanted)
            && self.desk.holds(bytes)
            && self.desk.is_untouched(RECORD, out_room);
        if self.desk.is_noted() {
            let to = hex(self.desk.to());
            self.desk.note(
                fine,
                || format!("{}, {}", written(wanted), hex(bytes)),
                || format!("{} returned {returned}, {to}", written(ours)),
            );
        }
        fine
    }

    /// A record's buffer that is too short, and nothing written into either.
    fn writes_nothing(&mut self, thing: Thing, lent: Lent<'_>, out_room: usize) -> bool {
        let (to, out) = self.desk.lend_both(GUARD, out_room);
        let returned = self.reader.write(thing, lent, to, out);
        self.refusals.count(51, true);
        let fine = returned == 51 && self.desk.holds(&[]) && self.desk.is_untouched(0, out_room);
        let ours = format!("returned {returned}");
        self.desk.note(fine, || "returned 51".to_string(), || ours);
        fine
    }

    // ===== Reading back =====

    /// What was just written, placed between two values, is read by the Rust.
    fn is_back(&mut self, thing: Thing, lent: Lent<'_>) -> bool {
        // Of more annotations than the Rust takes it says nothing.
        if self.moved == Some(Request::HigherLimit) {
            return true;
        }
        let end = self.desk.to().len() - GUARD;
        let bytes = &self.desk.to()[..end];
        let before: &[u8] = match bytes.len() % 3 {
            0 => &[0x21, FILL],
            1 => &[0xB3, 0x11, 0x00, 0x0F],
            _ => &[0x48, 0, 1, 2, 3, 4, 5, 6, 7],
        };
        let map = [before, bytes, &[0x11]].concat();
        let (at, behind) = (before.len(), map.len() - 1);
        let asked = Asked::new(self.context, &map, 0, map.len()).expect("the whole map");
        let mut steps = Steps::new(&asked, Rules::Stream);
        let first = steps.next();
        let next = steps.next();
        let is_first = matches!(first, Item::Value(spans) if (spans.start, spans.end) == (0, at));
        let fine = is_first
            && match (thing, next) {
                (Thing::Pad(size), Item::Value(spans)) => {
                    let end = asking::pad(asked.within(at, map.len()));
                    spans.start == behind && end == Ok(at + size)
                }
                (_, Item::Value(spans)) => {
                    let last = steps.next();
                    (spans.start, spans.end) == (at, behind)
                        && matches!(last, Item::Value(last) if last.start == behind)
                        && is_read(&asked, thing, lent, spans)
                }
                _ => false,
            };
        let reading = asking::scalar(&asked, at);
        let steps = format!("{first:?}, {next:?}, {reading:?}");
        self.desk.note(fine, || steps, || format!("{thing:?}"));
        fine
    }
}

/// Whether the Rust reads the value with these spans as the thing that was written.
fn is_read(asked: &Asked<'_>, thing: Thing, lent: Lent<'_>, spans: Spans) -> bool {
    let at = spans.start;
    let Ok(reading) = asking::scalar(asked, at) else {
        return false;
    };
    let is_plain = spans.annotations == at && spans.descriptor == at;
    let code = (spans.byte >> 4) as usize;
    reading.spans == spans
        && match (thing, reading.scalar) {
            (Thing::Null(code), scalar) => is_plain && scalar == Scalar::Null(TYPES[code]),
            (Thing::Bool(value), scalar) => is_plain && scalar == Scalar::Bool(value == 1),
            (Thing::Int(sign), Scalar::LongInt) => {
                // The Rust frames it, and its magnitude is its body.
                let magnitude = without_zeros(lent.first);
                let is_long = magnitude.len() > INT_LIMIT;
                is_plain
                    && is_long
                    && code == 2 + sign as usize
                    && asked.bytes(spans.body, spans.end) == magnitude
            }
            (Thing::Int(sign), scalar) => {
                let bytes = without_zeros(lent.first);
                let wanted = Scalar::Int {
                    negative: sign == 1,
                    magnitude: bytes.iter().fold(0, |number, byte| number << 8 | *byte as u128),
                };
                is_plain && scalar == wanted
            }
            (Thing::Float(bits), scalar) => is_plain && scalar == Scalar::Float(bits),
            (Thing::Symbol(id), scalar) => is_plain && scalar == Scalar::Symbol(id as usize),
            (Thing::Scalar(code), Scalar::Part(ion_type, start, end)) => {
                is_plain && ion_type == TYPES[code] && asked.bytes(start, end) == lent.first
            }
            (Thing::Container(wanted), Scalar::Container) => {
                let opened = asking::step_in(asked, at);
                is_plain
                    && code == wanted
                    && opened.is_ok_and(|opened| {
                        opened.is_struct == (wanted == 13)
                            && asked.bytes(opened.body, opened.end) == lent.first
                    })
            }
            (Thing::Wrapper, _) => {
                asked.bytes(spans.annotations, spans.descriptor) == lent.first
                    && asked.bytes(spans.descriptor, spans.end) == lent.value
            }
            _ => false,
        }
}
