//! Wrong readers, to show that the comparison notices them: each is our reader with one answer
//! changed, as a reader that makes this mistake would answer.

use crate::expected::{inside_wrapper, var_uint};
use crate::ours::{words_of, Lent, CHECK, CHECK_WORDS};
use crate::ours::{Exports, Part, Reader, Record, ANNOTATIONS, DEPTHS, RECORD, WORD, WORDS};
use crate::pads::Pads;
use crate::question::{Thing, INT, SEQUENCE, STREAM, STRUCT, VAR_INT};
use crate::walking::Walk;
use oracle::asking::{Limits, Line};
use std::cell::Cell;

macro_rules! mistakes {
    ($($name:ident $text:literal)*) => {
        #[derive(Clone, Copy, Debug, PartialEq)]
        pub enum Mistake {
            /// The layer alone, which must not be noticed.
            Nothing,
            $($name),*
        }

        /// Every mistake, and what the reader does that makes it.
        pub const MISTAKES: &[(Mistake, &str)] = &[$((Mistake::$name, $text)),*];
    };
}

mistakes! {
    // The lazy ones.
    EndAfterFirst "steps the first item and then says end"
    EndAtOnce "says end before it looks"
    CutAtOnce "says cut short before it looks"
    RefusesAll "refuses each map"
    SameSpan "hands out the same span for each map"
    Untouched "leaves the record untouched"
    MadeUpEnd "makes the end's position up"
    // Wrong readings that come easily.
    PadsPassed "moves past pads when the item after them is refused"
    TenBytesEarly "refuses a 10-byte VarUInt before its end is seen"
    OrderedPad "takes pad code 1 as ordered"
    LongFloat "reads 4E 84 as a 4-byte float"
    FieldLost "loses the field ID from the span"
    PadWithoutId "loses the field ID of a pad: none is read before the next value"
    // Framing.
    OffByOne "puts the position of an incomplete refusal one further"
    WrittenOffByOne "puts the position of a refused value one further"
    Annotations254 "refuses 255 bytes of annotations"
    Annotations256 "takes 256 bytes of annotations"
    CutBeforeLimit "says 5 of annotations that are over the limit and cut short"
    LimitForCut "says 26 of annotations that are cut short and not over the limit"
    LimitBeforeRoom "says 26 of annotations over the limit that leave no room for a value"
    WrapperUnchecked "doesn't compare the wrapper's length with its value's"
    WrapperByte "gives the wrapper's byte for the value's"
    AnnotationsStart "lets the annotations begin at the wrapper"
    PastPart "tests a value against the slice and not the part"
    MarkerInBody "takes E0 in a body for a marker"
    AnyVersion "takes a marker of any version, and goes on"
    FirstNumber "tests a marker's first number and not its second"
    SecondNumber "tests a marker's second number and not its first"
    VersionBeforeLast "says 60 of a marker without EA"
    VersionBeforeCut "says 60 of a marker under four bytes"
    VersionAtNumber "puts the refusal of a version at the number"
    VersionAsBad "says 21 of a marker that isn't 1.0"
    MarkerFirst "wants a marker at the start of a stream"
    AnyMarker "takes a marker without EA"
    EmptyOrdered "takes an empty ordered struct"
    OrderedOne "takes struct code 1 as the length 1"
    Plain14 "takes code 14 as the length 14"
    Plain15 "takes code 15 as the length 15"
    BoolLength "takes a bool's code as a length"
    ShortTimestamp "takes a timestamp of one byte"
    PadInSpan "counts the pads before a value to its span"
    CutPad "says end at a pad that is cut short"
    FieldAlone "says end at a field ID with nothing after it"
    RefusedOnce "says end when asked again after a refusal"
    // Numbers.
    EightBytes "refuses a VarUInt of 9 bytes"
    TenBytes "takes a VarUInt of 10 bytes"
    PositiveZero "reads the VarInt C0 as positive"
    SignInMagnitude "counts a VarInt's sign bit to its magnitude"
    IntSignKept "keeps an Int's sign bit in its first bits"
    CutInt "puts the refusal of a short Int at the part's end"
    IdAtEnd "says end at an annotation that is cut short"
    // Decimals.
    ExponentZeroSigned "keeps the sign of a decimal's exponent of negative zero"
    CoefficientSignLost "loses the sign of a decimal's coefficient"
    CoefficientEarly "reads a decimal's coefficient from the exponent's last byte"
    EmptyDecimal "refuses an empty decimal"
    FromTheBody "counts a decimal's positions from its body's start"
    // Timestamps.
    OffsetTurned "gives a timestamp's offset with the other sign"
    OffsetKnown "knows an offset where no hour follows"
    MonthAndDay "gives a timestamp's month as its day"
    HourAlone "says 62 of an hour with no minute"
    FractionLost "gives no fraction of a second"
    NullStamp "calls a null timestamp a timestamp"
    StampAtWrapper "puts 61 to 63 of an annotated timestamp at its wrapper"
    // Scalars.
    QuietNan "sets the quiet bit of an 8-byte NaN"
    MinusZero "reads the float -0 as 0"
    NarrowFloat "gives a 4-byte float's own bits"
    NegativeZero "reads a negative int of zero"
    SignLost "reads a negative int as positive"
    LeadingZeros "keeps the leading zeros of a magnitude"
    BoolTwo "reads the bool 12 as true"
    WideSymbol "reads a symbol of 9 bytes"
    SwappedSymbol "reads a symbol's bytes from the last"
    BadText "takes any bytes as text"
    Surrogates "takes surrogates in UTF-8"
    NullContainer "calls a null list a container"
    PadEntry "steps over a pad where a value is to begin"
    // Stepping in.
    NullEntered "steps into a null list"
    ScalarEntered "steps into a string"
    SexpAsStruct "reads the body of a sexp as fields"
    OrderedBody "lets the body of an ordered struct begin at its length"
    // Word 8.
    LengthFromDescriptor "counts a body's length from the descriptor"
    LengthOfField "gives no length of a field's body"
    LengthOfMarker "gives a marker's bytes as the length of its body"
    LengthOfOpened "gives no length of a body that is stepped into"
    LengthOfPart "gives the length of an int's body for its magnitude's"
    LengthOfRefusal "leaves the length in the record of a refusal as it was"
    // Many steps, the buffer and the caller.
    LengthWithoutRoom "takes a buffer that has room for all but the length"
    LengthOverwritten "puts many records so close that the next overwrites the length"
    OneStep "does one step where there is room for more"
    StepsOn "goes on after the end"
    CountOff "counts one record too many"
    TailWritten "writes behind the record"
    ShortWritten "writes into a short buffer"
    OutsideFirst "tests the part before the buffer"
    KindThree "takes part kind 3 as a struct's"
    PositionBehind "takes a position behind the part as its end"
    // The walk.
    Depth31 "walks to depth 31"
    Depth33 "walks to depth 33"
    EndCounted "counts the walk's end as an item"
    VersionCounted "counts a marker that isn't 1.0 and what is behind it"
    // Field IDs.
    IdAtTheEnd "counts one more ID where the step ends"
    CutIdUncounted "doesn't count an ID that can't be read"
    PadsTwice "counts the ID of each pad twice"
    PadsAlone "counts the pads alone"
    IdsBeforeStart "counts IDs before the part's start"
    // Bounded steps.
    OnePadMore "passes one pad more than the bound"
    BoundIgnored "passes all pads whatever the bound is"
    MoreAtEnd "says kind 4 at the part's end"
    MoreAtBadId "says kind 4 where the next field ID can't be read"
    MoreAfterId "puts the position of kind 4 after the next field ID"
    MoreCountsNext "counts the pad that comes next, too"
    MoreReadsNext "reads the length of the pad behind the bound"
    MoreLeftovers "leaves the further words of kind 4 as they were"
    MoreMoves "moves past pads when a bounded step is refused"
    NoneAsOne "takes a largest number of 0 as 1"
    NoneBeforeOutside "says 67 where the part is outside too"
    // Whole maps.
    CheckPadsAtEnd "doesn't count the pads before the end of a checked map"
    CheckNulls "counts the nulls of a checked map under null"
    CheckMarkers "counts the markers of a checked map among its pads"
    CheckDepth "refuses the containers of a checked map a depth earlier"
    CheckIds "doesn't read the annotation IDs of a checked map"
    CheckBools "doesn't read the bools of a checked map"
    CheckKept "leaves counts in the record of a refused check"
    CheckPosition "puts the refusal of a check at the start of the map"
    // Packed maps.
    PackNulls "packs the null 3F as 2F"
    PackOrderLost "packs a short ordered struct as one that isn't ordered"
    PackRoomFirst "says 69 of a map that isn't accepted"
    PackPartly "packs as far as there is room"
    // Written values.
    WritePadWide "writes a pad of 15 with a length of two bytes"
    WriteNan "sets the quiet bit of a NaN that is written"
    WriteZeros "keeps the leading zeros of an int that is written"
    WriteOrdered "judges a struct's body of one byte behind D1"
    WriteInWritten "counts the position of a refused representation in what would be written"
    WriteRoomFirst "says 70 of what the check refuses"
    // The limits.
    LimitOf255 "tests 255 bytes of annotations by whichever limit"
    LimitOf254 "takes 254 as a limit of annotations"
    LimitOf65536 "takes 65536 as a limit of annotations"
    OutsideBeforeLimit "says 50 where a limit is out of range too"
    LimitBeforeShort "says 68 into a short buffer"
    DepthOf32 "walks to depth 32 by whichever limit"
    DepthOf0 "walks with a limit of depth 0"
    DepthOf65 "walks with a limit of depth 65"
    OneDeeperAt64 "walks one deeper by the highest limit"
}

/// What the walk hands out of a whole map.
fn lines(map: &[u8], limits: Limits) -> Vec<Line> {
    let mut walk = Walk::new(Part {
        limits,
        ..Part::whole(map)
    });
    let lines = std::iter::from_fn(|| match walk.next(&Exports, map) {
        Line::End(_) | Line::Refused(_) => None,
        line => Some(line),
    });
    lines.collect()
}

fn descriptors(map: &[u8], limits: Limits) -> impl Iterator<Item = u8> + '_ {
    lines(map, limits).into_iter().filter_map(|line| match line {
        Line::Value { descriptor, .. } => Some(map[descriptor]),
        _ => None,
    })
}

/// The map with annotations that can be read, but those of fields.
fn plain_ids(map: &[u8], limits: Limits) -> Vec<u8> {
    let mut plain = map.to_vec();
    for line in lines(map, limits) {
        let Line::Value {
            start, descriptor, ..
        } = line
        else {
            continue;
        };
        let is_wrapper = (0xE1..=0xEE).contains(&map[start]);
        if let Some((ids, end)) = is_wrapper.then(|| inside_wrapper(map, start, descriptor)).flatten() {
            if end == descriptor {
                plain[ids..end].fill(0x84);
            }
        }
    }
    plain
}

pub struct Wrong {
    mistake: Mistake,
    /// The call that was refused last.
    refused: Cell<Option<(usize, Part, u64)>>,
}

impl Wrong {
    pub fn new(mistake: Mistake) -> Self {
        Wrong {
            mistake,
            refused: Cell::new(None),
        }
    }

    fn is(&self, mistake: Mistake) -> bool {
        self.mistake == mistake
    }
}

// ===== Changing a record =====

fn put(out: &mut [u8], words: [u64; WORDS]) -> u64 {
    Record(words).write(&mut out[..RECORD]);
    if words[0] == 9 {
        words[1]
    } else {
        0
    }
}

fn end(out: &mut [u8], position: usize) -> u64 {
    put(out, [0, 0, position as u64, 0, 0, 0, 0, 0, 0])
}

fn refuse(out: &mut [u8], number: u64, position: usize) -> u64 {
    put(out, [9, number, position as u64, 0, 0, 0, 0, 0, 0])
}

/// A value without annotations whose body has `length` bytes, or 8.
fn value(map: &[u8], part: Part, at: usize, body: usize, length: usize, out: &mut [u8]) -> u64 {
    if body > part.end || part.end - body < length {
        return refuse(out, 8, at);
    }
    let byte = map[at] as u64;
    let (at, body, length) = (at as u64, body as u64, length as u64);
    put(out, [2, byte, at, at, at, body, body + length, 0, length])
}

/// The marker at `at`, whatever its last three bytes are.
fn marker(map: &[u8], at: usize, out: &mut [u8]) -> u64 {
    let [major, minor] = [map[at + 1] as u64, map[at + 2] as u64];
    let (start, end) = (at as u64, at as u64 + 4);
    put(out, [1, 224, start, major, minor, end, end, 0, 0])
}

/// Where the first of the marker's numbers stands that isn't as in version 1.0.
fn wrong_number(map: &[u8], at: usize, end: usize) -> Option<usize> {
    let is_wrong = |number: &usize| map[*number] != [1, 0][number - at - 1];
    (at + 1..end.min(at + 3)).find(is_wrong)
}

/// The byte at which a call steps, where that is simply the byte at the cursor.
fn first_byte(map: &[u8], part: Part, kind: u64) -> Option<u8> {
    let is_simple = part.is_inside(map) && part.position < part.end && kind < STRUCT;
    is_simple.then(|| map[part.position])
}

/// The ten bytes before a part's end have no last byte.
fn is_long_and_open(map: &[u8], part: Part) -> bool {
    part.end - part.position >= 10 && map[part.end - 10..part.end].iter().all(|byte| *byte < 0x80)
}

/// Where the length stands in a record.
const LENGTH: usize = RECORD - WORD;

/// Fills a record, and gives all of it but its length.
fn without_length(part: Part, out: &mut [u8], call: impl FnOnce(Part, &mut [u8]) -> u64) -> u64 {
    let mut record = [0; RECORD];
    let returned = call(part, &mut record);
    out[..LENGTH].copy_from_slice(&record[..LENGTH]);
    returned
}

/// Fills a record, but of a refusal all of it but its length.
fn with_old_length(part: Part, out: &mut [u8], call: impl FnOnce(Part, &mut [u8]) -> u64) -> u64 {
    let old = out[LENGTH..RECORD].to_vec();
    let returned = call(part, out);
    if returned != 0 {
        out[LENGTH..RECORD].copy_from_slice(&old);
    }
    returned
}

impl Wrong {
    /// A step of the kinds of mistake that answer without looking at the true answer.
    fn instead(&self, map: &[u8], part: Part, kind: u64, out: &mut [u8]) -> Option<u64> {
        let is_limit = ANNOTATIONS.contains(&part.limits.annotations);
        if out.len() < RECORD || !is_limit || !part.is_inside(map) || kind > STRUCT {
            return None;
        }
        let Part {
            end: last,
            position: at,
            ..
        } = part;
        let byte = first_byte(map, part, kind);
        let code = byte.map(|byte| (byte >> 4, (byte & 15) as usize));
        match (self.mistake, code) {
            (Mistake::EndAfterFirst, _) if at > part.start => Some(end(out, last)),
            (Mistake::EndAtOnce, _) => Some(end(out, last)),
            (Mistake::CutAtOnce, _) => Some(refuse(out, 3, last)),
            (Mistake::RefusesAll, _) => Some(refuse(out, 8, at)),
            (Mistake::SameSpan, _) => Some(put(out, [2, 0x20, 0, 0, 0, 1, 1, 0, 0])),
            (Mistake::Untouched, _) => Some(0),
            (Mistake::OrderedPad, Some((0, 1))) => {
                let mut map = map.to_vec();
                map[at] = 0x0E;
                Some(Exports.step(&map, part, kind, out))
            }
            (Mistake::OrderedOne, Some((13, 1))) => Some(value(map, part, at, at + 1, 1, out)),
            (Mistake::Plain14, Some((2..=13, 14))) => Some(value(map, part, at, at + 1, 14, out)),
            (Mistake::Plain15, Some((2..=13, 15))) => Some(value(map, part, at, at + 1, 15, out)),
            (Mistake::BoolLength, Some((1, size @ 0..=13))) => {
                Some(value(map, part, at, at + 1, size, out))
            }
            (Mistake::PastPart, _) => {
                let longer = Part {
                    end: map.len(),
                    ..part
                };
                Some(Exports.step(map, longer, kind, out))
            }
            (Mistake::PadWithoutId, _) if kind == STRUCT => self.pad_without_id(map, part, out),
            (Mistake::RefusedOnce, _) => {
                let call = Some((map.as_ptr() as usize, part, kind));
                (self.refused.replace(None) == call).then(|| end(out, last))
            }
            _ => None,
        }
    }

    fn pad_without_id(&self, map: &[u8], part: Part, out: &mut [u8]) -> Option<u64> {
        let (id, pad) = var_uint(map, part.position, part.end)?;
        if pad == part.end || map[pad] >= 0x0F {
            return None;
        }
        let returned = Exports.step(map, part.at(pad), SEQUENCE, out);
        let mut words = Record::read(out).0;
        if words[0] == 2 {
            (words[0], words[7]) = (3, id as u64);
            put(out, words);
        }
        Some(returned)
    }

    /// A step's answer changed.
    fn changed(&self, map: &[u8], part: Part, kind: u64, out: &mut [u8], returned: u64) -> u64 {
        let words = Record::read(out).0;
        match words[0] {
            9 => self.changed_refusal(map, part, kind, out, returned),
            0 if self.is(Mistake::MadeUpEnd) => end(out, part.position),
            2 if self.is(Mistake::MarkerFirst) && kind == STREAM && part.position == 0 => {
                refuse(out, 60, words[2] as usize)
            }
            1 if self.is(Mistake::LengthOfMarker) => {
                let mut words = words;
                words[8] = words[6] - words[2];
                put(out, words)
            }
            2 | 3 => self.changed_value(map, part, out, words),
            _ => returned,
        }
    }

    fn changed_value(&self, map: &[u8], part: Part, out: &mut [u8], words: [u64; WORDS]) -> u64 {
        let [kind, _, start, annotations, descriptor, _, end, ..] = words;
        let has_annotations = annotations < descriptor;
        let mut new = words;
        match self.mistake {
            Mistake::FieldLost if kind == 3 && !has_annotations => new[2] = descriptor,
            Mistake::WrapperByte if has_annotations && kind == 2 => {
                new[1] = map[start as usize] as u64
            }
            Mistake::AnnotationsStart if has_annotations => new[3] = start,
            Mistake::PadInSpan if kind == 2 => new[2] = part.position as u64,
            Mistake::LengthFromDescriptor => new[8] = end - descriptor,
            Mistake::LengthOfField if kind == 3 => new[8] = 0,
            Mistake::Annotations254 if descriptor - annotations == 255 => {
                return refuse(out, 26, start as usize)
            }
            Mistake::EightBytes if kind == 3 && descriptor - start == 9 && !has_annotations => {
                return refuse(out, 20, start as usize)
            }
            _ => {}
        }
        put(out, new)
    }

    fn changed_refusal(
        &self,
        map: &[u8],
        part: Part,
        kind: u64,
        out: &mut [u8],
        returned: u64,
    ) -> u64 {
        self.refused.set(Some((map.as_ptr() as usize, part, kind)));
        let at = Record::read(out).0[2] as usize;
        let next = map.get(at + 1).copied();
        match (self.mistake, returned) {
            (Mistake::OffByOne, 1..=9) => refuse(out, returned, at + 1),
            (Mistake::WrittenOffByOne, 23..=36) => refuse(out, returned, at + 1),
            (Mistake::TenBytesEarly, 3) if is_long_and_open(map, part) => refuse(out, 20, at - 10),
            (Mistake::LongFloat, 30) if map[at] == 0x4E && next == Some(0x84) => {
                value(map, part, at, at + 2, 4, out)
            }
            (Mistake::EmptyOrdered, 32) => value(map, part, at, at + 2, 0, out),
            (Mistake::ShortTimestamp, 31) if map[at] == 0x61 => {
                value(map, part, at, at + 1, 1, out)
            }
            (Mistake::MarkerInBody, 22) if map[at] == 0xE0 => {
                Exports.step(map, part.at(at), STREAM, out)
            }
            (Mistake::AnyMarker, 21) | (Mistake::AnyVersion, 60) => marker(map, at, out),
            (Mistake::FirstNumber, 60) if map[at + 1] == 1 => marker(map, at, out),
            (Mistake::SecondNumber, 60) if map[at + 2] == 0 => marker(map, at, out),
            (Mistake::VersionBeforeLast, 21) | (Mistake::VersionBeforeCut, 2) => {
                match wrong_number(map, at, part.end) {
                    Some(_) => refuse(out, 60, at),
                    None => returned,
                }
            }
            (Mistake::VersionAtNumber, 60) => match wrong_number(map, at, part.end) {
                Some(number) => refuse(out, 60, number),
                None => returned,
            },
            (Mistake::VersionAsBad, 60) => refuse(out, 21, at),
            (Mistake::CutPad, 6) | (Mistake::FieldAlone, 7) => end(out, part.end),
            (Mistake::WrapperUnchecked, 29) | (Mistake::Annotations256, 26) => {
                self.unwrapped(map, part, at, out, returned)
            }
            (Mistake::CutBeforeLimit, 26) => match inside_wrapper(map, at, part.end) {
                Some((annotations, inner)) if inner > part.end => refuse(out, 5, annotations),
                _ => returned,
            },
            (Mistake::LimitForCut, 5) if map[part.position] >> 4 == 14 => {
                refuse(out, 26, part.position)
            }
            (Mistake::LimitBeforeRoom, 25) => match inside_wrapper(map, at, part.end) {
                Some((annotations, inner)) if inner - annotations > 255 => refuse(out, 26, at),
                _ => returned,
            },
            _ => returned,
        }
    }

    /// The value in the wrapper at `at`, handed out though the wrapper is refused.
    fn unwrapped(&self, map: &[u8], part: Part, at: usize, out: &mut [u8], returned: u64) -> u64 {
        let Some((annotations, inner)) = inside_wrapper(map, at, part.end) else {
            return returned;
        };
        let is_256 = inner - annotations == 256 && inner <= part.end;
        if self.is(Mistake::Annotations256) && !is_256 {
            return returned;
        }
        let returned = Exports.step(map, part.at(inner), SEQUENCE, out);
        let mut words = Record::read(out).0;
        if words[0] == 2 {
            (words[2], words[3]) = (at as u64, annotations as u64);
            put(out, words);
        }
        returned
    }

    fn changed_scalar(&self, map: &[u8], part: Part, out: &mut [u8], returned: u64) -> u64 {
        let words = Record::read(out).0;
        if words[0] == 9 {
            return self.read_though_refused(map, part, out, returned);
        }
        let [_, byte, descriptor, what, number, ..] = words;
        let body = descriptor + 1;
        let mut new = words;
        match (self.mistake, what) {
            (Mistake::QuietNan, 3) if f64::from_bits(number).is_nan() => new[4] |= 1 << 51,
            (Mistake::MinusZero, 3) if number == 1 << 63 => new[4] = 0,
            (Mistake::NarrowFloat, 3) if byte == 0x44 => {
                new[4] = (f64::from_bits(number) as f32).to_bits() as u64
            }
            (Mistake::SignLost, 2) => new[4] = 0,
            (Mistake::LeadingZeros, 2) if byte & 15 < 14 => (new[5], new[8]) = (body, byte & 15),
            (Mistake::LengthOfPart, 2) if byte & 15 < 14 => new[8] = byte & 15,
            (Mistake::SwappedSymbol, 6) if byte & 15 < 14 && byte & 15 > 0 => {
                new[4] = number.swap_bytes() >> (64 - 8 * (byte & 15))
            }
            (Mistake::NullContainer, 0) if byte == 0xBF => new[3] = 10,
            _ => {}
        }
        put(out, new)
    }

    fn read_though_refused(&self, map: &[u8], part: Part, out: &mut [u8], returned: u64) -> u64 {
        let at = Record::read(out).0[2] as usize;
        let Some(byte) = map.get(at).map(|byte| *byte as u64) else {
            return returned;
        };
        let (start, size) = (at as u64 + 1, byte & 15);
        let read = |what, number, start, end| {
            let length = end - start;
            [7, byte, at as u64, what, number, start, end, 0, length]
        };
        match (self.mistake, returned) {
            (Mistake::NegativeZero, 34) if size < 14 => {
                put(out, read(2, 1, start + size, start + size))
            }
            (Mistake::BoolTwo, 33) if byte == 0x12 => put(out, read(1, 1, start, start)),
            (Mistake::WideSymbol, 35) if byte == 0x79 => {
                let eight = &map[at + 2..at + 10];
                let id = u64::from_be_bytes(eight.try_into().expect("eight bytes"));
                put(out, read(6, id, start, start))
            }
            (Mistake::BadText, 36) if size < 14 => put(out, read(7, 0, start, start + size)),
            (Mistake::Surrogates, 36) if byte == 0x83 && map[at + 1] == 0xED => {
                put(out, read(7, 0, start, start + size))
            }
            (Mistake::PadEntry, 22) if byte < 0x0E && part.end > at + 1 + size as usize => {
                Exports.scalar(map, part.at(at + 1 + size as usize), out)
            }
            _ => returned,
        }
    }

    fn changed_number(&self, map: &[u8], part: Part, form: u64, out: &mut [u8], given: u64) -> u64 {
        let mut words = Record::read(out).0;
        let [kind, _, start, _, _, _, end, ..] = words;
        let first = map.get(part.position).copied().unwrap_or(0);
        match (self.mistake, kind) {
            (Mistake::EightBytes, 8) if form < INT && end - start == 9 => {
                return refuse(out, 20, part.position)
            }
            (Mistake::PositiveZero, 8) if form == VAR_INT && words[3] == 0 => words[1] = 0,
            (Mistake::SignInMagnitude, 8) if form == VAR_INT && end - start == 1 => {
                words[3] = (first & 0x7F) as u64
            }
            (Mistake::IntSignKept, 8) if form == INT && end > start => words[3] = first as u64,
            (Mistake::TenBytesEarly, 9) if given == 3 && is_long_and_open(map, part) => {
                return refuse(out, 20, part.position)
            }
            (Mistake::TenBytes, 9) if given == 20 && form < VAR_INT => {
                let Some((number, next)) = var_uint(map, part.position, part.end) else {
                    return given;
                };
                let (at, next) = (part.position as u64, next as u64);
                words = [8, 0, at, number as u64, 0, next, next, 0, 0];
            }
            (Mistake::CutInt, 9) if given == 9 => return refuse(out, 9, part.end),
            _ => return given,
        }
        put(out, words)
    }

    fn changed_timestamp(&self, map: &[u8], part: Part, out: &mut [u8], given: u64) -> u64 {
        let mut words = Record::read(out).0;
        let [kind, precision, at, offset, fields, _, _, coefficient, _] = words;
        match (self.mistake, kind) {
            (Mistake::OffsetTurned, 11) if offset != 0 => words[3] = 2880 - offset,
            (Mistake::OffsetKnown, 11) if precision < 4 => words[3] = 1440,
            (Mistake::MonthAndDay, 11) if precision > 2 => {
                let (month, day) = (fields >> 16 & 0xFF, fields >> 24 & 0xFF);
                words[4] = fields & !0xFFFF_0000 | month << 24 | day << 16;
            }
            (Mistake::HourAlone, 9) if given == 61 => return refuse(out, 62, at as usize),
            (Mistake::FractionLost, 11) if coefficient > 0 => {
                (words[1], words[5], words[6], words[7]) = (5, 0, 0, 0)
            }
            (Mistake::NullStamp, 7) if precision == 0x6F => {
                words = [11, 1, at, 0, 1, 0, 0, 0, 0];
            }
            (Mistake::StampAtWrapper, 9)
                if (61..=63).contains(&given) && map[part.position] > 0xE0 =>
            {
                return refuse(out, given, part.position)
            }
            _ => return given,
        }
        put(out, words)
    }

    fn changed_decimal(&self, map: &[u8], part: Part, out: &mut [u8], given: u64) -> u64 {
        let mut words = Record::read(out).0;
        let [kind, _, start, _, _, rest, end, exponent, _] = words;
        match (self.mistake, kind) {
            (Mistake::EmptyDecimal, 10) if start == end => return refuse(out, 4, part.end),
            (_, 10) if start == end => return given,
            (Mistake::ExponentZeroSigned, 10) if exponent == 0 => {
                words[4] = (map[part.position] >> 6 & 1) as u64
            }
            (Mistake::CoefficientSignLost, 10) => words[1] = 0,
            (Mistake::CoefficientEarly, 10) if rest < end || map[part.end - 1] < 0x80 => {
                let last = rest as usize - 2;
                (words[1], words[3]) = (1, (map[last] & 0x7F) as u64);
                words[5] = rest - 1;
            }
            (Mistake::FromTheBody, 10) => {
                (words[2], words[5], words[6]) = (0, rest - start, end - start)
            }
            (Mistake::FromTheBody, 9) if given == 4 => {
                return refuse(out, 4, part.end - part.position)
            }
            _ => return given,
        }
        put(out, words)
    }

    /// A bounded step's answer changed.
    #[allow(clippy::too_many_arguments)]
    fn changed_bounded(
        &self,
        map: &[u8],
        part: Part,
        kind: u64,
        most: usize,
        out: &mut [u8],
        old: &[u8],
        returned: u64,
    ) -> u64 {
        let [answer, pads, position, ..] = Record::read(out).0;
        let more = |pads: usize, position: usize| [4, pads as u64, position as u64, 0, 0, 0, 0, 0, 0];
        let met = Pads::of(map, part, kind);
        let is_full = met.ends.len() == most;
        match (self.mistake, answer) {
            (Mistake::MoreAtEnd, 0) if is_full => put(out, more(most, met.place())),
            (Mistake::MoreAtBadId, 9) if is_full && kind == STRUCT && matches!(returned, 3 | 7 | 20) => {
                put(out, more(most, met.place()))
            }
            (Mistake::MoreAfterId, 4) if kind == STRUCT => {
                match var_uint(map, position as usize, part.end) {
                    Some((_, behind)) => put(out, more(most, behind)),
                    None => returned,
                }
            }
            (Mistake::MoreCountsNext, 4) => put(out, more(pads as usize + 1, position as usize)),
            (Mistake::MoreReadsNext, 4) => {
                let mut next = [0; RECORD];
                match Exports.step_bounded(map, part.at(position as usize), kind, 1, &mut next) {
                    number @ (3 | 6 | 20) if is_full => {
                        out[..RECORD].copy_from_slice(&next);
                        number
                    }
                    _ => returned,
                }
            }
            (Mistake::MoreLeftovers, 4) => {
                out[3 * WORD..RECORD].copy_from_slice(&old[3 * WORD..]);
                returned
            }
            _ => returned,
        }
    }

    /// The items of the walk by another reader or with other limits.
    fn counted(&self, reader: &impl Reader, map: &[u8], most: u64, limits: Limits) -> u64 {
        let mut walk = Walk::new(Part {
            limits,
            ..Part::whole(map)
        });
        let mut count = 0;
        while count < most {
            match walk.next(reader, map) {
                Line::Marker { .. } | Line::Value { .. } => count += 1,
                Line::End(_) | Line::Refused(_) => break,
            }
        }
        count
    }

    /// Where the pads at the cursor end, where that is simple to say.
    fn past_pads(&self, map: &[u8], part: Part) -> usize {
        let mut at = part.position;
        while at < part.end && map[at] < 0x0E && at + 1 + map[at] as usize <= part.end {
            at += 1 + map[at] as usize;
        }
        at
    }

    /// The part as a reader takes it that makes a mistake with the limit of annotations.
    fn limited(&self, part: Part) -> Part {
        let annotations = match (self.mistake, part.limits.annotations) {
            (Mistake::LimitOf255, 255..=65535) | (Mistake::LimitOf254, 254) => 255,
            (Mistake::LimitOf65536, 65536) => 65535,
            (_, annotations) => annotations,
        };
        let depth = part.limits.depth;
        Part {
            limits: Limits { annotations, depth },
            ..part
        }
    }

    /// The mistakes with the limit, which every entry that takes it has, and those of all.
    fn with_limit(
        &self,
        map: &[u8],
        part: Part,
        out: &mut [u8],
        call: impl FnOnce(Part, &mut [u8]) -> u64,
    ) -> u64 {
        let part = self.limited(part);
        let is_limit = ANNOTATIONS.contains(&part.limits.annotations);
        match (self.mistake, out.len() < RECORD) {
            (Mistake::LimitBeforeShort, true) if !is_limit => 68,
            (Mistake::OutsideBeforeLimit, false) if !is_limit && !part.is_inside(map) => {
                refuse(out, 50, 0)
            }
            _ => self.with_arguments(map, part, out, call),
        }
    }

    /// The mistakes with the buffer and the arguments, which every entry of one part has.
    fn with_arguments(
        &self,
        map: &[u8],
        part: Part,
        out: &mut [u8],
        call: impl FnOnce(Part, &mut [u8]) -> u64,
    ) -> u64 {
        if self.is(Mistake::OutsideFirst) && out.len() < RECORD && !part.is_inside(map) {
            return 50;
        }
        let is_behind = part.position > part.end && part.start <= part.end && part.end <= map.len();
        let part = match self.mistake {
            Mistake::PositionBehind if is_behind => part.at(part.end),
            _ => part,
        };
        match (self.mistake, out.len()) {
            (Mistake::LengthWithoutRoom, LENGTH..RECORD) => without_length(part, out, call),
            (Mistake::LengthOfRefusal, RECORD..) => with_old_length(part, out, call),
            (Mistake::TailWritten, length) if length > RECORD => {
                out[RECORD] = 0;
                call(part, out)
            }
            (Mistake::ShortWritten, 1..RECORD) => {
                out[0] = 9;
                call(part, out)
            }
            _ => call(part, out),
        }
    }
}

impl Reader for Wrong {
    fn step(&self, map: &[u8], part: Part, kind: u64, out: &mut [u8]) -> u64 {
        let kind = match (self.mistake, kind) {
            (Mistake::KindThree, 3) => STRUCT,
            _ => kind,
        };
        self.with_limit(map, part, out, |part, out| {
            if let Some(returned) = self.instead(map, part, kind, out) {
                return returned;
            }
            let returned = Exports.step(map, part, kind, out);
            match returned {
                50 | 51 | 68 => returned,
                _ => self.changed(map, part, kind, out, returned),
            }
        })
    }

    fn steps(&self, map: &[u8], part: Part, kind: u64, out: &mut [u8], count: &mut u64) -> u64 {
        let mut returned = Exports.steps(map, self.limited(part), kind, out, count);
        if let 50 | 51 | 68 = returned {
            return returned;
        }
        // Single steps, so that only mistakes of this entry's own differ from those.
        let most = match self.mistake {
            Mistake::OneStep => 1,
            _ => out.len() / RECORD,
        };
        let apart = match self.mistake {
            Mistake::LengthOverwritten => LENGTH,
            _ => RECORD,
        };
        let (mut written, mut part) = (0, part);
        while written < most {
            let slot = &mut out[written * apart..written * apart + RECORD];
            returned = self.step(map, part, kind, slot);
            let record = Record::read(slot);
            written += 1;
            part.position = self.cursor(map, part, kind, record);
            let is_end = record.kind() == 0;
            if record.kind() == 9 || is_end && !self.is(Mistake::StepsOn) {
                break;
            }
        }
        *count = written as u64 + self.is(Mistake::CountOff) as u64;
        returned
    }

    fn annotation(&self, map: &[u8], part: Part, out: &mut [u8]) -> u64 {
        self.with_arguments(map, part, out, |part, out| {
            let returned = Exports.annotation(map, part, out);
            match (self.mistake, returned) {
                (Mistake::IdAtEnd, 3) => end(out, part.end),
                (Mistake::TenBytesEarly, 3) if is_long_and_open(map, part) => {
                    refuse(out, 20, part.position)
                }
                _ => returned,
            }
        })
    }

    fn step_in(&self, map: &[u8], part: Part, out: &mut [u8]) -> u64 {
        self.with_limit(map, part, out, |part, out| {
            let returned = Exports.step_in(map, part, out);
            if returned == 51 {
                return returned;
            }
            let mut words = Record::read(out).0;
            let at = words[2] as usize;
            let byte = map.get(at).copied().unwrap_or(0);
            let opened = |start, end| [6, 1, at as u64, 0, 0, start, end, 0, end - start];
            let body = at as u64 + 1;
            match (self.mistake, returned) {
                (Mistake::NullEntered, 52) if byte == 0xBF => put(out, opened(body, body)),
                (Mistake::ScalarEntered, 52) if byte >> 4 == 8 && byte & 15 < 14 => {
                    put(out, opened(body, body + (byte & 15) as u64))
                }
                (Mistake::SexpAsStruct, 0) if byte >> 4 == 12 => {
                    words[1] = 2;
                    put(out, words)
                }
                (Mistake::LengthOfOpened, 0) => {
                    words[8] = 0;
                    put(out, words)
                }
                (Mistake::OrderedBody, 0) if byte == 0xD1 => {
                    (words[5], words[8]) = (body, words[6] - body);
                    put(out, words)
                }
                _ => returned,
            }
        })
    }

    fn scalar(&self, map: &[u8], part: Part, out: &mut [u8]) -> u64 {
        self.with_limit(map, part, out, |part, out| {
            let returned = Exports.scalar(map, part, out);
            match returned {
                50 | 51 | 68 => returned,
                _ => self.changed_scalar(map, part, out, returned),
            }
        })
    }

    fn timestamp(&self, map: &[u8], part: Part, out: &mut [u8]) -> u64 {
        self.with_limit(map, part, out, |part, out| {
            let returned = Exports.timestamp(map, part, out);
            match returned {
                50 | 51 | 68 => returned,
                _ => self.changed_timestamp(map, part, out, returned),
            }
        })
    }

    fn number(&self, map: &[u8], part: Part, form: u64, size: usize, out: &mut [u8]) -> u64 {
        self.with_arguments(map, part, out, |part, out| {
            let returned = Exports.number(map, part, form, size, out);
            match returned {
                50 | 51 => returned,
                _ => self.changed_number(map, part, form, out, returned),
            }
        })
    }

    fn decimal(&self, map: &[u8], part: Part, out: &mut [u8]) -> u64 {
        self.with_arguments(map, part.from_position(), out, |part, out| {
            let returned = Exports.decimal(map, part, out);
            match returned {
                50 | 51 => returned,
                _ => self.changed_decimal(map, part, out, returned),
            }
        })
    }

    fn walked(&self, map: &[u8], most: u64, limits: Limits) -> u64 {
        let limits = match (self.mistake, limits.depth) {
            (Mistake::DepthOf32, 1..=64) => Limits {
                depth: 32,
                ..limits
            },
            (Mistake::DepthOf0, 0) => Limits { depth: 1, ..limits },
            (Mistake::DepthOf65, 65) => Limits {
                depth: 64,
                ..limits
            },
            _ => {
                self.limited(Part {
                    limits,
                    ..Part::whole(map)
                })
                .limits
            }
        };
        let Limits { annotations, depth } = limits;
        let count = Exports.walked(map, most, limits);
        if !ANNOTATIONS.contains(&annotations) || !DEPTHS.contains(&depth) {
            return count;
        }
        let deeper = Limits {
            depth: depth + 1,
            ..limits
        };
        match self.mistake {
            Mistake::Depth31 => {
                let depth = depth - 1;
                self.counted(&Exports, map, most, Limits { depth, ..limits })
            }
            Mistake::Depth33 => self.counted(&Exports, map, most, deeper),
            Mistake::OneDeeperAt64 if depth == 64 => self.counted(&Exports, map, most, deeper),
            Mistake::VersionCounted => {
                let passing = Wrong::new(Mistake::AnyVersion);
                self.counted(&passing, map, most, limits)
            }
            Mistake::EndCounted if count < most => count + 1,
            _ => count,
        }
    }

    fn check(&self, map: &[u8], limits: Limits, out: &mut [u8]) -> u64 {
        let limits = match (self.mistake, limits.depth) {
            (Mistake::CheckDepth, depth @ 2..=64) => Limits {
                depth: depth - 1,
                ..limits
            },
            _ => limits,
        };
        let returned = Exports.check(map, limits, out);
        if returned == 51 || returned == 68 {
            return returned;
        }
        let mut words: [u64; CHECK_WORDS] = words_of(out);
        match (self.mistake, returned) {
            (Mistake::CheckPadsAtEnd, 0) => {
                let mut last = map.len();
                while last > 0 && map[last - 1] == 0 {
                    last -= 1;
                }
                let mut shorter = [0; CHECK];
                if Exports.check(&map[..last], limits, &mut shorter) == 0 {
                    words[2] = words_of::<CHECK_WORDS>(&shorter)[2];
                }
            }
            (Mistake::CheckNulls, 0) => {
                for null in descriptors(map, limits).filter(|byte| *byte > 0x1F && byte & 15 == 15) {
                    let code = (null >> 4) as usize;
                    words[if code < 3 { code + 3 } else { code + 2 }] -= 1;
                    words[3] += 1;
                }
            }
            (Mistake::CheckMarkers, 0) => {
                (words[1], words[2]) = (0, words[1] + words[2]);
            }
            (Mistake::CheckIds, 3 | 20) => return Exports.check(&plain_ids(map, limits), limits, out),
            (Mistake::CheckBools, 33) => {
                let mut map = map.to_vec();
                map[words[2] as usize] = 0x11;
                return self.check(&map, limits, out);
            }
            (Mistake::CheckKept, 1..) => words[7] = 1,
            (Mistake::CheckPosition, 1..) => words[2] = 0,
            _ => {}
        }
        for (bytes, word) in out.chunks_exact_mut(WORD).zip(words) {
            bytes.copy_from_slice(&word.to_le_bytes());
        }
        returned
    }

    fn ids(&self, map: &[u8], part: Part) -> u64 {
        let part = match self.mistake {
            Mistake::IdsBeforeStart => Part { start: 0, ..part },
            _ => self.limited(part),
        };
        let ids = Exports.ids(map, part);
        let mut record = [0; RECORD];
        let returned = Exports.step(map, part, STRUCT, &mut record);
        let more = (Record::read(&record).kind() != 0) as u64;
        match (self.mistake, returned) {
            (_, 50 | 68) => ids,
            (Mistake::IdAtTheEnd, 0) if more == 0 => ids + 1,
            (Mistake::CutIdUncounted, 3 | 7 | 20) => ids - 1,
            (Mistake::PadsTwice, _) => 2 * ids - more,
            (Mistake::PadsAlone, _) => ids - more,
            _ => ids,
        }
    }

    fn step_bounded(&self, map: &[u8], part: Part, kind: u64, most: usize, out: &mut [u8]) -> u64 {
        let kind = match (self.mistake, kind) {
            (Mistake::KindThree, 3) => STRUCT,
            _ => kind,
        };
        self.with_limit(map, part, out, |part, out| {
            let is_limit = ANNOTATIONS.contains(&part.limits.annotations);
            let is_fine = is_limit && part.is_inside(map) && kind <= STRUCT;
            match (self.mistake, most) {
                (Mistake::NoneBeforeOutside, 0) if is_limit && out.len() >= RECORD => {
                    refuse(out, 67, 0)
                }
                (Mistake::NoneAsOne, 0) => Exports.step_bounded(map, part, kind, 1, out),
                (Mistake::OnePadMore, 1..) => {
                    Exports.step_bounded(map, part, kind, most.saturating_add(1), out)
                }
                (Mistake::BoundIgnored, 1..) => Exports.step(map, part, kind, out),
                (_, 1..) if is_fine && out.len() >= RECORD => {
                    let old = out[..RECORD].to_vec();
                    let returned = Exports.step_bounded(map, part, kind, most, out);
                    self.changed_bounded(map, part, kind, most, out, &old, returned)
                }
                _ => Exports.step_bounded(map, part, kind, most, out),
            }
        })
    }

    fn packed_size(&self, map: &[u8], limits: Limits, out: &mut [u8]) -> u64 {
        Exports.packed_size(map, limits, out)
    }

    fn pack(&self, map: &[u8], limits: Limits, to: &mut [u8], out: &mut [u8]) -> u64 {
        let returned = Exports.pack(map, limits, to, out);
        if returned == 51 || returned == 68 {
            return returned;
        }
        match (self.mistake, returned) {
            (Mistake::PackNulls, 0) => {
                let size = Record::read(out).0[3] as usize;
                for line in lines(&to[..size], limits) {
                    match line {
                        Line::Value { descriptor, .. } if to[descriptor] == 0x3F => to[descriptor] = 0x2F,
                        _ => {}
                    }
                }
                returned
            }
            (Mistake::PackOrderLost, 0) => {
                let size = Record::read(out).0[3] as usize;
                let ordered = lines(&to[..size], limits).into_iter().find_map(|line| match line {
                    Line::Value {
                        depth: 0,
                        start,
                        descriptor,
                        body,
                        end,
                        ..
                    } if start == descriptor && to[start] == 0xD1 && end - body < 14 => Some((start, body, end)),
                    _ => None,
                });
                let Some((start, body, end)) = ordered else {
                    return returned;
                };
                to[start] = 0xD0 | (end - body) as u8;
                to.copy_within(body..size, start + 1);
                put(out, [16, 0, 0, (size + start + 1 - body) as u64, 0, 0, 0, 0, 0])
            }
            (Mistake::PackRoomFirst, 1..=63) if to.is_empty() => refuse(out, 69, map.len()),
            (Mistake::PackPartly, 69) => {
                let mut all = vec![0; Record::read(out).0[2] as usize];
                Exports.pack(map, limits, &mut all, &mut [0; RECORD]);
                to.copy_from_slice(&all[..to.len()]);
                returned
            }
            _ => returned,
        }
    }

    fn write(&self, thing: Thing, lent: Lent<'_>, to: &mut [u8], out: &mut [u8]) -> u64 {
        let thing = match (self.mistake, thing) {
            (Mistake::WriteNan, Thing::Float(bits)) if f64::from_bits(bits).is_nan() => {
                Thing::Float(bits | 1 << 51)
            }
            _ => thing,
        };
        let returned = Exports.write(thing, lent, to, out);
        if out.len() < RECORD {
            return returned;
        }
        match (self.mistake, thing, returned) {
            (Mistake::WritePadWide, Thing::Pad(15), 0) => to[..3].copy_from_slice(&[0x0E, 0x00, 0x8C]),
            (Mistake::WriteZeros, Thing::Int(0), 0) => {
                let size = lent.first.len();
                let is_zero_first = lent.first.first() == Some(&0);
                if is_zero_first && size < 14 && to.len() > size {
                    to[0] = 0x20 | size as u8;
                    to[1..=size].copy_from_slice(lent.first);
                    put(out, [17, 0, 0, size as u64 + 1, 0, 0, 0, 0, 0]);
                }
            }
            (Mistake::WriteOrdered, Thing::Container(13), 7) if lent.first.len() == 1 => {
                return refuse(out, 8, 0);
            }
            (Mistake::WriteInWritten, Thing::Scalar(_), 3 | 4 | 20) => {
                let position = Record::read(out).0[2] as usize;
                return refuse(out, returned, position + 1);
            }
            (Mistake::WriteRoomFirst, _, 1..=49) if to.is_empty() => {
                return refuse(out, 70, lent.first.len() + 1);
            }
            _ => {}
        }
        returned
    }

    fn cursor(&self, map: &[u8], part: Part, kind: u64, record: Record) -> usize {
        if self.is(Mistake::MoreMoves) && record.kind() == 9 {
            return Pads::of(map, part, kind.min(STRUCT)).place();
        }
        if self.is(Mistake::PadsPassed) && record.kind() == 9 && kind != STRUCT {
            return self.past_pads(map, part);
        }
        Exports.cursor(map, part, kind, record)
    }
}
