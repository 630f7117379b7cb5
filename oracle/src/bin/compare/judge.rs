//! Asks both readers a question and compares what they answer.

use crate::expected::{is_over_limit, may_stand, Expected};
use crate::ours::{words_of, Part, Reader, Record, CHECK, CHECK_WORDS, RECORD};
use crate::pads::Pads;
use crate::question::{Ask, Entry, Question, INT, KINDS, STRUCT, VAR_UINT};
use crate::walking::Walk;
use oracle::asking::{self, Annotations, Asked, Item, Line, Refusal, Rules};
use oracle::checks::{self, Stop};
use oracle::lazy::expanded::EncodingContext;
use oracle::requests::{self, Request, Steps, REQUESTS};
use oracle::timestamps::{self, Stamp};
use oracle::IonType;
use std::ops::RangeInclusive;

#[derive(Clone, Copy, Debug, PartialEq)]
pub enum Verdict {
    Agree,
    /// An int, Int or coefficient of more than 15 bytes: as the Ion document has it, the Rust not asked.
    Apart,
    /// As this change request has it, and another answer than the Rust's.
    Moved(Request),
    Differ,
}

/// What was compared.
#[derive(Clone)]
pub struct Tally {
    pub agreed: [u64; KINDS.len()],
    pub apart: u64,
    /// By request.
    pub moved: [u64; REQUESTS.len()],
    pub differ: u64,
    /// How often each refusal was expected.
    pub refusals: Refusals,
}

/// How often something was met, by a refusal's number; the highest is 71.
pub type Counts = [u64; 72];

#[derive(Clone, Copy)]
pub struct Refusals {
    pub all: Counts,
    /// Those of them that are the harness's answers and not the Rust's.
    pub own: Counts,
}

impl Refusals {
    pub fn count(&mut self, number: usize, own: bool) {
        self.all[number] += 1;
        self.own[number] += own as u64;
    }
}

impl Tally {
    pub fn cases(&self) -> u64 {
        self.agreed.iter().sum()
    }
}

pub struct Judge<R> {
    pub reader: R,
    context: EncodingContext,
    desk: Desk,
    pub tally: Tally,
}

impl<R: Reader> Judge<R> {
    pub fn new(reader: R) -> Self {
        Judge {
            reader,
            context: EncodingContext::empty(),
            desk: Desk::new(),
            tally: Tally {
                agreed: [0; KINDS.len()],
                apart: 0,
                moved: [0; REQUESTS.len()],
                differ: 0,
                refusals: Refusals {
                    all: [0; 72],
                    own: [0; 72],
                },
            },
        }
    }

    /// Asks, compares and counts.
    pub fn ask(&mut self, map: &[u8], question: &Question) -> Verdict {
        let verdict = self.verdict(map, question);
        match verdict {
            Verdict::Agree => self.tally.agreed[question.kind(map)] += 1,
            Verdict::Apart => self.tally.apart += 1,
            Verdict::Moved(request) => self.tally.moved[request as usize] += 1,
            Verdict::Differ => self.tally.differ += 1,
        }
        verdict
    }

    /// Asks and compares.
    pub fn verdict(&mut self, map: &[u8], question: &Question) -> Verdict {
        let mut bench = Bench {
            reader: &self.reader,
            context: &self.context,
            desk: &mut self.desk,
            refusals: &mut self.tally.refusals,
            map,
            moved: None,
        };
        let verdict = bench.compare(question);
        // The Rust's values lie in the context's allocator.
        self.context.reset();
        verdict
    }

    /// What was answered, each call with the Rust's answer and ours.
    pub fn explained(&mut self, map: &[u8], question: &Question) -> Vec<String> {
        let refusals = self.tally.refusals;
        self.desk.trace = Some(Vec::new());
        self.verdict(map, question);
        self.tally.refusals = refusals;
        self.desk.trace.take().unwrap_or_default()
    }
}

// ===== The buffer that is lent =====

/// What the buffer holds before a call.
pub const FILL: u8 = 0xA5;

/// What the count of many steps is before a call.
const UNSET: u64 = u64::MAX;

/// Bytes behind the room that is lent, which no call may touch.
pub const GUARD: usize = 16;

/// The most room that is lent.
pub const MOST_ROOM: usize = 24 * RECORD;

pub struct Desk {
    buffer: [u8; MOST_ROOM + GUARD],
    /// What is packed or written into.
    to: Vec<u8>,
    /// Where both answers are written down, if somebody wants them.
    trace: Option<Vec<String>>,
}

impl Desk {
    fn new() -> Self {
        Desk {
            buffer: [FILL; MOST_ROOM + GUARD],
            to: Vec::new(),
            trace: None,
        }
    }

    pub fn lend(&mut self, room: usize) -> &mut [u8] {
        self.buffer[..room + GUARD].fill(FILL);
        &mut self.buffer[..room]
    }

    /// So many bytes to pack or write into, and room for the record.
    pub fn lend_both(&mut self, bytes: usize, room: usize) -> (&mut [u8], &mut [u8]) {
        self.to.clear();
        self.to.resize(bytes + GUARD, FILL);
        self.buffer[..room + GUARD].fill(FILL);
        (&mut self.to[..bytes], &mut self.buffer[..room])
    }

    /// What was packed or written into, and the bytes behind it.
    pub fn to(&self) -> &[u8] {
        &self.to
    }

    /// Exactly these bytes were packed or written.
    pub fn holds(&self, bytes: &[u8]) -> bool {
        let (written, behind) = self.to.split_at(bytes.len().min(self.to.len()));
        written == bytes && behind.iter().all(|byte| *byte == FILL)
    }

    pub fn is_noted(&self) -> bool {
        self.trace.is_some()
    }

    fn slot(&self, index: usize) -> &[u8] {
        &self.buffer[index * RECORD..(index + 1) * RECORD]
    }

    pub fn record(&self) -> Record {
        Record::read(self.slot(0))
    }

    /// Nothing is written from `from` on, behind a room of `room` bytes.
    pub fn is_untouched(&self, from: usize, room: usize) -> bool {
        let behind = &self.buffer[from..room + GUARD];
        behind.iter().fold(0, |bits, byte| bits | (byte ^ FILL)) == 0
    }

    pub fn note(&mut self, fine: bool, rust: impl FnOnce() -> String, ours: impl FnOnce() -> String) {
        if let Some(trace) = &mut self.trace {
            let sign = if fine { "  " } else { "! " };
            trace.push(format!("{sign}the Rust: {}; ours: {}", rust(), ours()));
        }
    }
}

/// A record's buffer is lent with and without bytes to spare.
fn room_for(part: Part) -> usize {
    RECORD + (part.position & 1) * GUARD
}

// ===== Comparing =====

/// What a comparison needs, for one question.
pub struct Bench<'a, R> {
    pub reader: &'a R,
    pub context: &'a EncodingContext,
    pub desk: &'a mut Desk,
    pub refusals: &'a mut Refusals,
    pub map: &'a [u8],
    /// The request that moved an answer. That one is a refusal, with which a question ends.
    pub moved: Option<Request>,
}

const RULES: [Rules; 3] = [Rules::Stream, Rules::Sequence, Rules::Struct];

impl<'a, R: Reader> Bench<'a, R> {
    fn compare(&mut self, question: &Question) -> Verdict {
        let part = question.part;
        let fine = match question.ask {
            Ask::Short(entry, room) => self.short(entry, room, part),
            Ask::Check if part.is_inside(self.map) => return self.whole(part),
            Ask::Pack if part.is_inside(self.map) => return self.pack(part),
            Ask::Write(thing) if part.is_inside(self.map) => return self.write(thing, part),
            Ask::Check | Ask::Pack | Ask::Write(_) => true,
            // The part of a walk is cut out by the harness, so it is inside, and so are the limits.
            Ask::Walk if question.is_out_of_range() => true,
            Ask::Walked(most) if question.is_out_of_range() => self.count_is(part, most, 0..=0),
            Ask::Ids if question.is_out_of_range() || question.is_outside(self.map) => {
                self.ids_are(part, 0)
            }
            _ if question.is_out_of_range() => self.refused(question, 68),
            Ask::Walk | Ask::Walked(_) if question.is_outside(self.map) => true,
            _ if question.is_outside(self.map) => self.refused(question, 50),
            Ask::Run(rules) => self.run(part, rules),
            Ask::Batch(rules, room) => self.batch(part, rules, room),
            Ask::Annotations => self.annotations(part),
            Ask::StepIn => self.step_in(part),
            Ask::Scalar => return self.scalar(part),
            Ask::Timestamp => return self.timestamp(part),
            Ask::Number(INT, size) => return self.int(part, size),
            Ask::Number(form, _) => self.var_number(part, form),
            Ask::Decimal => return self.decimal(part),
            Ask::Walk => self.walk(part),
            Ask::Walked(most) => self.walked(part, most),
            Ask::Ids => self.ids(part),
            Ask::Bounded(_, 0) => self.refused(question, 67),
            Ask::Bounded(rules, most) => self.bounded(part, rules, most),
        };
        self.verdict_of(fine)
    }

    pub fn verdict_of(&self, fine: bool) -> Verdict {
        match (fine, self.moved) {
            (false, _) => Verdict::Differ,
            (true, Some(request)) => Verdict::Moved(request),
            (true, None) => Verdict::Agree,
        }
    }

    fn asked(&self, part: Part) -> Asked<'a> {
        let asked = Asked::new(self.context, self.map, part.position, part.end);
        asked.expect("the part is inside").by(part.limits)
    }

    fn count(&mut self, expected: &Expected) {
        if expected.is_refusal() {
            self.refusals.count(expected.number(), expected.is_own());
        }
        self.moved = self.moved.or(expected.moved());
    }

    /// Compares the record that a call filled, and what it returned.
    fn check(&mut self, part: Part, room: usize, returned: u64, expected: &Expected) -> bool {
        self.count(expected);
        let record = self.desk.record();
        let fine = returned == expected.returned(record)
            && expected.is_met_by(self.map, part, record)
            && self.desk.is_untouched(RECORD, room);
        self.desk.note(
            fine,
            || expected.written(),
            || format!("{} returned {returned}", written(record)),
        );
        fine
    }

    fn run(&mut self, part: Part, rules: u64) -> bool {
        let asked = self.asked(part);
        let mut steps = Steps::new(&asked, RULES[rules as usize]);
        let mut part = part;
        // The end and a refusal repeat: each is asked for twice.
        let mut ends = 0;
        while ends < 2 {
            let expected = Expected::item(steps.next());
            let room = room_for(part);
            let returned = self
                .reader
                .step(self.map, part, rules, self.desk.lend(room));
            if !self.check(part, room, returned, &expected) {
                return false;
            }
            if expected.is_by_higher_limit() {
                return true;
            }
            let next = self
                .reader
                .cursor(self.map, part, rules, self.desk.record());
            if !self.check_cursor(expected.cursor(part.position), next) {
                return false;
            }
            part.position = next;
            ends += (expected.is_end() || expected.is_refusal()) as usize;
        }
        true
    }

    /// Bounded steps until the answer is the step's, which is the Rust's, for each item of the part.
    fn bounded(&mut self, part: Part, rules: u64, most: usize) -> bool {
        let asked = self.asked(part);
        let mut steps = Steps::new(&asked, RULES[rules as usize]);
        let mut part = part;
        let mut ends = 0;
        while ends < 2 {
            for position in Pads::of(self.map, part, rules).bounds(most) {
                let more = Expected::more(most, position);
                if !self.bounded_step(&mut part, rules, most, &more) {
                    return false;
                }
            }
            let expected = Expected::item(steps.next());
            if !self.bounded_step(&mut part, rules, most, &expected) {
                return false;
            }
            if expected.is_by_higher_limit() {
                return true;
            }
            ends += (expected.is_end() || expected.is_refusal()) as usize;
        }
        true
    }

    /// One bounded step, after which the part is at the cursor that it left.
    fn bounded_step(&mut self, part: &mut Part, rules: u64, most: usize, expected: &Expected) -> bool {
        let room = room_for(*part);
        let lent = self.desk.lend(room);
        let returned = self.reader.step_bounded(self.map, *part, rules, most, lent);
        if !self.check(*part, room, returned, expected) {
            return false;
        }
        let record = self.desk.record();
        let next = self.reader.cursor(self.map, *part, rules, record);
        let wanted = match expected.is_by_higher_limit() {
            true => next,
            false => expected.cursor(part.position),
        };
        part.position = next;
        self.check_cursor(wanted, next)
    }

    fn check_cursor(&mut self, wanted: usize, next: usize) -> bool {
        if next == wanted {
            return true;
        }
        let (rust, ours) = (format!("cursor {wanted}"), format!("cursor {next}"));
        self.desk.note(false, || rust, || ours);
        false
    }

    /// Many steps in a call, beside the Rust's and beside single ones.
    fn batch(&mut self, part: Part, rules: u64, room: usize) -> bool {
        let mut count = UNSET;
        let lent = self.desk.lend(room);
        let returned = self.reader.steps(self.map, part, rules, lent, &mut count);
        let asked = self.asked(part);
        let mut steps = Steps::new(&asked, RULES[rules as usize]);
        let mut part = part;
        let mut wanted = (0, 0);
        while (wanted.0 as usize) < room / RECORD {
            let expected = Expected::item(steps.next());
            let index = wanted.0 as usize;
            if !self.check_slot(index, part, rules, &expected) {
                return false;
            }
            if expected.is_by_higher_limit() {
                return true;
            }
            let record = Record::read(self.desk.slot(index));
            wanted = (wanted.0 + 1, expected.returned(record));
            if expected.is_end() || expected.is_refusal() {
                break;
            }
            part.position = expected.cursor(part.position);
        }
        let written = wanted.0 as usize * RECORD;
        let fine = (count, returned) == wanted && self.desk.is_untouched(written, room);
        self.desk.note(
            fine,
            || format!("{} records, returned {}", wanted.0, wanted.1),
            || format!("{count} records, returned {returned}"),
        );
        fine
    }

    /// One of many records, beside the Rust's answer and a single step's record.
    fn check_slot(&mut self, index: usize, part: Part, rules: u64, expected: &Expected) -> bool {
        self.count(expected);
        let mut single = [0; RECORD];
        let returned = self.reader.step(self.map, part, rules, &mut single);
        let record = Record::read(self.desk.slot(index));
        let fine = record == Record::read(&single)
            && returned == expected.returned(record)
            && expected.is_met_by(self.map, part, record);
        self.desk
            .note(fine, || expected.written(), || written(record));
        fine
    }

    fn annotations(&mut self, part: Part) -> bool {
        let mut ids = Annotations::new(self.asked(part).part());
        let mut part = part;
        let mut ends = 0;
        while ends < 2 {
            let expected = Expected::annotation(part, ids.next());
            let room = room_for(part);
            let returned = self.reader.annotation(self.map, part, self.desk.lend(room));
            if !self.check(part, room, returned, &expected) {
                return false;
            }
            part.position = expected.cursor(part.position);
            ends += (expected.is_end() || expected.is_refusal()) as usize;
        }
        true
    }

    fn step_in(&mut self, part: Part) -> bool {
        let asked = self.asked(part);
        let expected = match asking::step_in(&asked, part.position) {
            Ok(opened) => Expected::opened(opened),
            Err(refusal) => Expected::refused(requests::refusal(&asked, refusal)),
        };
        let room = room_for(part);
        let returned = self.reader.step_in(self.map, part, self.desk.lend(room));
        self.check(part, room, returned, &expected)
    }

    fn scalar(&mut self, part: Part) -> Verdict {
        let asked = self.asked(part);
        let (expected, is_long) = match asking::scalar(&asked, part.position) {
            Ok(reading) => (
                Expected::scalar(self.map, reading),
                reading.scalar == asking::Scalar::LongInt,
            ),
            Err(refusal) => {
                let refusal = requests::refusal(&asked, refusal);
                (Expected::refused(refusal), false)
            }
        };
        let room = room_for(part);
        let returned = self.reader.scalar(self.map, part, self.desk.lend(room));
        match self.check(part, room, returned, &expected) {
            true if is_long => Verdict::Apart,
            fine => self.verdict_of(fine),
        }
    }

    fn timestamp(&mut self, part: Part) -> Verdict {
        let asked = self.asked(part);
        let (expected, is_long) = match asking::scalar(&asked, part.position) {
            Ok(reading) => match reading.scalar {
                asking::Scalar::Part(IonType::Timestamp, body, end) => {
                    return self.stamp(part, reading.spans.descriptor, body, end)
                }
                scalar => (
                    Expected::scalar(self.map, reading),
                    scalar == asking::Scalar::LongInt,
                ),
            },
            Err(refusal) => {
                let refusal = requests::refusal(&asked, refusal);
                (Expected::refused(refusal), false)
            }
        };
        let room = room_for(part);
        let returned = self
            .reader
            .timestamp(self.map, part, self.desk.lend(room));
        match self.check(part, room, returned, &expected) {
            true if is_long => Verdict::Apart,
            fine => self.verdict_of(fine),
        }
    }

    /// A timestamp that isn't null, by its body.
    fn stamp(&mut self, part: Part, descriptor: usize, body: usize, end: usize) -> Verdict {
        let room = room_for(part);
        let returned = self
            .reader
            .timestamp(self.map, part, self.desk.lend(room));
        let record = self.desk.record();
        let asked = Asked::new(self.context, self.map, body, end).expect("the body is inside");
        let is_taken = record.kind() == 11 && returned == 0;
        let is_refused = matches!(returned, 62 | 63)
            && record.0 == [9, returned, descriptor as u64, 0, 0, 0, 0, 0, 0];
        let stamp = match timestamps::timestamp(&asked) {
            Ok(stamp) => stamp,
            Err(refusal) => {
                let part = Part {
                    position: if refusal.number == 61 { descriptor } else { body },
                    end,
                    ..part
                };
                let fine = self.check(part, room, returned, &Expected::refused(refusal));
                return self.verdict_of(fine);
            }
        };
        let verdict = match stamp {
            Stamp::Accepted(instant) if is_taken => {
                let expected = Expected::instant(descriptor, instant);
                let fine = self.check(part, room, returned, &expected);
                return self.verdict_of(fine);
            }
            Stamp::Accepted(_) if is_refused && timestamps::only_there(&asked) => {
                Verdict::Moved(Request::Ranges)
            }
            Stamp::Rejected if is_refused => Verdict::Agree,
            Stamp::Rejected if is_taken && timestamps::only_here(&asked) => {
                Verdict::Moved(Request::Ranges)
            }
            Stamp::Unasked if is_taken || is_refused => Verdict::Apart,
            _ => Verdict::Differ,
        };
        if is_refused {
            self.refusals.count(returned as usize, stamp != Stamp::Rejected);
        }
        let fine = verdict != Verdict::Differ && self.desk.is_untouched(RECORD, room);
        self.desk.note(
            fine,
            || format!("{stamp:?}"),
            || format!("{} returned {returned}", written(record)),
        );
        if fine {
            verdict
        } else {
            Verdict::Differ
        }
    }

    fn var_number(&mut self, part: Part, form: u64) -> bool {
        let asked = self.asked(part).part();
        let number = if form == VAR_UINT {
            asking::var_uint(asked)
        } else {
            asking::var_int(asked)
        };
        let expected = match number {
            Ok(number) => Expected::var_uint_or_var_int(part, number),
            Err(refusal) => Expected::refused(refusal),
        };
        self.check_number(part, form, 0, &expected)
    }

    fn int(&mut self, part: Part, size: usize) -> Verdict {
        let (expected, is_long) = match asking::int(self.asked(part).part(), size) {
            Ok(Some(number)) => (Expected::int(part, size, number), false),
            Ok(None) => (Expected::wide_int(self.map, part, size), true),
            Err(refusal) => (Expected::refused(refusal), false),
        };
        match self.check_number(part, INT, size, &expected) {
            true if is_long => Verdict::Apart,
            fine => self.verdict_of(fine),
        }
    }

    fn check_number(&mut self, part: Part, form: u64, size: usize, expected: &Expected) -> bool {
        let room = room_for(part);
        let lent = self.desk.lend(room);
        let returned = self.reader.number(self.map, part, form, size, lent);
        self.check(part, room, returned, expected)
    }

    fn decimal(&mut self, part: Part) -> Verdict {
        let (expected, is_long) = match asking::decimal(&self.asked(part)) {
            Ok(decimal) => (
                Expected::decimal(self.map, part, decimal),
                decimal.magnitude.is_none(),
            ),
            Err(refusal) => (Expected::refused(refusal), false),
        };
        let room = room_for(part);
        let returned = self.reader.decimal(self.map, part, self.desk.lend(room));
        match self.check(part, room, returned, &expected) {
            true if is_long => Verdict::Apart,
            fine => self.verdict_of(fine),
        }
    }

    fn walk(&mut self, part: Part) -> bool {
        let mut ours = Walk::new(part);
        let mut fine = true;
        let asked = self.asked(part);
        requests::walk(&asked, &mut |line| {
            if fine {
                fine = self.check_line(part, line, ours.next(self.reader, self.map));
            }
        });
        fine
    }

    fn check_line(&mut self, part: Part, rust: Line, ours: Line) -> bool {
        let fine = match (rust, ours) {
            (Line::Refused(rust), ours) if rust.moved == Some(Request::HigherLimit) => {
                self.moved = rust.moved;
                self.is_line_by_limit(part, ours)
            }
            (Line::Refused(rust), Line::Refused(ours)) => {
                self.refusals.count(rust.number as usize, rust.own);
                self.moved = self.moved.or(rust.moved);
                rust.number == ours.number && self.is_position(part, rust, ours)
            }
            _ => rust == ours,
        };
        self.desk
            .note(fine, || format!("{rust:?}"), || format!("{ours:?}"));
        fine
    }

    /// The walk says 26 only where annotations are over the limit.
    fn is_line_by_limit(&self, part: Part, ours: Line) -> bool {
        match ours {
            Line::Refused(ours) if ours.number == 26 => {
                let position = ours.position.expect("ours has one");
                is_over_limit(self.map, part, position)
            }
            Line::End(_) => false,
            _ => true,
        }
    }

    fn is_position(&self, part: Part, rust: Refusal, ours: Refusal) -> bool {
        let Some(position) = ours.position else {
            return false;
        };
        if rust.position.is_some() {
            return rust.position == ours.position;
        }
        may_stand(rust.number as u64, self.map, part, position)
    }

    /// The count is of a whole map, so the part is one.
    fn walked(&mut self, part: Part, most: u64) -> bool {
        let mut wanted = 0;
        requests::walk(&self.asked(part), &mut |line| match line {
            Line::Marker { .. } | Line::Value { .. } => wanted += 1,
            // Of the requests these change the count: the Rust goes on, or stops where the limit is higher.
            Line::Refused(Refusal {
                moved: moved @ Some(Request::OneVersion | Request::HigherLimit),
                ..
            }) => self.moved = moved.filter(|_| wanted < most),
            _ => {}
        });
        let most_wanted = match self.moved {
            Some(Request::HigherLimit) => most,
            _ => wanted.min(most),
        };
        self.count_is(part, most, wanted.min(most)..=most_wanted)
    }

    fn count_is(&mut self, part: Part, most: u64, wanted: RangeInclusive<u64>) -> bool {
        let cut = &self.map[part.position..part.end];
        let ours = self.reader.walked(cut, most, part.limits);
        let fine = wanted.contains(&ours);
        self.desk
            .note(fine, || format!("{wanted:?}"), || ours.to_string());
        fine
    }

    // ===== Whole maps =====

    /// The part, cut out, as a map: accepted with the Rust's counts and the pads of each of its steps, or its first refusal.
    fn whole(&mut self, part: Part) -> Verdict {
        let map = &self.map[part.position..part.end];
        let (fine, is_open, _) = self.checks(map, part);
        match self.verdict_of(fine) {
            Verdict::Agree if is_open => Verdict::Apart,
            verdict => verdict,
        }
    }

    /// Whether our check of a map is the Rust's; whether the Rust's decides nothing further; and our record.
    pub fn checks(&mut self, map: &[u8], part: Part) -> (bool, bool, [u64; CHECK_WORDS]) {
        let room = CHECK + (part.position & 1) * GUARD;
        let returned = self.reader.check(map, part.limits, self.desk.lend(room));
        let ours = words_of(&self.desk.buffer[..CHECK]);
        let (wanted, is_open) = self.checked(map, part);
        let is_fine = match wanted {
            _ if self.moved == Some(Request::HigherLimit) => true,
            Ok(words) => ours == words,
            Err(stop) => self.is_stopped(map, part, stop, ours),
        };
        let is_told = returned == if ours[0] == 9 { ours[1] } else { 0 };
        let fine = is_fine && is_told && self.desk.is_untouched(CHECK, room);
        self.desk.note(
            fine,
            || format!("{wanted:?}"),
            || format!("{ours:?} returned {returned}"),
        );
        (fine, is_open, ours)
    }

    /// The record wanted, or where the Rust stops; and whether that decides nothing further.
    pub fn checked(&mut self, map: &[u8], part: Part) -> (Result<[u64; CHECK_WORDS], Stop>, bool) {
        let limits = Question::new(Ask::Check, part);
        if limits.is_out_of_range() {
            let refusal = Refusal::own(68, Some(0));
            return (Err(Stop::Refused(refusal)), false);
        }
        let asked = Asked::new(self.context, map, 0, map.len());
        let asked = asked.expect("the whole map").by(part.limits);
        let mut pads = 0;
        let found = checks::check(&asked, |step| {
            let from = Part::new(step.at, step.end, step.at);
            pads += Pads::of(map, from, step.rules as u64).ends.len() as u64;
        });
        match found {
            Ok(counts) => {
                let mut words = [12; CHECK_WORDS];
                words[1] = counts.markers;
                words[2] = pads;
                words[3..].copy_from_slice(&counts.types);
                (Ok(words), false)
            }
            Err(stop) => {
                if let Stop::Refused(refusal) = stop {
                    self.moved = self.moved.or(refusal.moved);
                }
                (Err(stop), matches!(stop, Stop::Open(_)))
            }
        }
    }

    /// Whether our record is the refusal where the Rust stops. Where its answer is open, ours may go on.
    pub fn is_stopped(&mut self, map: &[u8], part: Part, stop: Stop, ours: [u64; CHECK_WORDS]) -> bool {
        let [kind, number, position, zeros @ ..] = ours;
        let is_refusal = kind == 9 && zeros == [0; CHECK_WORDS - 3];
        let at = position as usize;
        match stop {
            Stop::Refused(refusal) => {
                self.refusals.count(refusal.number as usize, refusal.own);
                let whole = Part {
                    limits: part.limits,
                    ..Part::whole(map)
                };
                let is_there = match refusal.position {
                    Some(position) => position == at,
                    None => may_stand(number, map, whole, at),
                };
                is_refusal && number == refusal.number as u64 && is_there
            }
            Stop::OutOfRange(descriptor) => {
                is_refusal && matches!(number, 62 | 63) && at == descriptor
            }
            Stop::Open(descriptor) => kind == 12 || is_refusal && at >= descriptor,
        }
    }

    /// The pads before what the Rust hands out or refuses, and one more unless it says end.
    fn ids(&mut self, part: Part) -> bool {
        let pads = Pads::of(self.map, part, STRUCT);
        let passed = pads.ends.len() as u64;
        let item = asking::Steps::new(&self.asked(part), Rules::Struct).next();
        let (is_there, wanted) = match item {
            Item::End(position) => (pads.place() == position, passed),
            Item::Field(_, spans) => (pads.place() == spans.start, passed + 1),
            _ => (pads.place() < part.end, passed + 1),
        };
        self.ids_are(part, wanted) && is_there
    }

    fn ids_are(&mut self, part: Part, wanted: u64) -> bool {
        let ours = self.reader.ids(self.map, part);
        let fine = ours == wanted;
        self.desk
            .note(fine, || wanted.to_string(), || ours.to_string());
        fine
    }

    // ===== What the caller does wrong: the harness knows the answer =====

    fn refused(&mut self, question: &Question, number: u32) -> bool {
        let expected = Expected::refused(Refusal::own(number, Some(0)));
        let part = question.part;
        let mut count = UNSET;
        let (entry, kind, size) = match question.ask {
            Ask::Run(rules) => (Entry::Step, rules, 0),
            Ask::Batch(rules, _) => (Entry::Steps, rules, 0),
            Ask::Annotations => (Entry::Annotation, 0, 0),
            Ask::StepIn => (Entry::StepIn, 0, 0),
            Ask::Scalar => (Entry::Scalar, 0, 0),
            Ask::Timestamp => (Entry::Timestamp, 0, 0),
            Ask::Number(form, size) => (Entry::Number, form, size),
            Ask::Decimal => (Entry::Decimal, 0, 0),
            Ask::Bounded(rules, most) => (Entry::Bounded, rules, most),
            Ask::Walk | Ask::Walked(_) | Ask::Ids | Ask::Short(..) => {
                unreachable!("asked elsewhere")
            }
            Ask::Check | Ask::Pack | Ask::Write(_) => unreachable!("asked elsewhere"),
        };
        let room = room_for(part);
        let returned = self.call(entry, part, kind, size, room, &mut count);
        let is_counted = entry != Entry::Steps || count == 1;
        self.check(part, room, returned, &expected) && is_counted
    }

    fn short(&mut self, entry: Entry, room: usize, part: Part) -> bool {
        let mut count = UNSET;
        let returned = self.call(entry, part, 0, 0, room, &mut count);
        let is_counted = entry != Entry::Steps || count == 0;
        self.refusals.count(51, true);
        let fine = returned == 51 && is_counted && self.desk.is_untouched(0, room);
        self.desk.note(
            fine,
            || "returned 51".to_string(),
            || format!("returned {returned}"),
        );
        fine
    }

    fn call(
        &mut self,
        entry: Entry,
        part: Part,
        kind: u64,
        size: usize,
        room: usize,
        count: &mut u64,
    ) -> u64 {
        let (reader, map, out) = (self.reader, self.map, self.desk.lend(room));
        match entry {
            Entry::Step => reader.step(map, part, kind, out),
            Entry::Steps => reader.steps(map, part, kind, out, count),
            Entry::Annotation => reader.annotation(map, part, out),
            Entry::StepIn => reader.step_in(map, part, out),
            Entry::Scalar => reader.scalar(map, part, out),
            Entry::Timestamp => reader.timestamp(map, part, out),
            Entry::Number => reader.number(map, part, kind, size, out),
            Entry::Decimal => reader.decimal(map, part, out),
            Entry::Bounded => reader.step_bounded(map, part, kind, size, out),
            Entry::Check => reader.check(map, part.limits, out),
            Entry::PackedSize => reader.packed_size(map, part.limits, out),
            Entry::Pack => {
                let mut to = [FILL; GUARD];
                let returned = reader.pack(map, part.limits, &mut to, out);
                if to == [FILL; GUARD] {
                    returned
                } else {
                    UNSET
                }
            }
        }
    }
}

pub fn written(record: Record) -> String {
    let words: Vec<String> = record.0.iter().map(|word| word.to_string()).collect();
    words.join(" ")
}
