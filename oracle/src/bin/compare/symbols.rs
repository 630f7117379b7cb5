//! The texts of symbols, by the change request A.7. The Rust at hand has no such function: beside
//! ours stands a second reading of the request, over the Rust's own steps and annotations.

use crate::expected::may_stand;
use crate::maps::{hex, var_uint, Map, Random, SMALL};
use crate::ours::{Part, Record, ANNOTATIONS, RECORD, WORDS};
use oracle::asking::{Annotation, Annotations, Asked, Item, Limits, Refusal, Rules, Spans};
use oracle::lazy::expanded::EncodingContext;
use oracle::requests::{Request, Steps};
use std::fmt::Write;

mod exported {
    extern "C" {
        pub fn ion_map_text(
            map: *const u8,
            length: usize,
            system: *const u8,
            system_length: usize,
            start: usize,
            end: usize,
            place: usize,
            id: usize,
            annotations: usize,
            out: *mut u8,
            room: usize,
        ) -> u64;
        pub fn ion_map_symbols(
            map: *const u8,
            length: usize,
            system: *const u8,
            system_length: usize,
            start: usize,
            end: usize,
            place: usize,
            annotations: usize,
            out: *mut u8,
            room: usize,
        ) -> u64;
        pub fn ion_map_symbol_text(
            map: *const u8,
            length: usize,
            system: *const u8,
            system_length: usize,
            start: usize,
            end: usize,
            id: usize,
            annotations: usize,
            out: *mut u8,
            room: usize,
        ) -> u64;
    }
}

/// The texts of the IDs from 1 up.
const NINE: [&str; 9] = [
    "$ion",
    "$ion_1_0",
    "$ion_symbol_table",
    "name",
    "version",
    "imports",
    "symbols",
    "max_id",
    "$ion_shared_symbol_table",
];

/// The most room that is lent: a record, and a word behind it that stays.
const ROOM: usize = RECORD + 8;
const FILL: u8 = 0xA5;

// ===== What is asked =====

#[derive(Clone, Copy, Debug, PartialEq)]
enum Ask {
    /// The text of an ID at a place of the stream.
    Text { place: usize, id: usize },
    /// The list of the table that rules at a place.
    Symbols { place: usize },
    /// The text of an ID under the list whose body is the part.
    Listed { id: usize },
}

#[derive(Clone, Copy)]
struct Question<'a> {
    ask: Ask,
    map: &'a [u8],
    system: &'a [u8],
    start: usize,
    end: usize,
    limit: usize,
    room: usize,
}

/// What a call returned and left in the buffer.
#[derive(Clone, Copy, PartialEq)]
struct Given {
    returned: u64,
    buffer: [u8; ROOM],
}

impl Question<'_> {
    // The two slices and the buffer are lent for their own lengths, and nothing is kept.
    fn ours(&self) -> Given {
        let mut buffer = [FILL; ROOM];
        let (map, system) = (self.map, self.system);
        let (out, room) = (buffer.as_mut_ptr(), self.room);
        let returned = unsafe {
            match self.ask {
                Ask::Text { place, id } => exported::ion_map_text(
                    map.as_ptr(),
                    map.len(),
                    system.as_ptr(),
                    system.len(),
                    self.start,
                    self.end,
                    place,
                    id,
                    self.limit,
                    out,
                    room,
                ),
                Ask::Symbols { place } => exported::ion_map_symbols(
                    map.as_ptr(),
                    map.len(),
                    system.as_ptr(),
                    system.len(),
                    self.start,
                    self.end,
                    place,
                    self.limit,
                    out,
                    room,
                ),
                Ask::Listed { id } => exported::ion_map_symbol_text(
                    map.as_ptr(),
                    map.len(),
                    system.as_ptr(),
                    system.len(),
                    self.start,
                    self.end,
                    id,
                    self.limit,
                    out,
                    room,
                ),
            }
        };
        Given { returned, buffer }
    }

    fn written(&self) -> String {
        let Question {
            ask,
            map,
            start,
            end,
            limit,
            room,
            system,
        } = self;
        let lent = if *system == joined().as_slice() {
            "the nine"
        } else {
            "another system text"
        };
        format!(
            "{ask:?} {} {start}..{end}, {lent}, by {limit}, into {room} bytes",
            hex(map)
        )
    }
}

fn joined() -> Vec<u8> {
    NINE.concat().into_bytes()
}

// ===== The second reading =====

/// A wrong reading, which the comparison must notice.
#[derive(Clone, Copy, Debug, PartialEq)]
pub enum Mistake {
    Nothing,
    MarkerKeepsTheTable,
    FirstTableRules,
    NullIsATable,
    AnyAnnotation,
    BadAnnotationPassed,
    TableRulesAtItsStart,
    PlaceInsideTaken,
    PlaceAtAPadTaken,
    ImportsPassed,
    SecondListTaken,
    NullListCounts,
    SexpCounts,
    PadTakesAnId,
    OtherEntryPassed,
    EachTextTested,
    ListSteppedBelowTen,
    FromEleven,
}

pub const MISTAKES: [Mistake; 17] = [
    Mistake::MarkerKeepsTheTable,
    Mistake::FirstTableRules,
    Mistake::NullIsATable,
    Mistake::AnyAnnotation,
    Mistake::BadAnnotationPassed,
    Mistake::TableRulesAtItsStart,
    Mistake::PlaceInsideTaken,
    Mistake::PlaceAtAPadTaken,
    Mistake::ImportsPassed,
    Mistake::SecondListTaken,
    Mistake::NullListCounts,
    Mistake::SexpCounts,
    Mistake::PadTakesAnId,
    Mistake::OtherEntryPassed,
    Mistake::EachTextTested,
    Mistake::ListSteppedBelowTen,
    Mistake::FromEleven,
];

struct Reading<'a> {
    context: &'a EncodingContext,
    map: &'a [u8],
    limit: usize,
    mistake: Mistake,
}

fn is_null(value: &Spans) -> bool {
    value.byte & 15 == 15
}

fn own(number: u32, position: usize) -> Refusal {
    Refusal::own(number, Some(position))
}

impl<'a> Reading<'a> {
    fn is(&self, mistake: Mistake) -> bool {
        self.mistake == mistake
    }

    fn part(&self, start: usize, end: usize) -> Result<Asked<'a>, Refusal> {
        let limits = Limits {
            annotations: self.limit,
            ..Limits::USUAL
        };
        Ok(Asked::new(self.context, self.map, start, end)?.by(limits))
    }

    /// The items of the stream before the place, and whether a step gives it. What is refused on the
    /// way refuses all; a first annotation that can't be read comes before the next step.
    fn table(&self, start: usize, end: usize, place: usize) -> Result<Option<Spans>, Refusal> {
        let stream = self.part(start, end)?;
        let mut steps = Steps::new(&stream, Rules::Stream);
        let mut rules: Vec<Option<Spans>> = vec![None];
        let mut at = start;
        loop {
            let (first, past, table) = match steps.next() {
                Item::End(end) => (end, end, None),
                Item::Marker { start, end, .. } => (start, end, Some(None)),
                Item::Value(value) => (value.start, value.end, Some(Some(value))),
                Item::Field(..) => unreachable!("a stream has no fields"),
                Item::Refused(refusal) => return Err(refusal),
            };
            let is_there = match self.mistake {
                Mistake::PlaceAtAPadTaken => at <= place && place <= first,
                Mistake::PlaceInsideTaken => first <= place && place < past || first == place,
                _ => first == place,
            };
            let own_table = match table {
                Some(Some(value)) if self.is(Mistake::TableRulesAtItsStart) => {
                    self.is_table(&value)?
                }
                _ => false,
            };
            if is_there {
                return Ok(if own_table {
                    table.flatten()
                } else {
                    self.ruling(&rules)
                });
            }
            if place < past || first == past {
                return Err(own(50, 0));
            }
            match table {
                Some(None) if self.is(Mistake::MarkerKeepsTheTable) => {}
                Some(None) => rules.push(None),
                Some(Some(value)) if self.is_table(&value)? => rules.push(Some(value)),
                _ => {}
            }
            at = past;
        }
    }

    fn ruling(&self, rules: &[Option<Spans>]) -> Option<Spans> {
        match self.mistake {
            Mistake::FirstTableRules => {
                let behind = rules.iter().rposition(|rule| rule.is_none()).unwrap_or(0);
                rules.get(behind + 1).copied().flatten()
            }
            _ => rules.last().copied().flatten(),
        }
    }

    fn is_table(&self, value: &Spans) -> Result<bool, Refusal> {
        if value.byte >> 4 != 13 || is_null(value) && !self.is(Mistake::NullIsATable) {
            return Ok(false);
        }
        let bytes = self.part(value.annotations, value.descriptor)?;
        let mut ids = Annotations::new(bytes.part());
        match ids.next() {
            Annotation::Id { id: 3, .. } => Ok(true),
            Annotation::Id { .. } if self.is(Mistake::AnyAnnotation) => {
                Ok(matches!(ids.next(), Annotation::Id { id: 3, .. }))
            }
            Annotation::Id { .. } | Annotation::End => Ok(false),
            Annotation::Refused(_) if self.is(Mistake::BadAnnotationPassed) => Ok(false),
            Annotation::Refused(refusal) => Err(refusal),
        }
    }

    /// The fields of the table, all of them, then its list.
    fn list(&self, table: &Spans) -> Result<Option<(usize, usize)>, Refusal> {
        let body = self.part(table.body, table.end)?;
        let mut steps = Steps::new(&body, Rules::Struct);
        let mut sevens: Vec<Spans> = Vec::new();
        loop {
            match steps.next() {
                Item::End(_) => break,
                Item::Refused(refusal) => return Err(refusal),
                Item::Field(6, value) if !self.is(Mistake::ImportsPassed) => {
                    return Err(own(64, value.start));
                }
                Item::Field(7, value) => {
                    if !sevens.is_empty() && !self.is(Mistake::SecondListTaken) {
                        return Err(own(65, value.start));
                    }
                    sevens.push(value);
                }
                _ => {}
            }
        }
        let code = if self.is(Mistake::SexpCounts) { 12 } else { 11 };
        let is_list = |value: &&Spans| {
            (11..=code).contains(&(value.byte >> 4))
                && (!is_null(value) || self.is(Mistake::NullListCounts))
        };
        let found = sevens.iter().filter(is_list).next_back();
        Ok(found.map(|value| (value.body, value.end)))
    }

    /// Kind 13's words 1, 5 and 6.
    fn text(&self, list: (usize, usize), id: usize) -> Result<[u64; 3], Refusal> {
        let first_own = if self.is(Mistake::FromEleven) { 11 } else { 10 };
        if self.is(Mistake::ListSteppedBelowTen) && id < 10 {
            self.entry(list, usize::MAX)?;
        }
        if let Some(text) = id.checked_sub(1).and_then(|index| NINE.get(index)) {
            let start = NINE[..id - 1].concat().len();
            return Ok([2, start as u64, (start + text.len()) as u64]);
        }
        match id.checked_sub(first_own) {
            None => Ok([0, 0, 0]),
            Some(count) => self.entry(list, count),
        }
    }

    fn entry(&self, (start, end): (usize, usize), count: usize) -> Result<[u64; 3], Refusal> {
        let body = self.part(start, end)?;
        let mut steps = Steps::new(&body, Rules::Sequence);
        let (mut passed, mut at) = (0, start);
        loop {
            let value = match steps.next() {
                Item::Value(value) => value,
                Item::Refused(refusal) => return Err(refusal),
                _ => return Ok([0, 0, 0]),
            };
            let text = &self.map[value.body..value.end];
            let is_text = value.byte >> 4 == 8 && !is_null(&value);
            let is_bad = is_text && std::str::from_utf8(text).is_err();
            let pads = (self.is(Mistake::PadTakesAnId) && value.start > at) as usize;
            if is_bad && (passed + pads == count || self.is(Mistake::EachTextTested)) {
                return Err(own(36, value.descriptor));
            }
            if passed + pads >= count && !(self.is(Mistake::OtherEntryPassed) && !is_text) {
                return Ok(match is_text && passed + pads == count {
                    true => [1, value.body as u64, value.end as u64],
                    false => [0, 0, 0],
                });
            }
            passed += pads + !(self.is(Mistake::OtherEntryPassed) && !is_text) as usize;
            at = value.end;
        }
    }

    fn answer(&self, asked: &Question<'_>) -> Result<[u64; WORDS], Refusal> {
        if asked.system != joined() {
            return Err(own(66, 0));
        }
        if !ANNOTATIONS.contains(&asked.limit) {
            return Err(own(68, 0));
        }
        let is_inside = asked.start <= asked.end && asked.end <= self.map.len();
        let stream = |place: usize| match asked.start <= place && place <= asked.end && is_inside {
            true => self.table(asked.start, asked.end, place),
            false => Err(own(50, 0)),
        };
        let listed = |place: usize| match stream(place)? {
            Some(table) => self.list(&table),
            None => Ok(None),
        };
        let span = |what: u64, a: u64, b: u64, kind: u64, id: usize| {
            [kind, what, 0, 0, 0, a, b, id as u64, b - a]
        };
        match asked.ask {
            Ask::Symbols { place } => {
                let list = listed(place)?;
                let (a, b) = list.unwrap_or((0, 0));
                Ok(span(list.is_some() as u64, a as u64, b as u64, 19, 0))
            }
            Ask::Text { place, id } => {
                let list = listed(place)?.unwrap_or((0, 0));
                let [what, a, b] = self.text(list, id)?;
                Ok(span(what, a, b, 13, id))
            }
            Ask::Listed { .. } if !is_inside => Err(own(50, 0)),
            Ask::Listed { id } => {
                let [what, a, b] = self.text((asked.start, asked.end), id)?;
                Ok(span(what, a, b, 13, id))
            }
        }
    }
}

// ===== Comparing =====

#[derive(Clone)]
pub struct Symbols {
    /// Agreed, of texts, lists and texts under a list.
    pub agreed: [u64; 3],
    pub differ: u64,
    /// Over 255 bytes of annotations by a higher limit, of which the Rust says nothing.
    pub apart: u64,
    /// How often each refusal was expected.
    pub refusals: [u64; 69],
    pub differences: Vec<String>,
}

pub const KINDS: [&str; 3] = [
    "texts of symbols at a place",
    "lists of symbols at a place",
    "texts of symbols under a list",
];

/// The refusals that must be met.
pub const REFUSALS: [usize; 6] = [36, 50, 51, 64, 65, 66];

impl Symbols {
    fn compare(&mut self, context: &EncodingContext, mistake: Mistake, asked: &Question<'_>) {
        let Question { map, limit, .. } = *asked;
        let reading = Reading {
            context,
            map,
            limit,
            mistake,
        };
        let expected = match asked.room < RECORD {
            true => Err(own(51, 0)),
            false => reading.answer(asked),
        };
        let given = asked.ours();
        let is_apart = matches!(
            expected,
            Err(Refusal {
                moved: Some(Request::HigherLimit),
                ..
            })
        );
        if is_apart {
            self.apart += 1;
            return;
        }
        if let Err(refusal) = expected {
            self.refusals[refusal.number as usize] += 1;
        }
        if is_met(asked, expected, &given) {
            self.agreed[match asked.ask {
                Ask::Text { .. } => 0,
                Ask::Symbols { .. } => 1,
                Ask::Listed { .. } => 2,
            }] += 1;
            return;
        }
        self.differ += 1;
        if self.differences.len() < 10 {
            let words = Record::read(&given.buffer[..RECORD]);
            let mut text = asked.written();
            let _ = write!(
                text,
                ": expected {expected:?}, ours {words:?} returned {}",
                given.returned
            );
            self.differences.push(text);
        }
    }
}

/// The words, what is returned, and that nothing else of the buffer is written.
fn is_met(asked: &Question<'_>, expected: Result<[u64; WORDS], Refusal>, given: &Given) -> bool {
    let record = Record::read(&given.buffer[..RECORD]);
    let is_quiet = |from: usize| given.buffer[from..].iter().all(|byte| *byte == FILL);
    match expected {
        Ok(words) => given.returned == 0 && record.0 == words && is_quiet(RECORD),
        Err(refusal) if refusal.number == 51 => given.returned == 51 && is_quiet(0),
        Err(refusal) => {
            let number = refusal.number as u64;
            let [kind, said, position, rest @ ..] = record.0;
            let is_there = match refusal.position {
                Some(wanted) => position == wanted as u64,
                None => may_stand(number, asked.map, Part::whole(asked.map), position as usize),
            };
            given.returned == number
                && (kind, said) == (9, number)
                && is_there
                && rest.iter().all(|word| *word == 0)
                && is_quiet(RECORD)
        }
    }
}

// ===== Maps with tables =====

fn string(random: &mut Random) -> Map {
    let texts: [&[u8]; 8] = [
        b"",
        b"a",
        b"tree",
        b"\xC3\xA9",
        b"\xF0\x9F\x98\x80",
        b"\xFF",
        b"\xC3",
        b"\xED\xA0\x80",
    ];
    let mut body = Map::default();
    body.raw(random.pick(&texts));
    random.framed(8, &body, false)
}

fn entry(random: &mut Random) -> Map {
    match random.below(10) {
        0 => random.pad(),
        1 => random.value(SMALL),
        2 => Map {
            bytes: vec![0x8F],
            ..Map::default()
        },
        3 => {
            let text = string(random);
            random.annotated(&text, &[0x84])
        }
        _ => string(random),
    }
}

fn list(random: &mut Random) -> Map {
    let mut body = Map::default();
    for _ in 0..random.below(6) {
        body.add(&entry(random));
    }
    let code = random.pick(&[11, 11, 11, 11, 11, 12, 8]);
    random.framed(code, &body, false)
}

fn table(random: &mut Random) -> Map {
    let mut body = Map::default();
    for _ in 0..random.below(4) {
        let id = random.pick(&[4, 7, 7, 7, 7, 8, 6, 700]);
        let width = if random.one_in(8) { random.width() } else { 1 };
        body.raw(&var_uint(id, width));
        let field = match random.below(12) {
            0 => random.pad(),
            1 => random.value(SMALL),
            2 => Map {
                bytes: vec![0xBF],
                ..Map::default()
            },
            _ => list(random),
        };
        body.add(&field);
    }
    let inner = match random.below(14) {
        0 => Map {
            bytes: vec![0xDF],
            ..Map::default()
        },
        1 => random.framed(11, &body, false),
        _ => random.framed(13, &body, true),
    };
    let ids: [&[u8]; 9] = [
        &[0x83],
        &[0x83],
        &[0x83],
        &[0x83, 0x84],
        &[0x84, 0x83],
        &[0x00, 0x83],
        &[0x03],
        &[0x03, 0x83],
        &[0, 0, 0, 0, 0, 0, 0, 0, 0, 0x83],
    ];
    match random.below(12) {
        0 => inner,
        _ => {
            let annotations = random.pick(&ids);
            random.annotated(&inner, annotations)
        }
    }
}

/// A stream, and where its items begin.
fn stream(random: &mut Random) -> (Vec<u8>, Vec<usize>) {
    let (mut bytes, mut places) = (Vec::new(), vec![0]);
    for _ in 0..random.below(6) {
        if random.one_in(4) {
            bytes.extend(random.pad().bytes);
        }
        places.push(bytes.len());
        match random.below(6) {
            0 => bytes.extend([0xE0, 1, 0, 0xEA]),
            1 | 2 => bytes.extend(random.value(SMALL).bytes),
            _ => bytes.extend(table(random).bytes),
        }
    }
    if random.one_in(3) {
        random.damage(&mut bytes);
    }
    places.push(bytes.len());
    (bytes, places)
}

fn ask_about(symbols: &mut Symbols, random: &mut Random, mistake: Mistake, nine: &[u8]) {
    let mut context = EncodingContext::empty();
    let (map, mut places) = stream(random);
    places.push(random.below(map.len() + 2));
    let question = |ask: Ask| Question {
        ask,
        map: &map,
        system: nine,
        start: 0,
        end: map.len(),
        limit: 255,
        room: RECORD,
    };
    for &place in &places {
        let asked = question(Ask::Symbols { place });
        symbols.compare(&context, mistake, &asked);
        let found = asked.ours();
        let [_, _, _, _, _, start, end, ..] = Record::read(&found.buffer[..RECORD]).0;
        for id in [random.below(10), 10, 11, 12, random.from_to(10, 16)] {
            symbols.compare(&context, mistake, &question(Ask::Text { place, id }));
            if found.returned == 0 {
                let (start, end) = (start as usize, end as usize);
                let listed = Question {
                    start,
                    end,
                    ..question(Ask::Listed { id })
                };
                symbols.compare(&context, mistake, &listed);
            }
            context.reset();
        }
    }
    // Other arguments, now and then out of order or range.
    let number = |random: &mut Random| match random.below(12) {
        0 => usize::MAX,
        _ => random.below(map.len() + 2),
    };
    let (place, id) = (number(random), random.pick(&[0, 1, 9, 10, 11, usize::MAX]));
    let ask = [
        Ask::Text { place, id },
        Ask::Symbols { place },
        Ask::Listed { id },
    ];
    let other = [
        &nine[..83],
        &nine[1..],
        b"",
        &[&nine[..84], b"x"].concat()[..],
    ]
    .map(<[u8]>::to_vec);
    let lent = &other[random.below(4)];
    let asked = Question {
        ask: random.pick(&ask),
        map: &map,
        system: if random.one_in(6) { lent } else { nine },
        start: number(random),
        end: number(random),
        limit: random.pick(&[255, 255, 256, 65535, 254, 65536, 0]),
        room: random.pick(&[RECORD, RECORD, ROOM, RECORD - 1, 0]),
    };
    symbols.compare(&context, mistake, &asked);
    context.reset();
}

/// Asks about so many maps. The same seed asks the same.
pub fn ask_all(maps: usize, seed: u64, mistake: Mistake) -> Symbols {
    let mut random = Random(seed);
    let nine = joined();
    let mut symbols = Symbols {
        agreed: [0; 3],
        differ: 0,
        apart: 0,
        refusals: [0; 69],
        differences: Vec::new(),
    };
    for _ in 0..maps {
        ask_about(&mut symbols, &mut random, mistake, &nine);
        if mistake != Mistake::Nothing && symbols.differ > 0 {
            break;
        }
    }
    symbols
}
