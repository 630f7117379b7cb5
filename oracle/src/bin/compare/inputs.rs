//! The maps that are asked about, and what is asked about each.

use crate::judge::MOST_ROOM;
use crate::maps::{joined, run, var_uint, Map, Random};
use crate::maps::{BAD_TEXTS, DOUBLES, GOOD_TEXTS, INTERESTING, LARGE, SINGLES, SMALL};
use crate::ours::{Part, Reader, RECORD, WORD};
use crate::question::{Ask, Thing, ENTRIES, INT, SEQUENCE, STREAM, STRUCT, VAR_INT, VAR_UINT};
use crate::session::Session;
use oracle::asking::Limits;

/// How much is asked.
#[derive(Clone, Copy)]
pub struct Plan {
    /// Of the strings of three bytes, each so many-th.
    pub stride: usize,
    /// The length to which strings of the alphabet go.
    pub letters: usize,
    pub maps: usize,
    pub boundaries: usize,
    pub parts: usize,
    pub limits: usize,
    /// Maps with symbol tables.
    pub symbols: usize,
    pub pads: usize,
    /// Things that are written.
    pub writes: usize,
}

pub const FULL: Plan = Plan {
    stride: 1,
    letters: 5,
    maps: 60_000,
    boundaries: 2_000_000,
    parts: 10_000_000,
    limits: 400_000,
    symbols: 1_000_000,
    pads: 400_000,
    writes: 4_000_000,
};

pub const SHORT: Plan = Plan {
    stride: 7,
    letters: 4,
    maps: 6_000,
    boundaries: 200_000,
    parts: 1_000_000,
    limits: 40_000,
    symbols: 100_000,
    pads: 40_000,
    writes: 400_000,
};

/// For the wrong readers.
pub const SMALLEST: Plan = Plan {
    stride: 4001,
    letters: 3,
    maps: 100,
    boundaries: 20_000,
    parts: 20_000,
    limits: 8_000,
    symbols: 20_000,
    pads: 4_000,
    writes: 8_000,
};

/// Bytes that, of all, change the most where they stand.
const ALPHABET: &[u8] = &[
    0x00, 0x01, 0x0E, 0x0F, 0x12, 0x20, 0x21, 0x2E, 0x31, 0x40, 0x4E, 0x61, 0x71, 0x80, 0x81, 0x82,
    0x84, 0xB2, 0xD1, 0xD2, 0xE0, 0xE3, 0xEA, 0xEE, 0xEF, 0xF0,
];

/// Asks everything that the plan says. The same seed asks the same.
pub fn ask_all<R: Reader>(session: &mut Session<R>, plan: Plan, seed: u64) {
    let mut random = Random(seed);
    session.stage("strings of up to 2 bytes");
    short_strings(session);
    session.stage("strings of 3 bytes");
    strings_of_three(session, plan.stride, seed as usize);
    session.stage("strings of the alphabet");
    for length in 3..=plan.letters {
        letters(session, length);
    }
    session.stage("boundaries");
    for number in 0..plan.boundaries {
        boundary(session, &mut random, number);
    }
    session.stage("maps");
    for number in 0..plan.maps {
        map(session, &mut random, number);
    }
    session.stage("parts");
    parts(session, &mut random, plan.parts);
    session.stage("limits");
    for number in 0..plan.limits {
        by_limits(session, &mut random, number);
    }
    session.stage("pads");
    for _ in 0..plan.pads {
        pads(session, &mut random);
    }
    session.stage("things to be written");
    for number in 0..plan.writes {
        writes(session, &mut random, number);
    }
    session.stage("end");
}

/// Maps for the fuzzer to begin with.
pub fn seeds(random: &mut Random, count: usize) -> Vec<Vec<u8>> {
    let seed = |number| match number % 3 {
        0 => random.any(SMALL).bytes,
        1 => random.any(LARGE).bytes,
        _ => at_boundary(random, number / 3),
    };
    (0..count).map(seed).collect()
}

// ===== What is asked about a map =====

/// The part up to an end.
pub fn cut(end: usize) -> Part {
    Part::new(0, end, 0)
}

/// Every question at a position.
pub fn ask_at<R: Reader>(session: &mut Session<R>, map: &[u8], part: Part) {
    for (rules, most) in [STREAM, SEQUENCE, STRUCT].into_iter().zip([1, 2, 1]) {
        session.ask(map, Ask::Run(rules), part);
        session.ask(map, Ask::Bounded(rules, most), part);
    }
    session.ask(map, Ask::Ids, part);
    session.ask(map, Ask::Scalar, part);
    session.ask(map, Ask::Timestamp, part);
    session.ask(map, Ask::StepIn, part);
    session.ask(map, Ask::Annotations, part);
    session.ask(map, Ask::Number(VAR_UINT, 0), part);
    session.ask(map, Ask::Number(VAR_INT, 0), part);
    let size = (part.end - part.position).min(15);
    session.ask(map, Ask::Number(INT, size), part);
    session.ask(map, Ask::Decimal, part);
}

/// Every question about a part from its start.
pub fn ask_whole<R: Reader>(session: &mut Session<R>, map: &[u8], part: Part) {
    ask_at(session, map, part);
    ask_batches(session, map, part);
    ask_walk(session, map, part);
}

fn ask_batches<R: Reader>(session: &mut Session<R>, map: &[u8], part: Part) {
    // One record, some, and more than are needed; the rooms aren't all multiples of a record.
    let rooms = [RECORD, 3 * RECORD + WORD, 5 * RECORD + 10];
    for (rules, room) in [STREAM, SEQUENCE, STRUCT].into_iter().zip(rooms) {
        session.ask(map, Ask::Batch(rules, room), part);
    }
    session.ask(map, Ask::Batch(STREAM, MOST_ROOM), part);
}

fn ask_walk<R: Reader>(session: &mut Session<R>, map: &[u8], part: Part) {
    session.ask(map, Ask::Walk, part);
    session.ask(map, Ask::Walked(u64::MAX), part);
    session.ask(map, Ask::Check, part);
    session.ask(map, Ask::Pack, part);
}

/// Every question at every place, up to every end, and with some damage.
fn ask_everywhere<R: Reader>(session: &mut Session<R>, map: &Map, random: &mut Random) {
    let bytes = &map.bytes;
    let whole = Part::whole(bytes);
    ask_whole(session, bytes, whole);
    for position in places(bytes.len(), random) {
        ask_at(session, bytes, whole.at(position));
    }
    for end in places(bytes.len(), random) {
        ask_whole(session, bytes, cut(end));
    }
    for most in 0..6 {
        session.ask(bytes, Ask::Walked(most), whole);
    }
    ask_inside(session, map);
    for _ in 0..bytes.len().min(40) {
        let mut damaged = bytes.clone();
        random.damage(&mut damaged);
        ask_whole(session, &damaged, Part::whole(&damaged));
    }
}

/// Every place of a map, or some of a long one.
fn places(length: usize, random: &mut Random) -> Vec<usize> {
    if length <= 64 {
        return (0..=length).collect();
    }
    let mut places: Vec<usize> = (0..24).map(|_| random.below(length + 1)).collect();
    places.extend([0, 1, 2, 3, length - 3, length - 2, length - 1, length]);
    places
}

/// The bodies and the annotations that the map is known to have.
fn ask_inside<R: Reader>(session: &mut Session<R>, map: &Map) {
    let bytes = &map.bytes;
    let inside = |start, end| Part::new(start, end, start);
    for (start, end, is_struct) in &map.bodies {
        let rules = if *is_struct { STRUCT } else { SEQUENCE };
        session.ask(bytes, Ask::Run(rules), inside(*start, *end));
        session.ask(bytes, Ask::Batch(rules, MOST_ROOM), inside(*start, *end));
    }
    for (start, end) in &map.sequences {
        session.ask(bytes, Ask::Annotations, inside(*start, *end));
    }
}

// ===== Short strings =====

fn short_strings<R: Reader>(session: &mut Session<R>) {
    ask_whole(session, &[], cut(0));
    for first in 0..=255 {
        ask_whole(session, &[first], cut(1));
    }
    for pair in 0..=0xFFFFu16 {
        if session.is_done() {
            return;
        }
        ask_whole(session, &pair.to_be_bytes(), cut(2));
    }
}

fn strings_of_three<R: Reader>(session: &mut Session<R>, stride: usize, seed: usize) {
    for number in (seed % stride..1 << 24).step_by(stride) {
        if session.is_done() {
            return;
        }
        let map = [(number >> 16) as u8, (number >> 8) as u8, number as u8];
        ask_at(session, &map, cut(3));
        ask_walk(session, &map, cut(3));
    }
}

fn letters<R: Reader>(session: &mut Session<R>, length: usize) {
    let count = ALPHABET.len();
    let mut map = vec![0; length];
    for number in 0..count.pow(length as u32) {
        if session.is_done() {
            return;
        }
        let mut rest = number;
        for byte in map.iter_mut().rev() {
            *byte = ALPHABET[rest % count];
            rest /= count;
        }
        ask_at(session, &map, cut(length));
        ask_walk(session, &map, cut(length));
    }
}

// ===== Maps =====

fn map<R: Reader>(session: &mut Session<R>, random: &mut Random, number: usize) {
    if session.is_done() {
        return;
    }
    let limits = if random.one_in(3) { LARGE } else { SMALL };
    let map = if number % 40 == 0 {
        random.rare()
    } else {
        random.any(limits)
    };
    // Damage may have moved or cut off what the map is known to have.
    let is_inside = |end: &usize| *end <= map.bytes.len();
    let map = Map {
        bodies: map
            .bodies
            .iter()
            .copied()
            .filter(|b| is_inside(&b.1))
            .collect(),
        sequences: map
            .sequences
            .iter()
            .copied()
            .filter(|s| is_inside(&s.1))
            .collect(),
        ..map.clone()
    };
    ask_everywhere(session, &map, random);
}

// ===== Boundaries =====

fn plain(bytes: Vec<u8>) -> Map {
    Map {
        bytes,
        ..Map::default()
    }
}

/// A string at one of the boundaries, asked about by itself and after or inside something else.
fn boundary<R: Reader>(session: &mut Session<R>, random: &mut Random, number: usize) {
    if session.is_done() {
        return;
    }
    let bytes = at_boundary(random, number);
    let whole = Part::whole(&bytes);
    ask_whole(session, &bytes, whole);
    let end = random.below(bytes.len() + 1);
    ask_whole(session, &bytes, cut(end));
    let position = random.below(bytes.len() + 1);
    ask_at(session, &bytes, whole.at(position));
    let size = random.from_to(13, 17);
    session.ask(&bytes, Ask::Number(INT, size), whole.at(position));
    session.ask(&bytes, Ask::Walked(number as u64 % 40), whole);
}

fn at_boundary(random: &mut Random, number: usize) -> Vec<u8> {
    let bytes = match number % 13 {
        0 | 1 => wide_var_uint(random),
        2 => long_annotations(random, number),
        3 => middle_length(random),
        4 => wide_int(random),
        5 => wide_symbol(random),
        6 => deep(random, number),
        7 => float(random),
        8 => text(random),
        9 => wrapper(random),
        10 if random.one_in(2) => decimal(random),
        10 => numbers_only(random),
        11 if random.one_in(2) => marker(random),
        11 => timestamp(random),
        _ => field(random),
    };
    placed(random, bytes)
}

/// Puts a string after pads, before a value, into a list or into a struct, now and then.
fn placed(random: &mut Random, bytes: Vec<u8>) -> Vec<u8> {
    match random.below(8) {
        0 => joined(&[&random.word("00 01AA 0000 0E80 0E81AA 02FFFF"), &bytes]),
        1 => joined(&[&bytes, &random.word("20 00 2105 E0 F0 E00100EA")]),
        2 => random.framed(11, &plain(bytes), false).bytes,
        3 => {
            let id = random.id();
            let fields = joined(&[&random.word("- 8400 840E80 8401AA"), &id, &bytes]);
            random.framed(13, &plain(fields), true).bytes
        }
        4 => {
            let id = random.id();
            joined(&[&id, &bytes])
        }
        _ => bytes,
    }
}

/// A VarUInt of 7 to 11 bytes, mostly with leading zeros, mostly ended.
fn wide(random: &mut Random, value: u64) -> Vec<u8> {
    let width = random.from_to(7, 11);
    let mut bytes = match random.below(6) {
        0 => run(0x7F, 0x7F, 0xFF, width),
        1 => run(0x01, 0x00, 0x80 | value as u8 & 0x7F, width),
        _ => var_uint(value, width),
    };
    if random.one_in(6) {
        let last = bytes.len() - 1;
        bytes[last] &= 0x7F;
    }
    bytes
}

/// A value, pad or wrapper whose length is a wide VarUInt.
fn wide_var_uint(random: &mut Random) -> Vec<u8> {
    let size = random.below(4);
    let head = random.pick(&[
        0x0E, 0x2E, 0x3E, 0x4E, 0x5E, 0x6E, 0x7E, 0x8E, 0xAE, 0xBE, 0xCE, 0xD1, 0xDE,
    ]);
    let length = wide(random, size as u64);
    let body = random.bytes(size);
    match random.below(5) {
        0 => joined(&[&length, &[0x20]]),
        1 => {
            // The annotations' length.
            let combined = (length.len() + size + 1) as u64;
            joined(&[&[0xEE], &var_uint(combined, 1), &length, &body, &[0x20]])
        }
        2 => {
            // The combined length.
            let combined = wide(random, size as u64 + 2);
            joined(&[&[0xEE], &combined, &[0x80 | size as u8], &body, &[0x20]])
        }
        _ => joined(&[&[head], &length, &body]),
    }
}

fn long_annotations(random: &mut Random, number: usize) -> Vec<u8> {
    // Long, so rarer than the others.
    let count = match number % 7 {
        0 => random.from_to(253, 258),
        1 | 2 => return cut_annotations(random),
        _ => random.from_to(11, 15),
    };
    random.annotated_by(count).bytes
}

/// A wrapper of about 255 bytes of annotations, or of many more, and a few of them.
fn cut_annotations(random: &mut Random) -> Vec<u8> {
    let count = match random.below(4) {
        0 => random.pick(&[300, 16_383, 16_384, 1 << 32, (1 << 62) - 1]),
        _ => random.from_to(253, 258) as u64,
    };
    annotations_cut(random, count)
}

/// A wrapper of so many bytes of annotations, and a few of them.
fn annotations_cut(random: &mut Random, count: u64) -> Vec<u8> {
    let width = random.pick(&[1, 1, 1, 3, 9]);
    let length = var_uint(count, width);
    // With room for a value, and with too little.
    let room = random.pick(&[0, 1, 1, 2, 2, 9, 200]);
    let combined = var_uint(count + length.len() as u64 + room - 1, width);
    let size = random.below(5);
    let bytes = joined(&[&[0xEE], &combined, &length, &random.bytes(size)]);
    if !random.one_in(6) {
        return bytes;
    }
    // The list is what cuts them short: behind it are as many bytes.
    let list = random.framed(11, &plain(bytes), false).bytes;
    joined(&[&list, &[0xAE, 0x02, 0x84], &[0; 260]])
}

/// A length of 12 to 15 in the descriptor or after it, and about as many bytes.
fn middle_length(random: &mut Random) -> Vec<u8> {
    let type_code = random.below(15) as u8;
    let size = random.from_to(12, 15);
    let head = if size <= 13 && random.one_in(2) {
        vec![type_code << 4 | size as u8]
    } else {
        joined(&[&[type_code << 4 | 14], &var_uint(size as u64, 1)])
    };
    let fill = random.pick(&[0x20, 0x21, 0x84, 0x00, 0x61, 0x0F]);
    let body = vec![fill; size + random.below(3) - random.below(2)];
    joined(&[&head, &body])
}

fn wide_int(random: &mut Random) -> Vec<u8> {
    let size = random.pick(&[1, 2, 7, 8, 9, 13, 14, 15, 15, 16, 16, 17]);
    let mut body = random.bytes(size);
    let zeros = random.pick(&[0, 0, 1, 2, size]);
    for byte in body.iter_mut().take(zeros) {
        *byte = 0;
    }
    let head = random.pick(&[0x2E, 0x3E]);
    if size < 14 && random.one_in(2) {
        return joined(&[&[head & 0xF0 | size as u8], &body]);
    }
    joined(&[&[head], &var_uint(size as u64, 1), &body])
}

fn wide_symbol(random: &mut Random) -> Vec<u8> {
    let size = random.from_to(7, 10);
    let mut body = random.bytes(size);
    let zeros = random.pick(&[0, 1, 2, size]);
    for byte in body.iter_mut().take(zeros) {
        *byte = 0;
    }
    if random.one_in(2) {
        return joined(&[&[0x70 | size as u8], &body]);
    }
    joined(&[&[0x7E], &var_uint(size as u64, 1), &body])
}

fn deep(random: &mut Random, number: usize) -> Vec<u8> {
    if number % 5 > 0 {
        let depth = random.from_to(1, 6);
        return random.deep(depth).bytes;
    }
    let depth = random.from_to(30, 35);
    random.deep(depth).bytes
}

fn float(random: &mut Random) -> Vec<u8> {
    let mut bytes = match random.below(4) {
        0 => joined(&[&[0x40 | random.below(16) as u8], &random.bytes(8)]),
        1 => joined(&[&[0x44], &random.word(SINGLES)]),
        2 => joined(&[&[0x48], &random.word(DOUBLES)]),
        _ => joined(&[&[0x44], &random.bytes(4)]),
    };
    if random.one_in(3) && bytes.len() > 1 {
        // Infinities and NaNs are rare among random bytes.
        bytes[1] |= 0x7F;
    }
    bytes
}

fn text(random: &mut Random) -> Vec<u8> {
    let texts = format!("{GOOD_TEXTS} {BAD_TEXTS}");
    let mut body = random.word(&texts);
    if !random.one_in(3) {
        body.extend(random.word(&texts));
    }
    if random.one_in(2) && !body.is_empty() {
        let at = random.below(body.len());
        body[at] = random.pick(&[
            0x7F, 0x80, 0x8F, 0x90, 0x9F, 0xA0, 0xBF, 0xC0, 0xC1, 0xC2, 0xDF, 0xE0, 0xED, 0xEF,
            0xF0, 0xF4, 0xF5, 0xFF,
        ]);
    }
    let type_code = random.pick(&[8, 8, 8, 9]);
    random.framed(type_code, &plain(body), false).bytes
}

/// A wrapper whose lengths fit or are off by one.
fn wrapper(random: &mut Random) -> Vec<u8> {
    let inner = random.word(
        "20 2105 0F 11 12 2F 00 01AA E3818420 E0 EF F0 2E8107 4E80 4100 6180 D0 D180 D1828420 \
         B120 820102 - 3100 8180 71FF",
    );
    let mut ids = random.id();
    if random.one_in(3) {
        ids.extend(random.id());
    }
    if random.one_in(8) {
        ids.pop();
    }
    let near = |random: &mut Random, size: usize| match random.below(6) {
        0 => size.saturating_sub(1),
        1 => size + 1,
        _ => size,
    };
    let size = near(random, ids.len());
    let length = var_uint(size as u64, 1);
    let combined = near(random, length.len() + ids.len() + inner.len());
    let head = if combined < 14 && !random.one_in(4) {
        vec![0xE0 | combined as u8]
    } else {
        joined(&[&[0xEE], &var_uint(combined as u64, 1)])
    };
    joined(&[&head, &length, &ids, &inner])
}

/// A decimal's body, by itself or behind a descriptor.
fn decimal(random: &mut Random) -> Vec<u8> {
    let body = random.decimal_body();
    match random.one_in(3) {
        true => random.framed(5, &plain(body), false).bytes,
        false => body,
    }
}

/// A timestamp, most often one whose numbers can all be read, annotated now and then.
fn timestamp(random: &mut Random) -> Vec<u8> {
    let body = random.timestamp_body();
    let value = random.framed(6, &plain(body), false).bytes;
    if !random.one_in(3) {
        return value;
    }
    let annotated = joined(&[&[0x81, 0x84], &value]);
    let head = match annotated.len() {
        combined @ 0..14 => vec![0xE0 | combined as u8],
        combined => joined(&[&[0xEE], &var_uint(combined as u64, 1)]),
    };
    joined(&[&head, &annotated])
}

/// A marker whose numbers and last byte are as in version 1.0 or not, between other items.
fn marker(random: &mut Random) -> Vec<u8> {
    let major = random.pick(&[0x01, 0x01, 0x01, 0x00, 0x02, 0x81, 0xEA, 0xFF]);
    let minor = random.pick(&[0x00, 0x00, 0x00, 0x01, 0x02, 0x80, 0xEA, 0xFF]);
    let last = random.pick(&[0xEA, 0xEA, 0xEA, 0xEA, 0xEA, 0xEB, 0x00]);
    let before = random.word("- - - 20 B12000 E00100EA");
    let after = random.word("- - 20 00 F0 E0 E00100EA E00101EA");
    joined(&[&before, &[0xE0, major, minor, last], &after])
}

fn numbers_only(random: &mut Random) -> Vec<u8> {
    let size = random.from_to(1, 12);
    let mut bytes: Vec<u8> = match random.below(3) {
        0 => (0..size).map(|_| random.next() as u8 & 0x7F).collect(),
        1 => run(random.pick(&[0x00, 0x40, 0x7F]), 0x00, 0x00, size),
        _ => (0..size).map(|_| random.pick(INTERESTING) & 0x7F).collect(),
    };
    if !random.one_in(4) {
        bytes[size - 1] |= 0x80;
    }
    bytes
}

/// Field IDs, pads and values of a struct's body, some missing.
fn field(random: &mut Random) -> Vec<u8> {
    let mut bytes = Vec::new();
    for _ in 0..random.from_to(1, 4) {
        if !random.one_in(12) {
            bytes.extend(random.id());
        }
        bytes.extend(random.word("20 2105 00 01AA 02AAAA 0E81AA 0E82AA 0F E0 F0 E3818420 11 - D0"));
    }
    bytes
}

// ===== Parts =====

/// Parts that begin and end anywhere, also outside; buffers that are too short.
fn parts<R: Reader>(session: &mut Session<R>, random: &mut Random, count: usize) {
    let mut map = Map::default();
    for number in 0..count {
        if session.is_done() {
            return;
        }
        if number % 16 == 0 {
            map = random.any(SMALL);
        }
        let part = any_part(random, map.bytes.len());
        let ask = any_ask(random);
        if !matches!(ask, Ask::Walk | Ask::Walked(_) | Ask::Check) || part.is_inside(&map.bytes) {
            session.ask(&map.bytes, ask, part);
        }
    }
}

fn any_part(random: &mut Random, length: usize) -> Part {
    let (start, end) = random.part(length);
    let position = match random.below(16) {
        0 => random.below(length + 3),
        1 => random.pick(&[usize::MAX, usize::MAX - 1, 1 << 63, 1 << 32, 0]),
        2 => start.wrapping_sub(1),
        3 => end.wrapping_add(1),
        4 => end,
        5 => start,
        _ if start <= end && end <= length => random.from_to(start, end),
        _ => start,
    };
    Part::new(start, end, position)
}

fn any_ask(random: &mut Random) -> Ask {
    let rules = match random.below(24) {
        0 => 3,
        1 => random.pick(&[4, 256, 1 << 32, u64::MAX, u64::MAX - 1]),
        _ => random.below(3) as u64,
    };
    match random.below(18) {
        0..=3 => Ask::Run(rules),
        4 | 5 => Ask::Batch(rules, random.from_to(RECORD, MOST_ROOM)),
        6 => match random.below(3) {
            0 => Ask::Annotations,
            1 => Ask::Ids,
            _ => Ask::Bounded(rules, any_most(random)),
        },
        7 | 8 => Ask::StepIn,
        9 | 10 => Ask::Scalar,
        11 | 12 => Ask::Number(rules, int_size(random)),
        13 if random.one_in(2) => Ask::Check,
        13 => Ask::Walk,
        14 => Ask::Walked(random.below(8) as u64),
        15 => Ask::Decimal,
        16 => Ask::Timestamp,
        _ => Ask::Short(random.pick(&ENTRIES), random.below(RECORD)),
    }
}

fn int_size(random: &mut Random) -> usize {
    match random.below(8) {
        0 => random.from_to(14, 17),
        1 => random.pick(&[usize::MAX, usize::MAX - 1, 1 << 63, 1 << 32]),
        _ => random.below(6),
    }
}

// ===== Pads =====

/// A largest number of pads, now and then none or more than there can be.
fn any_most(random: &mut Random) -> usize {
    match random.below(8) {
        0 => 0,
        1 => random.pick(&[usize::MAX, usize::MAX - 1, 1 << 63, 1 << 32]),
        _ => random.from_to(1, 6),
    }
}

/// Pads and little else, by each of the rules and with several largest numbers.
fn pads<R: Reader>(session: &mut Session<R>, random: &mut Random) {
    if session.is_done() {
        return;
    }
    for rules in [STREAM, SEQUENCE, STRUCT] {
        let bytes = among_pads(random, rules == STRUCT);
        let whole = Part::whole(&bytes);
        let end = random.below(bytes.len() + 1);
        let position = random.below(bytes.len() + 1);
        for part in [whole, cut(end), whole.at(position)] {
            session.ask(&bytes, Ask::Run(rules), part);
            session.ask(&bytes, Ask::Ids, part);
            for most in [1, 2, 3, any_most(random)] {
                session.ask(&bytes, Ask::Bounded(rules, most), part);
            }
        }
    }
}

fn among_pads(random: &mut Random, is_struct: bool) -> Vec<u8> {
    let mut bytes = Vec::new();
    for _ in 0..random.from_to(1, 3) {
        for _ in 0..random.below(12) {
            if is_struct {
                bytes.extend(random.id());
            }
            bytes.extend(random.word("00 00 00 01AA 02FFFF 0E80 0E81AA 0E0081AA"));
        }
        if is_struct && !random.one_in(12) {
            bytes.extend(random.id());
        }
        bytes.extend(random.word("20 2105 0F E00100EA E3818420 - 01 0E 0E7F F0 B100 D28000"));
    }
    bytes
}

// ===== Limits =====

/// A map near the limits that are given with it, or with one out of range.
fn by_limits<R: Reader>(session: &mut Session<R>, random: &mut Random, number: usize) {
    if session.is_done() {
        return;
    }
    let limits = any_limits(random, number);
    let bytes = near_limits(random, limits, number);
    let whole = Part {
        limits,
        ..Part::whole(&bytes)
    };
    ask_whole(session, &bytes, whole);
    let end = random.below(bytes.len() + 1);
    ask_whole(session, &bytes, Part { end, ..whole });
    let position = random.below(bytes.len() + 1);
    ask_at(session, &bytes, whole.at(position));
    session.ask(&bytes, Ask::Walked(number as u64 % 70), whole);
    // Outside, or into too short a buffer: 51 is before 68, which is before 50.
    let part = any_part(random, bytes.len());
    let ask = any_ask(random);
    if !matches!(ask, Ask::Walk | Ask::Walked(_) | Ask::Check) {
        session.ask(&bytes, ask, Part { limits, ..part });
    }
}

fn any_limits(random: &mut Random, number: usize) -> Limits {
    let mut limits = Limits {
        annotations: random.pick(&[255, 255, 256, 257, 300, 300, 65534, 65535]),
        depth: random.pick(&[1, 2, 3, 4, 31, 32, 33, 63, 64]),
    };
    match number % 16 {
        0 => limits.annotations = random.pick(&[0, 1, 254, 65536, 65537, 1 << 32, usize::MAX]),
        1 => limits.depth = random.pick(&[0, 65, 66, 1 << 32, usize::MAX]),
        _ => {}
    }
    limits
}

fn near_limits(random: &mut Random, limits: Limits, number: usize) -> Vec<u8> {
    let bytes = match number / 16 % 4 {
        0 => {
            // Of the highest limit rarely: such a map is long.
            let most = match limits.annotations {
                most @ 255..=300 => most,
                most @ 65534..=65535 if number % 500 == 2 => most,
                _ => 257,
            };
            let count = random.from_to(most - 2, most + 2);
            random.annotated_by(count).bytes
        }
        1 => {
            let limit = limits.annotations.clamp(255, 65535);
            let count = random.from_to(limit - 2, limit + 2) as u64;
            annotations_cut(random, count)
        }
        2 => {
            let depth = random.from_to(limits.depth.clamp(1, 64), limits.depth.clamp(1, 64) + 2);
            random.deep(depth).bytes
        }
        _ => random.any(SMALL).bytes,
    };
    placed(random, bytes)
}

// ===== Things that are written =====

/// A thing of any kind, of good bytes and bad ones.
fn writes<R: Reader>(session: &mut Session<R>, random: &mut Random, number: usize) {
    if session.is_done() {
        return;
    }
    // Limits matter to containers and wrappers alone.
    let limits = match random.below(4) {
        0 => any_limits(random, number / 32),
        _ => Limits::USUAL,
    };
    let (thing, first, value) = match number % 16 {
        0 => (Thing::Null(any_code(random, 0, 13)), Vec::new(), Vec::new()),
        1 => (Thing::Bool(any_flag(random)), Vec::new(), Vec::new()),
        2 | 3 => (Thing::Int(any_flag(random)), magnitude(random), Vec::new()),
        4 => (Thing::Float(any_bits(random)), Vec::new(), Vec::new()),
        5 => (Thing::Symbol(any_id(random)), Vec::new(), Vec::new()),
        6 | 7 => (Thing::Pad(pad_size(random, number / 16)), Vec::new(), Vec::new()),
        8..=10 => {
            let (code, body) = representation(random);
            (Thing::Scalar(code), body, Vec::new())
        }
        11..=13 => {
            let code = any_code(random, 11, 13);
            (Thing::Container(code), inside(random, code == 13, limits), Vec::new())
        }
        _ => {
            let (ids, value) = annotated(random, limits);
            (Thing::Wrapper, ids, value)
        }
    };
    let bytes = joined(&[&first, &value]);
    let part = Part {
        limits,
        ..Part::whole(&bytes).at(first.len())
    };
    session.ask(&bytes, Ask::Write(thing), part);
}

/// A type's code, now and then one that isn't among those.
fn any_code(random: &mut Random, low: usize, high: usize) -> usize {
    match random.below(24) {
        0 => random.pick(&[0, 4, 7, 10, 11, 14, 15, 16, 256, 1 << 32, usize::MAX]),
        _ => random.from_to(low, high),
    }
}

fn any_flag(random: &mut Random) -> u64 {
    match random.below(16) {
        0 => random.pick(&[2, 255, 256, 1 << 32, u64::MAX]),
        _ => random.below(2) as u64,
    }
}

/// Up to 17 bytes, some of them leading zeros; now and then many more.
fn magnitude(random: &mut Random) -> Vec<u8> {
    let zeros = random.pick(&[0, 0, 0, 1, 2, 9, 130]);
    let size = match random.below(40) {
        0 => random.pick(&[126, 127, 128, 129, 300]),
        _ => random.below(18),
    };
    joined(&[&vec![0; zeros], &random.bytes(size)])
}

fn any_bits(random: &mut Random) -> u64 {
    let number = |bytes: Vec<u8>| bytes.iter().fold(0, |bits, byte| bits << 8 | *byte as u64);
    match random.below(4) {
        0 => number(random.word(DOUBLES)),
        // Infinities and NaNs are rare among random bits.
        1 => random.next() | 0x7FF << 52,
        _ => random.next(),
    }
}

fn any_id(random: &mut Random) -> u64 {
    let edge = 1u64 << (8 * random.below(8));
    match random.below(4) {
        0 => edge,
        1 => edge - 1,
        2 => random.pick(&[0, 1, 9, 10, u64::MAX, 1 << 63]),
        _ => random.next() >> random.below(64),
    }
}

/// A pad's size: small, about a length in one VarUInt byte more, too large, or 0.
fn pad_size(random: &mut Random, number: usize) -> usize {
    match random.below(40) {
        0 => 0,
        1 => random.pick(&[1 << 32, 1 << 62, 1 << 63, usize::MAX, usize::MAX - 1]),
        2 => (1 << 63) + random.from_to(5, 14),
        3 if number % 50 == 0 => (1 << 21) + random.below(8),
        3..=5 => random.from_to(16_380, 16_400),
        6..=12 => random.from_to(1, 20),
        13..=19 => random.from_to(126, 134),
        _ => random.from_to(1, 300),
    }
}

/// A type and its representation.
fn representation(random: &mut Random) -> (usize, Vec<u8>) {
    let code = random.pick(&[5, 5, 6, 6, 6, 8, 8, 9, 10]);
    let body = match code {
        5 if random.one_in(12) => Vec::new(),
        5 => random.decimal_body(),
        6 if random.one_in(12) => random.word("- 80 C0 81 00"),
        6 => random.timestamp_body(),
        8 => {
            let texts = format!("{GOOD_TEXTS} {BAD_TEXTS}");
            let good = random.word(GOOD_TEXTS);
            let is_any = random.one_in(2);
            let text = random.word(if is_any { &texts } else { GOOD_TEXTS });
            joined(&[&good, &text])
        }
        _ => {
            let size = match random.below(40) {
                0 => random.from_to(16_382, 16_386),
                1..=8 => random.from_to(126, 130),
                _ => random.below(18),
            };
            random.bytes(size)
        }
    };
    match random.one_in(24) {
        true => (random.pick(&[0, 2, 4, 7, 11, 13, 14, usize::MAX]), body),
        false => (code, body),
    }
}

/// What is to be in a container, as it should be or not.
fn inside(random: &mut Random, is_struct: bool, limits: Limits) -> Vec<u8> {
    let size = if random.one_in(3) { LARGE } else { SMALL };
    let mut bytes = match random.below(12) {
        0 => vec![random.pick(INTERESTING)],
        1 => random.any(size).bytes,
        2 => field(random),
        3 => {
            let depth = limits.depth.clamp(1, 64);
            let deep = random.from_to(depth - 1, depth + 1);
            let value = random.deep(deep).bytes;
            match is_struct {
                true => joined(&[&random.id(), &value]),
                false => value,
            }
        }
        4 => {
            let id = if is_struct { random.id() } else { Vec::new() };
            joined(&[&id, &at_boundary(random, size.body)])
        }
        _ => random.body(size, is_struct).bytes,
    };
    if random.one_in(4) {
        random.damage(&mut bytes);
    }
    bytes
}

/// Annotation bytes and a value to be annotated, as they should be or not.
fn annotated(random: &mut Random, limits: Limits) -> (Vec<u8>, Vec<u8>) {
    let mut ids = Vec::new();
    for _ in 0..random.pick(&[0, 1, 1, 1, 2, 2, 3]) {
        ids.extend(random.id());
    }
    if random.one_in(8) {
        let most = match limits.annotations {
            most @ 255..=300 => most,
            _ => 255,
        };
        ids = run(0x84, 0x85, 0x86, random.from_to(most - 2, most + 2));
    }
    if random.one_in(12) {
        random.damage(&mut ids);
    }
    let size = if random.one_in(3) { LARGE } else { SMALL };
    let mut value = match random.below(6) {
        0 => random.word(
            "20 2105 0F 11 12 2F 00 01AA E3818420 E0 E00100EA EF F0 2E8107 4E80 4100 6180 D0 D180 \
             D1828420 B120 820102 - 3100 8180 71FF 2020 2000 21 04",
        ),
        1 => random.value(size).bytes,
        2 => {
            let depth = limits.depth.clamp(1, 64);
            let deep = random.from_to(depth - 1, depth + 1);
            random.deep(deep).bytes
        }
        _ => random.plain(size).bytes,
    };
    if random.one_in(6) {
        random.damage(&mut value);
    }
    (ids, value)
}
