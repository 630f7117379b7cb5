//! Random numbers, bytes of interest, and well-formed maps.

use std::fmt::Write as _;

// ===== Random numbers (splitmix64) =====

pub struct Random(pub u64);

impl Random {
    pub fn next(&mut self) -> u64 {
        self.0 = self.0.wrapping_add(0x9E37_79B9_7F4A_7C15);
        let mut z = self.0;
        z = (z ^ (z >> 30)).wrapping_mul(0xBF58_476D_1CE4_E5B9);
        z = (z ^ (z >> 27)).wrapping_mul(0x94D0_49BB_1331_11EB);
        z ^ (z >> 31)
    }

    /// A number from 0 to `count` - 1.
    pub fn below(&mut self, count: usize) -> usize {
        (self.next() % count as u64) as usize
    }

    /// A number from `low` to `high`.
    pub fn from_to(&mut self, low: usize, high: usize) -> usize {
        low + self.below(high - low + 1)
    }

    pub fn one_in(&mut self, count: usize) -> bool {
        self.below(count) == 0
    }

    pub fn pick<T: Copy>(&mut self, list: &[T]) -> T {
        list[self.below(list.len())]
    }

    /// One of the hexadecimal words of a list.
    pub fn word(&mut self, list: &str) -> Vec<u8> {
        let list = words(list);
        list[self.below(list.len())].clone()
    }

    pub fn bytes(&mut self, count: usize) -> Vec<u8> {
        (0..count).map(|_| self.next() as u8).collect()
    }
}

// ===== Bytes =====

/// Bytes at which something changes.
pub const INTERESTING: &[u8] = &[
    0x00, 0x01, 0x02, 0x03, 0x07, 0x0D, 0x0E, 0x0F, 0x10, 0x11, 0x12, 0x1E, 0x1F, 0x20, 0x21, 0x22,
    0x28, 0x29, 0x2E, 0x2F, 0x30, 0x31, 0x32, 0x3E, 0x3F, 0x40, 0x41, 0x44, 0x48, 0x4E, 0x4F, 0x50,
    0x51, 0x5F, 0x60, 0x61, 0x62, 0x6E, 0x6F, 0x70, 0x71, 0x78, 0x79, 0x7E, 0x7F, 0x80, 0x81, 0x82,
    0x83, 0x84, 0x85, 0x8E, 0x8F, 0x90, 0x91, 0x9F, 0xA0, 0xA1, 0xAF, 0xB0, 0xB1, 0xB2, 0xB3, 0xB4,
    0xBE, 0xBF, 0xC0, 0xC1, 0xC2, 0xCE, 0xCF, 0xD0, 0xD1, 0xD2, 0xD3, 0xD4, 0xDE, 0xDF, 0xE0, 0xE1,
    0xE2, 0xE3, 0xE4, 0xE5, 0xE6, 0xEA, 0xEE, 0xEF, 0xF0, 0xF4, 0xFE, 0xFF,
];

/// UTF-8 at its boundaries: what is well-formed, and what is not. `-` is no bytes.
pub const GOOD_TEXTS: &str =
    "- 00 61 7F C280 DFBF E0A080 E18080 ECBFBF ED8080 ED9FBF EE8080 EFBBBF \
    EFBFBF F0908080 F0BFBFBF F1808080 F3BFBFBF F4808080 F48FBFBF 61C28062";
pub const BAD_TEXTS: &str =
    "80 BF C080 C0AF C1BF C2 C27F C2C0 DF E08080 E09FBF E0A0 E0A07F E0C080 \
    E180 E180C0 E17F80 EDA080 EDBFBF EFBF F0808080 F08FBFBF F09080 F090807F F090C080 F18080 \
    F4908080 F48FBF F5808080 F888808080 FE FF 6180 C28080 6162E09FBF";

/// Floats at their boundaries, 8 bytes and 4 bytes.
pub const DOUBLES: &str = "0000000000000000 0000000000000001 8000000000000000 3FF0000000000000 \
    BFF8000000000000 000FFFFFFFFFFFFF 0010000000000000 7FEFFFFFFFFFFFFF 7FF0000000000000 \
    FFF0000000000000 7FF8000000000000 7FF0000000000001 FFF8000000001234 0123456789ABCDEF";
pub const SINGLES: &str =
    "00000000 00000001 00000002 80000000 80000001 3F800000 BFC00000 007FFFFF \
    00400000 00800000 7F7FFFFF FF7FFFFF 7F800000 FF800000 7FC00000 7F800001 FFC01234 12345678 \
    3DCCCCCD";

/// Bytes written as hexadecimal words.
pub fn words(text: &str) -> Vec<Vec<u8>> {
    text.split_whitespace()
        .map(|word| {
            let digits = word.trim_matches('-').as_bytes();
            digits
                .chunks(2)
                .map(|pair| u8::from_str_radix(std::str::from_utf8(pair).unwrap(), 16).unwrap())
                .collect()
        })
        .collect()
}

/// A VarUInt of at least `width` bytes.
pub fn var_uint(value: u64, width: usize) -> Vec<u8> {
    let mut bytes = vec![0x80 | (value & 0x7F) as u8];
    let mut rest = value >> 7;
    while rest > 0 || bytes.len() < width {
        bytes.insert(0, (rest & 0x7F) as u8);
        rest >>= 7;
    }
    bytes
}

pub fn hex(bytes: &[u8]) -> String {
    if bytes.is_empty() {
        return "-".to_string();
    }
    let mut text = String::with_capacity(2 * bytes.len());
    for byte in bytes {
        write!(text, "{byte:02X}").unwrap();
    }
    text
}

/// A string of 00 to 7F bytes and one last byte.
pub fn run(first: u8, middle: u8, last: u8, count: usize) -> Vec<u8> {
    let mut bytes = vec![middle; count];
    if count > 0 {
        bytes[0] = first;
        bytes[count - 1] = last;
    }
    bytes
}

pub fn joined(parts: &[&[u8]]) -> Vec<u8> {
    parts.concat()
}

// ===== Well-formed maps =====

/// Bytes with the positions in them where a value, a pad or a wrapper begins.
#[derive(Clone, Default)]
pub struct Map {
    pub bytes: Vec<u8>,
    pub values: Vec<usize>,
    pub pads: Vec<usize>,
    pub wrappers: Vec<usize>,
    pub bodies: Vec<(usize, usize, bool)>, // start, end, is a struct's
    pub sequences: Vec<(usize, usize)>,    // annotation bytes
}

impl Map {
    pub fn raw(&mut self, bytes: &[u8]) {
        self.bytes.extend_from_slice(bytes);
    }

    pub fn add(&mut self, other: &Map) {
        let at = self.bytes.len();
        self.bytes.extend_from_slice(&other.bytes);
        self.values.extend(other.values.iter().map(|p| p + at));
        self.pads.extend(other.pads.iter().map(|p| p + at));
        self.wrappers.extend(other.wrappers.iter().map(|p| p + at));
        self.bodies
            .extend(other.bodies.iter().map(|(s, e, k)| (s + at, e + at, *k)));
        self.sequences
            .extend(other.sequences.iter().map(|(s, e)| (s + at, e + at)));
    }
}

/// How long and how wild a map may be.
#[derive(Clone, Copy)]
pub struct Limits {
    pub items: usize,
    pub depth: usize,
    pub body: usize,
}

pub const SMALL: Limits = Limits {
    items: 3,
    depth: 2,
    body: 3,
};
pub const LARGE: Limits = Limits {
    items: 5,
    depth: 5,
    body: 20,
};

impl Random {
    /// A width for a VarUInt that is written with leading zeros now and then.
    pub fn width(&mut self) -> usize {
        match self.below(24) {
            0 if self.one_in(6) => 10,
            0 => 9,
            1 => 2,
            2 => 3,
            _ => 1,
        }
    }

    pub fn id(&mut self) -> Vec<u8> {
        let value = match self.below(12) {
            0 => 0,
            1 => 127,
            2 => 128,
            3 => self.next() >> 1,
            4 => (1 << 63) - 1,
            _ => self.below(20) as u64 + 4,
        };
        let width = self.width();
        var_uint(value, width)
    }

    pub fn framed(&mut self, type_code: u8, body: &Map, is_struct: bool) -> Map {
        let mut map = Map::default();
        let length = body.bytes.len();
        let long = length > 13 || (is_struct && length == 1) || self.one_in(12);
        if is_struct && length > 0 && self.one_in(4) {
            map.raw(&[type_code << 4 | 1]);
            let width = self.width();
            map.raw(&var_uint(length as u64, width));
        } else if long {
            map.raw(&[type_code << 4 | 14]);
            let width = self.width();
            map.raw(&var_uint(length as u64, width));
        } else {
            map.raw(&[type_code << 4 | length as u8]);
        }
        map.add(body);
        map
    }

    pub fn pad(&mut self) -> Map {
        let length = match self.below(4) {
            0 => 0,
            1 => 1,
            _ => self.below(6),
        };
        let mut map = Map {
            pads: vec![0],
            ..Map::default()
        };
        if self.one_in(5) {
            let width = self.width();
            map.raw(&[0x0E]);
            map.raw(&var_uint(length as u64, width));
        } else {
            map.raw(&[length as u8]);
        }
        let body = self.bytes(length);
        map.raw(&body);
        map
    }

    pub fn scalar_body(&mut self, type_code: u8, limits: Limits) -> Vec<u8> {
        match type_code {
            2 | 3 => {
                let length = match self.below(8) {
                    0 => 0,
                    1 => 8.min(limits.body),
                    2 => 9.min(limits.body),
                    3 => 15.min(limits.body),
                    _ => self.from_to(1, 3),
                };
                let mut body = self.bytes(length);
                if length > 0 && (self.one_in(4) || body[0] == 0) {
                    body[0] = if self.one_in(2) { 0 } else { 1 };
                }
                if type_code == 3 && body.iter().all(|byte| *byte == 0) && !self.one_in(4) {
                    body.push(1);
                }
                body
            }
            5 => self.id(),
            6 => joined(&[&[0xC0], &var_uint(1900 + self.below(200) as u64, 2)]),
            7 => {
                let length = match self.below(6) {
                    0 => 0,
                    1 => 8.min(limits.body),
                    _ => self.from_to(1, 2),
                };
                self.bytes(length)
            }
            8 => self.word(GOOD_TEXTS),
            _ => {
                let length = self.below(limits.body + 1);
                self.bytes(length)
            }
        }
    }

    /// A decimal's body: an exponent, now and then a long one or one without a last byte, and a
    /// coefficient. Either is zero at times, with a sign or without.
    pub fn decimal_body(&mut self) -> Vec<u8> {
        let count = match self.below(6) {
            0 => self.from_to(8, 11),
            1 => self.from_to(2, 4),
            _ => 1,
        };
        let mut exponent: Vec<u8> = self.bytes(count).iter().map(|byte| byte & 0x7F).collect();
        if self.one_in(5) {
            exponent = vec![0; count];
            exponent[0] = self.pick(&[0, 0x40]);
        }
        if !self.one_in(10) {
            exponent[count - 1] |= 0x80;
        }
        let count = match self.below(6) {
            0 => 0,
            1 => self.from_to(14, 17),
            2 => self.from_to(7, 9),
            _ => self.from_to(1, 3),
        };
        let mut coefficient = self.bytes(count);
        if count > 0 && self.one_in(5) {
            coefficient = vec![0; count];
            coefficient[0] = self.pick(&[0, 0x80]);
        }
        joined(&[&exponent, &coefficient])
    }

    /// A timestamp's body: its fields are within their ranges, at their limits or a little past them;
    /// now and then one is wide, long, or has no last byte.
    pub fn timestamp_body(&mut self) -> Vec<u8> {
        let mut body = match self.below(8) {
            0 => self.word("80 C0 0BA0 4B9F 0B9F 4BA0 4080 00000080"),
            1 => self.number(),
            _ => self.word("80 80 C0 C1 81 BC FC 02D4 43A4"),
        };
        let limits = [
            (1, 9999, "80 81 82 0FD0 0FD0 0FD1 0ED8 0EEC 0F4E 4E8F 4E90"),
            (1, 12, "80 81 81 82 82 83 84 8B 8C 8C 8D"),
            (1, 31, "80 81 81 9B 9C 9D 9D 9E 9E 9F 9F A0"),
            (0, 23, "80 80 97 97 98"),
            (0, 59, "80 80 BB BB BC"),
            (0, 59, "80 80 BB BB BC"),
        ];
        let count = self.pick(&[1, 2, 3, 3, 4, 5, 5, 6, 6, 6, 6, 6]);
        for (low, high, edges) in &limits[..count] {
            let field = match self.below(24) {
                0 => self.number(),
                1 => var_uint((1 << 32) + self.from_to(*low, *high) as u64, 1),
                2..=9 => self.word(edges),
                _ => var_uint(self.from_to(*low, *high) as u64, 1),
            };
            body.extend(field);
        }
        if count == 6 && !self.one_in(3) {
            body.extend(self.fraction());
        }
        body
    }

    /// An exponent, most often of some places, and a coefficient near a power of ten or zero.
    fn fraction(&mut self) -> Vec<u8> {
        if self.one_in(4) {
            return self.decimal_body();
        }
        let places = self.pick(&[0, 1, 1, 2, 3, 3, 6, 9, 12, 17, 18, 18, 19, 20, 21]);
        let power = 10u128.pow(places);
        let coefficient = match self.below(6) {
            0 => 0,
            1 => power,
            2 => power + 1,
            3 => self.bytes(8).iter().fold(0, |number, byte| number << 8 | *byte as u128),
            4 => power - 1,
            _ => power / 3,
        };
        let exponent = (if places == 0 { 0x80 } else { 0xC0 }) | places as u8;
        let bytes = coefficient.to_be_bytes();
        let first = bytes.iter().position(|byte| *byte != 0).unwrap_or(bytes.len() - 1);
        // A byte before the first one has room for the sign.
        let mut magnitude = joined(&[&[0], &bytes[first..]]);
        if magnitude[1] < 0x80 {
            magnitude.remove(0);
        }
        if self.one_in(8) {
            magnitude[0] |= 0x80;
        }
        joined(&[&[exponent], &magnitude])
    }

    /// A number of any length up to eleven bytes, now and then without its last byte.
    fn number(&mut self) -> Vec<u8> {
        let count = self.from_to(1, 11);
        let mut number: Vec<u8> = self.bytes(count).iter().map(|byte| byte & 0x7F).collect();
        if !self.one_in(6) {
            number[count - 1] |= 0x80;
        }
        number
    }

    /// A value without annotations.
    pub fn plain(&mut self, limits: Limits) -> Map {
        let type_code = if limits.depth > 0 && self.one_in(3) {
            self.from_to(11, 13) as u8
        } else {
            self.from_to(0, 10) as u8
        };
        if type_code == 0 || self.one_in(14) {
            return Map {
                bytes: vec![type_code << 4 | 15],
                ..Map::default()
            };
        }
        let inner = Limits {
            depth: limits.depth.saturating_sub(1),
            ..limits
        };
        match type_code {
            1 => Map {
                bytes: vec![0x10 | self.below(2) as u8],
                ..Map::default()
            },
            4 => {
                let mut map = Map::default();
                match self.below(3) {
                    0 => map.raw(&[0x40]),
                    1 => map.raw(&joined(&[&[0x44], &self.word(SINGLES)])),
                    _ => map.raw(&joined(&[&[0x48], &self.word(DOUBLES)])),
                }
                map
            }
            11 | 12 => {
                let body = self.body(inner, false);
                let mut map = self.framed(type_code, &body, false);
                let end = map.bytes.len();
                map.bodies.push((end - body.bytes.len(), end, false));
                map
            }
            13 => {
                let body = self.body(inner, true);
                let mut map = self.framed(type_code, &body, true);
                let end = map.bytes.len();
                map.bodies.push((end - body.bytes.len(), end, true));
                map
            }
            _ => {
                let body = self.scalar_body(type_code, limits);
                self.framed(
                    type_code,
                    &Map {
                        bytes: body,
                        ..Map::default()
                    },
                    false,
                )
            }
        }
    }

    /// Wraps a value in annotations.
    pub fn annotated(&mut self, value: &Map, ids: &[u8]) -> Map {
        let width = self.width();
        let mut inner = Map::default();
        inner.raw(&var_uint(ids.len() as u64, width));
        let start = inner.bytes.len();
        inner.raw(ids);
        inner.sequences.push((start, inner.bytes.len()));
        inner.add(value);
        let mut map = Map {
            wrappers: vec![0],
            ..Map::default()
        };
        let length = inner.bytes.len();
        if length > 13 || self.one_in(10) {
            map.raw(&[0xEE]);
            let width = self.width();
            map.raw(&var_uint(length as u64, width));
        } else {
            map.raw(&[0xE0 | length as u8]);
        }
        map.add(&inner);
        map
    }

    pub fn value(&mut self, limits: Limits) -> Map {
        let plain = self.plain(limits);
        let mut map = if self.one_in(5) {
            let mut ids = Vec::new();
            for _ in 0..self.from_to(1, 3) {
                ids.extend(self.id());
            }
            self.annotated(&plain, &ids)
        } else {
            plain
        };
        map.values.push(0);
        map
    }

    pub fn body(&mut self, limits: Limits, is_struct: bool) -> Map {
        let mut map = Map::default();
        for _ in 0..self.below(limits.items + 1) {
            if self.one_in(5) {
                if is_struct {
                    let id = self.id();
                    map.raw(&id);
                }
                let pad = self.pad();
                map.add(&pad);
            }
            if is_struct {
                let id = self.id();
                map.raw(&id);
            }
            let value = self.value(limits);
            map.add(&value);
        }
        if self.one_in(8) {
            if is_struct {
                let id = self.id();
                map.raw(&id);
            }
            let pad = self.pad();
            map.add(&pad);
        }
        map
    }

    pub fn stream(&mut self, limits: Limits) -> Map {
        let mut map = Map::default();
        if self.one_in(3) {
            let (major, minor) = if self.one_in(4) {
                (self.next() as u8, self.next() as u8)
            } else {
                (1, 0)
            };
            map.raw(&[0xE0, major, minor, 0xEA]);
        }
        let body = self.body(limits, false);
        map.add(&body);
        map
    }

    /// Containers in containers, `depth` of them, with a value in the innermost.
    pub fn deep(&mut self, depth: usize) -> Map {
        let kinds = self.below(4);
        let mut map = Map {
            bytes: vec![0x20],
            values: vec![0],
            ..Map::default()
        };
        if self.one_in(3) {
            map = Map::default();
        }
        for _ in 0..depth {
            let type_code = match kinds {
                0 => 11,
                1 => 13,
                _ => self.from_to(11, 13) as u8,
            };
            let mut body = Map::default();
            if type_code == 13 {
                body.raw(&[0x84]);
                if map.bytes.is_empty() {
                    body = Map::default();
                }
            }
            body.add(&map);
            map = self.framed(type_code, &body, type_code == 13);
            map.values.push(0);
        }
        map
    }

    /// Changes a map a little, so that it is likely to be refused somewhere.
    pub fn damage(&mut self, bytes: &mut Vec<u8>) {
        for _ in 0..self.from_to(1, 2) {
            if bytes.is_empty() {
                bytes.push(self.pick(INTERESTING));
                continue;
            }
            let at = self.below(bytes.len());
            match self.below(7) {
                0 => bytes[at] = self.pick(INTERESTING),
                1 => bytes[at] ^= 1 << self.below(8),
                2 => bytes[at] = bytes[at].wrapping_add(1),
                3 => bytes[at] = bytes[at].wrapping_sub(1),
                4 => {
                    bytes.remove(at);
                }
                5 => bytes.insert(at, self.pick(INTERESTING)),
                _ => bytes.truncate(at),
            }
        }
    }

    /// A map, as it should be or damaged, or a string of interesting bytes.
    pub fn any(&mut self, limits: Limits) -> Map {
        let mut map = match self.below(10) {
            0 => {
                let count = self.below(limits.body * 2 + 6);
                let bytes = (0..count).map(|_| self.pick(INTERESTING)).collect();
                Map {
                    bytes,
                    values: vec![0],
                    ..Map::default()
                }
            }
            1 => self.body(limits, true),
            2 => self.value(limits),
            _ => self.stream(limits),
        };
        if self.one_in(3) {
            self.damage(&mut map.bytes);
        }
        map
    }

    /// A map whose size is rare: many annotation bytes, or many levels.
    pub fn rare(&mut self) -> Map {
        let mut map = if self.one_in(2) {
            let count = self.from_to(253, 258);
            self.annotated_by(count)
        } else {
            let depth = self.from_to(28, 37);
            self.deep(depth)
        };
        if self.one_in(4) {
            self.damage(&mut map.bytes);
        }
        map
    }

    /// A value with `count` bytes of annotations.
    pub fn annotated_by(&mut self, count: usize) -> Map {
        let mut ids = Vec::new();
        while ids.len() < count {
            ids.push(0x80 | self.below(128) as u8);
        }
        let value = self.value(SMALL);
        let value = if value.wrappers.first() == Some(&0) {
            Map {
                bytes: vec![0x21, 7],
                ..Map::default()
            }
        } else {
            value
        };
        let mut map = self.annotated(&value, &ids);
        map.values.push(0);
        map
    }

    /// A part that begins and ends anywhere, now and then outside the bytes or out of order.
    pub fn part(&mut self, length: usize) -> (usize, usize) {
        match self.below(60) {
            0 => (self.below(length + 3), self.below(length + 3)),
            1 => (0, usize::MAX),
            2 => (usize::MAX, length),
            n if n < 15 => {
                let at = self.below(length + 1);
                (at, self.from_to(at, length))
            }
            n if n < 25 => (self.below(length + 1), length),
            n if n < 35 => (0, self.below(length + 1)),
            _ => (0, length),
        }
    }
}
