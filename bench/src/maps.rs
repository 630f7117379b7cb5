//! The maps that are measured: well formed, made from fixed seeds, the same bytes every time.
//!
//! Each is a version marker and then top-level values of some kilobytes, until the wanted size is
//! reached.

/// A small generator of numbers (xorshift), so that no crate decides what the maps are.
pub struct Dice(u64);

impl Dice {
    pub fn new(seed: u64) -> Self {
        Dice(seed.wrapping_mul(0x9E37_79B9_7F4A_7C15) | 1)
    }

    /// A number from `low` to `high`, both included.
    pub fn from_to(&mut self, low: usize, high: usize) -> usize {
        self.0 ^= self.0 << 13;
        self.0 ^= self.0 >> 7;
        self.0 ^= self.0 << 17;
        low + (self.0 >> 16) as usize % (high - low + 1)
    }
}

const LIST: u8 = 11;
const SEXP: u8 = 12;
const STRUCT: u8 = 13;

/// Bytes to be.
pub struct Bytes(pub Vec<u8>);

impl Bytes {
    fn new() -> Self {
        Bytes(Vec::new())
    }

    fn var_uint(&mut self, value: usize) {
        let mut groups = 1;
        while value >> (7 * groups) != 0 {
            groups += 1;
        }
        for group in (0..groups).rev() {
            let last = if group == 0 { 128 } else { 0 };
            self.0.push((value >> (7 * group)) as u8 & 127 | last);
        }
    }

    /// A descriptor and, where it has one, its length.
    fn head(&mut self, type_code: u8, length: usize) {
        // Code 1 of a struct means something else.
        if length < 14 && !(type_code == STRUCT && length == 1) {
            self.0.push(type_code << 4 | length as u8);
        } else {
            self.0.push(type_code << 4 | 14);
            self.var_uint(length);
        }
    }

    fn filled(&mut self, type_code: u8, length: usize) {
        self.head(type_code, length);
        let from = self.0.len();
        self.0.resize(from + length, 0x5A);
    }

    fn container(&mut self, type_code: u8, body: &Bytes) {
        self.head(type_code, body.0.len());
        self.0.extend_from_slice(&body.0);
    }

    /// A pad of `total` bytes, its descriptor included.
    fn pad(&mut self, total: usize) {
        self.filled(0, total - 1);
    }

    /// A small scalar: symbols, ints, bools, short strings, floats.
    fn small(&mut self, dice: &mut Dice) {
        match dice.from_to(0, 9) {
            0..=3 => self.filled(7, dice.from_to(1, 2)),
            4..=6 => self.filled(2, dice.from_to(0, 3)),
            7 => self.0.push(0x10 + dice.from_to(0, 1) as u8),
            8 => self.filled(8, dice.from_to(1, 20)),
            _ => self.filled(4, 4),
        }
    }

    /// `value` in a wrapper with one to three annotations.
    fn wrapped(&mut self, dice: &mut Dice, value: &Bytes) {
        let mut ids = Bytes::new();
        for _ in 0..dice.from_to(1, 3) {
            ids.var_uint(dice.from_to(10, 200));
        }
        let mut inner = Bytes::new();
        inner.var_uint(ids.0.len());
        inner.0.extend_from_slice(&ids.0);
        inner.0.extend_from_slice(&value.0);
        self.head(14, inner.0.len());
        self.0.extend_from_slice(&inner.0);
    }
}

/// A marker, then what `value` makes until there are `size` bytes.
fn stream(size: usize, seed: u64, mut value: impl FnMut(&mut Bytes, &mut Dice)) -> Vec<u8> {
    let mut map = Bytes(vec![0xE0, 1, 0, 0xEA]);
    map.0.reserve(size + size / 16);
    let mut dice = Dice::new(seed);
    while map.0.len() < size {
        value(&mut map, &mut dice);
    }
    map.0
}

/// Tiles: structs that hold layers, and layers that hold blobs of 1 to 32 kilobytes.
pub fn terrain(size: usize) -> Vec<u8> {
    stream(size, 1, |map, dice| {
        let mut layers = Bytes::new();
        for _ in 0..dice.from_to(2, 4) {
            let mut edges = Bytes::new();
            for id in 17..20 {
                edges.var_uint(id);
                edges.filled(4, 8);
            }
            let mut layer = Bytes::new();
            layer.var_uint(13);
            layer.filled(7, 1);
            layer.var_uint(14);
            layer.filled(10, dice.from_to(8_192, 32_768));
            layer.var_uint(15);
            layer.filled(10, dice.from_to(1_024, 4_096));
            layer.var_uint(16);
            layer.container(STRUCT, &edges);
            layers.container(STRUCT, &layer);
        }
        let mut tile = Bytes::new();
        for id in [10, 11] {
            tile.var_uint(id);
            tile.filled(2, 2);
        }
        tile.var_uint(4);
        tile.filled(8, dice.from_to(4, 30));
        tile.var_uint(12);
        tile.container(LIST, &layers);
        map.container(STRUCT, &tile);
    })
}

/// Structs of 500 small fields.
pub fn symbols(size: usize) -> Vec<u8> {
    stream(size, 2, |map, dice| {
        let mut fields = Bytes::new();
        for _ in 0..500 {
            fields.var_uint(dice.from_to(4, 400));
            fields.small(dice);
        }
        map.container(STRUCT, &fields);
    })
}

/// Lists of values and of structs, each value in a wrapper, at every level.
pub fn annotated(size: usize) -> Vec<u8> {
    stream(size, 3, |map, dice| {
        let mut list = Bytes::new();
        for _ in 0..60 {
            let mut value = Bytes::new();
            if dice.from_to(0, 3) == 0 {
                let mut fields = Bytes::new();
                for _ in 0..12 {
                    let mut small = Bytes::new();
                    small.small(dice);
                    fields.var_uint(dice.from_to(4, 400));
                    fields.wrapped(dice, &small);
                }
                value.container(STRUCT, &fields);
            } else {
                value.small(dice);
            }
            list.wrapped(dice, &value);
        }
        let mut value = Bytes::new();
        value.container(LIST, &list);
        map.wrapped(dice, &value);
    })
}

/// Lists and structs of small values, with `most` pads at most before each: from none if `least` is 0.
fn with_pads(size: usize, seed: u64, least: usize, most: usize) -> Vec<u8> {
    stream(size, seed, |map, dice| {
        let is_struct = dice.from_to(0, 1) == 1;
        let mut body = Bytes::new();
        for _ in 0..400 {
            for _ in 0..dice.from_to(least, most) {
                if is_struct {
                    body.var_uint(dice.from_to(0, 9));
                }
                body.pad(dice.from_to(1, 20));
            }
            if is_struct {
                body.var_uint(dice.from_to(4, 400));
            }
            body.small(dice);
        }
        map.container(if is_struct { STRUCT } else { LIST }, &body);
    })
}

pub fn padded(size: usize) -> Vec<u8> {
    with_pads(size, 4, 1, 6)
}

/// Exactly `pads` pads before each value.
pub fn with_exactly(size: usize, pads: usize) -> Vec<u8> {
    with_pads(size, 5, pads, pads)
}

/// Lists of structs of 4 to 12 small fields, nine in ten of which open with a pad.
pub fn opened(size: usize) -> Vec<u8> {
    stream(size, 9, |map, dice| {
        let mut list = Bytes::new();
        for _ in 0..100 {
            let mut fields = Bytes::new();
            if dice.from_to(0, 9) != 0 {
                fields.var_uint(dice.from_to(0, 9));
                fields.pad(dice.from_to(1, 20));
            }
            for _ in 0..dice.from_to(4, 12) {
                fields.var_uint(dice.from_to(4, 400));
                fields.small(dice);
            }
            list.container(STRUCT, &fields);
        }
        map.container(LIST, &list);
    })
}

/// Containers in containers, `depth` of them, each with four small values before the next.
fn nest(dice: &mut Dice, depth: usize, in_struct: bool) -> Bytes {
    let type_code = [LIST, SEXP, STRUCT][depth % 3];
    let is_struct = type_code == STRUCT;
    let mut body = Bytes::new();
    for _ in 0..4 {
        if is_struct {
            body.var_uint(dice.from_to(4, 400));
        }
        body.small(dice);
    }
    if depth > 1 {
        body.0
            .extend_from_slice(&nest(dice, depth - 1, is_struct).0);
    }
    let mut value = Bytes::new();
    if in_struct {
        value.var_uint(dice.from_to(4, 400));
    }
    value.container(type_code, &body);
    value
}

/// Nested 1 to 32 levels deep.
pub fn nested(size: usize) -> Vec<u8> {
    stream(size, 6, |map, dice| {
        let depth = dice.from_to(1, 32);
        let value = nest(dice, depth, false);
        map.0.extend_from_slice(&value.0);
    })
}

/// Nested exactly `depth` levels deep.
pub fn nested_exactly(size: usize, depth: usize) -> Vec<u8> {
    stream(size, 7, |map, dice| {
        let value = nest(dice, depth, false);
        map.0.extend_from_slice(&value.0);
    })
}

/// One list of `count` blobs of `length` bytes, a hundredth more or less.
pub fn blobs(count: usize, length: usize) -> Vec<u8> {
    let mut dice = Dice::new(8);
    let mut list = Bytes::new();
    for _ in 0..count {
        let most = length / 100;
        let size = length - most + dice.from_to(0, 2 * most);
        list.filled(10, size);
    }
    let mut map = Bytes(vec![0xE0, 1, 0, 0xEA]);
    map.container(LIST, &list);
    map.0
}
