//! Makes questions. The same arguments always make the same questions.
//!
//! `generate SEED COUNT [KIND..]`: COUNT questions of the kinds named, or of all of them: numbers,
//! frames, steps, scalars, decimals, timestamps, walks, checks, and short (every short string in order).
//! `generate list NAME`: the questions of the stored list of that name: edges by hand, then some
//! made with a fixed seed.

mod lists;
mod maps;

use maps::*;
use std::collections::HashSet;
use std::fmt::Write as _;
use std::io::Write as _;

// ===== Questions =====

#[derive(Clone, Copy, PartialEq)]
enum Kind {
    Numbers,
    Frames,
    Steps,
    Scalars,
    Decimals,
    Timestamps,
    Walks,
    Checks,
    Short,
}

const KINDS: &[(&str, Kind)] = &[
    ("numbers", Kind::Numbers),
    ("frames", Kind::Frames),
    ("steps", Kind::Steps),
    ("scalars", Kind::Scalars),
    ("decimals", Kind::Decimals),
    ("timestamps", Kind::Timestamps),
    ("walks", Kind::Walks),
    ("checks", Kind::Checks),
    ("short", Kind::Short),
];

struct Questions {
    random: Random,
    limits: Limits,
    short: usize,
    lines: Vec<String>,
}

impl Questions {
    fn new(seed: u64, limits: Limits) -> Self {
        Questions {
            random: Random(seed),
            limits,
            short: 0,
            lines: Vec::new(),
        }
    }

    fn ask(&mut self, kind: &str, bytes: &[u8], numbers: &[usize]) {
        let mut line = format!("{kind} {}", hex(bytes));
        for number in numbers {
            write!(line, " {number}").unwrap();
        }
        self.lines.push(line);
    }

    fn whole(&mut self, kind: &str, bytes: &[u8]) {
        self.ask(kind, bytes, &[0, bytes.len()]);
    }

    fn whole_with(&mut self, kind: &str, bytes: &[u8], last: usize) {
        self.ask(kind, bytes, &[0, bytes.len(), last]);
    }

    fn map(&mut self) -> Map {
        self.random.any(self.limits)
    }

    fn rare(&mut self) -> Map {
        self.random.rare()
    }

    fn part(&mut self, length: usize) -> (usize, usize) {
        self.random.part(length)
    }

    fn near(&mut self, positions: &[usize], length: usize) -> usize {
        if positions.is_empty() || self.random.one_in(6) {
            self.random.below(length + 1)
        } else {
            self.random.pick(positions)
        }
    }

    fn numbers(&mut self) {
        let random = &mut self.random;
        let count = match random.below(5) {
            0 => random.from_to(8, 11),
            1 => random.below(18),
            _ => random.from_to(1, 4),
        };
        let mut bytes: Vec<u8> = match random.below(4) {
            0 => random.bytes(count),
            1 => (0..count).map(|_| random.pick(INTERESTING)).collect(),
            2 => (0..count)
                .map(|_| random.pick(&[0, 1, 0x40, 0x7F]))
                .collect(),
            _ => (0..count).map(|_| random.next() as u8 & 0x7F).collect(),
        };
        if let Some(last) = bytes.last_mut() {
            if !random.one_in(6) {
                *last |= 0x80;
            }
        }
        let (at, end) = self.part(bytes.len());
        match self.random.below(5) {
            0 | 1 => self.ask("varuint", &bytes, &[at, end]),
            2 | 3 => self.ask("varint", &bytes, &[at, end]),
            _ => {
                let left = end.saturating_sub(at).min(17);
                let length = match self.random.below(8) {
                    0 => self.random.below(20),
                    1 => usize::MAX,
                    _ => self.random.below(left + 1),
                };
                self.ask("int", &bytes, &[at, end, length]);
            }
        }
    }

    fn frames(&mut self) {
        let map = if self.random.one_in(40) {
            self.rare()
        } else {
            self.map()
        };
        let bytes = &map.bytes;
        let (at, mut end) = self.part(bytes.len());
        if end < at || end > bytes.len() {
            return self.ask("length", bytes, &[at, end]);
        }
        if self.random.one_in(4) {
            end = bytes.len();
        }
        let (kind, positions) = match self.random.below(5) {
            0 => ("pad", &map.pads),
            1 => ("wrapper", &map.wrappers),
            2 => ("length", &map.values),
            _ => ("sequence", &map.values),
        };
        // A pad or a wrapper is asked for only where one begins.
        let is_there = |at: usize| match (kind, bytes.get(at)) {
            ("pad", Some(byte)) => *byte < 0x0F,
            ("wrapper", Some(byte)) => *byte > 0xE0 && *byte < 0xF0,
            _ => true,
        };
        let at = self.near(positions, bytes.len());
        let end = end.max(at).min(bytes.len());
        match kind {
            "sequence" => self.ask("sequence", bytes, &[at.min(end), end, 1]),
            _ if at <= end && is_there(at) => self.ask(kind, bytes, &[at, end]),
            _ => self.ask("length", bytes, &[at.min(end), end]),
        }
    }

    fn steps(&mut self) {
        let map = if self.random.one_in(80) {
            self.rare()
        } else {
            self.map()
        };
        let bytes = &map.bytes;
        let count = self.random.from_to(1, 5);
        if !map.sequences.is_empty() && self.random.one_in(3) {
            let (start, end) = self.random.pick(&map.sequences);
            let end = end.min(bytes.len());
            let start = if self.random.one_in(5) { 0 } else { start };
            return self.ask("annotations", bytes, &[start, end, count]);
        }
        if !map.bodies.is_empty() && self.random.one_in(2) {
            let (start, end, is_struct) = self.random.pick(&map.bodies);
            let kind = if is_struct { "struct" } else { "sequence" };
            return self.ask(kind, bytes, &[start, end, count]);
        }
        let (at, end) = self.part(bytes.len());
        let kind = self.random.pick(&[
            "stream",
            "stream",
            "stream",
            "sequence",
            "struct",
            "annotations",
        ]);
        self.ask(kind, bytes, &[at, end, count]);
    }

    fn scalars(&mut self) {
        let mut map = if self.random.one_in(3) {
            let limits = Limits {
                depth: 1,
                body: 20,
                ..self.limits
            };
            let random = &mut self.random;
            let type_code = random.from_to(1, 10) as u8;
            let bytes = match (type_code, random.below(2)) {
                (8, _) => {
                    let texts = format!("{GOOD_TEXTS} {BAD_TEXTS}");
                    let text = joined(&[&random.word(&texts), &random.word(&texts)]);
                    random
                        .framed(
                            8,
                            &Map {
                                bytes: text,
                                ..Map::default()
                            },
                            false,
                        )
                        .bytes
                }
                (7, 0) => joined(&[&[0x79], &random.bytes(9)]),
                (1, _) => vec![0x10 | random.below(16) as u8],
                (4, _) => random.plain(Limits { depth: 0, ..limits }).bytes,
                _ => {
                    let body = random.scalar_body(type_code, limits);
                    random
                        .framed(
                            type_code,
                            &Map {
                                bytes: body,
                                ..Map::default()
                            },
                            false,
                        )
                        .bytes
                }
            };
            Map {
                bytes,
                values: vec![0],
                ..Map::default()
            }
        } else {
            self.map()
        };
        if self.random.one_in(8) {
            self.random.damage(&mut map.bytes);
        }
        let length = map.bytes.len();
        let (at, end) = self.part(length);
        let position = match self.random.below(20) {
            0 => end,
            1 => self.random.below(length + 2),
            2 => self.near(&map.pads, length),
            _ => self.near(&map.values, length),
        };
        let kind = if self.random.one_in(3) {
            "stepin"
        } else {
            "scalar"
        };
        let at = if self.random.one_in(3) || at > end {
            at
        } else {
            at.min(position)
        };
        self.ask(kind, &map.bytes, &[at, end, position]);
    }

    fn decimals(&mut self) {
        let body = self.random.decimal_body();
        self.body("decimal", body);
    }

    fn timestamps(&mut self) {
        let body = self.random.timestamp_body();
        self.body("instant", body);
    }

    /// A body, whole or with something missing, among other bytes.
    fn body(&mut self, kind: &str, body: Vec<u8>) {
        let random = &mut self.random;
        let (before, behind) = (random.below(3), random.below(3));
        let bytes = joined(&[&random.bytes(before), &body, &random.bytes(behind)]);
        let (at, end) = match random.below(6) {
            0 => random.part(bytes.len()),
            1 => (before, before + random.below(body.len() + 1)),
            _ => (before, before + body.len()),
        };
        self.ask(kind, &bytes, &[at, end]);
    }

    fn walks(&mut self) {
        let map = if self.random.one_in(60) {
            self.rare()
        } else {
            self.map()
        };
        let (at, end) = self.part(map.bytes.len());
        self.ask("walk", &map.bytes, &[at, end]);
    }

    fn checks(&mut self) {
        let mut map = match self.random.below(60) {
            0 => self.rare(),
            _ => self.map(),
        };
        if self.random.one_in(4) {
            self.random.damage(&mut map.bytes);
        }
        self.ask("check", &map.bytes, &[]);
    }

    /// The next question of the enumeration of short strings: every string of 0 to 2 bytes, then
    /// those of 3 interesting ones, each asked as a stream, a sequence, a struct and a walk.
    fn short(&mut self) {
        let kinds = ["stream", "struct", "sequence", "walk"];
        let kind = kinds[self.short % kinds.len()];
        let mut index = self.short / kinds.len();
        self.short += 1;
        let bytes = if index == 0 {
            vec![]
        } else if index <= 256 {
            vec![(index - 1) as u8]
        } else if index <= 256 + 65536 {
            index -= 257;
            vec![(index >> 8) as u8, index as u8]
        } else {
            index -= 257 + 65536;
            let count = INTERESTING.len();
            let digits = [
                index / count / count % count,
                index / count % count,
                index % count,
            ];
            digits.iter().map(|digit| INTERESTING[*digit]).collect()
        };
        match kind {
            "walk" => self.whole(kind, &bytes),
            _ => self.whole_with(kind, &bytes, 3),
        }
    }

    fn one(&mut self, kind: Kind) {
        match kind {
            Kind::Numbers => self.numbers(),
            Kind::Frames => self.frames(),
            Kind::Steps => self.steps(),
            Kind::Scalars => self.scalars(),
            Kind::Decimals => self.decimals(),
            Kind::Timestamps => self.timestamps(),
            Kind::Walks => self.walks(),
            Kind::Checks => self.checks(),
            Kind::Short => self.short(),
        }
    }

    /// Adds made questions until the list has `count` lines, none twice and none too long to read.
    fn fill(&mut self, kind: Kind, count: usize, longest: usize) {
        let mut seen = HashSet::new();
        self.lines.retain(|line| seen.insert(line.clone()));
        while self.lines.len() < count {
            self.one(kind);
            let line = self.lines.last().unwrap();
            if line.len() > longest || !seen.insert(line.clone()) {
                self.lines.pop();
            }
        }
    }
}

fn main() {
    let arguments: Vec<String> = std::env::args().skip(1).collect();
    let words: Vec<&str> = arguments.iter().map(String::as_str).collect();
    let mut out = std::io::BufWriter::with_capacity(1 << 20, std::io::stdout().lock());
    match words[..] {
        ["list", name] => {
            let mut q = Questions::new(1, SMALL);
            match name {
                "numbers" => lists::numbers(&mut q),
                "frames" => lists::frames(&mut q),
                "steps" => lists::steps(&mut q),
                "scalars" => lists::scalars(&mut q),
                "decimals" => lists::decimals(&mut q),
                "timestamps" => lists::timestamps(&mut q),
                "walks" => lists::walks(&mut q),
                "checks" => lists::checks(&mut q),
                _ => usage(),
            }
            let mut seen = HashSet::new();
            for line in &q.lines {
                if seen.insert(line) {
                    writeln!(out, "{line}").unwrap();
                }
            }
        }
        [seed, count, ref names @ ..] => {
            let (Ok(seed), Ok(count)) = (seed.parse::<u64>(), count.parse::<usize>()) else {
                usage()
            };
            let mut kinds: Vec<Kind> = names
                .iter()
                .map(|name| {
                    KINDS
                        .iter()
                        .find(|(known, _)| known == name)
                        .unwrap_or_else(|| usage())
                        .1
                })
                .collect();
            if kinds.is_empty() {
                kinds = KINDS.iter().map(|(_, kind)| *kind).collect();
                // Three times, so that a million questions hold every string of up to two bytes.
                kinds.extend([Kind::Short; 2]);
            }
            let mut q = Questions::new(seed, LARGE);
            for number in 0..count {
                q.limits = if q.random.one_in(3) { LARGE } else { SMALL };
                q.one(kinds[number % kinds.len()]);
                for line in q.lines.drain(..) {
                    writeln!(out, "{line}").unwrap();
                }
            }
        }
        _ => usage(),
    }
}

fn usage() -> ! {
    eprintln!("usage: generate SEED COUNT [KIND..] or generate list NAME");
    eprintln!("kinds: numbers frames steps scalars decimals timestamps walks short; names: all but the last");
    std::process::exit(2)
}
