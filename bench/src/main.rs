//! Measures our reader beside the Rust's reader and two C loops, on the same maps in the same run.

mod checks;
mod maps;
mod packs;
mod readers;
mod texts;

use readers::{Met, Reader, Room, ALL};
use std::hint::black_box;
use std::time::{Duration, Instant};

const MEGABYTE: usize = 1 << 20;

/// A single measurement goes through the map as often as it takes to last this long.
const LEAST: Duration = Duration::from_millis(3);

/// The best of the measurements of one reader, in nanoseconds an item.
#[derive(Clone, Copy)]
struct Measured {
    reader: Reader,
    best: f64,
}

/// How far the measurements lay apart: the middle one over the best, less 1, of all that were made.
struct Noise(Vec<f64>);

impl Noise {
    fn print(&mut self) {
        self.0.sort_by(f64::total_cmp);
        let at = |part: f64| 100.0 * self.0[((self.0.len() - 1) as f64 * part) as usize];
        println!(
            "Noise: over {} measured pairs of map and reader, the middle round was slower than the best by {:.0} % \
             in the middle, by {:.0} % in nine of ten, by {:.0} % at most.",
            self.0.len(),
            at(0.5),
            at(0.9),
            at(1.0)
        );
    }
}

/// Every reader must meet the same items; returned is their number.
fn agreed(name: &str, map: &[u8], readers: &[Reader]) -> u64 {
    let mut room = Room::new();
    let wanted = Reader::Rust.read(map, &mut room);
    for reader in readers {
        let Met { items, ends } = reader.read(map, &mut room);
        let same = items == wanted.items && (ends.is_none() || ends == wanted.ends);
        if !same {
            eprintln!(
                "{name}: {} meets {items} items, ends {ends:?}; the Rust {wanted:?}",
                reader.name()
            );
            std::process::exit(1);
        }
    }
    wanted.items
}

/// A map, its name in the table, and how many items it has.
struct Row {
    name: String,
    map: Vec<u8>,
    items: u64,
}

impl Row {
    fn new(name: String, map: Vec<u8>, readers: &[Reader]) -> Self {
        let items = agreed(&name, &map, readers);
        Row { name, map, items }
    }
}

/// How often a reader goes through a map in one measurement.
fn passes(reader: Reader, map: &[u8]) -> u32 {
    let mut passes = 1;
    loop {
        let took = time(reader, map, passes);
        if took >= LEAST || passes >= 1 << 20 {
            return passes;
        }
        let short = LEAST.as_secs_f64() / took.as_secs_f64().max(1e-7);
        passes = (f64::from(passes) * short.clamp(1.5, 100.0)).ceil() as u32;
    }
}

/// Measures each reader on each map `rounds` times. A round goes through all maps and readers, so that the
/// measurements of one pair lie far apart and what else the machine does can't meet all of them.
fn measure(
    rows: &[Row],
    readers: &[Reader],
    rounds: usize,
    noise: &mut Noise,
) -> Vec<Vec<Measured>> {
    let often: Vec<Vec<u32>> = rows
        .iter()
        .map(|row| readers.iter().map(|one| passes(*one, &row.map)).collect())
        .collect();
    let mut found = vec![vec![Vec::new(); readers.len()]; rows.len()];
    for _ in 0..rounds {
        for (r, row) in rows.iter().enumerate() {
            for (i, reader) in readers.iter().enumerate() {
                let took = time(*reader, &row.map, often[r][i]).as_secs_f64() * 1e9;
                found[r][i].push(took / f64::from(often[r][i]) / row.items as f64);
            }
        }
    }
    let mut best_of = |reader: Reader, mut times: Vec<f64>| {
        times.sort_by(f64::total_cmp);
        let (best, middle) = (times[0], times[times.len() / 2]);
        noise.0.push(middle / best - 1.0);
        Measured { reader, best }
    };
    found
        .into_iter()
        .map(|row| {
            let pairs = readers.iter().zip(row);
            pairs
                .map(|(reader, times)| best_of(*reader, times))
                .collect()
        })
        .collect()
}

fn time(reader: Reader, map: &[u8], passes: u32) -> Duration {
    let mut room = Room::new();
    reader.read(map, &mut room);
    let from = Instant::now();
    for _ in 0..passes {
        black_box(reader.read(black_box(map), &mut room));
    }
    from.elapsed()
}

fn best(measured: &[Measured], reader: Reader) -> f64 {
    let found = measured.iter().find(|one| one.reader == reader);
    found.expect("it was measured").best
}

fn is_ours(reader: Reader) -> bool {
    use Reader::*;
    matches!(
        reader,
        Steps16 | Steps1024 | Step | Walk | CrateItems | CrateWalk
    )
}

type Made = (&'static str, fn(usize) -> Vec<u8>);

const KINDS: [Made; 6] = [
    ("terrain", maps::terrain),
    ("symbols", maps::symbols),
    ("annotated", maps::annotated),
    ("padded", maps::padded),
    ("opened", maps::opened),
    ("nested", maps::nested),
];

/// The readers of the tables that show how the cost grows.
const GROWING: [Reader; 5] = [
    Reader::Steps1024,
    Reader::Step,
    Reader::Walk,
    Reader::Rust,
    Reader::Skip,
];

fn kinds(size: usize, rounds: usize, noise: &mut Noise) {
    let rows = KINDS.map(|(name, make)| Row::new(name.to_string(), make(size), ALL));
    println!("| Map | Reader | ns an item | million items a second | times the Rust's speed | times C skip's | times C records' |");
    println!("|---|---|---|---|---|---|---|");
    for (row, measured) in rows.iter().zip(measure(&rows, ALL, rounds, noise)) {
        for one in &measured {
            let against = |other: Reader| match is_ours(one.reader) {
                true => format!("{:.2}", best(&measured, other) / one.best),
                false => String::new(),
            };
            println!(
                "| {} | {} | {:.1} | {:.1} | {} | {} | {} |",
                row.name,
                one.reader.name(),
                one.best,
                1e3 / one.best,
                against(Reader::Rust),
                against(Reader::Skip),
                against(Reader::SkipRecords)
            );
        }
    }
    println!();
    println!("| Map | Bytes | Items | Bytes an item |");
    println!("|---|---|---|---|");
    for Row { name, map, items } in rows {
        let share = map.len() as f64 / items as f64;
        println!("| {name} | {} | {items} | {share:.1} |", map.len());
    }
    println!();
}

/// A table with a row for each map, the nanoseconds an item of each reader in the columns.
fn grow(what: &str, maps: Vec<(String, Vec<u8>)>, rounds: usize, noise: &mut Noise) {
    let rows: Vec<Row> = maps
        .into_iter()
        .map(|(name, map)| Row::new(name, map, &GROWING))
        .collect();
    let names: Vec<&str> = GROWING.iter().map(|reader| reader.name()).collect();
    println!("| {what} | Items | {} |", names.join(" | "));
    println!("|---|---{}|", "|---".repeat(names.len()));
    for (row, measured) in rows.iter().zip(measure(&rows, &GROWING, rounds, noise)) {
        let shown: Vec<String> = measured
            .iter()
            .map(|one| format!("{:.1}", one.best))
            .collect();
        println!("| {} | {} | {} |", row.name, row.items, shown.join(" | "));
    }
    println!();
}

fn machine() -> String {
    let text = std::fs::read_to_string("/proc/cpuinfo").unwrap_or_default();
    let model = text
        .lines()
        .find_map(|line| line.strip_prefix("model name"))
        .map_or("unknown", |rest| rest.trim_start_matches([' ', '\t', ':']));
    let processors = text.lines().filter(|line| line.starts_with("processor"));
    format!("{model}, {} processors", processors.count())
}

fn once(kind: &str, reader: &str) {
    let (_, make) = KINDS
        .into_iter()
        .find(|(name, _)| *name == kind)
        .expect("the map is terrain, symbols, annotated, padded, opened or nested");
    let reader = *ALL
        .iter()
        .find(|one| one.name() == reader)
        .expect("the reader is named as in the table");
    let map = make(MEGABYTE);
    println!(
        "{:?} on {} bytes",
        reader.read(&map, &mut Room::new()),
        map.len()
    );
}

fn main() {
    let mut arguments: Vec<String> = std::env::args().skip(1).collect();
    if arguments == ["--checks"] {
        return check_all(15);
    }
    if arguments == ["--packs"] {
        return pack_all(15);
    }
    if arguments == ["--texts"] {
        return texts::print(15);
    }
    if let [flag, kind, reader] = &arguments[..] {
        assert!(flag == "--once", "usage: bench/run --once MAP READER");
        return once(kind, reader);
    }
    let short = arguments.first().is_some_and(|word| word == "--short");
    if short {
        arguments.remove(0);
    }
    let rounds = match arguments.first() {
        Some(word) => word.parse().expect("ROUNDS is a number"),
        None => 15,
    };
    assert!(rounds >= 5, "the best of at least 5");
    let mut noise = Noise(Vec::new());
    println!("Machine: {}. Best of {rounds} rounds.", machine());
    println!();
    kinds(16 * MEGABYTE, rounds, &mut noise);
    if !short {
        grow_all(rounds, &mut noise);
        check_all(rounds);
        pack_all(rounds);
        texts::print(rounds);
    }
    noise.print();
}

fn check_all(rounds: usize) {
    let made = KINDS.map(|(name, make)| (name.to_string(), make(4 * MEGABYTE)));
    checks::print(&made, rounds);
}

fn pack_all(rounds: usize) {
    let mut made: Vec<(String, Vec<u8>)> = Vec::new();
    for (name, make) in KINDS {
        made.push((name.to_string(), make(4 * MEGABYTE)));
    }
    for depth in [1, 2, 4, 8, 16, 31] {
        let map = maps::nested_exactly(4 * MEGABYTE, depth);
        made.push((format!("nested, depth {depth}"), map));
    }
    packs::print(&made, rounds);
}

fn grow_all(rounds: usize, noise: &mut Noise) {
    for (name, make) in [KINDS[1], KINDS[0]] {
        let sized = |size: usize| (format!("{name}, {size} MB"), make(size * MEGABYTE));
        grow("Map size", [1, 4, 16, 64].map(sized).into(), rounds, noise);
    }
    let deep = |depth: usize| (depth.to_string(), maps::nested_exactly(MEGABYTE, depth));
    grow(
        "Depth",
        [1, 2, 4, 8, 16, 24, 32].map(deep).into(),
        rounds,
        noise,
    );
    let with = |pads: usize| (pads.to_string(), maps::with_exactly(MEGABYTE, pads));
    grow(
        "Pads before each value",
        [0, 1, 2, 4, 8, 16, 64].map(with).into(),
        rounds,
        noise,
    );
    let long = |length: usize| (length.to_string(), maps::blobs(64, length));
    let lengths = [10, 100, 1_000, 10_000, 100_000, 1_000_000];
    grow(
        "Bytes of each blob",
        lengths.map(long).into(),
        rounds,
        noise,
    );
}
