//! Measures the lookup of a symbol's text, by the place's distance and the table's size.

use std::hint::black_box;
use std::time::{Duration, Instant};

mod c {
    extern "C" {
        pub fn ion_map_text(
            map: *const u8,
            length: usize,
            system: *const u8,
            system_length: usize,
            start: usize,
            end: usize,
            place: usize,
            id: usize,
            annotations: usize,
            out: *mut u8,
            room: usize,
        ) -> u64;
        pub fn ion_map_symbols(
            map: *const u8,
            length: usize,
            system: *const u8,
            system_length: usize,
            start: usize,
            end: usize,
            place: usize,
            annotations: usize,
            out: *mut u8,
            room: usize,
        ) -> u64;
        pub fn ion_map_symbol_text(
            map: *const u8,
            length: usize,
            system: *const u8,
            system_length: usize,
            start: usize,
            end: usize,
            id: usize,
            annotations: usize,
            out: *mut u8,
            room: usize,
        ) -> u64;
    }
}

const SYSTEM: &[u8] =
    b"$ion$ion_1_0$ion_symbol_tablenameversionimportssymbolsmax_id$ion_shared_symbol_table";
const FIRST_OWN: usize = 10;
const LIMIT: usize = 255;

/// A single measurement lasts at least this long.
const LEAST: Duration = Duration::from_millis(2);

/// A marker, a table with `entries` texts of eight bytes, and `items` structs of three fields; the place is their end.
struct Case {
    map: Vec<u8>,
    entries: usize,
}

fn sized(code: u8, body: &[u8]) -> Vec<u8> {
    let length = body.len() as u32;
    let digits = [
        length >> 21 & 127,
        length >> 14 & 127,
        length >> 7 & 127,
        length & 127 | 128,
    ];
    let mut value = vec![code << 4 | 14];
    value.extend(digits.map(|digit| digit as u8));
    value.extend(body);
    value
}

impl Case {
    fn new(entries: usize, items: usize) -> Self {
        let text = |number: usize| format!("{number:08}").into_bytes();
        let list: Vec<u8> = (0..entries)
            .flat_map(|number| [vec![0x88], text(number)].concat())
            .collect();
        let table = [vec![0x87], sized(11, &list)].concat();
        let wrapped = [vec![0x81, 0x83], sized(13, &table)].concat();
        let mut map = vec![0xE0, 1, 0, 0xEA];
        map.extend(sized(14, &wrapped));
        for _ in 0..items {
            map.extend([0xD7, 0x8A, 0x21, 7, 0x8B, 0x20, 0x8C, 0x11]);
        }
        Case { map, entries }
    }

    fn words(out: &[u8; 72]) -> [u64; 9] {
        let mut words = [0; 9];
        for (word, bytes) in words.iter_mut().zip(out.chunks_exact(8)) {
            *word = u64::from_le_bytes(bytes.try_into().expect("eight bytes"));
        }
        words
    }

    fn text(&self, id: usize) -> [u64; 9] {
        let (map, mut out) = (&self.map, [0; 72]);
        let (end, system) = (map.len(), SYSTEM);
        // Both slices and the buffer are lent for their own lengths, and nothing is kept.
        let refused = unsafe {
            c::ion_map_text(
                map.as_ptr(),
                end,
                system.as_ptr(),
                system.len(),
                0,
                end,
                end,
                id,
                LIMIT,
                out.as_mut_ptr(),
                out.len(),
            )
        };
        assert_eq!(refused, 0);
        Self::words(&out)
    }

    fn symbols(&self) -> [u64; 9] {
        let (map, mut out) = (&self.map, [0; 72]);
        let (end, system) = (map.len(), SYSTEM);
        let refused = unsafe {
            c::ion_map_symbols(
                map.as_ptr(),
                end,
                system.as_ptr(),
                system.len(),
                0,
                end,
                end,
                LIMIT,
                out.as_mut_ptr(),
                out.len(),
            )
        };
        assert_eq!(refused, 0);
        Self::words(&out)
    }

    fn listed(&self, start: usize, end: usize, id: usize) -> [u64; 9] {
        let (map, mut out) = (&self.map, [0; 72]);
        let system = SYSTEM;
        let refused = unsafe {
            c::ion_map_symbol_text(
                map.as_ptr(),
                map.len(),
                system.as_ptr(),
                system.len(),
                start,
                end,
                id,
                LIMIT,
                out.as_mut_ptr(),
                out.len(),
            )
        };
        assert_eq!(refused, 0);
        Self::words(&out)
    }
}

/// Nanoseconds a call, the best of the rounds.
fn best(rounds: usize, mut call: impl FnMut() -> [u64; 9]) -> f64 {
    let mut passes = 1u32;
    let mut least = f64::MAX;
    let mut left = rounds;
    while left > 0 {
        let from = Instant::now();
        for _ in 0..passes {
            black_box(call());
        }
        let took = from.elapsed();
        if took < LEAST && passes < 1 << 20 {
            passes *= 2;
            continue;
        }
        least = least.min(took.as_secs_f64() * 1e9 / f64::from(passes));
        left -= 1;
    }
    least
}

/// A row for each table's size and each distance; before it is timed, every answer must be the text asked for.
pub fn print(rounds: usize) {
    println!("| Entries of the table | Items behind it | ID 4 | first own ID | last own ID | the list | last own ID under the list |");
    println!("|---|---|---|---|---|---|---|");
    for entries in [10, 100, 1000, 10000] {
        for items in [0, 100, 10000] {
            let case = Case::new(entries, items);
            let last = FIRST_OWN + case.entries - 1;
            let [kind, is_listed, .., length] = case.symbols();
            assert_eq!((kind, is_listed, length), (19, 1, 9 * entries as u64));
            let [.., start, end, _, _] = case.symbols();
            let (start, end) = (start as usize, end as usize);
            for id in [FIRST_OWN, last] {
                let answer = case.text(id);
                assert_eq!(answer, case.listed(start, end, id));
                let text = &case.map[answer[5] as usize..answer[6] as usize];
                assert_eq!(text, format!("{:08}", id - FIRST_OWN).as_bytes());
            }
            let columns = [
                best(rounds, || case.text(4)),
                best(rounds, || case.text(FIRST_OWN)),
                best(rounds, || case.text(last)),
                best(rounds, || case.symbols()),
                best(rounds, || case.listed(start, end, last)),
            ];
            let shown = columns.map(|nanoseconds| format!("{nanoseconds:.0}"));
            println!("| {entries} | {items} | {} |", shown.join(" | "));
        }
    }
    println!();
}
