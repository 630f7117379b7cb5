//! All names of a map in one walk, as the example has them, are those that are asked for one by one.

mod common;

#[allow(dead_code)] // its `main`
#[path = "../examples/names.rs"]
mod names;

use common::short;
use ion_map::{items, symbol_text, Part, Refusal};

/// Where the top-level item with this position begins: the last one that does before it.
fn place(map: &[u8], position: usize) -> usize {
    let tops = items(map, Part::stream(map)).map_while(|item| Some(item.ok()?.span().start));
    tops.take_while(|start| *start <= position).last().unwrap()
}

/// How many IDs there were, or the refusal.
fn compare(map: &[u8]) -> Result<usize, Refusal> {
    let mut count = 0;
    names::names(map, |position, id, text| {
        count += 1;
        assert_eq!(
            Ok(text),
            symbol_text(map, place(map, position), id),
            "{id} at {position}"
        );
    })?;
    Ok(count)
}

#[test]
fn of_stored_maps() {
    let counts: Vec<_> = short().iter().filter_map(|stored| compare(&stored.map).ok()).collect();
    assert!(counts.len() >= 10, "{counts:?}");
    assert!(counts.iter().sum::<usize>() >= 100, "{counts:?}");
}

/// Tables one after the other, of which the last rules, a marker behind which none does, entries without a text, structs
/// that are no table.
#[test]
fn of_tables_in_turn() {
    let map = [
        &[0x71, 0x0A, 0xE9, 0x81, 0x83, 0xD6, 0x87, 0xB4, 0x81, b'a', 0x81, b'b'][..],
        &[0x71, 0x0A, 0x71, 0x0B, 0x71, 0x0C],
        &[
            0xE9, 0x81, 0x83, 0xD6, 0x87, 0xB4, 0x20, 0x8F, 0x81, b'c', 0x71, 0x0A, 0x71, 0x0C,
        ],
        &[0xB9, 0xE8, 0x81, 0x83, 0xD5, 0x87, 0xB3, 0x82, b'd', b'e', 0x71, 0x0C],
        &[0xE3, 0x81, 0x83, 0xDF, 0x71, 0x0C],
        &[0xE0, 0x01, 0x00, 0xEA, 0x71, 0x0C, 0x71, 0x00, 0x71, 0x04],
        &[0xE3, 0x81, 0x83, 0xD0, 0x71, 0x0A],
    ]
    .concat();
    assert_eq!(compare(&map).map(|count| count > 15), Ok(true));
}
