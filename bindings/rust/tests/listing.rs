//! The walk of every stored map beside what `mapspans` prints of it.

mod common;

use common::{files, stored};
use ion_map::{items, step, walk, walked, Item, Part, Refusal};

/// What `mapspans` takes; the walk itself takes a map of any length.
const MOST_INPUT: usize = 65536;

fn line(depth: usize, item: &Item) -> String {
    match item {
        Item::Marker(marker) => {
            let (start, end) = (marker.span.start, marker.span.end);
            format!("{depth} marker {start} {start} {end} {end}")
        }
        Item::Value(value) | Item::Field { value, .. } => format!(
            "{depth} {} {} {} {} {}",
            value.ion_type,
            value.start,
            value.descriptor(),
            value.body.start,
            value.body.end
        ),
        other => panic!("the walk handed out {other:?}"),
    }
}

fn refused(refusal: Refusal) -> String {
    format!("refused {} {}", refusal.number, refusal.position)
}

fn listing(map: &[u8]) -> Vec<String> {
    if map.len() > MOST_INPUT {
        return vec![refused(Refusal {
            number: Refusal::INPUT_TOO_LONG,
            position: MOST_INPUT,
        })];
    }
    let mut lines = Vec::new();
    let mut walk = walk(map);
    for met in walk.by_ref() {
        match met {
            Ok((depth, item)) => lines.push(line(depth, &item)),
            Err(refusal) => {
                lines.push(refused(refusal));
                return lines;
            }
        }
    }
    lines.push(format!("end {}", walk.position()));
    lines
}

#[test]
fn every_stored_map_has_a_listing() {
    let mut listed: Vec<String> = stored().into_iter().map(|stored| stored.name).collect();
    listed.sort();
    assert_eq!(listed, files());
    assert_eq!(listed.len(), 81);
}

#[test]
fn the_walk_of_every_stored_map_is_its_listing() {
    for stored in stored() {
        let listing = listing(&stored.map);
        for (i, (line, expected)) in listing.iter().zip(&stored.listing).enumerate() {
            assert_eq!(line, expected, "{}, line {}", stored.name, i + 1);
        }
        assert_eq!(listing.len(), stored.listing.len(), "{}", stored.name);
    }
}

#[test]
fn walked_counts_what_the_walk_hands_out() {
    for stored in stored() {
        let count = walk(&stored.map).filter(Result::is_ok).count() as u64;
        assert_eq!(walked(&stored.map, u64::MAX), count, "{}", stored.name);
        assert_eq!(walked(&stored.map, 2), count.min(2), "{}", stored.name);
    }
}

/// Many steps a call and one step a call are the same run.
#[test]
fn items_are_single_steps() {
    for stored in stored() {
        let stream = Part::stream(&stored.map);
        let mut items = items(&stored.map, stream);
        loop {
            let single = step(&stored.map, stream, items.position());
            match items.next() {
                Some(item) => assert_eq!(item, single, "{}", stored.name),
                None => break,
            }
        }
        assert_eq!(items.next(), None, "{}", stored.name);
    }
}

/// After the end and after a refusal there is nothing more.
#[test]
fn the_walk_is_fused() {
    for stored in stored() {
        let mut walk = walk(&stored.map);
        let met: Vec<_> = walk.by_ref().collect();
        assert!(met.iter().rev().skip(1).all(Result::is_ok), "{}", stored.name);
        assert!(walk.next().is_none() && walk.next().is_none(), "{}", stored.name);
    }
}
