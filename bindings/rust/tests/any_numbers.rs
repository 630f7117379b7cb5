//! Any positions and any bytes: an answer or a refusal, and never a panic.

mod common;

use common::short;
use ion_map::{
    annotation, annotations, decimal, int, items, items_bounded, raw, scalar, step, step_bounded, step_in, symbol_text,
    timestamp, var_int, var_uint, walk, walked, Bounded, Limits, Part, PartKind, Refusal, Scalar, Symbols, TimestampOr,
    SYSTEM_TEXT,
};
use raw::RECORD_SIZE;
use std::ops::Range;

const KINDS: [PartKind; 3] = [PartKind::Stream, PartKind::Sequence, PartKind::Struct];

const LIMIT: usize = Limits::DEFAULT.annotations;

const OUTSIDE: Refusal = Refusal {
    number: Refusal::OUTSIDE,
    position: 0,
};

/// What each function that takes a part and a position refuses, if it does.
fn refusals(map: &[u8], span: Range<usize>, position: usize) -> Vec<Option<Refusal>> {
    let mut refusals = Vec::new();
    for kind in KINDS {
        let part = Part::new(kind, span.clone());
        refusals.push(step(map, part, position).err());
        refusals.push(step_bounded(map, part, position, 1).err());
        refusals.push(step_in(map, part, position).err());
        refusals.push(scalar(map, part, position).err());
        refusals.push(timestamp(map, part, position).err());
    }
    refusals.push(annotation(map, span.clone(), position).err());
    refusals.push(var_uint(map, span.clone(), position).err());
    refusals.push(var_int(map, span.clone(), position).err());
    for length in [0, 1, usize::MAX] {
        refusals.push(int(map, span.clone(), position, length).err());
    }
    refusals
}

#[test]
fn positions_of_any_size() {
    let map = [0xE0, 0x01, 0x00, 0xEA, 0xB3, 0x21, 0x07, 0x00];
    let numbers = [
        0,
        4,
        7,
        8,
        9,
        1 << 32,
        usize::MAX / 2,
        usize::MAX / 2 + 1,
        usize::MAX - 1,
        usize::MAX,
    ];
    for start in numbers {
        for end in numbers {
            let split = decimal(&map, start..end).err();
            assert_eq!(
                split == Some(OUTSIDE),
                !(start <= end && end <= map.len()),
                "{start}..{end}"
            );
            for position in numbers {
                let inside = start <= position && position <= end && end <= map.len();
                let begun = raw::ids(&map, start, end, position, LIMIT);
                assert_eq!(begun > 0, inside && position < end, "{start}..{end} at {position}");
                for refusal in refusals(&map, start..end, position) {
                    assert_eq!(refusal == Some(OUTSIDE), !inside, "{start}..{end} at {position}");
                }
            }
        }
    }
}

#[test]
fn the_largest_positions_are_refused_with_50() {
    let most = usize::MAX;
    for map in [&[][..], &[0x20], &[0xB1, 0x20]] {
        for (span, position) in [(0..map.len(), most), (0..most, 0), (most..most, most), (0..most, most)] {
            assert!(refusals(map, span, position)
                .iter()
                .all(|refusal| *refusal == Some(OUTSIDE)));
        }
    }
}

#[test]
fn symbols_at_places_of_any_size() {
    let map = [0xE7, 0x81, 0x83, 0xD4, 0x87, 0xB2, 0x81, 0x61, 0x00, 0x20];
    for place in [0, 8, 9, 10, 11, 1 << 32, usize::MAX] {
        let given = [0, 9, 10].contains(&place);
        assert_eq!(Symbols::at(&map, place).is_ok(), given, "{place}");
        for id in [0, 1, 9, 10, 11, u64::MAX] {
            let text = Symbols::at(&map, place).and_then(|symbols| symbols.text(id));
            assert_eq!(text, symbol_text(&map, place, id));
            assert_eq!(text.is_err(), !given, "{place}");
        }
    }
    let system = SYSTEM_TEXT.as_bytes();
    let mut record = [0; RECORD_SIZE];
    for (start, end) in [(0, 11), (9, 8), (usize::MAX, usize::MAX), (0, usize::MAX)] {
        assert_eq!(raw::symbol_text(&map, system, start, end, 1, LIMIT, &mut record), 50);
        assert_eq!(raw::symbols(&map, system, start, end, start, LIMIT, &mut record), 50);
        assert_eq!(raw::text(&map, system, start, end, start, 1, LIMIT, &mut record), 50);
    }
}

#[test]
fn iterators_over_parts_outside_refuse_once() {
    let outside = Part::new(PartKind::Stream, 0..usize::MAX);
    assert_eq!(items(&[0x20], outside).collect::<Vec<_>>(), [Err(OUTSIDE)]);
    assert_eq!(annotations(&[0x20], 5..usize::MAX).collect::<Vec<_>>(), [Err(OUTSIDE)]);
}

#[test]
fn short_buffers_and_unknown_kinds() {
    let map = [0xB1, 0x20];
    for length in 0..RECORD_SIZE {
        let mut out = [0xAA; RECORD_SIZE];
        let out = &mut out[..length];
        assert_eq!(raw::step(&map, 9, 0, 9, 9, 9, out), 51);
        assert_eq!(raw::step_bounded(&map, 9, 0, 9, 9, 0, 9, out), 51);
        assert_eq!(raw::annotation(&map, 9, 0, 9, out), 51);
        assert_eq!(raw::step_in(&map, 9, 0, 9, 9, out), 51);
        assert_eq!(raw::scalar(&map, 9, 0, 9, 9, out), 51);
        assert_eq!(raw::timestamp(&map, 9, 0, 9, 9, out), 51);
        assert_eq!(raw::number(&map, 9, 0, 9, 9, 9, out), 51);
        assert_eq!(raw::decimal(&map, 9, 0, out), 51);
        assert_eq!(raw::steps(&map, 9, 0, 9, 9, 9, out), (51, 0));
        assert!(out.iter().all(|byte| *byte == 0xAA));
    }
    let mut out = [0xAA; RECORD_SIZE];
    for kind in [3, u64::MAX] {
        assert_eq!(raw::step(&map, 0, 2, 0, kind, LIMIT, &mut out), 50);
        assert_eq!(raw::steps(&map, 0, 2, 0, kind, LIMIT, &mut out), (50, 1));
        assert_eq!(raw::step_bounded(&map, 0, 2, 0, kind, 0, LIMIT, &mut out), 50);
        assert_eq!(raw::number(&map, 0, 2, 0, kind, 0, &mut out), 50);
        assert_eq!(raw::words(&out), [9, 50, 0, 0, 0, 0, 0, 0, 0]);
    }
}

/// Limits of any size: 68 at 0 outside the ranges, before 50, and otherwise none.
#[test]
fn limits_of_any_size() {
    let refused = Some(Refusal {
        number: Refusal::LIMIT_OUT_OF_RANGE,
        position: 0,
    });
    let map = [0xB2, 0x20, 0x20];
    let numbers = [
        0,
        1,
        2,
        63,
        64,
        65,
        254,
        255,
        256,
        300,
        65534,
        65535,
        65536,
        1 << 32,
        usize::MAX,
    ];
    for annotations in numbers {
        for depth in numbers {
            let limits = Limits { annotations, depth };
            let wrong = !Limits::ANNOTATIONS.contains(&annotations);
            for (end, position) in [(3, 0), (3, 3), (0, usize::MAX)] {
                let part = Part::new(PartKind::Stream, 0..end);
                let refusals = [
                    limits.step(&map, part, position).err(),
                    limits.step_bounded(&map, part, position, 1).err(),
                    limits.step_in(&map, part, position).err(),
                    limits.scalar(&map, part, position).err(),
                    limits.timestamp(&map, part, position).err(),
                ];
                assert!(
                    refusals.iter().all(|refusal| (*refusal == refused) == wrong),
                    "{limits:?}"
                );
            }
            assert_eq!(limits.items(&map, Part::stream(&map)).count(), 1);
            assert_eq!(limits.ids_begun(&map, 0..3, 0), !wrong as u64);

            let wrong = wrong || !Limits::DEPTH.contains(&depth);
            let walk: Vec<_> = limits.walk(&map).collect();
            assert_eq!(walk.len(), if wrong { 1 } else { 3 }, "{limits:?}");
            assert_eq!(walk[0].clone().err(), refused.filter(|_| wrong), "{limits:?}");
            assert_eq!(limits.walked(&map, u64::MAX), if wrong { 0 } else { 3 }, "{limits:?}");
        }
    }
}

#[test]
fn longer_buffers_keep_their_further_bytes() {
    let mut out = [0xAA; 2 * RECORD_SIZE - 1];
    assert_eq!(raw::step(&[0x20], 0, 1, 0, 0, LIMIT, &mut out), 0);
    assert_eq!(raw::steps(&[0x20], 0, 1, 0, 0, LIMIT, &mut out), (0, 1));
    assert!(out[RECORD_SIZE..].iter().all(|byte| *byte == 0xAA));
}

/// All there is to ask of a map, with what must hold of any.
fn ask(map: &[u8]) {
    for kind in KINDS {
        check_run(map, Part::new(kind, 0..map.len()));
        for most in [1, 2, usize::MAX] {
            check_bounded(map, Part::new(kind, 0..map.len()), most);
        }
    }
    for position in 0..=map.len() {
        refusals(map, 0..map.len(), position);
        annotations(map, position..map.len()).for_each(drop);
        check_decimal(map, position);
        check_timestamp(map, position);
    }
    check_walk(map);
}

/// A body is split as its VarInt is read, and its positions are the map's.
fn check_decimal(map: &[u8], start: usize) {
    let body = start..map.len();
    let exponent = var_int(map, body.clone(), start);
    match decimal(map, body.clone()) {
        Ok(split) if body.is_empty() => assert_eq!(split.to_i64_and_scale(), Some((0, 0))),
        Ok(split) => assert_eq!(
            Some(split.exponent),
            exponent.ok().and_then(|exponent| exponent.to_i64())
        ),
        refused => assert_eq!(refused.err(), exponent.err()),
    }
}

/// What is no timestamp is read as its scalar, and a timestamp lies where its scalar does.
fn check_timestamp(map: &[u8], position: usize) {
    let stream = Part::stream(map);
    let value = scalar(map, stream, position);
    match timestamp(map, stream, position) {
        Ok(TimestampOr::Timestamp(read)) => {
            assert!(matches!(value, Ok(Scalar::Timestamp(_))));
            assert!((1..=9999).contains(&read.year));
        }
        Ok(TimestampOr::Scalar(Scalar::Timestamp(_))) => panic!("a timestamp that isn't read"),
        // The bits of a NaN are compared.
        Ok(TimestampOr::Scalar(other)) => assert_eq!(format!("{other:?}"), format!("{:?}", value.unwrap())),
        Ok(other) => panic!("{other:?}"),
        Err(refusal) => assert!(value.is_ok() || value == Err(refusal)),
    }
}

/// Items lie in their part one after the other, and only the last answer is a refusal.
fn check_run(map: &[u8], part: Part) {
    let mut run = items(map, part);
    let mut at = part.start;
    while let Some(item) = run.next() {
        let Ok(item) = item else {
            assert_eq!(run.next(), None);
            return;
        };
        let span = item.span();
        assert!(at <= span.start && span.start < span.end && span.end <= part.end);
        if let Some(value) = item.value() {
            let (descriptor, body) = (value.descriptor(), &value.body);
            assert!(span.start <= value.annotations.start && value.annotations.start <= descriptor);
            assert!(descriptor < body.start && body.start <= body.end && body.end == span.end);
            assert_eq!(value.body_len, body.len());
            assert_eq!(map[descriptor], value.byte);
        }
        at = span.end;
    }
    assert_eq!(run.position(), part.end);
}

/// By bounded steps the same items, the same end or the same refusal are reached.
fn check_bounded(map: &[u8], part: Part, most: usize) {
    let plain: Vec<_> = items(map, part).collect();
    let mut bounded = items_bounded(map, part, most);
    let mut reached = Vec::new();
    let mut at = part.start;
    while let Some(met) = bounded.next() {
        match met {
            Ok(Bounded::More { pads, position }) => {
                assert!(pads == most && at + pads <= position && position < part.end);
            }
            Ok(Bounded::Reached(item)) => reached.push(Ok(item)),
            Ok(other) => panic!("{other:?}"),
            Err(refusal) => reached.push(Err(refusal)),
        }
        at = bounded.position();
    }
    assert_eq!(reached, plain);
}

/// What is handed out can be looked at: it is there, stepping in gives the body that the item has, and it reads by itself
/// as in the part that handed it out.
fn check_walk(map: &[u8]) {
    let mut count = 0;
    let mut walk = walk(map);
    while let Some(met) = walk.next() {
        let Ok((depth, item)) = met else { break };
        count += 1;
        assert!(depth <= Limits::DEFAULT.depth);
        if let Some(value) = item.value() {
            let body = step_in(map, walk.part(), value.descriptor()).ok();
            assert_eq!(body.map(|body| body.part), value.part());
            assert_eq!(body.map(|body| body.body_len), value.part().map(|_| value.body_len));
            // By itself a value reads as in its part; the bits of a NaN are compared.
            let (part, descriptor) = (walk.part(), value.descriptor());
            let read = scalar(map, part, descriptor);
            assert_eq!(format!("{:?}", value.read(map)), format!("{read:?}"));
            let read = timestamp(map, part, descriptor);
            assert_eq!(format!("{:?}", value.read_timestamp(map)), format!("{read:?}"));
        }
    }
    assert_eq!(walked(map, u64::MAX), count);
}

#[test]
fn every_map_of_two_bytes() {
    for first in 0..=255 {
        ask(&[first]);
        for second in 0..=255 {
            ask(&[first, second]);
        }
    }
}

#[test]
fn stored_maps_cut_and_damaged() {
    for stored in short().iter().filter(|stored| stored.map.len() <= 300) {
        for at in 0..stored.map.len() {
            ask_walk(&stored.map[..at]);
            for byte in [0x00, 0x0E, 0x7F, 0x80, 0xE0, 0xEF, 0xFF] {
                let mut damaged = stored.map.clone();
                damaged[at] = byte;
                ask_walk(&damaged);
            }
        }
    }
}

fn ask_walk(map: &[u8]) {
    check_run(map, Part::stream(map));
    check_walk(map);
}

/// Bytes at which something changes, put together without a plan.
#[test]
fn maps_of_telling_bytes() {
    const TELLING: [u8; 24] = [
        0x00, 0x01, 0x0E, 0x0F, 0x11, 0x20, 0x21, 0x31, 0x44, 0x4E, 0x62, 0x71, 0x7F, 0x80, 0x81, 0x84, 0xB2, 0xBE,
        0xD1, 0xD4, 0xE0, 0xE3, 0xEA, 0xFF,
    ];
    let mut state: u64 = 1;
    let mut next = |most: usize| {
        state = state
            .wrapping_mul(6364136223846793005)
            .wrapping_add(1442695040888963407);
        (state >> 33) as usize % most
    };
    for _ in 0..20_000 {
        let length = next(13);
        let map: Vec<u8> = (0..length).map(|_| TELLING[next(TELLING.len())]).collect();
        ask(&map);
    }
}
