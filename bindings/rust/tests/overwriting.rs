//! Overwriting a body changes no answer outside it, and overwriting many, with annotations, none outside them.
//!
//! Everything reached in a stored map is asked: a whole run of steps on each part, and of each value its annotations,
//! stepping in and the scalar reading. Then one body is overwritten, or many bodies of values and pads with the
//! annotations that there are, and the same is asked again, with the same arguments.

mod common;

use common::short;
use ion_map::{
    annotation, annotations, items, items_bounded, raw, scalar, step_in, symbol_text, var_uint, Bounded, Limits, Part,
    PartKind, Type, Value,
};
use std::ops::Range;

/// What the bytes of a body become.
const OVERWRITING: [fn(u8) -> u8; 5] = [|_| 0x00, |_| 0xFF, |_| 0xE0, |_| 0x8E, |byte| !byte];

struct Reached {
    parts: Vec<Part>,
    /// Each with the part that handed it out.
    values: Vec<(Part, Value)>,
}

fn reached(map: &[u8]) -> Reached {
    let mut parts = vec![Part::stream(map)];
    let mut values = Vec::new();
    let mut next = 0;
    while let Some(part) = parts.get(next).copied() {
        for item in items(map, part).flatten() {
            if let Some(value) = item.value() {
                parts.extend(value.part());
                values.push((part, value.clone()));
            }
        }
        next += 1;
    }
    Reached { parts, values }
}

fn lies_in(inner: &Range<usize>, body: &Range<usize>) -> bool {
    body.start <= inner.start && inner.end <= body.end
}

/// The answers outside a body. Stepping into the body's owner counts as outside, and so do its annotations; reading
/// it doesn't.
fn answers_outside(map: &[u8], reached: &Reached, body: &Range<usize>) -> Vec<String> {
    let parts = reached.parts.iter().filter(|part| !lies_in(&part.span(), body));
    let values = reached.values.iter().filter(|(_, value)| !lies_in(&value.span(), body));
    let mut answers: Vec<String> = parts.map(|part| run(map, *part)).collect();
    for (part, value) in values {
        answers.push(looked_at(map, *part, value));
        if value.body != *body {
            answers.push(read(map, *part, value));
        }
    }
    answers
}

fn run(map: &[u8], part: Part) -> String {
    let mut steps = items(map, part);
    let handed_out: Vec<_> = steps.by_ref().collect();
    format!("{part:?}: {handed_out:?}, then {}", steps.position())
}

fn looked_at(map: &[u8], part: Part, value: &Value) -> String {
    let ids: Vec<_> = annotations(map, value.annotations.clone()).collect();
    format!("{value:?}: {ids:?}, {:?}", step_in(map, part, value.descriptor()))
}

/// The record beside the reading, since two NaNs look alike.
fn read(map: &[u8], part: Part, value: &Value) -> String {
    let mut record = [0; raw::RECORD_SIZE];
    let limit = Limits::DEFAULT.annotations;
    raw::scalar(map, part.start, part.end, value.descriptor(), limit, &mut record);
    let scalar = scalar(map, part, value.descriptor());
    format!("{value:?}: {scalar:?}, {:?}", raw::words(&record))
}

fn overwritten(map: &[u8], body: &Range<usize>, byte: fn(u8) -> u8) -> Vec<u8> {
    let mut map = map.to_vec();
    for old in &mut map[body.clone()] {
        *old = byte(*old);
    }
    map
}

#[test]
fn overwriting_a_body_changes_nothing_outside_it() {
    let mut overwritings = 0;
    for stored in short() {
        let reached = reached(&stored.map);
        for (_, owner) in reached.values.iter().filter(|(_, value)| !value.body.is_empty()) {
            let before = answers_outside(&stored.map, &reached, &owner.body);
            for byte in OVERWRITING {
                let map = overwritten(&stored.map, &owner.body, byte);
                let after = answers_outside(&map, &reached, &owner.body);
                assert_eq!(before, after, "{}, body {:?}", stored.name, owner.body);
                overwritings += 1;
            }
        }
    }
    assert!(overwritings > 1000, "only {overwritings} bodies were overwritten");
}

/// The comparison above can fail: the same bytes do change the answers inside.
#[test]
fn overwriting_a_body_shows_inside_it() {
    let map = [0xB3, 0x21, 0x07, 0x20];
    let reached = reached(&map);
    let changed = overwritten(&map, &(1..4), |_| 0xFF);
    assert_eq!(
        answers_outside(&map, &reached, &(1..4)),
        answers_outside(&changed, &reached, &(1..4))
    );
    assert_ne!(
        answers_outside(&map, &reached, &(2..3)),
        answers_outside(&changed, &reached, &(2..3))
    );
}

// ---- many bodies

/// A value or a pad: its span, its annotations and its body.
#[derive(Clone, Debug, PartialEq)]
struct Site {
    span: Range<usize>,
    annotations: Range<usize>,
    body: Range<usize>,
}

impl Site {
    fn of_value(value: &Value) -> Site {
        Site {
            span: value.span(),
            annotations: value.annotations.clone(),
            body: value.body.clone(),
        }
    }

    /// A pad's field ID, in a struct, its descriptor and its length stand before its body.
    fn of_pad(map: &[u8], part: Part, span: Range<usize>) -> Site {
        let after = |position| var_uint(map, part.span(), position).expect("a number").span.end;
        let descriptor = match part.kind {
            PartKind::Struct => after(span.start),
            _ => span.start,
        };
        let body = match map[descriptor] & 0x0F {
            0x0E => after(descriptor + 1),
            _ => descriptor + 1,
        };
        Site {
            annotations: body..body,
            body: body..span.end,
            span,
        }
    }
}

/// The pads of a part that stand before an item or the part's end: steps past one pad at most come back behind each.
fn pads(map: &[u8], part: Part) -> Vec<Site> {
    let mut steps = items_bounded(map, part, 1);
    let mut gaps = Vec::new();
    loop {
        let start = steps.position();
        let end = match steps.next() {
            Some(Ok(Bounded::More { position, .. })) => position,
            Some(Ok(Bounded::Reached(item))) => item.span().start,
            Some(Ok(other)) => unreachable!("a step reaches an item or passes pads: {other:?}"),
            Some(Err(_)) => return gaps,
            None => steps.position(),
        };
        if start < end {
            gaps.push(Site::of_pad(map, part, start..end));
        }
        if steps.position() == end && end == part.end {
            return gaps;
        }
    }
}

/// Sets of values and pads, none inside another: those of each part, all that hold nothing, and some of all.
fn sets(map: &[u8], reached: &Reached) -> Vec<Vec<Site>> {
    let mut sets = Vec::new();
    let mut all = Vec::new();
    for part in &reached.parts {
        let of_part = reached.values.iter().filter(|(at, _)| at == part);
        let mut own: Vec<Site> = of_part.map(|(_, value)| Site::of_value(value)).collect();
        own.extend(pads(map, *part));
        all.extend(own.iter().cloned());
        sets.push(own);
    }
    let holds = |outer: &Site, inner: &Site| lies_in(&inner.span, &outer.body);
    let leaves = all.iter().filter(|site| !all.iter().any(|other| holds(site, other)));
    sets.push(leaves.cloned().collect());
    let mut number: u32 = 14;
    for _ in 0..8 {
        let mut some: Vec<Site> = Vec::new();
        for site in &all {
            number = number.wrapping_mul(1_664_525).wrapping_add(1_013_904_223);
            if number >> 30 == 0 && !some.iter().any(|other| holds(site, other) || holds(other, site)) {
                some.push(site.clone());
            }
        }
        sets.push(some);
    }
    sets.retain(|set| {
        set.iter()
            .any(|site| !site.body.is_empty() || !site.annotations.is_empty())
    });
    sets
}

fn patched(map: &[u8], sites: &[Site], byte: fn(u8) -> u8) -> Vec<u8> {
    let mut map = map.to_vec();
    for site in sites {
        for span in [&site.body, &site.annotations] {
            for old in &mut map[span.clone()] {
                *old = byte(*old);
            }
        }
    }
    map
}

/// The answers outside them. Steps hand each of them out, with its span, and stepping into one counts as outside;
/// reading one, and its annotations, don't.
fn answers_outside_all(map: &[u8], reached: &Reached, sites: &[Site]) -> Vec<String> {
    let outside = |span: Range<usize>| !sites.iter().any(|site| lies_in(&span, &site.body));
    let parts = reached.parts.iter().filter(|part| outside(part.span()));
    let mut answers: Vec<String> = parts.map(|part| run(map, *part)).collect();
    for (part, value) in reached.values.iter().filter(|(_, value)| outside(value.span())) {
        answers.push(format!("{:?}", step_in(map, *part, value.descriptor())));
        if !sites.contains(&Site::of_value(value)) {
            answers.push(looked_at(map, *part, value));
            answers.push(read(map, *part, value));
        }
    }
    answers
}

/// The places of a map's stream, and its top-level values.
fn places(map: &[u8]) -> (Vec<usize>, Vec<Value>) {
    let met: Vec<_> = items(map, Part::stream(map)).flatten().collect();
    let starts = met.iter().map(|item| item.span().start).chain([map.len()]);
    (
        starts.collect(),
        met.iter().filter_map(|item| item.value().cloned()).collect(),
    )
}

/// Whether one of them is a symbol table of the map, lies in one, or is a top-level struct whose first annotation
/// can't be read.
fn tells(map: &[u8], top: &[Value], site: &Site) -> bool {
    top.iter().any(|value| {
        if value.ion_type != Type::Struct || value.is_null() || value.annotations.is_empty() {
            return false;
        }
        match annotation(map, value.annotations.clone(), value.annotations.start) {
            Ok(Some(first)) => first.id == 3 && lies_in(&site.span, &value.span()),
            Ok(None) => false,
            Err(_) => *site == Site::of_value(value),
        }
    })
}

/// The texts at the places that are not after one of them that tells, on either map; with how many places there are.
fn texts_that_stay(map: &[u8], before: &[u8], after: &[u8], sites: &[Site]) -> Vec<String> {
    let (places, top) = places(before);
    let telling = |site: &&Site| tells(before, &top, site) || tells(after, &top, site);
    let first = sites
        .iter()
        .filter(telling)
        .map(|site| site.span.end)
        .min()
        .unwrap_or(usize::MAX);
    let stay = places.into_iter().filter(|place| *place < first);
    stay.flat_map(|place| (0..14).map(move |id| format!("{place}, {id}: {:?}", symbol_text(map, place, id))))
        .collect()
}

/// A marker; a symbol table with "tree" and "rock"; a list of two blobs, the first with the annotation 10; a pad of two
/// bytes; with the annotations 11 and 10 the string "hi"; a struct, with the annotation 12, whose field 10 is the symbol 11.
const TERRAIN: [u8; 52] = [
    0xE0, 0x01, 0x00, 0xEA, // 0
    0xEE, 0x8F, 0x81, 0x83, 0xDC, 0x87, 0xBA, 0x84, b't', b'r', b'e', b'e', 0x84, b'r', b'o', b'c', b'k', // 4
    0xB9, 0xE5, 0x81, 0x8A, 0xA2, 0x01, 0x02, 0xA2, 0x03, 0x04, // 21
    0x02, 0x00, 0x00, // 31
    0xE6, 0x82, 0x8B, 0x8A, 0x82, b'h', b'i', // 34
    0xE6, 0x81, 0x8C, 0xD3, 0x8A, 0x71, 0x0B, // 41
    0x71, 0x0A, 0x20, 0x11, // 48
];

#[test]
fn overwriting_many_changes_nothing_outside_them() {
    let (mut overwritings, mut several, mut texts) = (0, 0, 0);
    let mut maps: Vec<(String, Vec<u8>)> = short().into_iter().map(|stored| (stored.name, stored.map)).collect();
    maps.push(("terrain".to_string(), TERRAIN.to_vec()));
    for (name, map) in maps {
        let reached = reached(&map);
        for sites in sets(&map, &reached) {
            several += usize::from(sites.len() > 1);
            let before = answers_outside_all(&map, &reached, &sites);
            for byte in OVERWRITING {
                let after = patched(&map, &sites, byte);
                assert_eq!(
                    before,
                    answers_outside_all(&after, &reached, &sites),
                    "{name}, {sites:?}"
                );
                let stay = texts_that_stay(&map, &map, &after, &sites);
                assert_eq!(stay, texts_that_stay(&after, &map, &after, &sites), "{name}, {sites:?}");
                overwritings += 1;
                texts += stay.len();
            }
        }
    }
    assert!(overwritings > 1000, "only {overwritings} sets were overwritten");
    assert!(several > 100, "only {several} sets had more than one");
    assert!(texts > 10_000, "only {texts} texts were compared");
}

/// What a baker does: three bodies, a pad's and two annotations of a map, in place.
#[test]
fn terrain_is_patched_in_place() {
    let map = TERRAIN;
    let reached = reached(&map);
    let blobs = reached.values.iter().filter(|(_, value)| value.ion_type == Type::Blob);
    let mut sites: Vec<Site> = blobs.map(|(_, value)| Site::of_value(value)).collect();
    sites.extend(pads(&map, Part::stream(&map)));
    let hi = reached
        .values
        .iter()
        .find(|(_, value)| value.span() == (34..41))
        .expect("the string");
    sites.push(Site::of_value(&hi.1));
    let bodies: Vec<_> = sites.iter().map(|site| site.body.clone()).collect();
    assert_eq!(bodies, [26..28, 29..31, 32..34, 39..41]);

    let mut patched = map;
    for body in bodies {
        patched[body].fill(b'#');
    }
    patched[24] = 0x8B; // the first blob's annotation is 11 now
    patched[37] = 0xFF; // and the string's second one 127

    assert_eq!(
        answers_outside_all(&map, &reached, &sites),
        answers_outside_all(&patched, &reached, &sites)
    );
    let ids = |map: &[u8], span| -> Vec<u64> { annotations(map, span).flatten().map(|met| met.id).collect() };
    assert_eq!((ids(&map, 24..25), ids(&patched, 24..25)), (vec![10], vec![11]));
    // Each ID whose own bytes stayed stays.
    assert_eq!(
        (ids(&map, 36..38), ids(&patched, 36..38)),
        (vec![11, 10], vec![11, 127])
    );
    // No table is among them and none became one, so every text stays.
    for place in [0, 4, 21, 34, 41, 48, 50, 51, 52] {
        for (id, text) in [(4, Some("name")), (10, Some("tree")), (11, Some("rock")), (12, None)] {
            let text = if place < 21 && id > 9 { None } else { text };
            assert_eq!(symbol_text(&map, place, id), Ok(text));
            assert_eq!(symbol_text(&patched, place, id), Ok(text));
        }
    }
}

/// Where an overwritten annotation makes a symbol table, texts move behind it, and not before it. Where one can't be
/// read any more, the lookup behind it is refused.
#[test]
fn texts_move_behind_a_new_table() {
    let mut map = TERRAIN;
    map[43] = 0x83; // the last struct's annotation is 3 now: a table without a list of symbols
    assert_eq!(symbol_text(&map, 41, 10), Ok(Some("tree")));
    assert_eq!(symbol_text(&map, 48, 10), Ok(None));
    map[43] = 0x03; // a number without an end
    assert_eq!(symbol_text(&map, 41, 10), Ok(Some("tree")));
    assert!(symbol_text(&map, 48, 10).is_err());
    assert_eq!(places(&map).0, [0, 4, 21, 34, 41, 48, 50, 51, 52]);
}

/// The comparison above can fail: a byte more than that shows.
#[test]
fn overwriting_a_descriptor_shows() {
    let reached = reached(&TERRAIN);
    let values = reached.values.iter().filter(|(_, value)| !value.annotations.is_empty());
    for (_, value) in values {
        let site = Site::of_value(value);
        let longer = Site {
            annotations: site.annotations.start..site.annotations.end + 1,
            ..site.clone()
        };
        let map = patched(&TERRAIN, &[longer], |byte| !byte);
        assert_ne!(
            answers_outside_all(&TERRAIN, &reached, std::slice::from_ref(&site)),
            answers_outside_all(&map, &reached, &[site])
        );
    }
}
