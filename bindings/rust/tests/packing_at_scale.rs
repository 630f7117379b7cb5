//! Packing compared with a model that shares nothing with it: maps are made together with what they become.
//!
//! A map is made item by item, in a long form, with pads and lengths that have leading zeros, and in its packed form. Then it is
//! packed, checked, walked and packed again. Each map is damaged too, a byte at a time: what the check refuses is refused alike, and of
//! what it accepts the walk meets the same items in the packed map, offsets and lengths apart.
//!
//! `PACKING_MAPS` says how many maps are made (2,000 where it is not set).

#![cfg(feature = "alloc")]

use ion_map::{check, pack, pack_into, packed_size, walk, Counts, Item, Refusal};

/// Numbers that look random: the same for one seed on every machine.
struct Random(u64);

impl Random {
    fn below(&mut self, n: u64) -> u64 {
        self.0 ^= self.0 << 13;
        self.0 ^= self.0 >> 7;
        self.0 ^= self.0 << 17;
        (self.0 >> 11) % n
    }
}

/// A map in its long form, and what it becomes.
#[derive(Default, Clone)]
struct Made {
    long: Vec<u8>,
    short: Vec<u8>,
}

impl Made {
    fn push(&mut self, other: &Made) {
        self.long.extend(&other.long);
        self.short.extend(&other.short);
    }

    fn both(bytes: &[u8]) -> Made {
        Made {
            long: bytes.to_vec(),
            short: bytes.to_vec(),
        }
    }
}

/// A number in so many bytes more than it needs, nine at most.
fn var_uint(n: usize, more: usize) -> Vec<u8> {
    let mut bytes = vec![n as u8 % 128 + 128];
    let mut rest = n / 128;
    while rest > 0 {
        bytes.insert(0, (rest % 128) as u8);
        rest /= 128;
    }
    while bytes.len() < 9 && bytes.len() <= more {
        bytes.insert(0, 0);
    }
    bytes
}

fn shortest(kind: u8, body: &[u8]) -> Vec<u8> {
    let mut out = if body.len() < 14 {
        vec![kind * 16 + body.len() as u8]
    } else {
        vec![kind * 16 + 14]
    };
    if body.len() >= 14 {
        out.extend(var_uint(body.len(), 0));
    }
    out.extend(body);
    out
}

fn longer(random: &mut Random, kind: u8, body: &[u8]) -> Vec<u8> {
    // A float's length stands in its code, and a struct's length of 1 would say that it is ordered.
    if kind == 4 || (random.below(2) == 0 && body.len() < 14 && !(kind == 13 && body.len() == 1)) {
        return shortest(kind, body);
    }
    let mut out = vec![kind * 16 + 14];
    out.extend(var_uint(body.len(), random.below(10) as usize));
    out.extend(body);
    out
}

fn pad(random: &mut Random) -> Vec<u8> {
    let n = [0, 1, 2, 13, 14, 130][random.below(6) as usize];
    let body: Vec<u8> = (0..n).map(|_| random.below(256) as u8).collect();
    longer(random, 0, &body)
}

fn scalar(random: &mut Random) -> Made {
    let n = [0, 1, 2, 8, 13, 14, 127, 128, 200][random.below(9) as usize];
    let body: Vec<u8> = (0..n).map(|_| 1 + random.below(127) as u8).collect();
    let (kind, body) = match random.below(9) {
        0 => {
            return Made::both(&[
                [0x0F, 0x10, 0x11, 0x1F, 0x2F, 0x3F, 0x4F, 0x5F, 0x6F, 0xBF, 0xDF][random.below(11) as usize]
            ])
        }
        1 => (2, body),
        2 if n > 0 => (3, body),
        3 => (4, vec![0x40; [0, 4, 8][random.below(3) as usize]]),
        4 => (5, [vec![0xC2], body].concat()),
        5 => (6, vec![0x80, 0x0F, 0xD0]),
        6 => (7, vec![0; random.below(9) as usize]),
        7 => (9, body),
        _ => (8, body),
    };
    Made {
        long: longer(random, kind, &body),
        short: shortest(kind, &body),
    }
}

fn part(random: &mut Random, depth: u64, fields: bool) -> Made {
    let mut made = Made::default();
    for _ in 0..random.below(5) {
        while random.below(3) == 0 {
            if fields {
                made.long
                    .extend(var_uint(random.below(300) as usize, random.below(4) as usize));
            }
            made.long.extend(pad(random));
        }
        if fields {
            let id = var_uint(random.below(20_000) as usize, random.below(4) as usize);
            made.push(&Made::both(&id));
        }
        made.push(&value(random, depth));
    }
    if random.below(3) == 0 {
        if fields {
            made.long.push(0x80);
        }
        made.long.extend(pad(random));
    }
    made
}

fn value(random: &mut Random, depth: u64) -> Made {
    let bare = if depth > 0 && random.below(2) == 0 {
        let kind = 11 + random.below(3) as u8;
        let inside = part(random, depth - 1, kind == 13);
        if kind == 13 && !inside.long.is_empty() && random.below(2) == 0 {
            let mut long = vec![0xD1];
            long.extend(var_uint(inside.long.len(), random.below(10) as usize));
            long.extend(&inside.long);
            let mut short = vec![if inside.short.is_empty() { 0xD0 } else { 0xD1 }];
            if !inside.short.is_empty() {
                short.extend(var_uint(inside.short.len(), 0));
                short.extend(&inside.short);
            }
            Made { long, short }
        } else {
            Made {
                long: longer(random, kind, &inside.long),
                short: shortest(kind, &inside.short),
            }
        }
    } else {
        scalar(random)
    };
    if random.below(4) != 0 {
        return bare;
    }
    let annotations: Vec<u8> = (0..1 + random.below(3))
        .flat_map(|_| var_uint(random.below(300) as usize, random.below(3) as usize))
        .collect();
    let wrap = |lengths: Vec<u8>, value: &[u8]| [lengths, annotations.clone(), value.to_vec()].concat();
    let long = wrap(var_uint(annotations.len(), random.below(10) as usize), &bare.long);
    let short = wrap(var_uint(annotations.len(), 0), &bare.short);
    Made {
        long: longer(random, 14, &long),
        short: shortest(14, &short),
    }
}

/// The bytes of a field ID.
fn field_id(bytes: &[u8]) -> Vec<u8> {
    let last = bytes.iter().position(|byte| *byte >= 0x80).expect("a field ID ends");
    bytes[..=last].to_vec()
}

/// What a walk meets, offsets and lengths apart: depth, type, whether it is null, field ID, annotations, and of what is no
/// container its body.
type Met = (usize, u8, bool, Vec<u8>, Vec<u8>, Vec<u8>);

fn met(map: &[u8]) -> Vec<Met> {
    walk(map)
        .map(|visit| {
            let (depth, item) = visit.expect("the map is accepted");
            let Some(value) = item.value() else {
                return (depth, 0xE0, false, Vec::new(), Vec::new(), map[item.span()].to_vec());
            };
            let name = match &item {
                Item::Field { .. } => field_id(&map[value.start..]),
                _ => Vec::new(),
            };
            let body = if value.part().is_some() {
                Vec::new()
            } else {
                map[value.body.clone()].to_vec()
            };
            (
                depth,
                value.byte / 16,
                value.is_null(),
                name,
                map[value.annotations.clone()].to_vec(),
                body,
            )
        })
        .collect()
}

fn accepted(map: &[u8], counts: Counts) -> Vec<u8> {
    let packed = pack(map).expect("the map is accepted");
    assert!(packed.len() <= map.len());
    assert_eq!(packed_size(map), Ok(packed.len()));
    assert_eq!(check(&packed), Ok(Counts { pads: 0, ..counts }));
    assert_eq!(met(&packed), met(map), "{map:02X?}");
    assert_eq!(pack(&packed), Ok(packed.clone()));
    packed
}

#[test]
fn packing_at_scale() {
    let maps = std::env::var("PACKING_MAPS")
        .ok()
        .and_then(|n| n.parse().ok())
        .unwrap_or(2_000);
    let mut random = Random(0x9E37_79B9_7F4A_7C15);
    let (mut damaged, mut refused) = (0u64, 0u64);
    for _ in 0..maps {
        let mut made = part(&mut random, 5, false);
        if random.below(2) == 0 {
            let marker = Made::both(&[0xE0, 0x01, 0x00, 0xEA]);
            made = Made {
                long: [marker.long, made.long].concat(),
                short: [marker.short, made.short].concat(),
            };
        }
        let counts = check(&made.long).unwrap_or_else(|refusal| panic!("{refusal}: {:02X?}", made.long));
        assert_eq!(accepted(&made.long, counts), made.short, "{:02X?}", made.long);
        let mut lent = vec![0xAA; made.short.len() + 2];
        assert_eq!(pack_into(&made.long, &mut lent), Ok(made.short.len()));
        assert_eq!(lent[made.short.len()..], [0xAA, 0xAA]);
        if let Some(less) = made.short.len().checked_sub(1) {
            let mut lent = vec![0xAA; less];
            let short = Refusal {
                number: Refusal::NO_ROOM_TO_PACK,
                position: less + 1,
            };
            assert_eq!(pack_into(&made.long, &mut lent), Err(short));
            assert!(lent.iter().all(|byte| *byte == 0xAA));
        }
        for _ in 0..8 {
            if made.long.is_empty() {
                break;
            }
            let mut map = made.long.clone();
            let at = random.below(map.len() as u64) as usize;
            map[at] = random.below(256) as u8;
            damaged += 1;
            match check(&map) {
                Ok(counts) => drop(accepted(&map, counts)),
                Err(refusal) => {
                    refused += 1;
                    assert_eq!((packed_size(&map), pack(&map)), (Err(refusal), Err(refusal)));
                }
            }
        }
    }
    println!("{maps} maps, {damaged} damaged, of which {refused} refused");
}
