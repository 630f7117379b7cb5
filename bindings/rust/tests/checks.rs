//! The check of a whole map: its counts, the order of its refusals, and its limits.

use ion_map::{check, raw, scalar, walk, walked, Counts, Limits, Part, Refusal};

fn refusal(number: u64, position: usize) -> Refusal {
    Refusal { number, position }
}

#[test]
fn counts() {
    let map = [
        0xE0, 0x01, 0x00, 0xEA, 0xE8, 0x81, 0x84, 0xD5, 0x84, 0x00, 0x85, 0x21, 0x07, 0x3F, 0x1F, 0x00, 0x52, 0xC1,
        0x63,
    ];
    let counts = Counts {
        markers: 1,
        pads: 2,
        bools: 1,
        ints: 2,
        decimals: 1,
        structs: 1,
        ..Counts::default()
    };
    assert_eq!(check(&map), Ok(counts));
    assert_eq!(counts.markers + counts.values(), walked(&map, u64::MAX));
}

/// Counts that no map has: their sum is the largest number, and no panic.
#[test]
fn counts_of_any_numbers() {
    let counts = Counts {
        ints: u64::MAX,
        structs: 1,
        ..Counts::default()
    };
    assert_eq!(counts.values(), u64::MAX);
}

#[test]
fn the_first_refusal() {
    let shallow = Limits {
        depth: 1,
        ..Limits::DEFAULT
    };
    assert_eq!(shallow.check(&[0xB4, 0xE3, 0x81, 0x04, 0xB0]), Err(refusal(3, 4)));
    assert_eq!(shallow.check(&[0xB1, 0xB0]), Err(refusal(37, 1)));
    assert_eq!(check(&[0x12, 0x01]), Err(refusal(33, 0)));
    assert_eq!(check(&[0xE3, 0x81, 0x04, 0x0F]), Err(refusal(3, 3)));
    assert_eq!(check(&[0x3F]).map(|counts| counts.ints), Ok(1));
    assert_eq!(
        check(&[0xD2, 0x80, 0x00, 0x00]).map(|counts| (counts.pads, counts.structs)),
        Ok((2, 1))
    );
    let none = Limits {
        depth: 65,
        ..Limits::DEFAULT
    };
    assert_eq!(none.check(&[0x12]), Err(refusal(68, 0)));
    assert_eq!(raw::check(&[], 255, 32, &mut [0; raw::CHECK_SIZE - 1]), 51);
}

/// Whatever short map is accepted, its walk isn't refused and each of its values can be read.
#[test]
fn accepted_maps_are_read() {
    for bytes in (0..0x100_0000u32).step_by(7) {
        let map = &bytes.to_be_bytes()[1..];
        let Ok(counts) = check(map) else { continue };
        let mut items = 0;
        for met in walk(map) {
            let (depth, item) = met.expect("the map is accepted");
            items += 1;
            if let (0, Some(value)) = (depth, item.value()) {
                assert!(scalar(map, Part::stream(map), value.descriptor()).is_ok(), "{map:02X?}");
            }
        }
        assert_eq!(items, counts.markers + counts.values(), "{map:02X?}");
    }
}
