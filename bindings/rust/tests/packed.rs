//! Packed maps: their sizes at each boundary, what stays, and that packing twice changes nothing.

#![cfg(feature = "alloc")]

use ion_map::{check, pack, pack_into, packed_size, walk, Counts, Limits, Refusal};

fn var_uint(mut n: usize, bytes: usize) -> Vec<u8> {
    let mut out = vec![0; bytes];
    for byte in out.iter_mut().rev() {
        *byte = (n % 128) as u8;
        n /= 128;
    }
    *out.last_mut().unwrap() |= 0x80;
    out
}

/// A clob of `n` bytes whose length has so many VarUInt bytes.
fn clob(n: usize, bytes: usize) -> Vec<u8> {
    let mut out = vec![0x9E];
    out.extend(var_uint(n, bytes));
    out.extend(vec![7; n]);
    out
}

#[test]
fn lengths_at_their_boundaries() {
    for (n, header) in [
        (0, 1),
        (13, 1),
        (14, 2),
        (127, 2),
        (128, 3),
        (16_383, 3),
        (16_384, 4),
        (2_097_151, 4),
        (2_097_152, 5),
    ] {
        let least = if n < 14 { 1 } else { header - 1 };
        for bytes in [least, least + 1, 9] {
            let map = clob(n, bytes);
            assert_eq!(packed_size(&map), Ok(header + n), "{n} in {bytes}");
            let packed = pack(&map).unwrap();
            assert_eq!(packed.len(), header + n);
            assert_eq!(packed[header..], map[map.len() - n..]);
            assert_eq!(pack(&packed).unwrap(), packed);
        }
    }
}

#[test]
fn containers_at_their_boundaries() {
    for n in [12usize, 13, 14, 126, 127, 128, 16_383, 16_384] {
        let mut body = vec![0x20; n];
        body.push(0x00);
        let mut map = vec![0xBE];
        map.extend(var_uint(body.len(), 5));
        map.extend(&body);
        let header = if n < 14 { 1 } else { 1 + var_uint_size(n) };
        assert_eq!(packed_size(&map), Ok(header + n));
        assert_eq!(pack(&map).unwrap()[header..], vec![0x20; n]);
    }
}

fn var_uint_size(n: usize) -> usize {
    1 + (1..9).filter(|k| n >= 1 << (7 * k)).count()
}

#[test]
fn what_stays() {
    let cases: [(&[u8], &[u8]); 8] = [
        (&[0xD1, 0x82, 0x84, 0x20], &[0xD1, 0x82, 0x84, 0x20]),
        (&[0xE6, 0x81, 0x84, 0xD1, 0x82, 0x84, 0x00], &[0xE3, 0x81, 0x84, 0xD0]),
        (
            &[0x48, 0, 0, 0, 0, 0, 0, 0, 0, 0x23, 0, 0, 1],
            &[0x48, 0, 0, 0, 0, 0, 0, 0, 0, 0x23, 0, 0, 1],
        ),
        (&[0x5E, 0x80, 0x2E, 0x81, 0x07], &[0x50, 0x21, 0x07]),
        (&[0xE4, 0x00, 0x81, 0x84, 0x20], &[0xE3, 0x81, 0x84, 0x20]),
        (
            &[0xD1, 0x00, 0x83, 0x00, 0x84, 0x20, 0xE4, 0x82, 0x00, 0x84, 0x20],
            &[0xD1, 0x83, 0x00, 0x84, 0x20, 0xE4, 0x82, 0x00, 0x84, 0x20],
        ),
        (&[0x3F, 0x1F, 0x0F, 0x11], &[0x3F, 0x1F, 0x0F, 0x11]),
        (
            &[0x00, 0xE0, 0x01, 0x00, 0xEA, 0x01, 0xFF, 0x20],
            &[0xE0, 0x01, 0x00, 0xEA, 0x20],
        ),
    ];
    for (map, expected) in cases {
        let packed = pack(map).unwrap();
        assert_eq!(packed, expected);
        assert_eq!(packed_size(map), Ok(expected.len()));
        let counts = Counts {
            pads: 0,
            ..check(map).unwrap()
        };
        assert_eq!(check(&packed), Ok(counts));
        assert_eq!(walk(map).count(), walk(&packed).count());
    }
}

#[test]
fn refusals() {
    let mut packed = [0xAA; 4];
    assert_eq!(
        pack_into(&[0x12], &mut []),
        Err(Refusal {
            number: Refusal::BAD_BOOL,
            position: 0
        })
    );
    assert_eq!(
        pack_into(&[0x21, 0x07, 0x00], &mut packed[..1]),
        Err(Refusal {
            number: Refusal::NO_ROOM_TO_PACK,
            position: 2
        })
    );
    assert_eq!(packed, [0xAA; 4]);
    assert_eq!(pack_into(&[0x21, 0x07, 0x00], &mut packed), Ok(2));
    assert_eq!(packed, [0x21, 0x07, 0xAA, 0xAA]);
    let none = Limits {
        depth: 65,
        ..Limits::DEFAULT
    };
    assert_eq!(
        none.packed_size(&[]),
        Err(Refusal {
            number: Refusal::LIMIT_OUT_OF_RANGE,
            position: 0
        })
    );
    assert_eq!(
        none.pack(&[]),
        Err(Refusal {
            number: Refusal::LIMIT_OUT_OF_RANGE,
            position: 0
        })
    );
}
