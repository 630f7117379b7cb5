//! The questions of the stored lists: edges chosen by hand, then some made with a fixed seed.

use crate::maps::*;
use crate::{Kind, Questions};

/// VarUInts at their limits: short, padded, the widest, too wide, unfinished.
fn lengths() -> Vec<Vec<u8>> {
    words(
        "80 81 82 83 84 0080 0082 000000000000000083 7F7F7F7F7F7F7F7FFF 00000000000000000082 \
         00000000000000000000 00 -",
    )
}

/// An item for each way in which framing refuses one.
fn bad_items() -> Vec<Vec<u8>> {
    // Cut short: nothing after annotations; a length, a combined length, an annotations' length, the
    // annotations, a pad, a long pad, a value, an annotated value, a marker, an ordered struct.
    let cut = "E38184 2E EE00 E3 E58284 01 0E83AA 21 E4818421 E0 D1";
    // Written wrongly: reserved; no annotations; too many; no room for a value; wrapper, pad and marker in
    // a wrapper; shorter and longer than the wrapper says; floats, timestamps, an empty ordered struct;
    // lengths of 10 bytes.
    let wrong = "F0 E3808420 E3838420 E2818420 E68184E3818420 E3818400 E38184E0 E481842020 \
         E381842105 4100 4E8400000000 60 6E8180 D180 2E00000000000000000080 \
         0E00000000000000000080 E500000000000000000081";
    words(&format!("{cut} {wrong}"))
}

/// A byte, then others.
fn after(byte: u8, rest: &[u8]) -> Vec<u8> {
    joined(&[&[byte], rest])
}

pub fn numbers(q: &mut Questions) {
    for byte in 0..=255 {
        q.ask("descriptor", &[byte], &[]);
    }
    for kind in ["varuint", "varint"] {
        for byte in 0..=255 {
            q.whole(kind, &[byte]);
        }
        for count in 0..=12 {
            // First, middle and last bytes.
            for ends in words("000000 7F7F7F 000080 7F7FFF 3F7FFF 400080 400081 010080") {
                if count != 1 {
                    q.whole(kind, &run(ends[0], ends[1], ends[2], count));
                }
            }
        }
        // Parts inside slices: a number may not look past its part.
        for at in 0..=5 {
            for end in at..=5 {
                q.ask(kind, &words("814001C000")[0], &[at, end]);
            }
        }
        let long = run(0, 0, 0x81, 12);
        for at in 0..=4 {
            q.ask(kind, &long, &[at, 12]);
            q.ask(kind, &long, &[at, 11]);
        }
        let (max, bytes) = (usize::MAX, [0x81, 0x82]);
        for (at, end) in [(1, 0), (0, 3), (3, 3), (3, 2), (2, max), (max, 2)] {
            q.ask(kind, &bytes, &[at, end]);
        }
    }
    for count in 0..=15 {
        for ends in words("000000 800000 7FFFFF FFFFFF 800081 010000") {
            let bytes = run(ends[0], ends[1], ends[2], count);
            q.whole_with("int", &bytes, count);
        }
    }
    let bytes = &words("81007F8001")[0];
    for at in 0..=5 {
        for length in 0..=6 - at {
            q.ask("int", bytes, &[at, 5, length]);
        }
    }
    for (at, end, length) in [
        (1, 4, 3),
        (1, 4, 4),
        (2, 3, 2),
        (0, 5, usize::MAX),
        (5, 5, 0),
    ] {
        q.ask("int", bytes, &[at, end, length]);
    }
    for (at, end, length) in [(3, 2, 0), (0, 6, 1), (6, 6, 0)] {
        q.ask("int", bytes, &[at, end, length]);
    }
    q.whole_with("int", &run(0x81, 0, 0, 16), 16);
    q.whole_with("int", &run(0x81, 0, 0, 15), 16);
    q.whole_with("int", &run(0x81, 0, 0, 20), 15);
}

pub fn frames(q: &mut Questions) {
    for byte in 0..=255 {
        q.whole("length", &[byte, 0x82, 0xAA, 0xBB]);
        q.whole_with("sequence", &[byte, 0x82, 0xAA], 1);
    }
    for type_code in 2..=13u8 {
        let long = [2, 4, 6, 13].contains(&type_code);
        for length in lengths() {
            if length.len() < 9 || long {
                q.whole("length", &after(type_code << 4 | 14, &length));
            }
        }
        // Exactly fitting and a byte short.
        for code in [1, 2, 4, 8, 13u8] {
            let bytes = after(type_code << 4 | code, &vec![0x21; code as usize]);
            q.ask("sequence", &bytes, &[0, code as usize, 1]);
            q.whole_with("sequence", &bytes, 1);
        }
    }
    for length in lengths() {
        for head in [0xD1, 0x4E, 0x6E, 0xBE, 0x0E] {
            let bytes = joined(&[&[head], &length, &[0x21, 0x20, 0x20]]);
            q.whole("length", &bytes);
            q.whole_with("sequence", &bytes, 1);
            if head == 0x0E {
                q.whole("pad", &bytes);
            }
        }
        q.whole("pad", &after(0x0E, &length));
    }
    for code in 0..=13 {
        let bytes = after(code as u8, &vec![0xFF; code + 1]);
        for end in [code, code + 1, code + 2] {
            q.ask("pad", &bytes, &[0, end]);
        }
    }
    q.ask("wrapper", &[0xE3], &[1, 1]);
    q.ask("length", &[0x21], &[1, 1]);
    let inside = &words("2102AABB20")[0];
    for (at, end) in [(1, 4), (1, 3), (1, 5), (2, 1)] {
        q.ask("pad", inside, &[at, end]);
    }
    // Wrappers: every code against several annotation lengths.
    for code in 1..=15 {
        for length in words("80 81 82 8C 0081 00 -") {
            let bytes = joined(&[&[0xE0 | code], &length, &[0x84, 0x85, 0x20]]);
            if code != 14 || length.len() == 1 {
                q.whole("wrapper", &bytes);
                q.whole_with("sequence", &bytes, 1);
            }
        }
    }
    for combined in lengths() {
        let lengths = "80 81 82 7F7F7F7F7F7F7F7FFF 000000000000000081 00000000000000000081 00";
        for length in words(lengths) {
            let bytes = joined(&[&[0xEE], &combined, &length, &[0x84, 0x20]]);
            q.whole("wrapper", &bytes);
        }
    }
    // Every inner byte that matters, with the right length and one off either way.
    let inner = "20 2107 21 0F 10 1E 2F 00 01AA 0E80 E3818420 E0 E00100EA EF F0 FF 2E8107 2E 2E00 \
         4E80 4100 6180 6F D0 D180 D1828420 B120 -";
    for inner in words(inner) {
        for length in inner.len() + 1..=inner.len() + 3 {
            let bytes = joined(&[&[0xE0 | length as u8, 0x81, 0x84], &inner]);
            q.whole_with("sequence", &bytes, 1);
        }
    }
    for count in 254..=257 {
        let (combined, length) = (var_uint(count + 3, 1), var_uint(count, 1));
        let ids = vec![0x84; count as usize];
        let bytes = joined(&[&[0xEE], &combined, &length, &ids, &[0x20]]);
        q.whole("wrapper", &bytes);
        q.whole_with("sequence", &bytes, 1);
        if count == 256 {
            q.ask("wrapper", &bytes, &[0, bytes.len() - 2]);
        }
    }
    q.fill(Kind::Frames, 1450, 60);
}

pub fn steps(q: &mut Questions) {
    for byte in 0..=255 {
        q.whole_with("stream", &[byte], 2);
        if byte % 16 < 2 || byte % 16 > 12 {
            q.whole_with("struct", &[0x84, byte], 2);
            q.whole_with("sequence", &[byte, 0x20], 3);
        }
    }
    // Refused items, first in their part, after a pad, and after a value and two pads.
    for bad in bad_items() {
        for before in words("- 01AA 20000E80") {
            let bytes = joined(&[&before, &bad]);
            q.whole_with("stream", &bytes, 3);
            q.whole_with("sequence", &bytes, 3);
        }
        for before in words("- 8401AA 8420008500860E80") {
            q.whole_with("struct", &joined(&[&before, &[0x87], &bad]), 3);
        }
    }
    let streams = "E00100EA E0FF07EA E00100EB E00100 E0 00E00100EA 01AAE001 E00100EAE00100EA \
         20000021 200000 0001 0002AA 00F0 20F020 E00000EA E00101EA E00200EA E00001EA E00200EB \
         E00101 00E00101EA 20E00200EA20 E00100EAE00101EA";
    for bytes in words(streams) {
        q.whole_with("stream", &bytes, 4);
        q.whole_with("sequence", &bytes, 4);
    }
    let structs = "- 84 04 8420 048420 8400 8401 8401AA 840085 84008520 840005 84008500 84008501 \
         842085008620 840F840F 84E0 84E00100EA 84E3818520 840085E3818520 840085F0 840E81AA8520 \
         00000000000000008420 0000000000000000008420 7F7F7F7F7F7F7F7FFF20";
    for bytes in words(structs) {
        q.whole_with("struct", &bytes, 3);
        q.whole_with("annotations", &bytes, 3);
    }
    for count in 1..=12 {
        q.whole_with("annotations", &run(0x01, 0x00, 0x85, count), 2);
        q.whole_with("annotations", &run(0x01, 0x00, 0x05, count), 2);
    }
    q.fill(Kind::Steps, 1700, 64);
}

pub fn scalars(q: &mut Questions) {
    let read = |q: &mut Questions, bytes: &[u8]| q.whole_with("scalar", bytes, 0);
    for type_code in 0..=13u8 {
        for length in words("00 0181 028181 03818181 0E80 0F") {
            let mut bytes = length;
            bytes[0] |= type_code << 4;
            read(q, &bytes);
            q.whole_with("stepin", &bytes, 0);
        }
    }
    for byte in 0x10..=0x1F {
        read(q, &[byte]);
    }
    for type_code in [2, 3] {
        for count in 0..=16u8 {
            let head = match count {
                0..=13 => vec![type_code << 4 | count],
                _ => vec![type_code << 4 | 14, 0x80 | count],
            };
            for ends in words("000000 000001 010000 7FFFFF 800000 FFFFFF") {
                let body = run(ends[0], ends[1], ends[2], count as usize);
                read(q, &joined(&[&head, &body]));
            }
        }
    }
    for count in 0..=10u8 {
        read(
            q,
            &after(0x70 | count, &run(0x01, 0x00, 0x02, count as usize)),
        );
        read(
            q,
            &after(0x70 | count, &run(0xFF, 0xFF, 0xFF, count as usize)),
        );
    }
    read(q, &joined(&[&[0x7E, 0x88], &run(0x80, 0, 0, 8)]));
    read(q, &joined(&[&[0x7E, 0x89], &run(0x00, 0, 1, 9)]));
    for value in words(DOUBLES) {
        read(q, &after(0x48, &value));
    }
    for value in words(SINGLES) {
        read(q, &after(0x44, &value));
    }
    for code in 0..=15 {
        read(q, &after(0x40 | code, &[0x80; 9]));
    }
    for text in words(&format!("{GOOD_TEXTS} {BAD_TEXTS}")) {
        let count = text.len() as u8;
        read(q, &after(0x80 | count, &text));
        read(q, &joined(&[&[0x8E, 0x82 + count], b"a", &text, b"z"]));
        if count > 2 {
            read(q, &after(0x90 | count, &text));
        }
    }
    // Entries at positions that hold no value, or one in a wrapper, or one past the part.
    let entries =
        "0020 01AA20 E00100EA20 F020 E3818420 E48184B120 E3818400 2105B22106 D3842106 DF BF \
         CE80 D1828420 D180 D1";
    for bytes in words(entries) {
        for position in 0..=bytes.len().min(4) {
            q.whole_with("scalar", &bytes, position);
            q.whole_with("stepin", &bytes, position);
        }
    }
    let entries = [
        [1, 3, 0],
        [0, 2, 3],
        [2, 1, 1],
        [0, 9, 0],
        [1, 3, 1],
        [0, 1, 0],
        [0, 1, 1],
    ];
    for numbers in entries {
        q.ask("scalar", &[0x20, 0x21, 0x07], &numbers);
        q.ask("stepin", &[0x20, 0xB1, 0x20], &numbers);
    }
    q.fill(Kind::Scalars, 1300, 60);
}

pub fn decimals(q: &mut Questions) {
    for byte in 0..=255 {
        q.whole("decimal", &[byte]);
    }
    // Exponents with every kind of coefficient.
    let coefficients = "- 00 80 01 81 7F FF 0000 8000 0001 8001 00FF 80FF 000000 800000";
    for exponent in words("80 81 BF C0 C1 FF 0080 4080 4081 3FFF 40000000000000000080") {
        for coefficient in words(coefficients) {
            q.whole("decimal", &joined(&[&exponent, &coefficient]));
        }
    }
    // Exponents of every length.
    for count in 0..=12 {
        for ends in words("000000 7F7F7F 000080 7F7FFF 3F7FFF 400080 400081 010080") {
            if count != 1 {
                let exponent = run(ends[0], ends[1], ends[2], count);
                q.whole("decimal", &exponent);
                q.whole("decimal", &joined(&[&exponent, &[0x81, 0x02]]));
            }
        }
    }
    // Coefficients of every length.
    for count in 1..=17 {
        for ends in words("000000 800000 7FFFFF FFFFFF 800081 010000") {
            let coefficient = run(ends[0], ends[1], ends[2], count);
            q.whole("decimal", &joined(&[&[0xC3], &coefficient]));
        }
    }
    // Parts inside slices: a body may not look past its end.
    for at in 0..=6 {
        for end in at..=6 {
            q.ask("decimal", &words("814081C00080")[0], &[at, end]);
        }
    }
    let (max, bytes) = (usize::MAX, [0x81, 0x82]);
    for (at, end) in [(1, 0), (0, 3), (3, 3), (3, 2), (2, max), (max, 2)] {
        q.ask("decimal", &bytes, &[at, end]);
    }
    q.fill(Kind::Decimals, 1300, 60);
}

pub fn timestamps(q: &mut Questions) {
    // The document's, and each field at its limits and past them.
    for body in words("C00FD0 C00FD081 C00FD08181 800FD081818080 800FD08181808080 800FD0818180808080") {
        q.whole("instant", &body);
    }
    let fields: Vec<Vec<u8>> = words("0FD1 86 8F 8C 9E 9E");
    let edges = [
        "80 81 4E8F 4E90 1000000084",
        "80 81 8C 8D 1000000081",
        "80 81 9E 9F 1000000081",
        "80 97 98 1000000080",
        "80 BB BC 1000000080",
        "80 BB BC 1000000080",
    ];
    for count in 1..=6 {
        for at in 0..count {
            for edge in words(edges[at]) {
                let mut body = vec![0x80];
                for (i, field) in fields[..count].iter().enumerate() {
                    body.extend(if i == at { &edge } else { field });
                }
                q.whole("instant", &body);
            }
        }
    }
    // Offsets with and without an hour, and at the ends of years.
    for offset in words("80 C0 81 C1 0B9F 4B9F 0BA0 4BA0 1000000080 40000080") {
        for rest in words("81 818181 8181818080 4E8F8C9F97BB 0FD082818080 0FD0829D97BBBB 0FD1829C97BB 0FD183818080") {
            q.whole("instant", &joined(&[&offset, &rest]));
        }
    }
    // Leap days.
    for year in words("81 84 E4 0190 0EEC 0FCE 0FD0 0FD1 0FD4 1034 1260 4E8C") {
        for day in words("9C 9D 9E") {
            q.whole("instant", &joined(&[&[0x80], &year, &[0x82], &day]));
        }
    }
    // Fractions.
    for exponent in words("80 C0 81 C1 C2 C3 C9 D1 D2 D3 D4 E8 85 407FFF 00") {
        for coefficient in words("- 00 80 01 81 09 0A 63 64 03E7 03E8 0DE0B6B3A763FFFF 0DE0B6B3A7640000 7FFFFFFFFFFFFFFF 00FFFFFFFFFFFFFFFF 010000000000000000") {
            q.whole("instant", &joined(&[&words("80818181808080")[0], &exponent, &coefficient]));
        }
    }
    // Bodies that end too early, and parts inside slices.
    let whole = words("800FD08C9F97BBBBC303E7").remove(0);
    for end in 0..=whole.len() {
        q.ask("instant", &joined(&[&whole, &[0x80, 0x81]]), &[0, end]);
    }
    let (max, bytes) = (usize::MAX, [0x80, 0x81]);
    for (at, end) in [(1, 0), (0, 3), (3, 3), (3, 2), (2, max), (max, 2)] {
        q.ask("instant", &bytes, &[at, end]);
    }
    q.fill(Kind::Timestamps, 1500, 60);
}

pub fn walks(q: &mut Questions) {
    for depth in [0, 1, 2, 28, 30, 31, 32, 33, 34, 37] {
        for _ in 0..2 {
            let map = q.random.deep(depth);
            q.whole("walk", &map.bytes);
        }
    }
    // Markers that aren't 1.0, first, after a pad, after items, before more, and inside a list.
    for bytes in words("E00000EA E0FF07EA 00E00101EA20 E00100EA20E00200EA20 B5E00101EA20") {
        q.whole("walk", &bytes);
    }
    // Refused items inside a list, and inside a struct inside an s-expression.
    let long = |head: u8, body: &[u8]| joined(&[&[head, 0x80 | body.len() as u8], body]);
    for bad in bad_items() {
        let list = long(0xBE, &after(0x20, &bad));
        q.whole("walk", &joined(&[&list, &[0x20]]));
        let fields = joined(&[&[0x84, 0x00, 0x85, 0x20, 0x86], &bad]);
        q.whole("walk", &long(0xCE, &long(0xDE, &fields)));
    }
    q.fill(Kind::Walks, 500, 90);
}

pub fn checks(q: &mut Questions) {
    let mut check = |bytes: &[u8]| q.ask("check", bytes, &[]);
    // Nothing, each type, its null, pads before the end and inside, markers, an annotation that can't be read, and its order.
    let maps = "- 0F 10 11 12 1F 20 2105 2F 3105 3F 30 3100 40 4400000000 4F 50 51C1 5101 5F 63C00FD0 6101 6F 7101 70 7F 80 8161 8180 8F \
        90 91FF 9F A0 A1FF AF B0 BF C0 CF D0 DF D28420 D18220 00 0000 B100 B3000000 D28400 D684000E800F00 E00100EA E00100EAE00100EA \
        E00100EA20E00101EA E3818420 E3810120 E3810112 E481842112 E38101B0 EE8381000F B4E3810112 B212F0 B2F012 BB12";
    for bytes in words(maps) {
        check(&bytes);
    }
    for depth in [0, 1, 2, 30, 31, 32, 33, 34] {
        let map = q.random.deep(depth);
        q.ask("check", &map.bytes, &[]);
    }
    for bad in bad_items() {
        q.ask("check", &bad, &[]);
        let list = joined(&[&[0xBE, 0x80 | (bad.len() + 1) as u8, 0x20], &bad]);
        q.ask("check", &joined(&[&list, &[0x20]]), &[]);
    }
    q.fill(Kind::Checks, 600, 90);
}
