//! What is written and what is refused, as the change request has it: bytes, numbers and positions that were derived from it by hand.

#![cfg(feature = "alloc")]

use ion_map::{
    check, raw, raw_write, Limits, MapWriter, Refusal, Scalar, SequenceWriter, StructWriter, Thing, Type, ValueWriter,
};
use std::panic::{catch_unwind, AssertUnwindSafe};

type Answer = Result<Vec<u8>, (u64, u64)>;

/// The bytes that a call writes, or its refusal; the rest of the buffer, or all of it, is as it was.
fn written(write: impl Fn(&mut [u8], &mut [u8]) -> u64) -> Answer {
    let mut to = [0xA5; 400];
    let mut record = [0; raw::RECORD_SIZE];
    let returned = write(&mut to, &mut record);
    let words = raw::words(&record);
    if returned != 0 {
        assert_eq!(words[..2], [9, returned]);
        assert!(to.iter().all(|byte| *byte == 0xA5));
        return Err((returned, words[2]));
    }
    assert_eq!((words[0], words[1], words[2]), (17, 0, 0));
    let length = words[3] as usize;
    assert!(to[length..].iter().all(|byte| *byte == 0xA5));

    // A buffer of one byte less is refused with the length needed, and left; one that fits is written.
    let mut short = vec![0xA5; length - 1];
    assert_eq!(write(&mut short, &mut record), 70);
    assert_eq!(raw::words(&record)[..3], [9, 70, length as u64]);
    assert!(short.iter().all(|byte| *byte == 0xA5));
    let mut exact = vec![0xA5; length];
    assert_eq!(write(&mut exact, &mut record), 0);
    assert_eq!(exact, to[..length]);

    // A record buffer that is too short: nothing is written to either.
    let mut record = [0; raw::RECORD_SIZE - 1];
    assert_eq!(write(&mut exact, &mut record), 51);
    assert_eq!(exact, to[..length]);
    Ok(exact)
}

fn null(code: usize) -> Answer {
    written(|to, out| raw_write::null(code, to, out))
}

fn int(magnitude: &[u8], negative: u64) -> Answer {
    written(|to, out| raw_write::int(magnitude, negative, to, out))
}

fn float(bits: u64) -> Answer {
    written(|to, out| raw_write::float(bits, to, out))
}

fn symbol(id: u64) -> Answer {
    written(|to, out| raw_write::symbol(id, to, out))
}

fn pad(size: usize) -> Answer {
    written(|to, out| raw_write::pad(size, to, out))
}

fn scalar(code: usize, body: &[u8]) -> Answer {
    written(|to, out| raw_write::scalar(code, body, to, out))
}

fn container(code: usize, body: &[u8], depth: usize) -> Answer {
    written(|to, out| raw_write::container(code, body, 255, depth, to, out))
}

fn wrapper(annotations: &[u8], value: &[u8]) -> Answer {
    written(|to, out| raw_write::wrapper(annotations, value, 255, 32, to, out))
}

#[test]
fn nulls_and_bools() {
    let bytes = [
        0x0F, 0x1F, 0x2F, 0x2F, 0x4F, 0x5F, 0x6F, 0x7F, 0x8F, 0x9F, 0xAF, 0xBF, 0xCF, 0xDF,
    ];
    for (code, byte) in bytes.into_iter().enumerate() {
        assert_eq!(null(code), Ok(vec![byte]));
    }
    assert_eq!(null(14), Err((50, 0)));
    assert_eq!(written(|to, out| raw_write::bool(0, to, out)), Ok(vec![0x10]));
    assert_eq!(written(|to, out| raw_write::bool(1, to, out)), Ok(vec![0x11]));
    assert_eq!(written(|to, out| raw_write::bool(2, to, out)), Err((50, 0)));
}

#[test]
fn numbers() {
    assert_eq!(int(&[], 0), Ok(vec![0x20]));
    assert_eq!(int(&[0, 0], 0), Ok(vec![0x20]));
    assert_eq!(int(&[0, 7], 0), Ok(vec![0x21, 7]));
    assert_eq!(int(&[0, 1, 0], 1), Ok(vec![0x32, 1, 0]));
    assert_eq!(int(&[0, 0], 1), Err((34, 0)));
    assert_eq!(int(&[1], 2), Err((50, 0)));
    let mut long = vec![0x2E, 0x8E];
    long.extend([0xFF; 14]);
    assert_eq!(int(&[0xFF; 14], 0), Ok(long));

    assert_eq!(float(0), Ok(vec![0x40]));
    assert_eq!(float(1 << 63), Ok(vec![0x48, 0x80, 0, 0, 0, 0, 0, 0, 0]));
    assert_eq!(
        float(0x7FF0_0000_0000_0001),
        Ok(vec![0x48, 0x7F, 0xF0, 0, 0, 0, 0, 0, 1])
    );
    assert_eq!(symbol(0), Ok(vec![0x70]));
    assert_eq!(symbol(256), Ok(vec![0x72, 1, 0]));
    assert_eq!(symbol(u64::MAX), Ok([vec![0x78], vec![0xFF; 8]].concat()));
}

#[test]
fn pads() {
    let of = |head: &[u8], zeros: usize| Ok([head.to_vec(), vec![0; zeros]].concat());
    assert_eq!(pad(0), Err((71, 0)));
    assert_eq!(pad(1), of(&[0x00], 0));
    assert_eq!(pad(14), of(&[0x0D], 13));
    assert_eq!(pad(15), of(&[0x0E, 0x8D], 13));
    assert_eq!(pad(16), of(&[0x0E, 0x8E], 14));
    assert_eq!(pad(129), of(&[0x0E, 0xFF], 127));
    assert_eq!(pad(130), of(&[0x0E, 0x00, 0xFF], 127));
    assert_eq!(pad(131), of(&[0x0E, 0x01, 0x80], 128));
    assert_eq!(pad((1 << 63) + 9), Err((70, (1 << 63) + 9)));
    assert_eq!(pad((1 << 63) + 10), Err((71, 0)));
    assert_eq!(pad(usize::MAX), Err((71, 0)));
}

#[test]
fn bodies() {
    assert_eq!(scalar(5, &[0x01]), Err((4, 1)));
    assert_eq!(scalar(5, &[]), Ok(vec![0x50]));
    assert_eq!(scalar(6, &[0x80]), Err((31, 0)));
    assert_eq!(scalar(6, &[0x80, 0x0F]), Err((3, 2)));
    assert_eq!(scalar(6, &[0x80, 0x80]), Err((62, 0)));
    assert_eq!(scalar(6, &[0x80, 0x81]), Ok(vec![0x62, 0x80, 0x81]));
    assert_eq!(scalar(8, b"tree"), Ok(b"\x84tree".to_vec()));
    assert_eq!(scalar(8, &[0xFF]), Err((36, 0)));
    assert_eq!(scalar(9, &[0xFF]), Ok(vec![0x91, 0xFF]));
    for code in [0, 4, 7, 11, 16, usize::MAX] {
        assert_eq!(scalar(code, &[0x80]), Err((50, 0)));
    }
}

#[test]
fn containers() {
    assert_eq!(container(11, &[0x21, 0x07, 0x00], 1), Ok(vec![0xB3, 0x21, 0x07, 0x00]));
    assert_eq!(container(13, &[0x84, 0x20], 1), Ok(vec![0xD2, 0x84, 0x20]));
    assert_eq!(container(13, &[], 1), Ok(vec![0xD0]));
    assert_eq!(container(13, &[0x84], 1), Err((7, 1)));
    assert_eq!(container(13, &[0x04], 1), Err((3, 1)));
    assert_eq!(container(12, &[0xB1, 0xB0], 1), Err((37, 0)));
    assert_eq!(container(12, &[0xB1, 0xB0], 2), Err((37, 1)));
    assert_eq!(container(12, &[0xB1, 0xB0], 3), Ok(vec![0xC2, 0xB1, 0xB0]));
    assert_eq!(container(11, &[0xE0, 0x01, 0x00, 0xEA], 1), Err((22, 0)));
    assert_eq!(container(10, &[], 1), Err((50, 0)));
    assert_eq!(container(10, &[], 0), Err((68, 0)));
}

#[test]
fn wrappers() {
    assert_eq!(wrapper(&[0x84], &[0x20]), Ok(vec![0xE3, 0x81, 0x84, 0x20]));
    assert_eq!(wrapper(&[0x84, 0x04], &[0x20]), Err((3, 2)));
    assert_eq!(wrapper(&[0x04], &[0x20, 0x20]), Err((29, 0)));
    assert_eq!(wrapper(&[0x84], &[]), Err((25, 0)));
    assert_eq!(wrapper(&[], &[0x20]), Err((23, 0)));
    assert_eq!(wrapper(&[0x84], &[0xE3, 0x81, 0x84, 0x20]), Err((27, 0)));
    assert_eq!(wrapper(&[0x84], &[0x00]), Err((28, 0)));
    assert_eq!(wrapper(&[0x84], &[0x20, 0x00]), Err((29, 0)));
    assert_eq!(wrapper(&[0x84; 256], &[0x20]), Err((26, 0)));
    assert_eq!(wrapper(&[0x84], &[0x81, 0xFF]), Err((36, 0)));
    assert_eq!(wrapper(&[0x84], &[0xB2, 0x81, 0xFF]), Err((36, 1)));
    assert_eq!(
        written(|to, out| raw_write::wrapper(&[0x84], &[0x20], 254, 32, to, out)),
        Err((68, 0))
    );
}

#[test]
fn a_map_of_all_of_them() {
    let mut map = MapWriter::new();
    map.marker().unwrap();
    map.thing(Thing::Float(f64::NAN)).unwrap();
    map.thing(Thing::Pad(130)).unwrap();
    map.sexp(|sexp| sexp.annotated(&[10, 200], |value| value.thing(Thing::Symbol(11))))
        .unwrap();
    let before = map.bytes().len();
    assert_eq!(map.thing(Thing::Pad(0)).unwrap_err().number, Refusal::NO_SUCH_LENGTH);
    assert_eq!(map.bytes().len(), before);
    let bytes = map.into_bytes();
    let counts = check(&bytes).unwrap();
    assert_eq!((counts.floats, counts.pads, counts.sexps, counts.symbols), (1, 1, 1, 1));
    let Ok(Scalar::Float(nan)) = ion_map::scalar(&bytes, ion_map::Part::stream(&bytes), 4) else {
        panic!("the float is there");
    };
    assert_eq!(nan.to_bits(), f64::NAN.to_bits());
}

fn refused(number: u64, position: usize) -> Result<(), Refusal> {
    Err(Refusal { number, position })
}

/// A map of a marker and the int 7, which every refusal leaves.
fn begun() -> MapWriter {
    let mut map = MapWriter::new();
    map.marker().unwrap();
    map.thing(SEVEN).unwrap();
    map
}

const SEVEN: Thing = Thing::Int {
    negative: false,
    magnitude: &[7],
};

const BEGUN: [u8; 6] = [0xE0, 0x01, 0x00, 0xEA, 0x21, 0x07];

/// Pads of any size, at the map's start and behind something: 71 and memory that isn't there, and what is written stays.
#[test]
fn pads_of_any_size() {
    for mut map in [MapWriter::new(), begun()] {
        let before = map.bytes().to_vec();
        let start = before.len();
        for size in [0, (1 << 63) + 10, usize::MAX - 2, usize::MAX - 1, usize::MAX] {
            assert_eq!(
                map.thing(Thing::Pad(size)),
                refused(Refusal::NO_SUCH_LENGTH, start),
                "{size}"
            );
            assert_eq!(map.bytes(), before);
        }
        for size in [1 << 62, (1 << 63) - 1, 1 << 63, (1 << 63) + 9] {
            assert_eq!(
                map.thing(Thing::Pad(size)),
                refused(Refusal::NO_MEMORY, start),
                "{size}"
            );
            assert_eq!(map.bytes(), before);
        }
        for size in 1..300 {
            let start = map.bytes().len();
            map.thing(Thing::Pad(size)).unwrap();
            assert_eq!(map.bytes().len(), start + size);
        }
        assert_eq!(check(map.bytes()).unwrap().pads, 299);
    }
}

/// In a struct a value stands behind its field ID, and a pad too.
#[test]
fn fields() {
    let mut map = begun();
    map.structure(|fields| {
        fields.field(4, |value| value.thing(Thing::String("")))?;
        fields.field(300, |value| value.list(|list| list.thing(SEVEN)))?;
        fields.field(0, |pad| pad.thing(Thing::Pad(2)))?;
        fields.field((1 << 63) - 1, |value| {
            value.annotated(&[10], |value| value.structure(|_| Ok(())))
        })
    })
    .unwrap();
    let body = [
        &[0x84, 0x80][..],
        &[0x02, 0xAC, 0xB2, 0x21, 0x07],
        &[0x80, 0x01, 0x00],
        &[0x7F, 0x7F, 0x7F, 0x7F, 0x7F, 0x7F, 0x7F, 0x7F, 0xFF],
        &[0xE3, 0x81, 0x8A, 0xD0],
    ]
    .concat();
    assert_eq!(
        map.bytes(),
        [&BEGUN[..], &[0xDE, 0x80 + body.len() as u8], &body].concat()
    );
}

/// A refused value leaves neither itself nor its field ID, and what came before it in its struct stays.
#[test]
fn a_refusal_leaves_nothing() {
    let mut map = begun();
    map.structure(|fields| {
        fields.field(4, |value| value.thing(Thing::Bool(true)))?;
        // Behind the marker, the int, and the field that is written; where the value was to begin.
        assert_eq!(
            fields.field(5, |value| value.thing(Thing::Pad(0))),
            refused(Refusal::NO_SUCH_LENGTH, 6 + 2 + 1)
        );
        assert_eq!(fields.field(1 << 63, |value| value.thing(SEVEN)), refused(20, 6 + 2));
        assert_eq!(fields.field(5, |_| Ok(())), refused(Refusal::FIELD_CUT, 6 + 2 + 1));
        // A closure that says nothing of the refusal that it met.
        let silent = fields.field(5, |value| {
            let _ = value.thing(Thing::Pad(0));
            Ok(())
        });
        assert_eq!(silent, refused(Refusal::FIELD_CUT, 6 + 2 + 1));
        fields.field(6, |value| {
            value.list(|list| {
                list.thing(SEVEN)?;
                assert_eq!(list.thing(Thing::Decimal(&[0x01])), refused(4, 6 + 2 + 1 + 2 + 1));
                assert_eq!(list.annotated(&[], |value| value.thing(SEVEN)), refused(23, 11));
                assert_eq!(list.annotated(&[4], |_| Ok(())), refused(25, 11));
                assert_eq!(
                    list.annotated(&[4], |value| value.thing(Thing::Pad(1))),
                    refused(28, 11)
                );
                let twice = list.annotated(&[4], |value| value.annotated(&[4], |value| value.thing(SEVEN)));
                assert_eq!(twice, refused(27, 11));
                assert_eq!(
                    list.annotated(&[4, 1 << 63], |value| value.thing(SEVEN)),
                    refused(20, 11)
                );
                assert_eq!(list.annotated(&[4; 256], |value| value.thing(SEVEN)), refused(26, 11));
                Ok(())
            })
        })
    })
    .unwrap();
    let written = [&BEGUN[..], &[0xD6, 0x84, 0x11, 0x86, 0xB2, 0x21, 0x07]].concat();
    assert_eq!(map.bytes(), written);

    // A refusal that is passed on takes back all of its containers, and the map goes on.
    let passed_on = map.list(|list| {
        list.thing(SEVEN)?;
        list.annotated(&[4], |value| value.sexp(|sexp| sexp.thing(Thing::Timestamp(&[0x80]))))
    });
    assert_eq!(passed_on, refused(31, written.len() + 2));
    assert_eq!(map.bytes(), written);
    map.thing(Thing::Null(Type::List)).unwrap();
    assert_eq!(map.bytes(), [&written[..], &[0xBF]].concat());
}

/// What is refused once a container is whole is refused where it lies in it.
#[test]
fn a_position_in_a_container() {
    let mut map = begun();
    let annotated = |list: &mut SequenceWriter<'_>| list.annotated(&[4; 300], |value| value.thing(SEVEN));
    assert_eq!(map.list(annotated), refused(26, 6));

    let limits = Limits {
        depth: 2,
        ..Limits::DEFAULT
    };
    let mut map = MapWriter::by(limits);
    map.thing(SEVEN).unwrap();
    let nested = map.list(|list| {
        list.thing(SEVEN)?;
        list.sexp(|sexp| sexp.list(|_| panic!("it isn't asked for")))
    });
    assert_eq!(nested, refused(Refusal::TOO_DEEP, 4));
    assert_eq!(map.bytes(), [0x21, 0x07]);
    map.list(|list| list.sexp(|_| Ok(()))).unwrap();
    assert_eq!(map.bytes(), [0x21, 0x07, 0xB1, 0xC0]);
    assert_eq!(limits.check(map.bytes()).map(|counts| counts.values()), Ok(3));
}

/// Limits out of their ranges, in containers and wrappers.
#[test]
fn limits_out_of_range() {
    let usual = Limits::DEFAULT;
    for limits in [
        Limits { depth: 0, ..usual },
        Limits { depth: 65, ..usual },
        Limits {
            depth: usize::MAX,
            ..usual
        },
        Limits {
            annotations: 254,
            ..usual
        },
        Limits {
            annotations: usize::MAX,
            ..usual
        },
    ] {
        let mut map = MapWriter::by(limits);
        map.marker().unwrap();
        assert_eq!(map.list(|_| Ok(())), refused(Refusal::LIMIT_OUT_OF_RANGE, 4));
        assert_eq!(map.annotated(&[4], |value| value.thing(SEVEN)), refused(68, 4));
        assert_eq!(map.bytes(), &BEGUN[..4]);
    }
}

/// A caller that calls itself for each container of what it writes is stopped at the limit, not by its stack's end.
#[test]
fn containers_in_containers_without_end() {
    fn nested(fields: &mut StructWriter<'_>, met: &mut usize) -> Result<(), Refusal> {
        *met += 1;
        fields.field(4, |value| value.structure(|fields| nested(fields, met)))
    }
    let (mut map, mut met) = (begun(), 0);
    let refusal = map.structure(|fields| nested(fields, &mut met));
    assert_eq!(refusal, refused(Refusal::TOO_DEEP, 6 + 32));
    assert_eq!((met, map.bytes()), (32, &BEGUN[..]));

    for depth in 1..=64 {
        let limits = Limits {
            depth,
            ..Limits::DEFAULT
        };
        let mut map = MapWriter::by(limits);
        fn levels(list: &mut SequenceWriter<'_>, left: usize) -> Result<(), Refusal> {
            match left {
                0 => Ok(()),
                _ => list.list(|list| levels(list, left - 1)),
            }
        }
        assert_eq!(map.list(|list| levels(list, depth)), refused(37, 0), "{depth}");
        assert_eq!(map.list(|list| levels(list, depth - 1)), Ok(()), "{depth}");
        assert_eq!(limits.check(map.bytes()).map(|counts| counts.lists), Ok(depth as u64));
    }
}

/// A closure that panics leaves nothing either.
#[test]
fn a_closure_that_panics() {
    let mut map = begun();
    let met = catch_unwind(AssertUnwindSafe(|| {
        map.structure(|fields| {
            fields.field(4, |value| {
                value.list(|list| {
                    list.thing(SEVEN)?;
                    std::panic::resume_unwind(Box::new(()))
                })
            })
        })
    }));
    assert!(met.is_err());
    assert_eq!(map.bytes(), BEGUN);
    map.list(|list| list.list(|list| list.thing(SEVEN))).unwrap();
    assert_eq!(map.bytes(), [&BEGUN[..], &[0xB3, 0xB2, 0x21, 0x07]].concat());
}

/// Numbers without a plan.
struct Random(u64);

impl Random {
    fn below(&mut self, most: usize) -> usize {
        self.0 = self
            .0
            .wrapping_mul(6364136223846793005)
            .wrapping_add(1442695040888963407);
        (self.0 >> 33) as usize % most
    }

    fn id(&mut self) -> u64 {
        [0, 3, 4, 127, 128, 16383, 16384, (1 << 63) - 1, 1 << 63, u64::MAX][self.below(10)]
    }

    fn thing(&mut self) -> Thing<'static> {
        [
            SEVEN,
            Thing::Null(Type::Struct),
            Thing::Bool(true),
            Thing::Int {
                negative: true,
                magnitude: &[0, 0],
            },
            Thing::Int {
                negative: true,
                magnitude: &[1; 300],
            },
            Thing::Float(-0.0),
            Thing::Symbol(u64::MAX),
            Thing::Decimal(&[0xC1, 0x63]),
            Thing::Decimal(&[0x01]),
            Thing::Timestamp(&[0x80, 0x0F, 0xD0]),
            Thing::Timestamp(&[0x80, 0x80]),
            Thing::String("tree"),
            Thing::Blob(&[0x5A; 14]),
            Thing::Pad(1),
            Thing::Pad(130),
            Thing::Pad(0),
            Thing::Pad(usize::MAX),
            Thing::Pad(1 << 63),
        ][self.below(18)]
    }
}

macro_rules! write_one {
    ($to:expr, $random:expr) => {
        match $random.below(8) {
            0 => $to.list(|list| write_values(list, $random)),
            1 => $to.sexp(|sexp| write_values(sexp, $random)),
            2 => $to.structure(|fields| write_fields(fields, $random)),
            3 => {
                let ids: Vec<u64> = (0..$random.below(3)).map(|_| $random.id()).collect();
                $to.annotated(&ids, |value| write_value(value, $random))
            }
            _ => $to.thing($random.thing()),
        }
    };
}

fn write_values(list: &mut SequenceWriter<'_>, random: &mut Random) -> Result<(), Refusal> {
    for _ in 0..random.below(4) {
        let answer = write_one!(list, random);
        if random.below(3) == 0 {
            answer?;
        }
    }
    Ok(())
}

fn write_fields(fields: &mut StructWriter<'_>, random: &mut Random) -> Result<(), Refusal> {
    for _ in 0..random.below(4) {
        let answer = fields.field(random.id(), |value| write_value(value, random));
        if random.below(3) == 0 {
            answer?;
        }
    }
    Ok(())
}

fn write_value(value: ValueWriter<'_>, random: &mut Random) -> Result<(), Refusal> {
    match random.below(20) {
        0 => Ok(()), // none
        1 => write_one!(value, random).or(Ok(())),
        _ => write_one!(value, random),
    }
}

/// Whatever is written, and whichever refusals are passed on or not: after each thing that is written the map is accepted,
/// and after each that is refused it is as it was.
#[test]
fn things_without_a_plan() {
    let mut random = Random(1);
    let (mut written, mut refused) = (0, 0);
    for depth in [1, 2, 3, 32] {
        let limits = Limits {
            depth,
            ..Limits::DEFAULT
        };
        for _ in 0..500 {
            let mut map = MapWriter::by(limits);
            for _ in 0..6 {
                let before = map.bytes().to_vec();
                match write_one!(map, &mut random) {
                    Ok(()) => {
                        written += 1;
                        assert_eq!(map.bytes()[..before.len()], before);
                        assert!(map.bytes().len() > before.len());
                        assert!(limits.check(map.bytes()).is_ok(), "{:02X?}", map.bytes());
                    }
                    Err(refusal) => {
                        refused += 1;
                        assert!(refusal.position >= before.len());
                        assert_ne!(refusal.number, Refusal::UNKNOWN_ANSWER);
                        assert_eq!(map.bytes(), before);
                    }
                }
            }
        }
    }
    assert!(written > 4000 && refused > 2000, "{written}, {refused}");
}
