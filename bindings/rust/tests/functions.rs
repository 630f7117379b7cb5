//! A short example of each function, with the maps at the edges.

use ion_map::{
    annotation, annotations, decimal, ids_begun, int, items, items_bounded, raw, scalar, step, step_bounded, step_in,
    timestamp, var_int, var_uint, walk, walked, Body, Bounded, Item, Limits, Part, PartKind, Precision, Refusal,
    Scalar, Timestamp, TimestampOr, Type,
};
use std::error::Error;

fn refusal(number: u64, position: usize) -> Refusal {
    Refusal { number, position }
}

/// The first step of a map taken as a stream.
fn first(map: &[u8]) -> Result<Item, Refusal> {
    step(map, Part::stream(map), 0)
}

fn read(map: &[u8]) -> Result<Scalar<'_>, Refusal> {
    scalar(map, Part::stream(map), 0)
}

#[test]
fn steps() {
    assert_eq!(first(&[]), Ok(Item::End { position: 0 }));
    assert_eq!(first(&[0x00, 0x00]), Ok(Item::End { position: 2 }));

    let Ok(Item::Marker(marker)) = first(&[0xE0, 0x01, 0x00, 0xEA]) else {
        panic!("no marker")
    };
    assert_eq!((marker.span, marker.major, marker.minor), (0..4, 1, 0));

    let Ok(Item::Value(int)) = first(&[0xE3, 0x81, 0x84, 0x20]) else {
        panic!("no value")
    };
    assert_eq!((int.byte, int.ion_type, int.descriptor()), (0x20, Type::Int, 3));
    assert_eq!((int.span(), int.annotations, int.body), (0..4, 2..3, 4..4));
}

/// Word 8 of every kind of record: a body's length, of a scalar its part's, else 0.
#[test]
fn lengths() {
    let length = |map: &[u8]| first(map).map(|item| item.body_len());
    assert_eq!(length(&[]), Ok(0));
    assert_eq!(length(&[0xE0, 0x01, 0x00, 0xEA]), Ok(0));
    assert_eq!(length(&[0x22, 0x00, 0x07]), Ok(2));
    assert_eq!(length(&[0x8E, 0x83, 0x61, 0x62, 0x63]), Ok(3));
    assert_eq!(length(&[0xE4, 0x81, 0x84, 0x21, 0x07]), Ok(1));
    assert_eq!(length(&[0xD1, 0x82, 0x84, 0x20]), Ok(2));
    assert_eq!(length(&[0xDF]), Ok(0));

    let map = [0x22, 0x00, 0x07, 0xD2, 0x84, 0x12];
    let mut record = [0xAA; raw::RECORD_SIZE];
    let limit = Limits::DEFAULT.annotations;
    raw::scalar(&map, 0, 6, 0, limit, &mut record);
    assert_eq!(raw::words(&record), [7, 0x22, 0, 2, 0, 2, 3, 0, 1]);
    raw::step(&map, 4, 6, 4, 2, limit, &mut record);
    assert_eq!(raw::words(&record), [3, 0x12, 4, 5, 5, 6, 6, 4, 0]);
    raw::step_in(&map, 0, 6, 3, limit, &mut record);
    assert_eq!(raw::words(&record), [6, 2, 3, 0, 0, 4, 6, 0, 2]);
    raw::scalar(&map, 4, 6, 5, limit, &mut record);
    assert_eq!(raw::words(&record), [9, 33, 5, 0, 0, 0, 0, 0, 0]);
}

#[test]
fn steps_through_a_struct() {
    let map = [0xD5, 0x84, 0x00, 0x85, 0x21, 0x07];
    let body = Part::new(PartKind::Struct, 1..6);
    let Ok(Item::Field { id, value }) = step(&map, body, 1) else {
        panic!("no field")
    };
    assert_eq!((id, value.span(), value.descriptor()), (5, 3..6, 4));
    assert_eq!(step(&map, body, 6), Ok(Item::End { position: 6 }));
}

/// Kind 4 where another pad comes behind the most, else what the step answers.
#[test]
fn bounded_steps() {
    let stream = |map: &[u8], position, most| step_bounded(map, Part::stream(map), position, most);
    let body = |map: &[u8], most| step_bounded(map, Part::new(PartKind::Struct, 0..map.len()), 0, most);
    let more = |pads, position| Ok(Bounded::More { pads, position });
    let end = |position| Ok(Bounded::Reached(Item::End { position }));
    assert_eq!(stream(&[0x00, 0x01], 0, 1), more(1, 1));
    assert_eq!(stream(&[0x00, 0x01], 1, 1), Err(refusal(6, 2)));
    assert_eq!(stream(&[0x00, 0x00, 0x00], 0, 2), more(2, 2));
    assert_eq!(stream(&[0x00, 0x00], 0, 2), end(2));
    assert_eq!(stream(&[0x00], 0, 1), end(1));
    assert_eq!(stream(&[], 0, 0), Err(refusal(Refusal::NO_PADS_ALLOWED, 0)));
    assert_eq!(stream(&[0x00], 2, 0), Err(refusal(Refusal::OUTSIDE, 0)));
    assert_eq!(body(&[0x80, 0x00, 0x80, 0x00], 1), more(1, 2));
    assert_eq!(body(&[0x80, 0x00, 0x00], 1), Err(refusal(3, 3)));
    assert_eq!(body(&[0x80, 0x00, 0x80], 1), Err(refusal(7, 3)));
}

/// A part of nothing but pads comes back after each bound, and the pads of all calls are all.
#[test]
fn bounded_items_of_pads() {
    let map = [0x00; 1000];
    for most in [1, 7, 999, 1000, usize::MAX] {
        let mut items = items_bounded(&map, Part::stream(&map), most);
        let mut passed = 0;
        while let Some(met) = items.next() {
            let Ok(Bounded::More { pads, position }) = met else {
                panic!("an item among pads")
            };
            passed += pads;
            assert_eq!((pads, position, items.position()), (most, passed, passed));
        }
        assert_eq!((passed, items.position()), (999 / most * most, 1000));
    }
    assert_eq!(items_bounded(&map, Part::stream(&map), 0).count(), 1);
}

/// The pads, and one more unless the step ended or was refused before any ID.
#[test]
fn ids_that_a_step_begins() {
    let bodies: [(&[u8], u64); 11] = [
        (&[], 0),
        (&[0x80, 0x00], 1),
        (&[0x00], 1),
        (&[0x80], 1),
        (&[0x80, 0x01], 1),
        (&[0x80, 0x20], 1),
        (&[0x80, 0xF0], 1),
        (&[0x80, 0x00, 0x81, 0x00], 2),
        (&[0x80, 0x00, 0x81, 0x20], 2),
        (&[0x80, 0x00, 0x01], 2),
        (&[0x80, 0x00, 0x80, 0x0E, 0x82, 0xFF, 0xFF, 0x84, 0x11], 3),
    ];
    for (body, ids) in bodies {
        assert_eq!(ids_begun(body, 0..body.len(), 0), ids, "{body:X?}");
        assert_eq!(ids_begun(body, 0..body.len() + 1, 0), 0, "{body:X?}");
        let none = Limits {
            annotations: 254,
            ..Limits::DEFAULT
        };
        assert_eq!(none.ids_begun(body, 0..body.len(), 0), 0, "{body:X?}");
    }
    assert_eq!(ids_begun(&[0x80, 0x00, 0x80, 0x20], 1..4, 0), 0);
    assert_eq!(ids_begun(&[0x80, 0x00, 0x80, 0x20], 1..4, 2), 1);
}

#[test]
fn steps_refused() {
    let refused: [(&[u8], u64, usize); 18] = [
        (&[0x01], 6, 1),
        (&[0xE0, 0x01, 0x00], 2, 0),
        (&[0xE3, 0x81, 0x84], 1, 3),
        (&[0xE2, 0x81, 0x84], 25, 0),
        (&[0xEF, 0x81], 24, 0),
        (&[0xE4, 0x81, 0x84, 0x20], 29, 0),
        (&[0xD1, 0x80], 32, 0),
        (&[0x4E, 0x84], 30, 0),
        (&[0x4E], 3, 1),
        (&[0x22, 0x05], 8, 0),
        (&[0xE0, 0x01, 0x00, 0x00], 21, 0),
        (&[0xF0], 22, 0),
        (&[0xE0, 0x02, 0x00, 0xEA], 60, 0),
        (&[0xE0, 0x01, 0x01, 0xEA], 60, 0),
        (&[0xE0, 0x00, 0x00, 0xEA], 60, 0),
        (&[0x00, 0xE0, 0x01, 0x01, 0xEA], 60, 1),
        (&[0xE0, 0x02, 0x00, 0xEB], 21, 0),
        (&[0xE0, 0x02, 0x00], 2, 0),
    ];
    for (map, number, position) in refused {
        assert_eq!(first(map), Err(refusal(number, position)), "{map:X?}");
    }
    let in_list = step(&[0xB1, 0xE0], Part::new(PartKind::Sequence, 1..2), 1);
    assert_eq!(in_list, Err(refusal(22, 1)));
}

/// Nothing behind a marker that isn't 1.0 is handed out.
#[test]
fn another_version() {
    let map = [0xE0, 0x01, 0x00, 0xEA, 0x20, 0x00, 0xE0, 0x01, 0x01, 0xEA, 0x20];
    let other = Err(refusal(Refusal::NOT_VERSION_1_0, 6));
    let mut items = items(&map, Part::stream(&map));
    let met: Vec<_> = items.by_ref().map(|item| item.map(|item| item.span())).collect();
    assert_eq!(met, [Ok(0..4), Ok(4..5), other.clone()]);
    assert_eq!(items.position(), 5);
    let met: Vec<_> = walk(&map).map(|met| met.map(|(_, item)| item.span())).collect();
    assert_eq!(met, [Ok(0..4), Ok(4..5), other]);
    assert_eq!(walked(&map, u64::MAX), 2);
}

#[test]
fn items_of_a_part() {
    let map = [0x21, 0x07, 0x00, 0x11, 0x22];
    let met: Vec<_> = items(&map, Part::stream(&map))
        .map(|item| item.map(|item| item.span()))
        .collect();
    assert_eq!(met, [Ok(0..2), Ok(3..4), Err(refusal(8, 4))]);
}

#[test]
fn items_of_a_long_part() {
    let map = [0x11; 100];
    let mut items = items(&map, Part::stream(&map));
    for at in 0..100 {
        assert_eq!(items.position(), at);
        assert_eq!(
            items.next().map(|item| item.map(|item| item.span())),
            Some(Ok(at..at + 1))
        );
    }
    assert_eq!(items.next(), None);
    assert_eq!((items.position(), items.part()), (100, Part::stream(&map)));
}

#[test]
fn a_value_as_a_part() {
    let part = |map: &[u8]| first(map).ok().and_then(|item| item.value()?.part());
    assert_eq!(part(&[0xB0]), Some(Part::new(PartKind::Sequence, 1..1)));
    assert_eq!(part(&[0xC1, 0x20]), Some(Part::new(PartKind::Sequence, 1..2)));
    assert_eq!(part(&[0xD2, 0x84, 0x20]), Some(Part::new(PartKind::Struct, 1..3)));
    assert_eq!(part(&[0xBF]), None);
    assert_eq!(part(&[0x20]), None);
}

#[test]
fn stepping_in() {
    let map = [0xE4, 0x81, 0x84, 0xB1, 0x20, 0xBF, 0x00];
    let stream = Part::stream(&map);
    let body = Body {
        descriptor: 3,
        part: Part::new(PartKind::Sequence, 4..5),
        body_len: 1,
    };
    assert_eq!(step_in(&map, stream, 0), Ok(body));
    assert_eq!(step_in(&map, stream, 3), Ok(body));
    assert_eq!(step_in(&map, stream, 4), Err(refusal(52, 4)));
    assert_eq!(step_in(&map, stream, 5), Err(refusal(52, 5)));
    assert_eq!(step_in(&map, stream, 6), Err(refusal(22, 6)));
    assert_eq!(step_in(&map, stream, 7), Err(refusal(1, 7)));
}

#[test]
fn annotations_of_a_value() {
    let map = [0xE5, 0x83, 0x84, 0x01, 0x80, 0x20];
    let read = annotation(&map, 2..5, 3).map(|read| read.map(|annotation| (annotation.id, annotation.span)));
    assert_eq!(read, Ok(Some((128, 3..5))));
    assert_eq!(annotation(&map, 2..5, 5), Ok(None));

    let ids: Vec<_> = annotations(&map, 2..5)
        .map(|read| read.map(|annotation| annotation.id))
        .collect();
    assert_eq!(ids, [Ok(4), Ok(128)]);
    assert_eq!(annotations(&map, 3..4).collect::<Vec<_>>(), [Err(refusal(3, 4))]);
}

#[test]
fn scalars() {
    assert_eq!(read(&[0x0F]), Ok(Scalar::Null(Type::Null)));
    assert_eq!(read(&[0xDF]), Ok(Scalar::Null(Type::Struct)));
    assert_eq!(read(&[0x10]), Ok(Scalar::Bool(false)));
    assert_eq!(read(&[0x11]), Ok(Scalar::Bool(true)));
    assert_eq!(read(&[0x52, 0xC1, 0x63]), Ok(Scalar::Decimal(&[0xC1, 0x63])));
    assert_eq!(read(&[0x62, 0x80, 0x81]), Ok(Scalar::Timestamp(&[0x80, 0x81])));
    assert_eq!(read(&[0x70]), Ok(Scalar::Symbol(0)));
    assert_eq!(read(&[0x72, 0x01, 0x00]), Ok(Scalar::Symbol(256)));
    assert_eq!(read(&[0x82, 0x68, 0x69]), Ok(Scalar::String("hi")));
    assert_eq!(read(&[0x91, 0xFF]), Ok(Scalar::Clob(&[0xFF])));
    assert_eq!(read(&[0xA1, 0xFF]), Ok(Scalar::Blob(&[0xFF])));
    assert_eq!(read(&[0xC0]), Ok(Scalar::Container(Type::Sexp)));
}

#[test]
fn ints() {
    let value = |map: &[u8]| read(map).ok().and_then(|int| int.to_i128());
    assert_eq!(value(&[0x20]), Some(0));
    assert_eq!(value(&[0x22, 0x00, 0x07]), Some(7));
    assert_eq!(value(&[0x32, 0x01, 0x00]), Some(-256));
    assert_eq!(value(&[0x11]), None);

    let zeros_first = [0x23, 0x00, 0x01, 0x00];
    let magnitude = &zeros_first[2..];
    let negative = false;
    assert_eq!(read(&zeros_first), Ok(Scalar::Int { negative, magnitude }));

    let mut large = [0x00; 18];
    (large[0], large[1], large[2]) = (0x3E, 0x90, 0x80);
    assert_eq!(value(&large), Some(i128::MIN));
    large[0] = 0x2E;
    assert_eq!(value(&large), None);
}

#[test]
fn floats() {
    let bits = |map: &[u8]| match read(map) {
        Ok(Scalar::Float(float)) => Some(float.to_bits()),
        _ => None,
    };
    assert_eq!(bits(&[0x40]), Some(0));
    assert_eq!(bits(&[0x44, 0x3F, 0xC0, 0x00, 0x00]), Some(1.5f64.to_bits()));
    assert_eq!(bits(&[0x48, 0x80, 0, 0, 0, 0, 0, 0, 0]), Some((-0.0f64).to_bits()));
    // A NaN of 32 bits keeps its sign and fraction and gains the quiet bit.
    assert_eq!(bits(&[0x44, 0xFF, 0x80, 0x00, 0x01]), Some(0xFFF8_0000_2000_0000));
}

#[test]
fn scalars_refused() {
    assert_eq!(read(&[0x12]), Err(refusal(33, 0)));
    assert_eq!(read(&[0x30]), Err(refusal(34, 0)));
    assert_eq!(read(&[0x31, 0x00]), Err(refusal(34, 0)));
    assert_eq!(read(&[0x79, 0, 0, 0, 0, 0, 0, 0, 0, 1]), Err(refusal(35, 0)));
    assert_eq!(read(&[0xE4, 0x81, 0x84, 0x81, 0x80]), Err(refusal(36, 3)));
    assert_eq!(read(&[]), Err(refusal(1, 0)));
    assert_eq!(read(&[0x00]), Err(refusal(22, 0)));
    assert_eq!(read(&[0xE0, 0x01, 0x00, 0xEA]), Err(refusal(22, 0)));
}

#[test]
fn var_uints() {
    let value = |map: &[u8]| var_uint(map, 0..map.len(), 0).map(|number| (number.value, number.span));
    assert_eq!(value(&[0x0F, 0xD0]), Ok((2000, 0..2)));
    assert_eq!(
        value(&[0x7F, 0x7F, 0x7F, 0x7F, 0x7F, 0x7F, 0x7F, 0x7F, 0xFF]),
        Ok((u64::MAX >> 1, 0..9))
    );
    assert_eq!(value(&[0, 0, 0, 0, 0, 0, 0, 0, 0, 0x80]), Err(refusal(20, 0)));
    assert_eq!(value(&[0; 10]), Err(refusal(3, 10)));
}

#[test]
fn var_ints() {
    let value = |map: &[u8]| var_int(map, 0..map.len(), 0).map(|number| (number.negative, number.to_i64()));
    assert_eq!(value(&[0x40, 0x81]), Ok((true, Some(-1))));
    assert_eq!(value(&[0xC0]), Ok((true, Some(0))));
    assert_eq!(value(&[0x80]), Ok((false, Some(0))));
    let least = [0x7F, 0x7F, 0x7F, 0x7F, 0x7F, 0x7F, 0x7F, 0x7F, 0xFF];
    assert_eq!(value(&least), Ok((true, Some(1 - (1 << 62)))));
    assert_eq!(value(&[0x00]), Err(refusal(4, 1)));
}

#[test]
fn ints_of_a_length() {
    let map = [0x80, 0x81];
    let value = |length| int(&map, 0..2, 0, length).map(|number| (number.first, number.rest, number.to_i128()));
    assert_eq!(value(0), Ok((0, &[][..], Some(0))));
    assert_eq!(value(1), Ok((0, &[][..], Some(0))));
    assert_eq!(value(2), Ok((0, &[0x81][..], Some(-129))));
    assert_eq!(value(3), Err(refusal(9, 0)));
    assert_eq!(value(usize::MAX), Err(refusal(9, 0)));
}

/// A decimal's body is split as the numbers are read of which it is made.
#[test]
fn a_decimal_by_its_numbers() {
    let map = [0x52, 0xC1, 0x63];
    let item = first(&map).unwrap();
    let body = item.value().unwrap().body.clone();
    let exponent = var_int(&map, body.clone(), body.start).unwrap();
    let length = body.end - exponent.span.end;
    let coefficient = int(&map, body.clone(), exponent.span.end, length).unwrap();
    assert_eq!((coefficient.to_i128(), exponent.to_i64()), (Some(99), Some(-1)));
    assert_eq!(
        decimal(&map, body).map(|split| split.to_i64_and_scale()),
        Ok(Some((99, 1)))
    );
}

#[cfg(feature = "alloc")]
#[test]
fn decimals() {
    let text = |body: &[u8]| decimal(body, 0..body.len()).map(|decimal| decimal.to_string());
    assert_eq!(text(&[]), Ok("0d0".to_string()));
    assert_eq!(text(&[0x80]), Ok("0d0".to_string()));
    assert_eq!(text(&[0xC0]), Ok("0d0".to_string()));
    assert_eq!(text(&[0xC1]), Ok("0d-1".to_string()));
    assert_eq!(text(&[0x80, 0x80]), Ok("-0d0".to_string()));
    assert_eq!(text(&[0xC0, 0x80]), Ok("-0d0".to_string()));
    assert_eq!(text(&[0xC1, 0x63]), Ok("99d-1".to_string()));
    assert_eq!(text(&[0x40, 0x81, 0x80, 0x81]), Ok("-129d-1".to_string()));
    assert_eq!(text(&[0x80, 0x3B, 0x9A, 0xCA, 0x00]), Ok("1000000000d0".to_string()));
    assert_eq!(
        text(&[0x80, 0x01, 0x00, 0, 0, 0, 0, 0, 0, 0]),
        Ok("18446744073709551616d0".to_string())
    );
    let least = [0x7F, 0x7F, 0x7F, 0x7F, 0x7F, 0x7F, 0x7F, 0x7F, 0xFF];
    assert_eq!(text(&least), Ok("0d-4611686018427387903".to_string()));
    assert_eq!(text(&[0x01]), Err(refusal(4, 1)));
    assert_eq!(text(&[0, 0, 0, 0, 0, 0, 0, 0, 0, 0x80]), Err(refusal(20, 0)));

    // 256^40, which is 2^320.
    let mut large = vec![0; 42];
    (large[0], large[1]) = (0x80, 0x01);
    let digits = "2135987035920910082395021706169552114602704522356652769947041607822219725780640550022962086936576";
    assert_eq!(text(&large), Ok(format!("{digits}d0")));
}

#[test]
fn decimals_as_numbers() {
    let value = |body: &[u8]| decimal(body, 0..body.len()).map(|decimal| decimal.to_i64_and_scale());
    assert_eq!(value(&[]), Ok(Some((0, 0))));
    assert_eq!(value(&[0xC1, 0x63]), Ok(Some((99, 1))));
    assert_eq!(value(&[0x82, 0xE3]), Ok(Some((-99, -2))));
    assert_eq!(value(&[0xC3, 0x80]), Ok(Some((0, 3))));
    assert_eq!(
        value(&[0xC1, 0x7F, 0xFF, 0xFF, 0xFF, 0xFF, 0xFF, 0xFF, 0xFF]),
        Ok(Some((i64::MAX, 1)))
    );
    assert_eq!(value(&[0xC1, 0x00, 0x80, 0, 0, 0, 0, 0, 0, 0]), Ok(None));
    assert_eq!(value(&[0xC1, 0x80, 0x80, 0, 0, 0, 0, 0, 0, 0]), Ok(Some((i64::MIN, 1))));
    assert_eq!(value(&[0xC1, 0x80, 0x80, 0, 0, 0, 0, 0, 0, 1]), Ok(None));
    assert_eq!(value(&[0xFF; 40]), Ok(None));
}

/// A decimal's bytes are the map's own, its positions are counted from the map's start, and the bytes around it play no part.
#[cfg(feature = "alloc")]
#[test]
fn decimals_in_a_map() {
    let map = [0x11, 0x54, 0xC1, 0x83, 0x02, 0x01, 0x80];
    let split = decimal(&map, 2..6).unwrap();
    assert_eq!((split.negative, split.first, split.exponent), (true, 3, -1));
    assert_eq!(split.rest.as_ptr_range(), map[4..6].as_ptr_range());
    assert_eq!(decimal(&map, 5..6), Err(refusal(4, 6)));
    assert_eq!(decimal(&map, 7..7).map(|zero| zero.to_string()), Ok("0d0".to_string()));

    let Ok(Scalar::Decimal(body)) = scalar(&map, Part::stream(&map), 1) else {
        panic!("no decimal")
    };
    assert_eq!(decimal(body, 0..body.len()), Ok(split));
    assert_eq!(split.to_string(), "-197121d-1");
}

/// What fits is given, and nothing of another type or of a null.
#[test]
fn scalars_as_what_they_are() {
    let all = |map: &[u8]| {
        let read = read(map).unwrap();
        let text = read.as_str().map(str::to_string);
        (text, read.as_bool(), read.as_f64(), read.as_i64())
    };
    assert_eq!(all(&[0x82, 0x68, 0x69]), (Some("hi".to_string()), None, None, None));
    assert_eq!(all(&[0x80]), (Some(String::new()), None, None, None));
    assert_eq!(all(&[0x11]), (None, Some(true), None, None));
    assert_eq!(all(&[0x10]), (None, Some(false), None, None));
    assert_eq!(all(&[0x44, 0x3F, 0xC0, 0, 0]), (None, None, Some(1.5), None));
    assert_eq!(all(&[0x40]), (None, None, Some(0.0), None));
    assert_eq!(all(&[0x20]), (None, None, None, Some(0)));
    assert_eq!(all(&[0x31, 0x07]), (None, None, None, Some(-7)));
    let most = [0x28, 0x7F, 0xFF, 0xFF, 0xFF, 0xFF, 0xFF, 0xFF, 0xFF];
    assert_eq!(all(&most), (None, None, None, Some(i64::MAX)));
    let least = [0x38, 0x80, 0, 0, 0, 0, 0, 0, 0];
    assert_eq!(all(&least), (None, None, None, Some(i64::MIN)));
    let none: [&[u8]; 8] = [
        &[0x28, 0x80, 0, 0, 0, 0, 0, 0, 0],
        &[0x38, 0x80, 0, 0, 0, 0, 0, 0, 1],
        &[0x0F],
        &[0x8F],
        &[0x2F],
        &[0x71, 0x0A],
        &[0x91, 0x61],
        &[0xB0],
    ];
    for map in none {
        assert_eq!(all(map), (None, None, None, None), "{map:X?}");
    }
}

/// A value is read where it is handed out, also behind annotations that only the limits of its walk allow.
#[test]
fn values_read_themselves() {
    let mut map = vec![0xEE, 0x02, 0x84, 0x02, 0x80]; // 256 bytes of annotations, and the int 7
    map.extend([0x84; 256]);
    map.extend([0x21, 0x07, 0x64, 0x80, 0x0F, 0xD0, 0x81]); // and 2000-01
    let limits = Limits {
        annotations: 256,
        ..Limits::DEFAULT
    };
    let values: Vec<_> = limits
        .walk(&map)
        .map(|met| met.unwrap().1.value().cloned().unwrap())
        .collect();
    assert_eq!(values.len(), 2);
    assert_eq!(values[0].read(&map).unwrap().as_i64(), Some(7));
    let Ok(TimestampOr::Timestamp(month)) = values[1].read_timestamp(&map) else {
        panic!("no timestamp")
    };
    assert_eq!((month.year, month.month, month.precision), (2000, 1, Precision::Month));
    assert_eq!(values[1].read(&[]), Err(refusal(Refusal::OUTSIDE, 0))); // another map than its own
}

/// What a failed `unwrap` prints says what is wrong.
#[test]
fn refusals_say_why_where_they_are_unwrapped() {
    let refusal = first(&[0x22, 0x05]).unwrap_err();
    assert_eq!(
        format!("{refusal:?}"),
        "Refusal { number: 8, position: 0, words: \"a value that runs past the part\" }"
    );
}

fn stamp(map: &[u8]) -> Result<Timestamp, Refusal> {
    match timestamp(map, Part::stream(map), 0)? {
        TimestampOr::Timestamp(timestamp) => Ok(timestamp),
        other => panic!("{other:?}"),
    }
}

#[test]
fn timestamps() {
    let year = stamp(&[0x63, 0xC0, 0x0F, 0xD0]).unwrap();
    assert_eq!((year.precision, year.offset, year.year), (Precision::Year, None, 2000));
    assert_eq!((year.month, year.day), (0, 0));
    let fraction = [0x6B, 0x43, 0xA4, 0x0F, 0xE8, 0x82, 0x9D, 0x96, 0x9E, 0x8F, 0xC3, 0x07];
    assert_eq!(
        stamp(&fraction),
        Ok(Timestamp {
            precision: Precision::Fraction,
            offset: Some(-420),
            year: 2024,
            month: 2,
            day: 29,
            hour: 22,
            minute: 30,
            second: 15,
            coefficient: 7,
            exponent: -3,
        })
    );
    assert_eq!(stamp(&[0x63, 0x0B, 0xA0, 0x81]), Err(refusal(62, 0)));
    assert_eq!(stamp(&[0x65, 0x80, 0x80, 0x80, 0x80, 0x80]), Err(refusal(61, 0)));
    assert_eq!(stamp(&[0xE5, 0x81, 0x84, 0x62, 0x80, 0x80]), Err(refusal(62, 3)));
    assert_eq!(stamp(&[0x65, 0x80, 0x0E, 0xEC, 0x82, 0x9D]), Err(refusal(62, 0)));
    assert_eq!(stamp(&[0x62, 0x80, 0x00]), Err(refusal(3, 3)));
    assert_eq!(stamp(&[0x61, 0x80]), Err(refusal(31, 0)));

    let other = |map| timestamp(map, Part::stream(map), 0);
    assert_eq!(other(&[0x6F]), Ok(TimestampOr::Scalar(Scalar::Null(Type::Timestamp))));
    assert_eq!(other(&[0x81, 0x61]), Ok(TimestampOr::Scalar(Scalar::String("a"))));
    assert_eq!(other(&[0x12]), Err(refusal(33, 0)));
}

#[cfg(feature = "alloc")]
#[test]
fn timestamps_as_text() {
    let text = |map: &[u8]| stamp(map).map(|timestamp| timestamp.to_rfc3339());
    let some = |text: &str| Ok(Some(text.to_string()));
    assert_eq!(text(&[0x63, 0xC0, 0x0F, 0xD0]), Ok(None));
    assert_eq!(text(&[0x65, 0xC0, 0x0F, 0xD0, 0x81, 0x81]), some("2000-01-01"));
    assert_eq!(text(&[0x67, 0x80, 0x0F, 0xD0, 0x81, 0x81, 0x80, 0x80]), Ok(None));
    let second = |offset: &[u8], rest: &[u8]| {
        let body = [offset, &[0x0F, 0xD0], rest].concat();
        let map = [&[0x60 + body.len() as u8], &body[..]].concat();
        text(&map)
    };
    assert_eq!(
        second(&[0x80], &[0x81, 0x81, 0x80, 0x80, 0x80]),
        some("2000-01-01T00:00:00Z")
    );
    assert_eq!(
        second(&[0xC0], &[0x81, 0x81, 0x80, 0x80, 0x80]),
        some("2000-01-01T00:00:00-00:00")
    );
    assert_eq!(
        second(&[0xC1], &[0x81, 0x81, 0x80, 0x80, 0x80]),
        some("1999-12-31T23:59:00-00:01")
    );
    assert_eq!(
        second(&[0xC1], &[0x83, 0x81, 0x80, 0x80, 0x80]),
        some("2000-02-29T23:59:00-00:01")
    );
    assert_eq!(
        second(&[0x81], &[0x82, 0x9D, 0x97, 0xBB, 0x80]),
        some("2000-03-01T00:00:00+00:01")
    );
    assert_eq!(
        second(&[0x80], &[0x81, 0x81, 0x80, 0x80, 0x80, 0xC3, 0x07]),
        some("2000-01-01T00:00:00.007Z")
    );
    assert_eq!(
        second(&[0x80], &[0x81, 0x81, 0x80, 0x80, 0x80, 0x85]),
        some("2000-01-01T00:00:00Z")
    );
    // A zero of over a thousand places.
    assert_eq!(
        second(&[0x80], &[0x81, 0x81, 0x80, 0x80, 0x80, 0x40, 0x7F, 0xFF]),
        Ok(None)
    );
    // 9999-12-31T23:59:00Z, a minute ahead: the local year is 10000.
    assert_eq!(text(&[0x68, 0x81, 0x4E, 0x8F, 0x8C, 0x9F, 0x97, 0xBB, 0x80]), Ok(None));
    // 0001-01-01T00:00:00Z, a minute behind: the local year is 0.
    assert_eq!(
        text(&[0x67, 0xC1, 0x81, 0x81, 0x81, 0x80, 0x80, 0x80]),
        some("0000-12-31T23:59:00-00:01")
    );
}

/// Fields of any numbers: no text where one is out of its range, and never a panic.
#[cfg(feature = "alloc")]
#[test]
fn texts_of_any_fields() {
    let good = Timestamp {
        precision: Precision::Fraction,
        offset: Some(-60),
        year: 2000,
        month: 3,
        day: 1,
        hour: 0,
        minute: 0,
        second: 0,
        coefficient: 5,
        exponent: -1,
    };
    assert_eq!(good.to_rfc3339().as_deref(), Some("2000-02-29T23:00:00.5-01:00"));
    for precision in [Precision::Day, Precision::Second, Precision::Fraction] {
        let good = Timestamp { precision, ..good };
        assert!(good.to_rfc3339().is_some());
        for other in [
            Timestamp { day: 0, ..good },
            Timestamp { day: 32, ..good },
            Timestamp { day: 255, ..good },
            Timestamp { month: 0, ..good },
            Timestamp { month: 13, ..good },
            Timestamp {
                month: 2,
                day: 30,
                ..good
            },
            Timestamp {
                year: 2001,
                month: 2,
                day: 29,
                ..good
            },
            Timestamp { year: 0, ..good },
            Timestamp { year: 10_000, ..good },
            Timestamp { year: u16::MAX, ..good },
            Timestamp { hour: 24, ..good },
            Timestamp { minute: 60, ..good },
            Timestamp { second: 60, ..good },
            Timestamp {
                offset: Some(1440),
                ..good
            },
            Timestamp {
                offset: Some(-1440),
                ..good
            },
            Timestamp {
                offset: Some(i16::MIN),
                ..good
            },
            Timestamp {
                coefficient: 10,
                ..good
            },
            Timestamp {
                coefficient: u64::MAX,
                exponent: -19,
                ..good
            },
            Timestamp { exponent: 0, ..good },
            Timestamp {
                exponent: i64::MAX,
                ..good
            },
        ] {
            assert_eq!(other.to_rfc3339(), None, "{other:?}");
        }
    }
    let fraction = |coefficient, exponent| {
        Timestamp {
            coefficient,
            exponent,
            ..good
        }
        .to_rfc3339()
    };
    assert_eq!(
        fraction(u64::MAX, -20).as_deref(),
        Some("2000-02-29T23:00:00.18446744073709551615-01:00")
    );
    assert_eq!(fraction(9, -2).as_deref(), Some("2000-02-29T23:00:00.09-01:00"));
    assert_eq!(fraction(0, 7).as_deref(), Some("2000-02-29T23:00:00-01:00"));
    assert_eq!(fraction(1, i64::MIN), None);

    let second = Timestamp {
        precision: Precision::Second,
        ..good
    };
    assert_eq!(second.to_rfc3339().as_deref(), Some("2000-02-29T23:00:00-01:00"));

    // All edges beside each other: the text says what the fields do, or there is none.
    let edges = [0, 1, 2, 3, 12, 13, 23, 24, 28, 29, 30, 31, 32, 59, 60, 255];
    let mut texts = 0;
    for year in [0, 1, 4, 1900, 2000, 9999, 10_000] {
        for month in edges {
            for day in edges {
                for hour in [0, 23, 24, 255] {
                    for offset in [i16::MIN, -1440, -1439, -1, 0, 1439, 1440, i16::MAX] {
                        let stamp = Timestamp {
                            offset: Some(offset),
                            year,
                            month,
                            day,
                            hour,
                            ..good
                        };
                        let day = Timestamp {
                            precision: Precision::Day,
                            ..stamp
                        };
                        assert_eq!(stamp.to_rfc3339().is_some(), day.to_rfc3339().is_some());
                        texts += usize::from(stamp.to_rfc3339().is_some_and(|text| text.is_ascii()));
                    }
                }
            }
        }
    }
    assert!(texts > 1000, "{texts}");
}

#[test]
fn walks() {
    let map = [0xE0, 0x01, 0x00, 0xEA, 0xB3, 0x21, 0x07, 0x00];
    let met: Vec<_> = walk(&map)
        .map(|met| met.map(|(depth, item)| (depth, item.span())))
        .collect();
    assert_eq!(met, [Ok((0, 0..4)), Ok((0, 4..8)), Ok((1, 5..7))]);
    assert_eq!(walked(&map, u64::MAX), 3);
    assert_eq!(walked(&map, 0), 0);
}

/// The walk tells which part handed out the last item, also where it has gone on into a body or out of one.
#[test]
fn the_part_of_a_walk() {
    let map = [0xB5, 0xD2, 0x84, 0x20, 0xB0, 0x11, 0x10];
    let stream = Part::stream(&map);
    let list = Part::new(PartKind::Sequence, 1..6);
    let fields = Part::new(PartKind::Struct, 2..4);
    let mut walk = walk(&map);
    assert_eq!(walk.part(), stream);
    for (start, part) in [(0, stream), (1, list), (2, fields), (4, list), (5, list), (6, stream)] {
        let (_, item) = walk.next().unwrap().unwrap();
        assert_eq!((item.span().start, walk.part()), (start, part));
    }
    assert!(walk.next().is_none());
}

/// Lists in lists, each with a VarUInt of two bytes for its length.
fn nested(lists: usize) -> Vec<u8> {
    let mut map = Vec::new();
    for inner in (0..lists).rev() {
        let length = 3 * inner;
        map.extend([0xBE, (length >> 7) as u8, 0x80 | (length & 0x7F) as u8]);
    }
    map
}

#[test]
fn walks_too_deep() {
    let fits = nested(32);
    assert_eq!(walk(&fits).filter(Result::is_ok).count(), 32);
    assert!(walk(&fits).all(|met| met.is_ok()));

    let too_deep = nested(33);
    let mut walk = walk(&too_deep);
    for depth in 0..=32 {
        let (at, item) = walk.next().unwrap().unwrap();
        assert_eq!((at, item.span().start), (depth, 3 * depth));
    }
    assert_eq!(walk.next(), Some(Err(refusal(37, 96))));
    assert_eq!(walk.next(), None);
    assert_eq!(walked(&too_deep, u64::MAX), 33);
}

/// A value with so many bytes of annotations.
fn annotated(count: usize) -> Vec<u8> {
    let length = [
        (count >> 14) as u8,
        (count >> 7 & 0x7F) as u8,
        0x80 | (count & 0x7F) as u8,
    ];
    let combined = count + length.len() + 1;
    let mut map = vec![
        0xEE,
        (combined >> 14) as u8,
        (combined >> 7 & 0x7F) as u8,
        0x80 | (combined & 0x7F) as u8,
    ];
    map.extend(length);
    map.extend(vec![0x84; count]);
    map.push(0x20);
    map
}

/// Annotations up to the limit are taken by every function, and one byte more is refused by it.
#[test]
fn limits_of_annotations() {
    for limit in [255, 256, 300, 65535] {
        let limits = Limits {
            annotations: limit,
            ..Limits::default()
        };
        let map = annotated(limit);
        let stream = Part::stream(&map);
        let item = limits.step(&map, stream, 0).unwrap();
        assert_eq!(
            (item.span(), item.value().unwrap().annotations.len()),
            (0..map.len(), limit)
        );
        assert_eq!(limits.items(&map, stream).collect::<Vec<_>>(), [Ok(item.clone())]);
        assert_eq!(limits.walk(&map).collect::<Vec<_>>(), [Ok((0, item))]);
        assert_eq!(limits.walked(&map, u64::MAX), 1);
        assert_eq!(limits.scalar(&map, stream, 0).unwrap().to_i128(), Some(0));
        assert_eq!(limits.step_in(&map, stream, 0), Err(refusal(52, map.len() - 1)));

        let map = annotated(limit + 1);
        let stream = Part::stream(&map);
        let over = refusal(26, 0);
        assert_eq!(limits.step(&map, stream, 0), Err(over));
        assert_eq!(limits.items(&map, stream).collect::<Vec<_>>(), [Err(over)]);
        assert_eq!(limits.walk(&map).collect::<Vec<_>>(), [Err(over)]);
        assert_eq!(limits.walked(&map, u64::MAX), 0);
        assert_eq!(limits.scalar(&map, stream, 0), Err(over));
        assert_eq!(limits.step_in(&map, stream, 0), Err(over));
    }
    assert_eq!(Limits::default(), Limits::DEFAULT);
    assert_eq!(first(&annotated(255)).map(|item| item.span().end), Ok(263));
    assert_eq!(first(&annotated(256)), Err(refusal(26, 0)));
}

/// A container at the limit of depth is handed out and not entered, and the count says the same.
#[test]
fn limits_of_depth() {
    for depth in [1, 2, 31, 32, 33, 63, 64] {
        let limits = Limits {
            depth,
            ..Limits::default()
        };
        let fits = nested(depth);
        assert!(limits.walk(&fits).all(|met| met.is_ok()));
        assert_eq!(limits.walked(&fits, u64::MAX), depth as u64);

        let too_deep = nested(depth + 1);
        let mut walk = limits.walk(&too_deep);
        for at in 0..=depth {
            assert_eq!(walk.next().unwrap().unwrap().0, at);
        }
        assert_eq!(walk.next(), Some(Err(refusal(37, 3 * depth))));
        assert_eq!(walk.next(), None);
        assert_eq!(limits.walked(&too_deep, u64::MAX), depth as u64 + 1);
    }
}

#[test]
fn refusals_in_words() {
    let known = (1..=9)
        .chain(20..=37)
        .chain([50, 51, 52, 54, 60, 61, 62, 63, 68, Refusal::UNKNOWN_ANSWER]);
    let unknown = refusal(10, 0).words();
    for number in known {
        assert_ne!(refusal(number, 0).words(), unknown, "{number}");
    }
    let error: Box<dyn Error> = Box::new(refusal(Refusal::BAD_UTF8, 7));
    assert_eq!(error.to_string(), "refusal 36 at 7: text that is not UTF-8");
}

#[test]
fn types() {
    assert_eq!(Type::of_byte(0x21).map(Type::name), Some("int"));
    assert_eq!(Type::of_byte(0x31).map(Type::name), Some("int"));
    assert_eq!(Type::of_byte(0xF0), None);
    assert_eq!(Type::Struct.to_string(), "struct");
    assert_eq!(Type::Struct.body_kind(), Some(PartKind::Struct));
    assert_eq!(Type::Null.body_kind(), None);
}
