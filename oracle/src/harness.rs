//! Reads questions, one a line, asks the Rust, and prints `QUESTION = ANSWER`.
//!
//! Everything that isn't the Rust's answer, because it has no such entry or a change request wants
//! another, ends in ` !`.

use crate::asking::{self, Annotation, Annotations, Asked, Decimal, Item, Line, Number};
use crate::asking::{Refusal, Rules, Scalar, Spans};
use crate::checks::{self, Stop};
use crate::lazy::binary::raw::type_descriptor::TypeDescriptor;
use crate::lazy::expanded::EncodingContext;
use crate::requests::{self, Steps};
use crate::timestamps::{self, Stamp};
use crate::IonType;
use std::cell::RefCell;
use std::io::{self, BufRead, Write};
use std::panic::{catch_unwind, AssertUnwindSafe};

thread_local! {
    static PANIC: RefCell<String> = const { RefCell::new(String::new()) };
}

/// Which checks are compiled in; the overflow check is tried.
pub fn build() -> String {
    let old = std::panic::take_hook();
    std::panic::set_hook(Box::new(|_| {}));
    let overflow =
        catch_unwind(|| std::hint::black_box(u8::MAX) + std::hint::black_box(1)).is_err();
    std::panic::set_hook(old);
    let word = |on| if on { "on" } else { "off" };
    format!(
        "overflow checks {}, debug assertions {}",
        word(overflow),
        word(cfg!(debug_assertions))
    )
}

/// Answers every line of the input.
pub fn answer_all(mut input: impl BufRead, output: impl Write) -> io::Result<()> {
    let mut output = io::BufWriter::with_capacity(1 << 20, output);
    std::panic::set_hook(Box::new(|info| {
        let place = info.location().map_or(String::new(), |at| {
            let file = at.file().rsplit("/ion/").next().unwrap_or("");
            format!(" ({file}:{})", at.line())
        });
        let payload = info.payload();
        let message = payload
            .downcast_ref::<&str>()
            .map(|text| text.to_string())
            .or_else(|| payload.downcast_ref::<String>().cloned())
            .unwrap_or_default();
        PANIC.with(|panic| *panic.borrow_mut() = message.replace('\n', " ") + &place);
    }));
    let mut context = EncodingContext::empty();
    let mut line = String::new();
    let mut bytes = Vec::new();
    let mut answer = Vec::new();
    let mut number = 0u64;
    loop {
        line.clear();
        if input.read_line(&mut line)? == 0 {
            break;
        }
        number += 1;
        let question = line.strip_suffix('\n').unwrap_or(&line);
        output.write_all(question.as_bytes())?;
        if !question.is_empty() && !question.starts_with('#') {
            answer.clear();
            let asked = catch_unwind(AssertUnwindSafe(|| {
                answer_one(question, &context, &mut bytes, &mut answer)
            }));
            match asked {
                Ok(Some(())) => {}
                Ok(None) => {
                    output.flush()?;
                    eprintln!("answer: line {number} is no question: {question}");
                    std::process::exit(2);
                }
                Err(_) => {
                    answer.clear();
                    PANIC.with(|panic| write!(answer, "panic {}", panic.borrow()))?;
                }
            }
            output.write_all(b" = ")?;
            output.write_all(&answer)?;
            context.reset();
        }
        output.write_all(b"\n")?;
    }
    output.flush()
}

fn read_hex(text: &str, bytes: &mut Vec<u8>) -> Option<()> {
    fn digit(byte: u8) -> Option<u8> {
        match byte {
            b'0'..=b'9' => Some(byte - b'0'),
            b'A'..=b'F' => Some(byte - b'A' + 10),
            _ => None,
        }
    }
    bytes.clear();
    if text == "-" {
        return Some(());
    }
    if text.is_empty() || text.len() % 2 != 0 {
        return None;
    }
    for pair in text.as_bytes().chunks_exact(2) {
        bytes.push(digit(pair[0])? << 4 | digit(pair[1])?);
    }
    Some(())
}

/// `None`: the line is no question.
fn answer_one(
    question: &str,
    context: &EncodingContext,
    bytes: &mut Vec<u8>,
    out: &mut Vec<u8>,
) -> Option<()> {
    let mut words = question.split(' ');
    let kind = words.next()?;
    read_hex(words.next()?, bytes)?;
    let mut numbers = [0usize; 3];
    let mut count = 0;
    for word in words {
        *numbers.get_mut(count)? = word.parse().ok()?;
        count += 1;
    }
    let wanted = match kind {
        "descriptor" | "check" => 0,
        "varuint" | "varint" | "decimal" | "instant" | "length" | "pad" | "wrapper" | "walk" => 2,
        "int" | "stream" | "sequence" | "struct" | "annotations" | "scalar" | "stepin" => 3,
        _ => return None,
    };
    if count != wanted {
        return None;
    }
    let bytes: &[u8] = bytes;
    if kind == "descriptor" {
        let [byte] = bytes else { return None };
        descriptor(*byte, out);
        return Some(());
    }
    let [at, end, third] = match kind {
        "check" => [0, bytes.len(), 0],
        _ => numbers,
    };
    match Asked::new(context, bytes, at, end) {
        Ok(asked) => answer_part(kind, &asked, third, out),
        Err(refusal) => refuse(out, refusal),
    }
    Some(())
}

/// Answers a question about a part.
fn answer_part(kind: &str, asked: &Asked<'_>, third: usize, out: &mut Vec<u8>) {
    let part = asked.part();
    let given = match kind {
        "varuint" => asking::var_uint(part).map(|number| say_var_uint(number, out)),
        "varint" => asking::var_int(part).map(|number| say_var_int(number, out)),
        "int" => asking::int(part, third).map(|number| say_int(number, out)),
        "decimal" => asking::decimal(asked).map(|decimal| say_decimal(decimal, out)),
        "instant" => say_instant(asked, out),
        "length" => {
            asking::length(part).map(|(body, length)| say(out, format_args!("{body} {length}")))
        }
        "pad" => asking::pad(part).map(|end| say(out, format_args!("{end}"))),
        "wrapper" => asking::wrapper(part)
            .map(|(start, end, left)| say(out, format_args!("{start} {end} {left}"))),
        "stream" => Ok(steps(asked, Rules::Stream, third, out)),
        "sequence" => Ok(steps(asked, Rules::Sequence, third, out)),
        "struct" => Ok(steps(asked, Rules::Struct, third, out)),
        "annotations" => Ok(annotations(asked, third, out)),
        "check" => Ok(say_check(asked, out)),
        "walk" => Ok(requests::walk(asked, &mut |line| say_line(line, out))),
        "scalar" => asking::scalar(asked, third).map(|reading| say_scalar(reading.scalar, out)),
        _ => asking::step_in(asked, third).map(|opened| {
            let kind = if opened.is_struct {
                "struct"
            } else {
                "sequence"
            };
            say(out, format_args!("{kind} {} {}", opened.body, opened.end))
        }),
    };
    if let Err(refusal) = given {
        refuse(out, requests::refusal(asked, refusal));
    }
}

fn say(out: &mut Vec<u8>, text: std::fmt::Arguments<'_>) {
    out.write_fmt(text).unwrap();
}

fn refuse(out: &mut Vec<u8>, refusal: Refusal) {
    say_refusal(refusal, out);
    mark(refusal.own, out);
}

fn say_refusal(refusal: Refusal, out: &mut Vec<u8>) {
    match refusal.position {
        Some(position) => say(out, format_args!("refused {} {position}", refusal.number)),
        None => say(out, format_args!("refused {} ?", refusal.number)),
    }
}

/// Ends a line whose last answer isn't the Rust's.
fn mark(own: bool, out: &mut Vec<u8>) {
    if own {
        say(out, format_args!(" !"));
    }
}

fn sign(is_negative: bool) -> &'static str {
    if is_negative {
        "negative"
    } else {
        "positive"
    }
}

/// The magnitude as hexadecimal digits without leading zero bytes.
fn say_magnitude(magnitude: u128, out: &mut Vec<u8>) {
    if magnitude == 0 {
        return say(out, format_args!("-"));
    }
    let bytes = magnitude.to_be_bytes();
    for byte in &bytes[magnitude.leading_zeros() as usize / 8..] {
        say(out, format_args!("{byte:02X}"));
    }
}

pub fn type_name(ion_type: IonType) -> &'static str {
    match ion_type {
        IonType::Null => "null",
        IonType::Bool => "bool",
        IonType::Int => "int",
        IonType::Float => "float",
        IonType::Decimal => "decimal",
        IonType::Timestamp => "timestamp",
        IonType::Symbol => "symbol",
        IonType::String => "string",
        IonType::Clob => "clob",
        IonType::Blob => "blob",
        IonType::List => "list",
        IonType::SExp => "sexp",
        IonType::Struct => "struct",
    }
}

// ===== Descriptors and numbers =====

fn descriptor(byte: u8, out: &mut Vec<u8>) {
    let found = TypeDescriptor::from_byte(byte);
    let kind = if found.is_null() {
        "null"
    } else if found.is_nop() {
        "pad"
    } else if found.is_ivm_start() {
        "marker"
    } else if found.is_annotation_wrapper() {
        "wrapper"
    } else if found.ion_type.is_some() {
        "value"
    } else {
        "reserved"
    };
    let type_code = found.ion_type_code.to_u8();
    say(
        out,
        format_args!("{type_code} {} {kind}", found.length_code),
    );
}

fn say_var_uint(number: Number, out: &mut Vec<u8>) {
    say(out, format_args!("{} {}", number.magnitude, number.next));
}

fn say_var_int(number: Number, out: &mut Vec<u8>) {
    say(out, format_args!("{} ", sign(number.negative)));
    say_var_uint(number, out);
}

fn say_int(number: Option<Number>, out: &mut Vec<u8>) {
    let Some(number) = number else {
        return say(out, format_args!("unsupported"));
    };
    say(out, format_args!("{} ", sign(number.negative)));
    say_magnitude(number.magnitude, out);
    say(out, format_args!(" {}", number.next));
}

fn say_decimal(decimal: Decimal, out: &mut Vec<u8>) {
    let Some(magnitude) = decimal.magnitude else {
        return say(out, format_args!("unsupported"));
    };
    let exponent = decimal.exponent;
    say(
        out,
        format_args!("{} {} ", sign(exponent < 0), exponent.unsigned_abs()),
    );
    say(out, format_args!("{} ", sign(decimal.negative)));
    say_magnitude(magnitude, out);
}

/// A timestamp that both accept, and nothing to compare where one of the two alone does, where neither
/// does by its ranges, and of a body of under two bytes, which the Rust frames as no timestamp.
fn say_instant(asked: &Asked<'_>, out: &mut Vec<u8>) -> Result<(), Refusal> {
    if asked.end() - asked.at() < 2 {
        return Ok(say(out, format_args!("unsupported")));
    }
    match timestamps::timestamp(asked)? {
        Stamp::Accepted(instant) if !timestamps::only_there(asked) => {
            say(out, format_args!("{} {}", instant.precision, instant.offset));
            for field in instant.fields {
                say(out, format_args!(" {field}"));
            }
            say(out, format_args!(" {}", instant.attoseconds))
        }
        _ => say(out, format_args!("unsupported")),
    }
    Ok(())
}

// ===== Steps =====

/// `BYTE START ANNSTART DESCRIPTOR BODY END`.
fn say_spans(spans: Spans, out: &mut Vec<u8>) {
    say(
        out,
        format_args!(
            "{} {} {} {} {} {}",
            spans.byte, spans.start, spans.annotations, spans.descriptor, spans.body, spans.end
        ),
    );
}

fn say_item(item: Item, out: &mut Vec<u8>) {
    match item {
        Item::Marker {
            start,
            major,
            minor,
            end,
        } => say(out, format_args!("marker {start} {major} {minor} {end}")),
        Item::Value(spans) => {
            say(out, format_args!("value "));
            say_spans(spans, out)
        }
        Item::Field(id, spans) => {
            say(out, format_args!("field {id} "));
            say_spans(spans, out)
        }
        Item::End(position) => say(out, format_args!("end {position}")),
        Item::Refused(refusal) => say_refusal(refusal, out),
    }
}

fn between(out: &mut Vec<u8>, call: usize) {
    if call > 0 {
        say(out, format_args!(" ; "));
    }
}

fn steps(asked: &Asked<'_>, rules: Rules, count: usize, out: &mut Vec<u8>) {
    let mut steps = Steps::new(asked, rules);
    let mut own = false;
    for call in 0..count {
        between(out, call);
        let item = steps.next();
        own = matches!(item, Item::Refused(refusal) if refusal.own);
        say_item(item, out);
    }
    mark(own, out);
}

fn annotations(asked: &Asked<'_>, count: usize, out: &mut Vec<u8>) {
    let mut ids = Annotations::new(asked.part());
    for call in 0..count {
        between(out, call);
        match ids.next() {
            Annotation::Id { id, next } => say(out, format_args!("{id} {next}")),
            Annotation::End => say(out, format_args!("end")),
            Annotation::Refused(refusal) => refuse(out, refusal),
        }
    }
}

// ===== Entries on a value, and the walk =====

fn say_scalar(scalar: Scalar, out: &mut Vec<u8>) {
    match scalar {
        Scalar::Null(ion_type) => say(out, format_args!("null {}", type_name(ion_type))),
        Scalar::Bool(value) => say(out, format_args!("bool {}", value as u8)),
        Scalar::Int {
            negative,
            magnitude,
        } => {
            say(out, format_args!("int {} ", sign(negative)));
            say_magnitude(magnitude, out);
        }
        Scalar::LongInt => say(out, format_args!("unsupported")),
        Scalar::Float(bits) => say(out, format_args!("float {bits:016X}")),
        Scalar::Symbol(id) => say(out, format_args!("symbol {id}")),
        Scalar::Part(ion_type, start, end) => {
            say(out, format_args!("{} {start} {end}", type_name(ion_type)))
        }
        Scalar::Container => say(out, format_args!("container")),
    }
}

fn say_line(line: Line, out: &mut Vec<u8>) {
    match line {
        Line::Marker { start, end, .. } => {
            say(out, format_args!("0 marker {start} {start} {end} {end} ; "))
        }
        Line::Value {
            depth,
            ion_type,
            start,
            descriptor,
            body,
            end,
        } => {
            let name = type_name(ion_type);
            say(
                out,
                format_args!("{depth} {name} {start} {descriptor} {body} {end} ; "),
            )
        }
        Line::End(position) => say(out, format_args!("end {position}")),
        Line::Refused(refusal) => refuse(out, refusal),
    }
}

/// Markers and each type of an accepted map, or the first refusal.
fn say_check(asked: &Asked<'_>, out: &mut Vec<u8>) {
    match checks::check(asked, |_| {}) {
        Ok(counts) => {
            say(out, format_args!("{}", counts.markers));
            for count in counts.types {
                say(out, format_args!(" {count}"));
            }
        }
        Err(Stop::Refused(refusal)) => refuse(out, refusal),
        Err(Stop::OutOfRange(_) | Stop::Open(_)) => say(out, format_args!("unsupported")),
    }
}
