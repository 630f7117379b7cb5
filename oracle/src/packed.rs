//! What a map becomes when it is packed, by the words of the change requests A.11 and A.12: the Rust's readers say where
//! everything lies, and what is between their items, the pads, is left out.

use crate::asking::{self, Asked, Item, Refusal, Rules, Spans};
use crate::requests::Steps;

/// The part as a map, packed. Of a map that isn't accepted, the first refusal of a step.
pub fn packed(map: &Asked<'_>) -> Result<Vec<u8>, Refusal> {
    part(map, Rules::Stream)
}

/// What a part holds, one behind the other.
fn part(asked: &Asked<'_>, rules: Rules) -> Result<Vec<u8>, Refusal> {
    let mut steps = Steps::new(asked, rules);
    let mut bytes = Vec::new();
    loop {
        match steps.next() {
            Item::Marker { start, end, .. } => bytes.extend_from_slice(asked.bytes(start, end)),
            Item::Value(spans) => bytes.extend(annotated(asked, spans)?),
            Item::Field(_, spans) => {
                let id = asking::var_uint(asked.within(spans.start, spans.end))?;
                bytes.extend_from_slice(asked.bytes(spans.start, id.next));
                bytes.extend(annotated(asked, spans)?);
            }
            Item::End(_) => return Ok(bytes),
            Item::Refused(refusal) => return Err(refusal),
        }
    }
}

/// A value in its wrapper, if it has one. Both of the wrapper's lengths are the shortest.
fn annotated(asked: &Asked<'_>, spans: Spans) -> Result<Vec<u8>, Refusal> {
    let value = value(asked, spans)?;
    let ids = asked.bytes(spans.annotations, spans.descriptor);
    if ids.is_empty() {
        return Ok(value);
    }
    Ok(wrapper(ids, &value))
}

/// A wrapper of annotation bytes around a value, with the shortest lengths.
pub fn wrapper(ids: &[u8], value: &[u8]) -> Vec<u8> {
    let inside = [&shortest(ids.len()), ids, value].concat();
    framed(14, &inside)
}

fn value(asked: &Asked<'_>, spans: Spans) -> Result<Vec<u8>, Refusal> {
    let code = spans.byte >> 4;
    let is_copied = spans.byte & 15 == 15 || code == 1;
    if is_copied {
        return Ok(vec![spans.byte]);
    }
    let body = asked.sub(spans.body, spans.end);
    Ok(match code {
        11 | 12 => framed(code, &part(&body, Rules::Sequence)?),
        13 => {
            let fields = part(&body, Rules::Struct)?;
            match spans.byte {
                0xD1 if !fields.is_empty() => ordered(&fields),
                _ => framed(code, &fields),
            }
        }
        _ => framed(code, asked.bytes(spans.body, spans.end)),
    })
}

fn ordered(fields: &[u8]) -> Vec<u8> {
    [&[0xD1], &shortest(fields.len())[..], fields].concat()
}

/// A body behind its descriptor, with the shortest length.
pub fn framed(code: u8, body: &[u8]) -> Vec<u8> {
    [&asking::head(code, body.len()), body].concat()
}

/// A VarUInt in as few bytes as can be.
pub fn shortest(number: usize) -> Vec<u8> {
    let groups = (0..10).rev().map(|group| (number >> (7 * group)) as u8 & 0x7F);
    let mut bytes: Vec<u8> = groups.skip_while(|group| *group == 0).collect();
    match bytes.last_mut() {
        Some(last) => *last |= 0x80,
        None => bytes.push(0x80),
    }
    bytes
}
