//! The scope paper's numbers for the Rust's messages: the one table from message to number.

use crate::IonError;
use std::fmt::{self, Write as _};

/// Labels of the Rust's `Incomplete` errors. Their position is the Rust's own.
const INCOMPLETE: &[(&str, u32)] = &[
    ("a type descriptor", 1),
    ("an IVM", 2),
    ("a VarUInt", 3),
    ("a VarInt", 4),
    ("an annotations sequence", 5),
    ("a NOP", 6),
    ("found field name but no value", 7),
    ("found a field name but no value", 7),
    ("the stream ended unexpectedly in the middle of a value", 8),
    ("an Int encoding primitive", 9),
];

/// Messages of the Rust's `Decoding` errors, which have no position. A `*` at the end stands for
/// whatever the message says of the input.
const DECODING: &[(&str, u32)] = &[
    ("found a VarUInt that was too large; size = *", 20),
    ("Found a *", 20), // "Found a 10-byte VarInt. Max supported size is 9 bytes."
    ("invalid IVM: *", 21),
    ("found a non-value in value position", 22),
    ("found an annotations wrapper with no annotations", 23),
    (
        "found an annotations sequence longer than its annotations wrapper",
        24,
    ),
    ("found an annotation wrapper with no value", 25),
    (
        "found an annotations sequence greater than 255 bytes long",
        26,
    ),
    (
        "found an annotations wrapper inside an annotations wrapper",
        27,
    ),
    ("found a NOP inside an annotations wrapper", 28),
    (
        "value length did not match length declared by annotations wrapper",
        29,
    ),
    ("found a float with an illegal length code", 30),
    ("found a timestamp with length <= 1", 31),
    ("found an empty ordered struct", 32),
    (
        "found a boolean value with an illegal representation (must be 0 or 1): *",
        33,
    ),
    (
        "found a negative integer (typecode=3) with a value of 0",
        34,
    ),
    ("found a symbol ID that was too large to fit in a usize", 35),
    ("found a string with invalid utf-8 data", 36),
    (
        "timestamps with an hour must also specify a minute",
        61,
    ),
];

/// The number of a refusal, and its position where the Rust has one. A message that is not in the
/// tables ends the program: an answer with a made-up number would be worse than none.
pub fn number(error: &IonError) -> (u32, Option<usize>) {
    let mut message = Message::default();
    // A message longer than the room is cut; the tables' entries are shorter.
    let _ = write!(message, "{error}");
    let text = message.text();
    match error {
        IonError::Incomplete(incomplete) => {
            let position = incomplete.position().byte_offset;
            let label = text
                .strip_prefix("ran out of input while reading ")
                .and_then(|rest| rest.rsplit_once(" at offset "))
                .map(|(label, _)| label);
            let found = INCOMPLETE.iter().find(|(known, _)| Some(*known) == label);
            (found.unwrap_or_else(|| unknown(error)).1, Some(position))
        }
        IonError::Decoding(_) => {
            let found = DECODING
                .iter()
                .find(|(known, _)| match known.strip_suffix('*') {
                    Some("Found a ") => is_long_var_int(text),
                    Some(start) => text.starts_with(start),
                    None => text == *known,
                });
            (found.unwrap_or_else(|| unknown(error)).1, None)
        }
        _ => unknown(error),
    }
}

/// Room for a message without an allocation: refusals are most of the answers of a comparison.
struct Message {
    bytes: [u8; 160],
    length: usize,
}

impl Default for Message {
    fn default() -> Self {
        Message {
            bytes: [0; 160],
            length: 0,
        }
    }
}

impl Message {
    fn text(&self) -> &str {
        std::str::from_utf8(&self.bytes[..self.length]).expect("whole pieces of text")
    }
}

impl fmt::Write for Message {
    fn write_str(&mut self, text: &str) -> fmt::Result {
        let end = self.length + text.len();
        let room = self.bytes.get_mut(self.length..end).ok_or(fmt::Error)?;
        room.copy_from_slice(text.as_bytes());
        self.length = end;
        Ok(())
    }
}

fn is_long_var_int(text: &str) -> bool {
    text.starts_with("Found a ") && text.ends_with("-byte VarInt. Max supported size is 9 bytes.")
}

fn unknown(error: &IonError) -> ! {
    eprintln!("answer: the Rust's message is in no table: {error:?}");
    std::process::exit(70)
}
