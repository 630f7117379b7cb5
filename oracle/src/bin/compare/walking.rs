//! The walk over our exported step and stepping in: what a caller of the exports would write.

use crate::ours::{Part, Reader, Record, RECORD};
use oracle::asking::{Line, Refusal};
use oracle::IonType;

pub struct Walk {
    /// The parts that the walk is in, each with its rules; the last one is stepped.
    parts: Vec<(Part, u64)>,
    /// A refusal ends the walk.
    refused: Option<Refusal>,
}

impl Walk {
    pub fn new(part: Part) -> Self {
        Walk {
            parts: vec![(part, 0)],
            refused: None,
        }
    }

    pub fn next(&mut self, reader: &impl Reader, map: &[u8]) -> Line {
        if let Some(refusal) = self.refused {
            return Line::Refused(refusal);
        }
        loop {
            let depth = self.parts.len() - 1;
            let (part, rules) = self.parts[depth];
            let mut bytes = [0; RECORD];
            reader.step(map, part, rules, &mut bytes);
            let record = Record::read(&bytes);
            self.parts[depth].0.position = reader.cursor(map, part, rules, record);
            match record.kind() {
                0 if depth > 0 => {
                    self.parts.pop();
                }
                0 => return Line::End(record.0[2] as usize),
                9 => return self.refuse(record),
                _ => {
                    if record.is_open() {
                        self.enter(reader, map, part, record);
                    }
                    return line(depth, record);
                }
            }
        }
    }

    /// Steps into the container that was handed out. The next line is of its body, or refused.
    fn enter(&mut self, reader: &impl Reader, map: &[u8], part: Part, record: Record) {
        let descriptor = record.0[4] as usize;
        if self.parts.len() > part.limits.depth {
            self.refused = Some(refusal(37, descriptor));
            return;
        }
        let mut bytes = [0; RECORD];
        reader.step_in(map, part.at(descriptor), &mut bytes);
        let opened = Record::read(&bytes);
        if opened.kind() == 9 {
            self.refuse(opened);
            return;
        }
        let [_, rules, _, _, _, start, end, ..] = opened.0;
        let body = Part {
            start: start as usize,
            end: end as usize,
            position: start as usize,
            ..part
        };
        self.parts.push((body, rules));
    }

    fn refuse(&mut self, record: Record) -> Line {
        let found = refusal(record.0[1] as u32, record.0[2] as usize);
        self.refused = Some(found);
        Line::Refused(found)
    }
}

fn refusal(number: u32, position: usize) -> Refusal {
    Refusal {
        number,
        position: Some(position),
        own: false,
        moved: None,
    }
}

fn line(depth: usize, record: Record) -> Line {
    let [kind, byte, start, _, descriptor, body, end, ..] = record.0;
    if kind == 1 {
        return Line::Marker {
            start: start as usize,
            major: record.0[3] as u8,
            minor: record.0[4] as u8,
            end: end as usize,
        };
    }
    Line::Value {
        depth,
        ion_type: ion_type(byte),
        start: start as usize,
        descriptor: descriptor as usize,
        body: body as usize,
        end: end as usize,
    }
}

/// The type of a value's descriptor.
fn ion_type(byte: u64) -> IonType {
    match byte >> 4 {
        0 => IonType::Null,
        1 => IonType::Bool,
        2 | 3 => IonType::Int,
        4 => IonType::Float,
        5 => IonType::Decimal,
        6 => IonType::Timestamp,
        7 => IonType::Symbol,
        8 => IonType::String,
        9 => IonType::Clob,
        10 => IonType::Blob,
        11 => IonType::List,
        12 => IonType::SExp,
        _ => IonType::Struct,
    }
}
