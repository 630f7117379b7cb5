//! The pads that a step passes, which the Rust keeps to itself: by the Ion document.

use crate::expected::var_uint;
use crate::ours::Part;
use crate::question::STRUCT;

/// The most bytes of a VarUInt that is read.
const MOST_BYTES: usize = 9;

/// Pads end at these places, and what stands behind the last of them is no pad that can be passed.
pub struct Pads {
    start: usize,
    pub ends: Vec<usize>,
    /// Whether it is a pad all the same, by its descriptor.
    is_next: bool,
}

impl Pads {
    /// Those that a step by these rules meets from the part's position on.
    pub fn of(map: &[u8], part: Part, rules: u64) -> Self {
        let mut pads = Pads {
            start: part.position,
            ends: Vec::new(),
            is_next: false,
        };
        while let Some(end) = past_pad(map, pads.place(), part.end, rules) {
            pads.ends.push(end);
        }
        let next = descriptor(map, pads.place(), part.end, rules);
        pads.is_next = next.is_some_and(|descriptor| map[descriptor] < 15);
        pads
    }

    /// Where steps past `most` pads at most come back: each time that so many were passed and another comes.
    pub fn bounds(&self, most: usize) -> Vec<usize> {
        let met = self.ends.len() + self.is_next as usize;
        let count = met.saturating_sub(1) / most;
        (1..=count).map(|n| self.ends[n * most - 1]).collect()
    }

    /// Where the last pad ends: the position itself where there is none.
    pub fn place(&self) -> usize {
        self.ends.last().copied().unwrap_or(self.start)
    }
}

/// A VarUInt that can be read, and where it ends.
fn number(map: &[u8], at: usize, end: usize) -> Option<(usize, usize)> {
    var_uint(map, at, end).filter(|(_, next)| next - at <= MOST_BYTES)
}

/// Where the descriptor stands of what begins at `at`: in a struct after its field ID.
fn descriptor(map: &[u8], at: usize, end: usize, rules: u64) -> Option<usize> {
    let behind = match rules {
        STRUCT => number(map, at, end)?.1,
        _ => at,
    };
    (behind < end).then_some(behind)
}

/// Where the pad at `at` ends, if one stands there that can be passed.
fn past_pad(map: &[u8], at: usize, end: usize, rules: u64) -> Option<usize> {
    let descriptor = descriptor(map, at, end, rules)?;
    let (length, body) = match map[descriptor] {
        14 => number(map, descriptor + 1, end)?,
        code @ 0..=13 => (code as usize, descriptor + 1),
        _ => return None,
    };
    (length <= end - body).then(|| body + length)
}
