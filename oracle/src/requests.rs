//! What the change requests move away from the Rust: the answers that are wanted where it gives
//! others, and by which request. What such an answer is about, the Rust's own readings say.

use crate::asking::{self, Asked, Item, Limits, Line, Refusal, Rules};

/// A request that moves answers of the Rust.
#[derive(Clone, Copy, Debug, PartialEq)]
pub enum Request {
    LimitBeforeCut,
    OneVersion,
    HigherLimit,
    Ranges,
}

/// What each request moves, in the order of `Request`.
pub const REQUESTS: [&str; 4] = [
    "annotations over the limit and cut short: 26 here, 5 in the Rust (A.10)",
    "a marker that isn't 1.0: 60 here, passed in the Rust (A.2)",
    "over 255 bytes of annotations: by a higher limit here, 26 in the Rust (A.9)",
    "a timestamp that one of the two alone accepts (A.4)",
];

// ===== The answers wanted =====

/// Of annotations that the Rust refuses and a higher limit admits there is no answer wanted: the
/// refusal stands for whatever a reader with that limit says.
pub fn refusal(asked: &Asked<'_>, rust: Refusal) -> Refusal {
    match (rust.number, rust.position) {
        (5, Some(cut)) => match over_limit(asked, cut) {
            Some(wrapper) => Refusal::moved(Request::LimitBeforeCut, 26, wrapper),
            None => rust,
        },
        (26, _) if asked.limits().annotations > Limits::USUAL.annotations => Refusal {
            own: true,
            moved: Some(Request::HigherLimit),
            ..rust
        },
        _ => rust,
    }
}

/// Steps through a part. They stay before a marker that is refused here, where the Rust goes on.
pub struct Steps<'a, 'b> {
    asked: &'b Asked<'a>,
    rust: asking::Steps<'a>,
    stopped: Option<Refusal>,
}

impl<'a, 'b> Steps<'a, 'b> {
    pub fn new(asked: &'b Asked<'a>, rules: Rules) -> Self {
        Steps {
            asked,
            rust: asking::Steps::new(asked, rules),
            stopped: None,
        }
    }

    #[allow(clippy::should_implement_trait)]
    pub fn next(&mut self) -> Item {
        if let Some(refusal) = self.stopped {
            return Item::Refused(refusal);
        }
        let rust = self.rust.next();
        match rust {
            Item::Refused(rust) => Item::Refused(refusal(self.asked, rust)),
            Item::Marker {
                start,
                major,
                minor,
                ..
            } => {
                self.stopped = other_version(start, major, minor);
                self.stopped.map_or(rust, Item::Refused)
            }
            _ => rust,
        }
    }
}

/// Hands every line of the walk to `line`. A refusal is the last, also where the Rust goes on.
pub fn walk(asked: &Asked<'_>, line: &mut impl FnMut(Line)) {
    let mut is_over = false;
    asking::walk(asked, &mut |rust| {
        if is_over {
            return;
        }
        let wanted = match rust {
            Line::Refused(rust) => Line::Refused(refusal(asked, rust)),
            Line::Marker {
                start,
                major,
                minor,
                ..
            } => other_version(start, major, minor).map_or(rust, Line::Refused),
            _ => rust,
        };
        is_over = matches!(wanted, Line::Refused(_));
        line(wanted);
    });
}

// ===== A.2: only version 1.0 =====

/// The refusal of a marker with these numbers, which the Rust hands out, if they aren't 1 and 0.
fn other_version(start: usize, major: u8, minor: u8) -> Option<Refusal> {
    let is_other = (major, minor) != (1, 0);
    is_other.then(|| Refusal::moved(Request::OneVersion, 60, start))
}

// ===== A.10: 26 before 5 =====

/// The wrapper whose annotations, by the Rust, are cut short at `cut`, if they are over the limit.
/// The Rust tells neither, but `cut` is where the annotations' length ends.
fn over_limit(asked: &Asked<'_>, cut: usize) -> Option<usize> {
    let length = number_before(asked, cut);
    let number = asking::var_uint(asked.within(length, cut)).expect("the Rust read it");
    assert_eq!(number.next, cut);
    if number.magnitude <= asked.limits().annotations as u128 {
        return None;
    }
    // No descriptor has a length with room for so many (24), so a combined length stands between.
    let wrapper = number_before(asked, length) - 1;
    let again = asking::wrapper(asked.within(wrapper, cut)).err();
    assert_eq!(
        again.map(|rust| (rust.number, rust.position)),
        Some((5, Some(cut)))
    );
    Some(wrapper)
}

/// Where the VarUInt of a wrapper begins that ends at `end`. The byte before it is the last one of
/// another VarUInt or the descriptor, so 80 or more, unless it is the part's first; of the VarUInt's
/// own bytes only the last is.
fn number_before(asked: &Asked<'_>, end: usize) -> usize {
    let first = asked.at() + 1;
    let before = asked.bytes(first, end - 1);
    let last = before.iter().rposition(|byte| *byte >= 0x80);
    last.map_or(first, |last| first + last + 1)
}
