//! Makes a difference smaller: fewer bytes, then lower ones.

use crate::judge::{Judge, Verdict};
use crate::ours::{Part, Reader, RECORD};
use crate::question::{Ask, Question, Thing};
use crate::session::Case;
use std::panic::{catch_unwind, AssertUnwindSafe};

pub fn is_smaller(map: &[u8], than: &[u8]) -> bool {
    (map.len(), map) < (than.len(), than)
}

/// A longer map has too many ways of being made smaller.
const LONGEST: usize = 4096;

/// Tries every way of making the case smaller until none is left that still differs.
pub fn shrunk<R: Reader>(judge: &mut Judge<R>, case: Case) -> Case {
    if case.map.len() > LONGEST {
        return case;
    }
    let refusals = judge.tally.refusals;
    let mut case = case;
    loop {
        while let Some(smaller) = one_smaller(judge, &case) {
            case = smaller;
        }
        let lowered = lowered(judge, &case);
        if lowered.map == case.map {
            break;
        }
        case = lowered;
    }
    judge.tally.refusals = refusals;
    case
}

fn one_smaller<R: Reader>(judge: &mut Judge<R>, case: &Case) -> Option<Case> {
    without_bytes(case)
        .chain(without_bytes_and_their_length(case))
        .chain(with_less_asked(case))
        .find(|smaller| differs(judge, smaller))
}

/// The case with each byte, from the first on, as low as it gets.
fn lowered<R: Reader>(judge: &mut Judge<R>, case: &Case) -> Case {
    let mut case = case.clone();
    for at in 0..case.map.len() {
        let was = case.map[at];
        for lower in 0..=was {
            case.map[at] = lower;
            if lower == was || differs(judge, &case) {
                break;
            }
        }
    }
    case
}

fn differs<R: Reader>(judge: &mut Judge<R>, case: &Case) -> bool {
    let verdict = catch_unwind(AssertUnwindSafe(|| {
        judge.verdict(&case.map, &case.question)
    }));
    matches!(verdict, Ok(Verdict::Differ) | Err(_))
}

/// The case without some of its bytes, most of them first.
fn without_bytes(case: &Case) -> impl Iterator<Item = Case> + '_ {
    let length = case.map.len();
    let sizes = std::iter::successors(Some(length), |size| Some(size / 2));
    sizes
        .take_while(|size| *size > 0)
        .flat_map(move |size| (0..=length - size).map(move |at| without(case, at, size)))
}

fn without(case: &Case, at: usize, size: usize) -> Case {
    let mut map = case.map.clone();
    map.drain(at..at + size);
    let moved = |place: usize| match place {
        place if place <= at => place,
        place if place > case.map.len() => place,
        place => at.max(place - size.min(place)),
    };
    let part = case.question.part;
    let part = Part {
        start: moved(part.start),
        end: moved(part.end),
        position: moved(part.position),
        ..part
    };
    Case {
        map,
        question: Question::new(case.question.ask, part),
    }
}

/// The case without some bytes and with one or two bytes before them, which may be lengths that
/// count them, as much lower.
fn without_bytes_and_their_length(case: &Case) -> impl Iterator<Item = Case> + '_ {
    without_bytes_at(case).flat_map(move |(at, size)| {
        lower_pairs(case.map.len(), at).filter_map(move |(one, two)| {
            let mut smaller = without(case, at, size);
            smaller.map[one] = smaller.map[one].checked_sub(size as u8)?;
            if two != one {
                smaller.map[two] = smaller.map[two].checked_sub(size as u8)?;
            }
            Some(smaller)
        })
    })
}

fn without_bytes_at(case: &Case) -> impl Iterator<Item = (usize, usize)> {
    let length = case.map.len();
    let sizes = [64, 32, 16, 8, 4, 3, 2, 1].into_iter();
    sizes
        .filter(move |size| *size < length)
        .flat_map(move |size| (1..=length - size).map(move |at| (at, size)))
}

/// Two places before `at`, or one twice; of a long map only single ones.
fn lower_pairs(length: usize, at: usize) -> impl Iterator<Item = (usize, usize)> {
    let most = if length <= 32 { at } else { 1 };
    (0..at).flat_map(move |one| (one..at.min(one + most)).map(move |two| (one, two)))
}

/// The case with a smaller number in the question.
fn with_less_asked(case: &Case) -> impl Iterator<Item = Case> + '_ {
    let asks: Vec<Ask> = match case.question.ask {
        Ask::Batch(rules, room) => {
            let rooms = RECORD..room;
            rooms.map(|room| Ask::Batch(rules, room)).collect()
        }
        Ask::Number(form, size) => {
            let sizes = 0..size.min(64);
            sizes.map(|size| Ask::Number(form, size)).collect()
        }
        Ask::Walked(most) => (0..most.min(64)).map(Ask::Walked).collect(),
        Ask::Bounded(rules, most) => {
            let lower = 0..most.min(64);
            lower.map(|most| Ask::Bounded(rules, most)).collect()
        }
        Ask::Write(Thing::Pad(size)) => {
            let sizes = 0..size.min(64);
            sizes.map(|size| Ask::Write(Thing::Pad(size))).collect()
        }
        _ => Vec::new(),
    };
    asks.into_iter().map(move |ask| Case {
        map: case.map.clone(),
        question: Question::new(ask, case.question.part),
    })
}
