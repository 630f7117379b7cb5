//! A run of the comparison: asks, counts, says how far it is, and keeps the smallest differences.

use crate::judge::{Judge, Verdict};
use crate::ours::{Part, Reader};
use crate::question::{Ask, Question, KINDS};
use crate::shrink::{is_smaller, shrunk};
use std::cell::RefCell;
use std::panic::{catch_unwind, AssertUnwindSafe};
use std::time::{Duration, Instant};

thread_local! {
    /// What the last panic said.
    static PANIC: RefCell<String> = const { RefCell::new(String::new()) };
}

/// A panic is caught, counted as a difference and explained with it.
pub fn keep_panics() {
    std::panic::set_hook(Box::new(|info| {
        PANIC.with(|panic| *panic.borrow_mut() = info.to_string().replace('\n', " "));
    }));
}

/// How often the clock is looked at, in questions.
const LOOK: u64 = 1 << 17;

/// A question and the map it is about.
#[derive(Clone)]
pub struct Case {
    pub map: Vec<u8>,
    pub question: Question,
}

pub struct Session<R> {
    pub judge: Judge<R>,
    /// The smallest difference of each kind of question.
    pub found: [Option<Case>; KINDS.len()],
    /// The stages so far: their names, when they began, and after how many cases.
    pub stages: Vec<(&'static str, Instant, u64)>,
    asked: u64,
    started: Instant,
    said: Instant,
    is_quiet: bool,
    /// Whether one difference is enough.
    is_first_enough: bool,
}

impl<R: Reader> Session<R> {
    pub fn new(reader: R) -> Self {
        let now = Instant::now();
        Session {
            judge: Judge::new(reader),
            found: Default::default(),
            stages: Vec::new(),
            asked: 0,
            started: now,
            said: now,
            is_quiet: false,
            is_first_enough: false,
        }
    }

    /// A session that ends at the first difference and says nothing meanwhile.
    pub fn quiet(reader: R) -> Self {
        Session {
            is_quiet: true,
            is_first_enough: true,
            ..Session::new(reader)
        }
    }

    pub fn stage(&mut self, name: &'static str) {
        let cases = self.judge.tally.cases();
        self.stages.push((name, Instant::now(), cases));
    }

    pub fn is_done(&self) -> bool {
        self.is_first_enough && self.judge.tally.differ > 0
    }

    pub fn ask(&mut self, map: &[u8], ask: Ask, part: Part) {
        let question = Question::new(ask, part);
        if !question.can_be_asked() {
            return;
        }
        if self.judge_one(map, &question) == Verdict::Differ {
            self.keep(map, question);
        }
        self.asked += 1;
        if self.asked % LOOK == 0 {
            self.look();
        }
    }

    /// A panic of the Rust is a difference too: no entry of ours has one.
    fn judge_one(&mut self, map: &[u8], question: &Question) -> Verdict {
        let judge = &mut self.judge;
        let verdict = catch_unwind(AssertUnwindSafe(|| judge.ask(map, question)));
        verdict.unwrap_or_else(|_| {
            self.judge.tally.differ += 1;
            Verdict::Differ
        })
    }

    fn keep(&mut self, map: &[u8], question: Question) {
        let kept = &mut self.found[question.kind(map)];
        // The first is said at once; the smallest is explained at the end.
        if kept.is_none() && !self.is_quiet {
            eprintln!("differs: {}", question.written(map));
        }
        if kept.as_ref().is_none_or(|kept| is_smaller(map, &kept.map)) {
            *kept = Some(Case {
                map: map.to_vec(),
                question,
            });
        }
    }

    fn look(&mut self) {
        if self.is_quiet || self.said.elapsed() < Duration::from_secs(5) {
            return;
        }
        self.said = Instant::now();
        let stage = self.stages.last().map_or("", |stage| stage.0);
        eprintln!(
            "{:4} s, {stage}: {} cases agree, {} differ",
            self.started.elapsed().as_secs(),
            grouped(self.judge.tally.cases()),
            self.judge.tally.differ
        );
    }

    /// The kept differences, each made as small as it gets.
    pub fn differences(&mut self) -> Vec<Case> {
        let found: Vec<Case> = self.found.iter().flatten().cloned().collect();
        let mut small = Vec::new();
        for case in found {
            small.push(shrunk(&mut self.judge, case));
        }
        small.sort_by(|a, b| (a.map.len(), &a.map).cmp(&(b.map.len(), &b.map)));
        small
    }

    /// The question and every call's two answers.
    pub fn written(&mut self, case: &Case) -> String {
        let mut text = case.question.written(&case.map);
        let judge = &mut self.judge;
        let lines = catch_unwind(AssertUnwindSafe(|| {
            judge.explained(&case.map, &case.question)
        }));
        match lines {
            Ok(lines) => lines.iter().for_each(|line| {
                text.push_str("\n    ");
                text.push_str(line);
            }),
            Err(_) => PANIC.with(|panic| {
                text.push_str("\n    ! panic: ");
                text.push_str(&panic.borrow());
            }),
        }
        text
    }
}

/// A number with commas.
pub fn grouped(number: u64) -> String {
    let digits = number.to_string();
    let mut text = String::new();
    for (i, digit) in digits.chars().enumerate() {
        if i > 0 && (digits.len() - i) % 3 == 0 {
            text.push(',');
        }
        text.push(digit);
    }
    text
}
