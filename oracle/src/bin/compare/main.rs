//! Asks our reader and the Rust's the same questions and compares every answer.
//!
//! `compare [--short] [SEED]` compares, `compare --texts [SEED]` the texts of symbols alone; `compare --wrong` shows that wrong readers are noticed;
//! `compare --corpus FOLDER` writes maps for the fuzzer to begin with.

mod expected;
mod inputs;
mod judge;
#[allow(dead_code)]
#[path = "../generate/maps.rs"]
mod maps;
mod ours;
mod packing;
mod pads;
mod question;
mod session;
mod shrink;
mod symbols;
mod walking;
mod writing;
mod wrong;

use inputs::{ask_all, seeds, Plan, FULL, SHORT, SMALLEST};
use judge::{Counts, Tally};
use oracle::requests::REQUESTS;
use ours::{Exports, Reader, MISSING};
use question::KINDS;
use session::{grouped, Session};
use std::process::exit;
use std::time::Instant;
use wrong::{Mistake, Wrong, MISTAKES};

/// The refusals that a comparison must have met.
const REFUSALS: [std::ops::RangeInclusive<usize>; 5] = [1..=9, 20..=37, 50..=52, 60..=63, 67..=71];

fn main() {
    session::keep_panics();
    let arguments: Vec<String> = std::env::args().skip(1).collect();
    let words: Vec<&str> = arguments.iter().map(String::as_str).collect();
    match words[..] {
        [] => compare(FULL, 1),
        ["--short"] => compare(SHORT, 1),
        ["--wrong"] => show_wrong(),
        ["--texts"] => compare_texts(1),
        ["--texts", seed] => compare_texts(number(seed)),
        ["--corpus", folder] => write_corpus(folder),
        ["--short", seed] => compare(SHORT, number(seed)),
        [seed] => compare(FULL, number(seed)),
        _ => usage(),
    }
}

fn number(word: &str) -> u64 {
    word.parse().unwrap_or_else(|_| usage())
}

fn usage() -> ! {
    eprintln!(
        "usage: compare [--short | --texts] [SEED], compare --wrong, or compare --corpus FOLDER"
    );
    exit(2)
}

fn compare(plan: Plan, seed: u64) {
    let started = Instant::now();
    let mut session = Session::new(Exports);
    ask_all(&mut session, plan, seed);
    let texts = symbols::ask_all(plan.symbols, seed, symbols::Mistake::Nothing);
    report(&mut session);
    report_texts(&texts);
    println!("seed {seed}, {} s", started.elapsed().as_secs());
    let tally = &session.judge.tally;
    let cases = tally.cases() + texts.agreed.iter().sum::<u64>();
    let differ = tally.differ + texts.differ;
    let mut missing = missing_refusals(&tally.refusals.all);
    missing.extend(
        symbols::REFUSALS
            .iter()
            .filter(|number| texts.refusals[**number] == 0),
    );
    let unmet: Vec<&str> = moved(tally)
        .filter(|(_, count)| *count == 0)
        .map(|(text, _)| text)
        .collect();
    for number in &missing {
        println!("no refusal {number} was met");
    }
    for text in &unmet {
        println!("not met: {text}");
    }
    for name in MISSING {
        println!("not in the archive, so not compared: {name}");
    }
    println!("{} cases agree, {differ} differ", grouped(cases));
    let is_all_met = missing.is_empty() && unmet.is_empty() && MISSING.is_empty();
    exit((differ > 0 || !is_all_met) as i32)
}

/// The texts of symbols alone.
fn compare_texts(seed: u64) {
    let texts = symbols::ask_all(FULL.symbols, seed, symbols::Mistake::Nothing);
    report_texts(&texts);
    let agreed = texts.agreed.iter().sum();
    println!("{} cases agree, {} differ", grouped(agreed), texts.differ);
    exit((texts.differ > 0) as i32)
}

fn missing_refusals(met: &Counts) -> Vec<usize> {
    REFUSALS
        .into_iter()
        .flatten()
        .filter(|number| met[*number] == 0)
        .collect()
}

/// What each change request moves, and how many cases met it.
fn moved(tally: &Tally) -> impl Iterator<Item = (&'static str, u64)> {
    REQUESTS.into_iter().zip(tally.moved)
}

fn listed(counts: &Counts) -> String {
    let numbers = REFUSALS.into_iter().flatten();
    let word = |number: usize| match counts[number] {
        0 => String::new(),
        count => format!("{number}:{count} "),
    };
    numbers.map(word).collect()
}

fn report<R: Reader>(session: &mut Session<R>) {
    println!("cases that agree:");
    let tally = session.judge.tally.clone();
    for (kind, agreed) in KINDS.iter().zip(tally.agreed) {
        println!("{:>13}  {kind}", grouped(agreed));
    }
    println!(
        "{:>13}  ints, Ints and coefficients of more than 15 bytes, by the Ion document alone",
        grouped(tally.apart)
    );
    for (text, count) in moved(&tally) {
        println!("{:>13}  {text}", grouped(count));
    }
    println!("by input:");
    for pair in session.stages.windows(2) {
        let [(name, began, before), (_, ended, after)] = [pair[0], pair[1]];
        let seconds = (ended - began).as_secs_f32();
        println!("{:>13}  {name}, {seconds:.1} s", grouped(after - before));
    }
    println!("refusals met (number:times):");
    println!("  {}", listed(&tally.refusals.all));
    println!("of these, not the Rust's answers but the harness's or a change request's:");
    println!("  {}", listed(&tally.refusals.own));
    for case in session.differences() {
        println!("differs: {}", session.written(&case));
    }
}

/// The texts of symbols, which the Rust at hand has no function for.
fn report_texts(texts: &symbols::Symbols) {
    println!("by a second reading of the change request A.7 over the Rust's steps:");
    for (kind, agreed) in symbols::KINDS.iter().zip(texts.agreed) {
        println!("{:>13}  {kind}", grouped(agreed));
    }
    println!(
        "{:>13}  by a limit that the Rust hasn't got, not compared",
        grouped(texts.apart)
    );
    let met = texts
        .refusals
        .iter()
        .enumerate()
        .filter(|(_, count)| **count > 0);
    let words: Vec<String> = met
        .map(|(number, count)| format!("{number}:{count}"))
        .collect();
    println!("  refusals: {}", words.join(" "));
    for text in &texts.differences {
        println!("differs: {text}");
    }
}

// ===== Wrong readers =====

/// Runs each wrong reader until it is noticed, and our own in the same layer, which must not be.
fn show_wrong() {
    let mut ours = Session::quiet(Wrong::new(Mistake::Nothing));
    ask_all(&mut ours, SMALLEST, 1);
    let tally = &ours.judge.tally;
    println!(
        "our reader: {} cases agree, {} differ",
        grouped(tally.cases()),
        tally.differ
    );
    let is_right = tally.differ == 0;
    let noticed = MISTAKES
        .iter()
        .filter(|(mistake, text)| notice(*mistake, text))
        .count();
    let readings = symbols::MISTAKES;
    let seen = readings
        .iter()
        .filter(|mistake| notice_text(**mistake))
        .count();
    let (noticed, all) = (noticed + seen, MISTAKES.len() + readings.len());
    println!("{noticed} of {all} noticed");
    exit((noticed < all || !is_right) as i32)
}

fn notice(mistake: Mistake, text: &str) -> bool {
    let mut session = Session::quiet(Wrong::new(mistake));
    ask_all(&mut session, SMALLEST, 1);
    let differences = session.differences();
    match differences.first() {
        Some(case) => println!("noticed: {text}: {}", case.question.written(&case.map)),
        None => println!("NOT NOTICED: {text}"),
    }
    !differences.is_empty()
}

/// Of the texts of symbols the second reading is the wrong one.
fn notice_text(mistake: symbols::Mistake) -> bool {
    let texts = symbols::ask_all(SMALLEST.symbols, 1, mistake);
    match texts.differences.first() {
        Some(case) => println!("noticed: {mistake:?}: {case}"),
        None => println!("NOT NOTICED: {mistake:?}"),
    }
    texts.differ > 0
}

// ===== The fuzzer's first maps =====

fn write_corpus(folder: &str) {
    for (number, map) in seeds(&mut maps::Random(1), 600).iter().enumerate() {
        let file = format!("{folder}/map-{number}");
        if let Err(error) = std::fs::write(&file, map) {
            eprintln!("{file}: {error}");
            exit(1)
        }
    }
}
