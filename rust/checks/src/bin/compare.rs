//! Compares the proved code with the second implementation on random inputs.
//!
//!     cargo run --release --bin compare                                        every kind, as the gate does
//!     cargo run --release --bin compare -- --seed S --size N                   another seed, N times as many cases
//!     cargo run --release --bin compare -- --seed S --kind K --case C          one case again
//!
//! The last line is `N passed, M failed`: a kind passes when the two agree in all of its cases; so does each question, each reason
//! and whatever else is counted that was met a hundred times; and the run when it made 200,000 comparisons besides 1,000,000 texts
//! of messages, with 20,000 devices that do not fit, of 5,000 of which the machine was explored whole. The status is 0 only when
//! none failed.

use sojimu_checks::compare::{Batched, Disagreement, Early, Encoded, Failed, Issued, Kind, Named, Shared, Tally, KINDS};
use std::process::ExitCode;
use std::time::Instant;

/// The gate's seed.
const SEED: u64 = 1;
/// How often each question and each reason must be met.
const OFTEN: u64 = 100;
/// How many comparisons a whole run must make, besides those of texts of messages.
const ENOUGH: u64 = 200_000;
/// How many devices that do not fit a whole run must compare.
const FAILING: u64 = 20_000;
/// Of these, of how many the machine must have been explored whole.
const EXPLORED: u64 = 5_000;
/// How many texts of messages a whole run must look at as UTF-8.
const TEXTS: u64 = 1_000_000;
/// How many disagreements of a kind are shown.
const SHOWN: usize = 3;

struct Options {
    seed: u64,
    size: u64,
    kind: Option<&'static Kind>,
    case: Option<u64>,
}

fn main() -> ExitCode {
    let Some(options) = options() else {
        eprintln!("compare [--seed S] [--size N] [--kind K] [--case C]");
        return ExitCode::from(2);
    };
    let failed = match (options.kind, options.case) {
        (Some(kind), Some(case)) => one(kind, options.seed, case),
        (Some(kind), None) => run(&options, std::slice::from_ref(kind)).1,
        (None, _) => whole(&options),
    };
    ExitCode::from(u8::from(failed > 0))
}

/// What the program was given; none where it cannot be understood.
fn options() -> Option<Options> {
    let mut options = Options { seed: SEED, size: 1, kind: None, case: None };
    let mut arguments = std::env::args().skip(1);
    while let Some(name) = arguments.next() {
        let value = arguments.next()?;
        match name.as_str() {
            "--seed" => options.seed = value.parse().ok()?,
            "--size" => options.size = value.parse().ok()?,
            "--kind" => options.kind = Some(Kind::of(&value)?),
            "--case" => options.case = Some(value.parse().ok()?),
            _ => return None,
        }
    }
    (options.case.is_none() || options.kind.is_some()).then_some(options)
}

/// One case, which is shown when the two differ.
fn one(kind: &Kind, seed: u64, case: u64) -> usize {
    let mut tally = Tally::default();
    match kind.case(seed, case, &mut tally) {
        Ok(()) => {
            println!("{}, seed {seed}, case {case}: {} comparisons, no difference", kind.name, tally.comparisons);
            0
        }
        Err(disagreement) => {
            show(&disagreement);
            1
        }
    }
}

fn show(disagreement: &Disagreement) {
    let Disagreement { kind, seed, case, what } = disagreement;
    println!("{kind}, seed {seed}, case {case}: {what}again: {}\n", disagreement.again());
}

/// The given kinds: what was compared, and how many kinds have a disagreement.
fn run(options: &Options, kinds: &[Kind]) -> (Tally, usize) {
    let mut all = Tally::default();
    let mut failed = 0;
    for kind in kinds {
        let start = Instant::now();
        let (tally, disagreements) = kind.run(options.seed, kind.cases * options.size);
        disagreements.iter().take(SHOWN).for_each(show);
        failed += usize::from(!disagreements.is_empty());
        let (name, comparisons, differ) = (kind.name, tally.comparisons, disagreements.len());
        let seconds = start.elapsed().as_secs_f64();
        println!("{name:14} {comparisons:>8} comparisons, {differ} cases differ, {seconds:.1} s");
        all.add(&tally);
    }
    (all, failed)
}

/// Every kind, and what must be met.
fn whole(options: &Options) -> usize {
    println!("seed {}, size {}", options.seed, options.size);
    let (tally, mut failed) = run(options, &KINDS);
    let mut passed = KINDS.len() - failed;
    for (what, count, least) in demands(&tally) {
        let met = count >= least;
        *(if met { &mut passed } else { &mut failed }) += 1;
        println!("{what:14} {count:>8}{}", if met { "" } else { ", too few" });
    }
    println!("{passed} passed, {failed} failed");
    failed
}

/// What must be met, how often it was, and how often it must be.
fn demands(tally: &Tally) -> Vec<(String, u64, u64)> {
    let mut all = Vec::new();
    let mut often = |what: String, count: u64| all.push((what, count, OFTEN));
    for (number, &count) in tally.questions.iter().enumerate().skip(1) {
        often(format!("question {number}"), count);
    }
    for (number, &count) in tally.reasons.iter().enumerate().skip(1) {
        often(format!("reason {number}"), count);
    }
    often("forwarded".into(), tally.forwarded);
    often("broken".into(), tally.broken);
    often("label, there".into(), tally.label_there);
    often("label, cut".into(), tally.label_cut);
    for (place, (apart, blamed)) in tally.label_apart.into_iter().zip(tally.label_blamed).enumerate() {
        often(format!("label, byte {place}"), apart);
        often(format!("blamed, byte {place}"), blamed);
    }
    often("wide words".into(), tally.wide);
    often("strange".into(), tally.strange);
    often("fits".into(), tally.fits);
    often("by a high one".into(), tally.high);
    often("most moves".into(), tally.most_moves as u64);
    Named::ALL.into_iter().zip(tally.named).for_each(|(what, count)| often(what.into(), count));
    Batched::ALL.into_iter().zip(tally.batched).for_each(|(what, count)| often(what.into(), count));
    Shared::ALL.into_iter().zip(tally.shared).for_each(|(what, count)| often(what.into(), count));
    Failed::ALL.into_iter().zip(tally.failed).for_each(|(what, count)| often(what.into(), count));
    Encoded::ALL.into_iter().zip(tally.encoded).for_each(|(what, count)| often(what.into(), count));
    Issued::ALL.into_iter().zip(tally.issued).for_each(|(what, count)| often(what.into(), count));
    Early::ALL.into_iter().zip(tally.early).for_each(|(what, count)| often(what.into(), count));
    all.push(("fails".into(), tally.fails, FAILING));
    all.push(("fails, explored".into(), tally.explored, EXPLORED));
    all.push(("utf8, texts".into(), tally.texts, TEXTS));
    all.push(("comparisons".into(), tally.comparisons.saturating_sub(tally.texts), ENOUGH));
    all
}
