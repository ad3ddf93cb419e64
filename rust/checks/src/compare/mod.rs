//! Random comparisons of the proved code with the second implementation.
//!
//! A comparison is one call put through both, with everything that comes of it: answer, state, every byte of a lent buffer; of the
//! proved code both what the wrapper says and each number of what the library gives back. What is compared follows from seed,
//! kind and case number alone, so that a disagreement can be shown again by its three names. Where document 01 leaves the answer
//! free, the moves of a failing fit, they are played on the document's machine, too.

mod batches;
mod both;
mod conversations;
mod early;
mod editions;
mod encodings;
mod endings;
mod failures;
mod fits;
mod labels;
mod messages;
mod names;
mod reports;
mod shares;
mod show;
mod steps;
mod tables;
mod tally;
mod texts;
mod turns;
mod utf8;
mod warnings;

pub use both::{batch, party, state, state_after, state_codes, verdict, warning};
pub use editions::Issued;
pub use encodings::Encoded;
pub use endings::Batched;
pub use failures::Failed;
pub use names::Named;
pub use shares::Shared;
pub use tally::Tally;
pub use turns::Early;

use crate::second::random::Random;

/// What came of a case: nothing, or the input and both answers where they differ.
type Outcome = Result<(), String>;

/// A kind of comparison.
pub struct Kind {
    /// Its name.
    pub name: &'static str,
    /// How many cases a run of size 1 has.
    pub cases: u64,
    run: fn(&mut Random, &mut Tally) -> Outcome,
}

/// Every kind of comparison.
pub const KINDS: [Kind; 24] = [
    Kind { name: "texts", cases: 100_000, run: texts::case },
    Kind { name: "openings", cases: 20_000, run: texts::opening },
    Kind { name: "tables", cases: 1_600, run: tables::case },
    Kind { name: "messages", cases: 12_000, run: messages::case },
    Kind { name: "labels", cases: 12_000, run: labels::case },
    Kind { name: "utf8-short", cases: 1, run: utf8::every_short },
    Kind { name: "utf8-places", cases: 1, run: utf8::every_place },
    Kind { name: "utf8-texts", cases: 100_000, run: utf8::texts },
    Kind { name: "utf8-steps", cases: 4_000, run: utf8::steps },
    Kind { name: "utf8-batches", cases: 4_000, run: utf8::batches },
    Kind { name: "steps", cases: 40_000, run: steps::case },
    Kind { name: "early", cases: 20_000, run: early::case },
    Kind { name: "conversations", cases: 20, run: conversations::case },
    Kind { name: "text-talks", cases: 1_000, run: conversations::of_text },
    Kind { name: "batches", cases: 20_000, run: batches::case },
    Kind { name: "batch-rooms", cases: 200, run: batches::every_room },
    Kind { name: "warnings", cases: 400, run: warnings::case },
    Kind { name: "small-fits", cases: 21_000, run: fits::small },
    Kind { name: "large-fits", cases: 4_000, run: fits::large },
    Kind { name: "long-fits", cases: 2_200, run: fits::long },
    Kind { name: "two-ways", cases: 6_000, run: fits::two_ways },
    Kind { name: "small-two-ways", cases: 4_000, run: fits::small_two_ways },
    Kind { name: "text-fits", cases: 4_000, run: fits::of_texts },
    Kind { name: "reports", cases: 6_000, run: reports::case },
];

/// A case in which the two differ.
pub struct Disagreement {
    /// The kind's name.
    pub kind: &'static str,
    /// The seed of the run.
    pub seed: u64,
    /// The number of the case.
    pub case: u64,
    /// The input and both answers.
    pub what: String,
}

impl Disagreement {
    /// How to show it again.
    pub fn again(&self) -> String {
        format!("cargo run --release --bin compare -- --seed {} --kind {} --case {}", self.seed, self.kind, self.case)
    }
}

impl Kind {
    /// The kind of a name.
    ///
    /// ```
    /// assert!(sojimu_checks::compare::Kind::of("texts").is_some());
    /// assert!(sojimu_checks::compare::Kind::of("text").is_none());
    /// ```
    pub fn of(name: &str) -> Option<&'static Kind> {
        KINDS.iter().find(|kind| kind.name == name)
    }

    /// One case.
    pub fn case(&self, seed: u64, case: u64, tally: &mut Tally) -> Result<(), Disagreement> {
        let mut random = self.random(seed, case);
        (self.run)(&mut random, tally).map_err(|what| Disagreement { kind: self.name, seed, case, what })
    }

    /// So many cases, from number 0 on: what was compared, and the cases in which the two differ.
    ///
    /// ```
    /// let kind = sojimu_checks::compare::Kind::of("texts").unwrap();
    /// let (tally, disagreements) = kind.run(1, 50);
    /// assert_eq!(tally.comparisons, 50);
    /// assert!(disagreements.is_empty());
    /// ```
    pub fn run(&self, seed: u64, cases: u64) -> (Tally, Vec<Disagreement>) {
        let mut tally = Tally::default();
        let disagreements = (0..cases).filter_map(|case| self.case(seed, case, &mut tally).err()).collect();
        (tally, disagreements)
    }

    /// The numbers of a case: seed, kind and case number, each driven apart from its neighbours.
    fn random(&self, seed: u64, case: u64) -> Random {
        let kind = self.name.bytes().fold(seed, |number, byte| Random::new(number ^ u64::from(byte)).number());
        Random::new(kind ^ Random::new(case).number())
    }
}
