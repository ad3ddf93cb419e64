//! What was compared.

use super::{Batched, Early, Encoded, Failed, Issued, Named, Outcome, Shared};
use crate::second::table::LABEL_BYTES;
use sojimu::{Question, Verdict};
use std::fmt::Debug;

/// Counts of what was compared, by what the two answered.
#[derive(Clone, Debug, Default, PartialEq, Eq)]
pub struct Tally {
    /// Calls put through both.
    pub comparisons: u64,
    /// Refusals by the number of the question.
    pub questions: [u64; 24],
    /// Blames by the number of the reason.
    pub reasons: [u64; 5],
    /// Messages forwarded.
    pub forwarded: u64,
    /// Bytes that nothing can mend.
    pub broken: u64,
    /// Bytes that begin with the label.
    pub label_there: u64,
    /// Bytes that are the label, but for some of its end.
    pub label_cut: u64,
    /// Bytes that begin with another label, by the place of the one byte that differs.
    pub label_apart: [u64; LABEL_BYTES],
    /// Blames for reason 1, by the place of the one byte in which the label and a branch's differ.
    pub label_blamed: [u64; LABEL_BYTES],
    /// Tables that are not sound, and would be if each word were its last byte.
    pub wide: u64,
    /// Sides that are neither, and positions, branches and named fields above 255.
    pub strange: u64,
    /// Devices that fit.
    pub fits: u64,
    /// Devices that do not.
    pub fails: u64,
    /// Of these, such whose machine was explored whole.
    pub explored: u64,
    /// Such with a field that is high in the last move.
    pub high: u64,
    /// The most moves that it took to show that one does not.
    pub most_moves: usize,
    /// What texts have of names after the dot of a `rec`, in the order of [`Named`].
    pub named: [u64; Named::ALL.len()],
    /// What came of batches, in the order of [`Batched`].
    pub batched: [u64; Batched::ALL.len()],
    /// What came of shares, counts and warnings, in the order of [`Shared`].
    pub shared: [u64; Shared::ALL.len()],
    /// What is seen of devices that do not fit, in the order of [`Failed`].
    pub failed: [u64; Failed::ALL.len()],
    /// Texts of messages that were looked at as UTF-8.
    pub texts: u64,
    /// What they are, and where 22 refused them, in the order of [`Encoded`].
    pub encoded: [u64; Encoded::ALL.len()],
    /// What came of editions, in the order of [`Issued`].
    pub issued: [u64; Issued::ALL.len()],
    /// What came of messages out of turn, in the order of [`Early`].
    pub early: [u64; Early::ALL.len()],
}

impl Tally {
    /// Adds the counts of another.
    pub fn add(&mut self, other: &Tally) {
        self.comparisons += other.comparisons;
        self.questions.iter_mut().zip(other.questions).for_each(|(mine, its)| *mine += its);
        self.reasons.iter_mut().zip(other.reasons).for_each(|(mine, its)| *mine += its);
        self.label_apart.iter_mut().zip(other.label_apart).for_each(|(mine, its)| *mine += its);
        self.label_blamed.iter_mut().zip(other.label_blamed).for_each(|(mine, its)| *mine += its);
        self.named.iter_mut().zip(other.named).for_each(|(mine, its)| *mine += its);
        self.batched.iter_mut().zip(other.batched).for_each(|(mine, its)| *mine += its);
        self.shared.iter_mut().zip(other.shared).for_each(|(mine, its)| *mine += its);
        self.failed.iter_mut().zip(other.failed).for_each(|(mine, its)| *mine += its);
        self.encoded.iter_mut().zip(other.encoded).for_each(|(mine, its)| *mine += its);
        self.issued.iter_mut().zip(other.issued).for_each(|(mine, its)| *mine += its);
        self.early.iter_mut().zip(other.early).for_each(|(mine, its)| *mine += its);
        self.texts += other.texts;
        self.forwarded += other.forwarded;
        self.broken += other.broken;
        self.label_there += other.label_there;
        self.label_cut += other.label_cut;
        self.wide += other.wide;
        self.strange += other.strange;
        self.fits += other.fits;
        self.fails += other.fails;
        self.explored += other.explored;
        self.high += other.high;
        self.most_moves = self.most_moves.max(other.most_moves);
    }

    /// Compares the two answers to a call; `input` shows what it was given.
    pub(super) fn same<T: PartialEq + Debug>(
        &mut self,
        call: &str,
        proved: T,
        second: T,
        input: impl FnOnce() -> String,
    ) -> Outcome {
        self.comparisons += 1;
        if proved == second {
            return Ok(());
        }
        Err(format!("{call}\n  proved {proved:X?}\n  second {second:X?}\n{}", input()))
    }

    /// Counts a question that got a no, if one did.
    pub(super) fn asked(&mut self, question: Option<Question>) {
        if let Some(Question(number)) = question {
            self.questions[usize::from(number)] += 1;
        }
    }

    /// Counts what has a name after the dot of a `rec`, if it has.
    pub(super) fn name(&mut self, what: Named, has: bool) {
        self.named[what as usize] += u64::from(has);
    }

    /// Counts a batch of which this holds, if it does.
    pub(super) fn batch(&mut self, what: Batched, holds: bool) {
        self.batched[what as usize] += u64::from(holds);
    }

    /// Counts what came of shares, counts or a warning, if this did.
    pub(super) fn share(&mut self, what: Shared, holds: bool) {
        self.shared[what as usize] += u64::from(holds);
    }

    /// Counts a device that does not fit of which this holds, if it does.
    pub(super) fn fail(&mut self, what: Failed, holds: bool) {
        self.failed[what as usize] += u64::from(holds);
    }

    /// Counts a text that is so as UTF-8, or what came of one, if it did.
    pub(super) fn encode(&mut self, what: Encoded, holds: bool) {
        self.encoded[what as usize] += u64::from(holds);
    }

    /// Counts what came of an edition, if this did.
    pub(super) fn issue(&mut self, what: Issued, holds: bool) {
        self.issued[what as usize] += u64::from(holds);
    }

    /// Counts what came of a message out of turn, if this did.
    pub(super) fn early(&mut self, what: Early, holds: bool) {
        self.early[what as usize] += u64::from(holds);
    }

    /// Counts a verdict.
    pub(super) fn verdict(&mut self, verdict: Verdict) {
        match verdict {
            Verdict::Forwarded => self.forwarded += 1,
            Verdict::Refused(question) => self.asked(Some(question)),
            Verdict::Blamed(_, reason) => self.reasons[usize::from(reason.number())] += 1,
        }
    }
}
