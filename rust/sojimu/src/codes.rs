//! From the numbers that the library gives back to the types of this crate.
//!
//! The proved library gives back no code that is not named in [`ffi`]. Should another one stand in an answer all the same, the
//! answer is taken for a refusal by [`Question::UNSOUND`], which is a fault of the caller's program: nothing passes as forwarded,
//! nobody is blamed, no device fits, and nothing panics.

use crate::{ffi, Fitting, Party, Question, Reason, Verdict};

/// The question of a refusal.
#[inline]
pub fn question(number: u32) -> Question {
    match u8::try_from(number) {
        Ok(number) if (Question::FIRST.0..=Question::LAST.0).contains(&number) => Question(number),
        _ => Question::UNSOUND,
    }
}

/// The question of an answer in which 0 means that none got a no.
#[inline]
pub fn refusal(number: u32) -> Option<Question> {
    (number != 0).then(|| question(number))
}

/// The verdict of a step.
#[inline]
pub fn verdict(answer: ffi::Verdict) -> Verdict {
    match answer.outcome {
        ffi::FORWARDED => Verdict::Forwarded,
        ffi::REFUSED => Verdict::Refused(question(answer.question.into())),
        ffi::BLAMED => blame(answer).unwrap_or(Verdict::Refused(Question::UNSOUND)),
        _ => Verdict::Refused(Question::UNSOUND),
    }
}

fn blame(answer: ffi::Verdict) -> Option<Verdict> {
    let reason = match answer.reason {
        ffi::NO_LABEL => Reason::NoLabel,
        ffi::OTHER_KINDS => Reason::OtherKinds,
        ffi::OUT_OF_RANGE => Reason::OutOfRange(answer.field),
        ffi::EARLY => Reason::Early,
        _ => return None,
    };
    Some(Verdict::Blamed(Party::of(answer.party.into())?, reason))
}

/// The last answer of a batch: none where no step was tried.
#[inline]
pub fn last(answer: ffi::Verdict) -> Option<Verdict> {
    (answer.outcome != ffi::NONE_DUE).then(|| verdict(answer))
}

/// The answer of a fit check.
#[inline]
pub fn fitting(answer: ffi::Fit) -> Fitting {
    match (answer.outcome, answer.count as usize) {
        (ffi::FITS, pairs) => Fitting::Fits { pairs },
        (ffi::FAILS, moves) => Fitting::Fails { moves, high: (answer.high != ffi::ALL_LOW).then_some(answer.high) },
        (ffi::FIT_REFUSED, _) => Fitting::Refused(question(answer.question)),
        _ => Fitting::Refused(Question::UNSOUND),
    }
}

#[cfg(test)]
mod tests {
    use super::*;

    const UNSOUND: Verdict = Verdict::Refused(Question::UNSOUND);
    const BLAME: ffi::Verdict = ffi::Verdict { outcome: 2, question: 0, party: 1, reason: 3, field: 1 };

    #[test]
    fn every_outcome_of_a_step() {
        for outcome in 0..=u8::MAX {
            let wanted = match outcome {
                0 => Verdict::Forwarded,
                1 => Verdict::Refused(Question::NOT_RUNNING),
                2 => Verdict::Blamed(Party::Host, Reason::OutOfRange(1)),
                _ => UNSOUND,
            };
            let answer = ffi::Verdict { outcome, question: 10, ..BLAME };
            assert_eq!(verdict(answer), wanted);
            assert_eq!(last(answer), (outcome != 3).then_some(wanted));
        }
    }

    #[test]
    fn every_outcome_of_a_fit_check() {
        for outcome in (0..=300).chain([0x1_0000, 0x1_0001, 0x8000_0000, u32::MAX]) {
            let wanted = match outcome {
                0 => Fitting::Fits { pairs: 3 },
                1 => Fitting::Fails { moves: 3, high: Some(1) },
                2 => Fitting::Refused(Question::LIST_TOO_SHORT),
                _ => Fitting::Refused(Question::UNSOUND),
            };
            assert_eq!(fitting(ffi::Fit { outcome, question: 17, count: 3, high: 1 }), wanted);
        }
        let none_high = ffi::Fit { outcome: 1, question: 0, count: 3, high: 255 };
        assert_eq!(fitting(none_high), Fitting::Fails { moves: 3, high: None });
    }

    #[test]
    fn every_party_and_reason_of_a_blame() {
        for party in 0..=u8::MAX {
            let blamed = [Party::Device, Party::Host].into_iter().find(|&one| one as u8 == party);
            let wanted = blamed.map_or(UNSOUND, |party| Verdict::Blamed(party, Reason::OutOfRange(1)));
            assert_eq!(verdict(ffi::Verdict { party, ..BLAME }), wanted);
        }
        for reason in 0..=u8::MAX {
            let reasons = [Reason::NoLabel, Reason::OtherKinds, Reason::OutOfRange(1), Reason::Early];
            let named = reasons.into_iter().find(|one| one.number() == reason);
            let wanted = named.map_or(UNSOUND, |reason| Verdict::Blamed(Party::Host, reason));
            assert_eq!(verdict(ffi::Verdict { reason, ..BLAME }), wanted);
        }
    }

    #[test]
    fn every_question() {
        assert_eq!(refusal(0), None);
        for number in 1..=300 {
            let wanted = if number <= 23 { Question(number as u8) } else { Question::UNSOUND };
            assert_eq!((refusal(number), question(number)), (Some(wanted), wanted));
        }
        assert_eq!((question(0), question(0x101), question(u32::MAX)), (Question(9), Question(9), Question(9)));
    }
}
