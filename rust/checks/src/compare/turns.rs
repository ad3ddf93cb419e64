//! Messages out of turn: what was compared of them.

use super::both::{state, Both};
use super::steps::Given;
use super::Tally;
use crate::second::message::{front, read};
use crate::second::monitor::{self, judge, turn, Side};
use sojimu::{Question, Reason, Verdict};

/// What is counted of them.
#[derive(Clone, Copy, Debug, PartialEq, Eq)]
pub enum Early {
    /// The device was blamed for reason 4.
    Device,
    /// The host was blamed for reason 4.
    Host,
    /// Blamed for reason 4, though it is what the other side may say.
    Allowed,
    /// Blamed for reason 4, where reason 1 would hold of the other side.
    Label,
    /// Blamed for reason 4, where reason 2 would.
    Kinds,
    /// Blamed for reason 4, where reason 3 would.
    Range,
    /// An early message under edition 2 that 13 refused.
    By13,
    /// One that 14 refused.
    By14,
    /// One that 15 refused.
    By15,
    /// One that 22 refused.
    By22,
    /// One that 16 refused.
    By16,
    /// One that 9 refused, for the state's counts or its setting.
    By9,
    /// One that 10 refused.
    By10,
    /// A well-formed message of either side under edition 2 that 11 refused.
    By11,
    /// An early message under edition 1, which 12 refused, though edition 2 would blame its sender.
    By12,
    /// A well-formed message under edition 2, of a side that is neither, which 12 refused.
    Neither,
    /// None was due under edition 2, and a whole message of the other side waited.
    NotDue,
    /// A batch under edition 2 left a whole message of the side whose turn it was not.
    Left,
    /// A step with such a message blamed its sender.
    LeftBlamed,
}

impl Early {
    /// Each of them in a few letters, in their order.
    pub const ALL: [&str; 19] = [
        "early, device",
        "early, host",
        "early, allowed",
        "early, label",
        "early, kinds",
        "early, range",
        "early, by 13",
        "early, by 14",
        "early, by 15",
        "early, by 22",
        "early, by 16",
        "early, by 9",
        "early, by 10",
        "early, by 11",
        "early, by 12",
        "early, neither",
        "early, not due",
        "early, left",
        "early, then 4",
    ];
}

/// Counts a step by what it was given and its verdict.
pub fn count_step(given: &Given, both: &Both, verdict: Verdict, tally: &mut Tally) {
    let Some(&sort) = both.second.states.get(usize::from(given.state.position)) else {
        return;
    };
    let message = read(&given.message);
    let two = both.second.edition == 2;
    let Some(speaker) = turn(sort) else {
        tally.early(Early::By11, two && message.is_ok() && verdict == Verdict::Refused(Question::AT_END));
        return;
    };
    if speaker == given.side {
        return;
    }
    match verdict {
        Verdict::Forwarded | Verdict::Blamed(_, Reason::NoLabel | Reason::OtherKinds | Reason::OutOfRange(_)) => {}
        Verdict::Blamed(_, Reason::Early) => {
            tally.early(Early::Device, given.side == Side::Device);
            tally.early(Early::Host, given.side == Side::Host);
            let others = message.map(|message| judge(&both.second, usize::from(given.state.position), &message));
            tally.early(Early::Allowed, matches!(others, Ok(Ok(_))));
            tally.early(Early::Label, others == Ok(Err(monitor::Reason::Label)));
            tally.early(Early::Kinds, others == Ok(Err(monitor::Reason::Kinds)));
            tally.early(Early::Range, matches!(others, Ok(Err(monitor::Reason::Range(_)))));
        }
        Verdict::Refused(Question::OUT_OF_TURN) => {
            tally.early(Early::By12, message.is_ok() && given.room >= given.message.len())
        }
        Verdict::Refused(Question(number)) => {
            let refused = [
                (13, Early::By13),
                (14, Early::By14),
                (15, Early::By15),
                (22, Early::By22),
                (16, Early::By16),
                (9, Early::By9),
                (10, Early::By10),
            ];
            refused.into_iter().for_each(|(question, what)| tally.early(what, two && number == question));
        }
    }
}

/// Counts a step of a side that is neither.
pub fn count_neither(given: &Given, both: &Both, question: u8, tally: &mut Tally) {
    tally.early(Early::Neither, both.second.edition == 2 && question == 12 && read(&given.message).is_ok());
}

/// Counts a due part of no length, by the bytes that wait.
pub fn count_undue(given: &Given, both: &Both, device: &[u8], host: &[u8], tally: &mut Tally) {
    let others = match monitor::awaited(&both.second, &state(&given.state)) {
        Err(_) => return,
        Ok(Side::Device) => host,
        Ok(Side::Host) => device,
    };
    tally.early(Early::NotDue, both.second.edition == 2 && whole(others).is_some());
}

/// How long the message is that bytes begin with, where it is all there and well formed.
pub fn whole(bytes: &[u8]) -> Option<usize> {
    let length = front(bytes).ok()?.length();
    read(bytes.get(..length)?).ok().map(|_| length)
}
