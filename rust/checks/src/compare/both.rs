//! One input in the forms of both implementations, and the answers of the second in the types of the first.

use super::{texts, Tally};
use crate::ffi;
use crate::second::batch;
use crate::second::monitor as second;
use crate::second::table::{self, Raw};
use crate::second::text;
use crate::second::warning;
use sojimu::{Batch, Party, Question, Reason, Standing, State, Table, Verdict, Warning};

/// A table as words, and the same as the second implementation has it; there, words that are not sound are the empty table.
pub struct Both {
    pub proved: Table,
    pub second: table::Table,
}

impl Both {
    pub fn of(raw: &Raw) -> Both {
        Both { proved: Table::from(raw), second: raw.table() }
    }

    /// A text as each of the two reads it; where they differ, how.
    pub fn read(bytes: &[u8], tally: &mut Tally) -> Result<Both, String> {
        texts::read(bytes, tally)?;
        let proved = Table::read(bytes).unwrap_or(Table::empty());
        Ok(Both { proved, second: text::read(bytes).unwrap_or_default() })
    }
}

impl From<&Raw> for Table {
    fn from(raw: &Raw) -> Table {
        Table {
            states: raw.states,
            branches: raw.branches,
            sort: raw.sort,
            owner: raw.owner,
            target: raw.target,
            fields: raw.fields,
            label_high: raw.label_high,
            label_low: raw.label_low,
            kind: raw.kind,
            low: raw.low,
            high: raw.high,
            share: raw.share,
            edition: raw.edition,
            reserved: raw.reserved,
        }
    }
}

impl From<&Table> for Raw {
    fn from(table: &Table) -> Raw {
        Raw {
            states: table.states,
            branches: table.branches,
            sort: table.sort,
            owner: table.owner,
            target: table.target,
            fields: table.fields,
            label_high: table.label_high,
            label_low: table.label_low,
            kind: table.kind,
            low: table.low,
            high: table.high,
            share: table.share,
            edition: table.edition,
            reserved: table.reserved,
        }
    }
}

/// The party of the second implementation's side.
pub fn party(side: second::Side) -> Party {
    match side {
        second::Side::Device => Party::Device,
        second::Side::Host => Party::Host,
    }
}

/// The second implementation's state. It has no code that is unknown: such a standing is not running, as those of a blame are.
pub fn state(state: &State) -> second::State {
    let standing = match state.standing {
        Standing::RUNNING => second::Standing::Running,
        Standing::HOST_BLAMED => second::Standing::HostBlamed,
        _ => second::Standing::DeviceBlamed,
    };
    second::State {
        position: usize::from(state.position),
        standing,
        setting: state.setting.into(),
        n: state.n.map(u32::from),
        k: state.k.map(u32::from),
    }
}

/// What the state must have become: as it was, code and all, where the second implementation's has not changed.
pub fn state_after(before: &State, after: &second::State) -> State {
    if *after == state(before) {
        return *before;
    }
    state_codes(after)
}

/// The second implementation's state in codes, and in numbers of sixteen bits, which its own are not above.
pub fn state_codes(state: &second::State) -> State {
    let standing = match state.standing {
        second::Standing::Running => Standing::RUNNING,
        second::Standing::DeviceBlamed => Standing::DEVICE_BLAMED,
        second::Standing::HostBlamed => Standing::HOST_BLAMED,
    };
    let (n, k) = (state.n.map(|n| n as u16), state.k.map(|k| k as u16));
    State { position: state.position as u8, standing, setting: state.setting as u16, n, k }
}

/// The verdict of the second implementation's step.
pub fn verdict(verdict: second::Verdict) -> Verdict {
    match verdict {
        second::Verdict::Refused(number) => Verdict::Refused(Question(number)),
        second::Verdict::Forwarded => Verdict::Forwarded,
        second::Verdict::Blamed(side, reason) => Verdict::Blamed(
            party(side),
            match reason {
                second::Reason::Label => Reason::NoLabel,
                second::Reason::Kinds => Reason::OtherKinds,
                second::Reason::Range(field) => Reason::OutOfRange(field as u8),
                second::Reason::Early => Reason::Early,
            },
        ),
    }
}

/// The verdict in the bytes that it is given back in: what does not apply is 0.
pub fn verdict_codes(verdict: second::Verdict) -> ffi::Verdict {
    let nothing = ffi::Verdict { outcome: 0, question: 0, party: 0, reason: 0, field: 0 };
    match verdict {
        second::Verdict::Forwarded => nothing,
        second::Verdict::Refused(question) => ffi::Verdict { outcome: 1, question, ..nothing },
        second::Verdict::Blamed(side, reason) => {
            let field = match reason {
                second::Reason::Label | second::Reason::Kinds | second::Reason::Early => 0,
                second::Reason::Range(field) => field as u8,
            };
            ffi::Verdict { outcome: 2, party: party(side) as u8, reason: reason.number(), field, ..nothing }
        }
    }
}

/// What came of the second implementation's batch.
pub fn batch(batch: batch::Batch) -> Batch {
    let batch::Batch { used_device, used_host, written_to_device, written_to_host, last } = batch;
    Batch { used_device, used_host, written_to_device, written_to_host, last: last.map(verdict) }
}

/// The batch in the numbers that it is given back in.
pub fn batch_codes(batch: batch::Batch) -> ffi::Batch {
    let batch::Batch { used_device, used_host, written_to_device, written_to_host, last } = batch;
    let none_due = ffi::Verdict { outcome: 3, question: 0, party: 0, reason: 0, field: 0 };
    let last = last.map_or(none_due, verdict_codes);
    ffi::Batch { used_device, used_host, written_to_device, written_to_host, last, reserved: [0; 3] }
}

/// What the second implementation tells of a branch.
pub fn warning(told: warning::Told) -> Warning {
    let warning::Told { warns, sender, estimate } = told;
    Warning { warns, sender: party(sender), estimate }
}

/// The same in the numbers that it is given back in: what does not apply is 0, and where there is no estimate, 65535.
pub fn warning_codes(told: Result<warning::Told, u8>) -> ffi::Warning {
    match told {
        Err(question) => ffi::Warning { question: question.into(), warns: 0, sender: 0, estimate: 65535 },
        Ok(warning::Told { warns, sender, estimate }) => {
            let (warns, sender) = (warns.into(), party(sender) as u32);
            ffi::Warning { question: 0, warns, sender, estimate: estimate.unwrap_or(65535) }
        }
    }
}

/// An answer's question and number: 0 and the number, or the question that got a no and 0.
pub fn codes(answer: Result<usize, u8>) -> (u32, u32) {
    match answer {
        Ok(number) => (0, number as u32),
        Err(question) => (question.into(), 0),
    }
}
