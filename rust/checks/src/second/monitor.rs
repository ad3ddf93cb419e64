//! One step of the monitor, and the due message; with the counts of document 02's request 4 and the early message of its request 7.

use super::message::{front, read, Message};
use super::table::{sound, sound_at, Sort, Table, MOST_BRANCHES, MOST_STATES};

/// The most that n is raised to.
pub const MOST_COUNTED: u32 = 10_000;
/// The greatest setting z, in hundredths; the least is 1.
pub const GREATEST_SETTING: u32 = 1000;

#[derive(Clone, Copy, Debug, PartialEq, Eq)]
pub enum Side {
    Device,
    Host,
}

impl Side {
    pub const BOTH: [Side; 2] = [Side::Device, Side::Host];

    pub fn other(self) -> Side {
        match self {
            Side::Device => Side::Host,
            Side::Host => Side::Device,
        }
    }
}

#[derive(Clone, Copy, Debug, PartialEq, Eq)]
pub enum Standing {
    Running,
    DeviceBlamed,
    HostBlamed,
}

/// The state of a conversation. It "gains a count n for each choice and k for each branch", and the setting z.
#[derive(Clone, Copy, Debug, PartialEq, Eq)]
pub struct State {
    pub position: usize,
    pub standing: Standing,
    pub setting: u32,
    pub n: [u32; MOST_STATES],
    pub k: [u32; MOST_BRANCHES],
}

impl State {
    /// A conversation is made: asks 9, then "21 for z outside 1 to 1000".
    pub fn fresh(table: &Table, setting: u32) -> Result<State, u8> {
        if !sound(table) {
            return Err(9);
        }
        if !(1..=GREATEST_SETTING).contains(&setting) {
            return Err(21);
        }
        Ok(State { position: 0, standing: Standing::Running, setting, n: [0; MOST_STATES], k: [0; MOST_BRANCHES] })
    }

    /// Of question 9, "that in a conversation's state each choice's k add up to its n, at most 10,000, and that z is 1 to 1000".
    fn counts_sound(&self, table: &Table) -> bool {
        let adds_up = |choice: usize| {
            let sum: u64 = table.branches_of(choice).into_iter().map(|branch| u64::from(self.k[branch])).sum();
            sum == u64::from(self.n[choice]) && self.n[choice] <= MOST_COUNTED
        };
        let mut choices = (0..table.states.len()).filter(|&state| table.states[state] != Sort::End);
        (1..=GREATEST_SETTING).contains(&self.setting) && choices.all(adds_up)
    }

    /// "Raised on forwarding, until n is 10,000."
    fn count(&mut self, choice: usize, branch: usize) {
        if self.n[choice] < MOST_COUNTED {
            self.n[choice] += 1;
            self.k[branch] += 1;
        }
    }
}

/// Question 9 of a table and a conversation's state.
pub fn state_sound(table: &Table, state: &State) -> bool {
    sound_at(table, state.position) && state.counts_sound(table)
}

/// Why a sender is blamed: reasons 1, 2 and 3, the last with the first field out of its range; and 4, a message out of turn.
#[derive(Clone, Copy, Debug, PartialEq, Eq)]
pub enum Reason {
    Label,
    Kinds,
    Range(usize),
    Early,
}

impl Reason {
    pub fn number(self) -> u8 {
        match self {
            Reason::Label => 1,
            Reason::Kinds => 2,
            Reason::Range(_) => 3,
            Reason::Early => 4,
        }
    }
}

#[derive(Clone, Copy, Debug, PartialEq, Eq)]
pub enum Verdict {
    Refused(u8),
    Blamed(Side, Reason),
    Forwarded,
}

/// Whose turn it is at a state of this sort.
pub fn turn(sort: Sort) -> Option<Side> {
    match sort {
        Sort::End => None,
        Sort::Sends => Some(Side::Device),
        Sort::Receives => Some(Side::Host),
    }
}

/// Whose turn it is in a conversation: 9, 10 and 11.
pub fn awaited(table: &Table, state: &State) -> Result<Side, u8> {
    if !state_sound(table, state) {
        return Err(9);
    }
    if state.standing != Standing::Running {
        return Err(10);
    }
    turn(table.states[state.position]).ok_or(11)
}

/// One step: a message of a side is refused, blamed or forwarded.
pub fn step(table: &Table, state: &mut State, side: Side, message: &[u8], output: &mut [u8]) -> Verdict {
    let early = match awaited(table, state) {
        Err(question) => return Verdict::Refused(question),
        Ok(speaker) => speaker != side,
    };
    // "Under 2, step 12 gives way to the message questions and 16."
    if early && table.edition == 1 {
        return Verdict::Refused(12);
    }
    let parsed = match read(message) {
        Ok(parsed) => parsed,
        Err(question) => return Verdict::Refused(question),
    };
    if output.len() < message.len() {
        return Verdict::Refused(16);
    }
    // "The sender is then blamed with reason 4, ahead of the others."
    let judged = if early { Err(Reason::Early) } else { judge(table, state.position, &parsed) };
    match judged {
        Ok(branch) => {
            output[..message.len()].copy_from_slice(message);
            state.count(state.position, branch);
            state.position = table.branches[branch].target;
            Verdict::Forwarded
        }
        Err(reason) => {
            state.standing = match side {
                Side::Device => Standing::DeviceBlamed,
                Side::Host => Standing::HostBlamed,
            };
            Verdict::Blamed(side, reason)
        }
    }
}

/// The message judged against a position's branches: the number of the one that it takes, or the reason to blame its sender.
pub fn judge(table: &Table, position: usize, message: &Message) -> Result<usize, Reason> {
    let named = table.branches.iter().position(|branch| branch.owner == position && branch.label == message.label);
    let number = named.ok_or(Reason::Label)?;
    let branch = &table.branches[number];
    if branch.kinds().ne(message.kinds()) {
        return Err(Reason::Kinds);
    }
    let outside = branch.fields.iter().zip(&message.fields).position(|(field, &(_, number))| !field.holds(number));
    match outside {
        Some(field) => Err(Reason::Range(field)),
        None => Ok(number),
    }
}

/// A part of a side's bytes: the first `length` of them. Empty where no message is due.
#[derive(Clone, Copy, Debug, PartialEq, Eq)]
pub struct Part {
    pub side: Side,
    pub length: usize,
}

/// The due message: "the first message of the side whose turn it is", from the bytes waiting on either side.
pub fn due(table: &Table, state: &State, device: &[u8], host: &[u8]) -> Part {
    let Ok(side) = awaited(table, state) else {
        return Part { side: Side::Device, length: 0 };
    };
    let waiting = match side {
        Side::Device => device,
        Side::Host => host,
    };
    let length = match front(waiting) {
        Ok(message) if message.length() <= waiting.len() => message.length(),
        _ => 0,
    };
    Part { side, length }
}
