//! A list of moves that shows that a device does not fit, played: each message made by the library, and put through its monitor on
//! the protocol's table and on the device's own.

use super::sides::Sides;
use super::words::branch_named;
use sojimu::{Party, Reason, State, Table, Verdict, LONGEST_MESSAGE};

/// The setting of the conversations that are played; nothing asks for their warnings.
const SETTING: u32 = 100;

/// A move that was played.
pub struct Move {
    /// Who speaks.
    pub side: Party,
    /// What is said.
    pub message: Vec<u8>,
    /// The branches that have its label, where there are such: the device's own, and the protocol's, which speaks for the host.
    branches: Sides<Option<usize>>,
}

impl Move {
    /// The branch that has its label in the text that speaks for a party.
    pub fn branch(&self, party: Party) -> Option<usize> {
        *self.branches.of(party)
    }
}

/// What a list of moves comes to.
#[derive(Clone, Copy, Debug, PartialEq, Eq)]
pub enum Fate {
    /// The device is blamed for the last move.
    Blamed(Reason),
    /// The device does not take the last move, which the protocol allows the host.
    NotTaken(Reason),
    /// Device and protocol do not agree on whose turn it is.
    OutOfStep,
}

impl Fate {
    /// The word that the report has for it.
    pub fn word(self) -> &'static str {
        match self {
            Fate::Blamed(_) => "blamed",
            Fate::NotTaken(_) | Fate::OutOfStep => "jammed",
        }
    }
}

/// The moves, what they come to, and the two states at the end. Who does not take the last message stays where it was.
pub struct Played {
    pub moves: Vec<Move>,
    pub fate: Fate,
    states: Sides<usize>,
}

impl Played {
    /// The state at the end, in the text that speaks for a party.
    pub fn state(&self, party: Party) -> usize {
        *self.states.of(party)
    }

    /// The branch of the last move in that text.
    pub fn last_branch(&self, party: Party) -> Option<usize> {
        self.moves.last()?.branch(party)
    }
}

/// Plays the moves of a failing fit check: the speaker's branches in their order, one field high in the last, if one is. None where
/// the moves are not such a list.
pub fn play(device: &Table, protocol: &Table, list: &[u16], high: Option<u32>) -> Option<Played> {
    let (mut own, mut theirs) = (device.fresh(SETTING).ok()?, protocol.fresh(SETTING).ok()?);
    let mut moves = Vec::new();
    let mut fate = Fate::OutOfStep;
    for (index, &branch) in list.iter().enumerate() {
        let side = protocol.turn(&theirs).ok()?;
        let speaker = if side == Party::Device { device } else { protocol };
        let message = made(speaker, branch, high.filter(|_| index + 1 == list.len()))?;
        let named = |table: &Table, state: &State| branch_named(table, state.position.into(), &message);
        let branches = Sides { device: named(device, &own), host: named(protocol, &theirs) };
        let answers = (heard(device, &mut own, side, &message), heard(protocol, &mut theirs, side, &message));
        moves.push(Move { side, message, branches });
        fate = match (side, answers) {
            (_, (Verdict::Forwarded, Verdict::Forwarded)) => continue,
            (Party::Device, (Verdict::Forwarded, Verdict::Blamed(Party::Device, reason))) => Fate::Blamed(reason),
            (Party::Host, (Verdict::Blamed(Party::Host, reason), Verdict::Forwarded)) => Fate::NotTaken(reason),
            _ => return None,
        };
    }
    Some(Played { moves, fate, states: Sides { device: own.position.into(), host: theirs.position.into() } })
}

/// The message of a branch, by the library.
fn made(speaker: &Table, branch: u16, high: Option<u32>) -> Option<Vec<u8>> {
    let mut message = vec![0; LONGEST_MESSAGE];
    let length = speaker.make(branch.into(), high, &mut message).ok()?;
    message.truncate(length);
    Some(message)
}

/// What a table's monitor says of a message.
fn heard(table: &Table, state: &mut State, side: Party, message: &[u8]) -> Verdict {
    table.step(state, side, message, &mut [0; LONGEST_MESSAGE])
}
