//! What waits on both sides: the messages of a walk through a table, with others among them.

use super::{faulty_message, message_for, spoken, Random};
use crate::second::monitor::{turn, Side};
use crate::second::table::{Sort, Table};

/// The bytes that wait on either side.
#[derive(Clone, Debug, Default, PartialEq, Eq)]
pub struct Waiting {
    pub device: Vec<u8>,
    pub host: Vec<u8>,
}

impl Waiting {
    pub fn of(&mut self, side: Side) -> &mut Vec<u8> {
        match side {
            Side::Device => &mut self.device,
            Side::Host => &mut self.host,
        }
    }
}

/// At most so many messages that lead from a state of a sound table to the next, each behind those of its side; fewer where an end
/// is reached, which is mostly gone round. One in `faults` is faulty, and the next follow as if it were not; with 0 none is.
pub fn walk(random: &mut Random, table: &Table, from: usize, messages: usize, faults: usize) -> Waiting {
    let mut waiting = Waiting::default();
    let mut position = from;
    for _ in 0..messages {
        let Some(side) = turn(table.states[position]) else {
            break;
        };
        let mut ways = table.branches_of(position);
        let goes_on = |&branch: &usize| table.states[table.branches[branch].target] != Sort::End;
        if ways.iter().any(goes_on) && !random.one_in(messages) {
            ways.retain(goes_on);
        }
        let branch = &table.branches[*random.pick(&ways)];
        let message = if faults > 0 && random.one_in(faults) {
            faulty_message(random, table, position)
        } else {
            spoken(random, branch).bytes()
        };
        waiting.of(side).extend(message);
        position = branch.target;
    }
    waiting
}

/// Now and then a side's bytes are cut off anywhere, or something stands behind them: a message, the start of one, or any bytes.
pub fn ragged(random: &mut Random, table: &Table, bytes: &mut Vec<u8>) {
    let state = random.below(table.states.len());
    let mut more = message_for(random, table, state);
    match random.below(10) {
        0 => bytes.truncate(random.below(bytes.len() + 1)),
        1 => bytes.truncate(bytes.len() - random.below(bytes.len().min(30) + 1)),
        2 => bytes.extend(more),
        3 => {
            more.truncate(random.below(more.len()));
            bytes.extend(more);
        }
        4 => bytes.extend(random.bytes(40)),
        _ => {}
    }
}
