//! Device and monitor together: the machine of the document, as a definition. Of the two editions it is the protocol's that counts.

use super::message::Message;
use super::monitor::Side;
use super::table::{Branch, Sort, Table};

#[derive(Clone, Copy, Debug, PartialEq, Eq)]
pub enum Standing {
    Running,
    DeviceBlamed,
    HostBlamed,
    Jammed,
}

/// "A device state, a protocol position … and a standing."
#[derive(Clone, Copy, Debug, PartialEq, Eq)]
pub struct Machine {
    pub device: usize,
    pub position: usize,
    pub standing: Standing,
}

/// "A move is a side and a well-formed message."
#[derive(Clone, Debug, PartialEq, Eq)]
pub struct Move {
    pub side: Side,
    pub message: Message,
}

/// "A branch … has the label, the kinds, and ranges that hold the numbers."
pub fn says(branch: &Branch, message: &Message) -> bool {
    branch.label == message.label
        && branch.kinds().eq(message.kinds())
        && branch.fields.iter().zip(&message.fields).all(|(field, &(_, number))| field.holds(number))
}

/// The branch of a state that allows, has or takes a message.
pub fn saying<'a>(table: &'a Table, state: usize, message: &Message) -> Option<&'a Branch> {
    table.branches.iter().find(|branch| branch.owner == state && says(branch, message))
}

/// The fresh machine of two sound tables.
pub fn fresh(device: &Table, protocol: &Table) -> Machine {
    settled(device, protocol, Machine { device: 0, position: 0, standing: Standing::Running })
}

/// "While running, it is jammed as soon as the two states differ in sort, before any move too."
fn settled(device: &Table, protocol: &Table, machine: Machine) -> Machine {
    if machine.standing == Standing::Running && device.states[machine.device] != protocol.states[machine.position] {
        return Machine { standing: Standing::Jammed, ..machine };
    }
    machine
}

/// "Both go on, each to its branch's target."
fn forwarded(device: &Table, protocol: &Table, has: &Branch, allows: &Branch) -> Machine {
    let on = Machine { device: has.target, position: allows.target, standing: Standing::Running };
    settled(device, protocol, on)
}

/// One move: what it leaves, and whether it was forwarded. A message that is not well formed is no move, and does nothing.
pub fn play(device: &Table, protocol: &Table, machine: Machine, one: &Move) -> (Machine, bool) {
    if machine.standing != Standing::Running || !one.message.well_formed() {
        return (machine, false);
    }
    let has = || saying(device, machine.device, &one.message);
    let allows = || saying(protocol, machine.position, &one.message);
    match one.side {
        Side::Device => {
            if device.states[machine.device] != Sort::Sends {
                return (machine, false);
            }
            match (has(), allows()) {
                (None, _) => (machine, false),
                (Some(has), Some(allows)) => (forwarded(device, protocol, has, allows), true),
                (Some(_), None) => (Machine { standing: Standing::DeviceBlamed, ..machine }, false),
            }
        }
        Side::Host => {
            let blamed = Machine { standing: Standing::HostBlamed, ..machine };
            match protocol.states[machine.position] {
                // Document 02: "The machine blames the host likewise, but at an end a host move still changes nothing."
                Sort::Sends if protocol.edition == 2 => return (blamed, false),
                Sort::Sends | Sort::End => return (machine, false),
                Sort::Receives => {}
            }
            match (allows(), has()) {
                (None, _) => (blamed, false),
                (Some(allows), Some(takes)) => (forwarded(device, protocol, takes, allows), true),
                (Some(_), None) => (Machine { standing: Standing::Jammed, ..machine }, false),
            }
        }
    }
}

/// A list of moves: "the first meets a fresh machine and each later one what the move before left". What is left, and of each
/// move whether it was forwarded.
pub fn play_all(device: &Table, protocol: &Table, moves: &[Move]) -> (Machine, Vec<bool>) {
    let mut machine = fresh(device, protocol);
    let mut forwards = Vec::new();
    for one in moves {
        let (left, forward) = play(device, protocol, machine, one);
        machine = left;
        forwards.push(forward);
    }
    (machine, forwards)
}
