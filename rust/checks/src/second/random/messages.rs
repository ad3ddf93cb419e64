//! Messages of a state, out of range, of another shape, damaged; and conversations.

use super::tables::branch_for;
use super::{fields, kind, label, number_of, utf8_bytes, with_broken_text, Random};
use crate::second::message::Message;
use crate::second::monitor::{step, turn, Side, State, GREATEST_SETTING};
use crate::second::table::{Branch, Kind, Label, Table, LABEL_BYTES, MOST_FIELDS};

fn message_of(random: &mut Random, label: Label, fields: Vec<(Kind, i64)>) -> Message {
    let texts = fields.iter().filter(|&&(kind, _)| kind == Kind::Text);
    let texts = texts.flat_map(|&(_, length)| utf8_bytes(random, length as usize)).collect();
    Message { label, fields, texts }
}

/// A message that the branch says: numbers within its ranges, the ends more often than chance has it, texts of any well-formed
/// UTF-8.
pub fn spoken(random: &mut Random, branch: &Branch) -> Message {
    let fields = branch
        .fields
        .iter()
        .map(|field| {
            let number = match random.below(3) {
                0 => field.low,
                1 => field.high,
                _ => random.between(field.low, field.high),
            };
            (field.kind, number)
        })
        .collect();
    message_of(random, branch.label, fields)
}

/// A well-formed message like the branch's with some number out of its range, where its kind has such a number.
pub fn out_of_range(random: &mut Random, branch: &Branch) -> Message {
    let mut fields = spoken(random, branch).fields;
    for _ in 0..1 + random.below(2) {
        let f = random.below(fields.len());
        if let Some(field) = branch.fields.get(f) {
            let outside = [field.low - 1, field.high + 1, number_of(random, field.kind)];
            let outside: Vec<i64> =
                outside.into_iter().filter(|&number| field.kind.holds(number) && !field.holds(number)).collect();
            if !outside.is_empty() {
                fields[f].1 = *random.pick(&outside);
            }
        }
    }
    message_of(random, branch.label, fields)
}

/// A well-formed message with the branch's label and other fields: one more, one fewer, or another kind.
pub fn reshaped(random: &mut Random, branch: &Branch) -> Message {
    let mut fields = spoken(random, branch).fields;
    let kind = kind(random);
    let other = (kind, number_of(random, kind));
    let place = random.below(fields.len());
    match random.below(3) {
        0 if fields.len() < MOST_FIELDS => fields.insert(place, other),
        1 if !fields.is_empty() => {
            fields.remove(place);
        }
        _ if !fields.is_empty() => fields[place] = other,
        _ => fields.push(other),
    }
    message_of(random, branch.label, fields)
}

/// Any well-formed message.
pub fn any_message(random: &mut Random) -> Message {
    let label = label(random, &[]);
    let fields = fields(random, MOST_FIELDS).iter().map(|field| (field.kind, field.high)).collect();
    message_of(random, label, fields)
}

/// A message's bytes with one thing wrong (or, at times, nothing): a byte changed, cut off, something after it, another count.
pub fn damaged_message(random: &mut Random, bytes: &[u8]) -> Vec<u8> {
    let mut bytes = bytes.to_vec();
    let place = random.below(bytes.len());
    match random.below(6) {
        0 if !bytes.is_empty() => bytes[place] = random.byte(),
        1 if !bytes.is_empty() => bytes[place] = *random.pick(&[0, 1, 2, 3, 4, 5, 64, 65, 90, 91, 255]),
        2 => bytes.truncate(place),
        3 => bytes.extend(random.bytes(12)),
        4 if bytes.len() > LABEL_BYTES => bytes[LABEL_BYTES] = *random.pick(&[0, 1, 2, 3, 4, 5, 255]),
        5 if bytes.len() > LABEL_BYTES + 1 => {
            let end = bytes.len().min(LABEL_BYTES + 1 + 5 * MOST_FIELDS);
            let place = LABEL_BYTES + 1 + random.below(end - LABEL_BYTES - 1);
            bytes[place] = *random.pick(&[0, 1, 2, 3, 64, 65, 127, 128, 255]);
        }
        _ => bytes.push(0),
    }
    bytes
}

/// Bytes of any sort for a state of a sound table: mostly what one of its branches says, else out of range, of another shape, of
/// another state, with a broken text, damaged, or any bytes.
pub fn message_for(random: &mut Random, table: &Table, state: usize) -> Vec<u8> {
    let own = table.branches_of(state);
    let faulty = random.one_in(2);
    if own.is_empty() || faulty {
        return faulty_message(random, table, state);
    }
    let branch = &table.branches[*random.pick(&own)];
    spoken(random, branch).bytes()
}

/// Bytes that are mostly not what a branch of the state says.
pub fn faulty_message(random: &mut Random, table: &Table, state: usize) -> Vec<u8> {
    let own = table.branches_of(state);
    let branch = if !own.is_empty() && !random.one_in(4) {
        table.branches[*random.pick(&own)].clone()
    } else if !table.branches.is_empty() {
        random.pick(&table.branches).clone()
    } else {
        branch_for(random, table, state)
    };
    let message = match random.below(10) {
        0 | 1 => out_of_range(random, &branch),
        2 => reshaped(random, &branch),
        3 => {
            let other = if table.branches.is_empty() { branch } else { random.pick(&table.branches).clone() };
            spoken(random, &other)
        }
        4 => any_message(random),
        5..=7 => {
            let bytes = spoken(random, &branch).bytes();
            return damaged_message(random, &bytes);
        }
        8 => {
            let message = spoken(random, &branch);
            return with_broken_text(random, &message).unwrap_or(message).bytes();
        }
        _ => return random.bytes(40),
    };
    // What is forbidden may have a broken text, too.
    let broken = if random.one_in(4) { with_broken_text(random, &message) } else { None };
    broken.unwrap_or(message).bytes()
}

/// What one side brings: a message and the room of the output.
#[derive(Clone, Debug, PartialEq, Eq)]
pub struct Turn {
    pub side: Side,
    pub message: Vec<u8>,
    pub room: usize,
}

/// A conversation of so many turns under a sound table. One turn in `faults` is faulty (its message, its side or its room);
/// the others say what the protocol allows at the position that the turns before lead to. With `faults` 0 no turn is.
/// It goes on after an end or a blame, with messages of any state.
pub fn conversation(random: &mut Random, table: &Table, turns: usize, faults: usize) -> Vec<Turn> {
    let mut all = Vec::new();
    let Ok(mut state) = State::fresh(table, GREATEST_SETTING) else {
        return all;
    };
    for _ in 0..turns {
        let position = state.position;
        let own = table.branches_of(position);
        let mut side = turn(table.states[position]).unwrap_or(*random.pick(&Side::BOTH));
        let mut message = if own.is_empty() {
            any_message(random).bytes()
        } else {
            let branch = *random.pick(&own);
            spoken(random, &table.branches[branch]).bytes()
        };
        let mut room = message.len() + random.below(4);
        if faults > 0 && random.one_in(faults) {
            match random.below(6) {
                0 => room = random.below(message.len() + 1),
                1 => side = side.other(),
                2 | 3 => message = damaged_message(random, &message),
                _ => message = faulty_message(random, table, position),
            }
            room = room.max(random.below(2) * message.len());
        }
        let mut output = vec![0; room];
        step(table, &mut state, side, &message, &mut output);
        all.push(Turn { side, message, room });
    }
    all
}

/// Bytes waiting on one side: a few messages for states of the table one after another, the last of them at times damaged or cut
/// off, or any bytes.
pub fn waiting(random: &mut Random, table: &Table) -> Vec<u8> {
    if random.one_in(10) {
        return random.bytes(30);
    }
    let mut bytes = Vec::new();
    for _ in 0..random.below(4) {
        let state = random.below(table.states.len());
        bytes.extend(message_for(random, table, state));
    }
    match random.below(4) {
        0 => bytes.truncate(random.below(bytes.len() + 1)),
        1 => bytes = damaged_message(random, &bytes),
        _ => {}
    }
    bytes
}
