//! Messages out of turn, of every sort, from any state, under both editions.

use super::both::{state_codes, Both};
use super::conversations::{allowed, begun};
use super::steps::{anywhere, nobodys_step, step_of, Given, Odds};
use super::{Outcome, Tally};
use crate::second::monitor::{turn, Side};
use crate::second::random::{
    any_message, damaged_message, endless_table, faulty_message, message_for, out_of_range, reshaped, sound_table, spoken,
    state_at, with_broken_text, with_noise, Random,
};
use crate::second::table::{Raw, Table};

/// How many messages of a conversation come before the early one, at most.
const BEFORE: usize = 12;

/// One early message at any state, one in a conversation that began, and what comes after it.
pub fn case(random: &mut Random, tally: &mut Tally) -> Outcome {
    anywhere_early(random, tally)?;
    in_conversation(random, tally)
}

/// A step out of turn at any state of a table; the same of the table's other edition, and of a side that is neither.
fn anywhere_early(random: &mut Random, tally: &mut Tally) -> Outcome {
    let (states, branches) = *random.pick(&[(3, 4), (6, 12), (12, 20)]);
    let sound = sound_table(random, states, branches);
    let (both, state) = anywhere(random, &sound, Odds { damaged: 16, beyond: 16, stopped: 8, counts: 8 });
    let position = usize::from(state.position).min(sound.states.len() - 1);
    let side = turn(sound.states[position]).map_or(*random.pick(&Side::BOTH), Side::other);
    let message = early(random, &sound, position);
    let room = if random.one_in(6) { random.below(message.len()) } else { message.len() + random.below(3) };
    let given = Given { state, side, message, room };
    step_of(&given, &both, tally)?;
    nobodys_step(random, &given, &both, tally)?;
    let mut other = Raw::from(&both.proved);
    other.edition = 3_u32.wrapping_sub(other.edition);
    step_of(&given, &Both::of(&other), tally).map(drop)
}

/// Bytes for a side whose turn it is not: what the other side may say, out of its range, of other fields, of another label, or what is
/// no message.
fn early(random: &mut Random, table: &Table, position: usize) -> Vec<u8> {
    let own = table.branches_of(position);
    if own.is_empty() {
        return message_for(random, table, position);
    }
    let branch = &table.branches[*random.pick(&own)];
    match random.below(8) {
        0 | 1 => spoken(random, branch).bytes(),
        2 => out_of_range(random, branch).bytes(),
        3 => reshaped(random, branch).bytes(),
        4 => any_message(random).bytes(),
        5 => {
            let message = any_message(random);
            with_broken_text(random, &message).unwrap_or(message).bytes()
        }
        6 => {
            let bytes = spoken(random, branch).bytes();
            damaged_message(random, &bytes)
        }
        _ => faulty_message(random, table, position),
    }
}

/// Some messages are forwarded, then one comes early, and more after it, early or not: once its sender is blamed, 10 refuses them.
fn in_conversation(random: &mut Random, tally: &mut Tally) -> Outcome {
    let table = endless_table(random, 6, 12);
    let both = Both::of(&with_noise(random, &Raw::of(&table)));
    let mut state = if random.one_in(2) { begun(random, &both, tally)? } else { state_codes(&state_at(random, &table, 0)) };
    for _ in 0..random.below(BEFORE) {
        let given = allowed(random, &both, &state);
        state = step_of(&given, &both, tally)?;
    }
    for _ in 0..4 {
        let mut given = allowed(random, &both, &state);
        if !random.one_in(4) {
            given.side = given.side.other();
        }
        state = step_of(&given, &both, tally)?;
    }
    Ok(())
}
