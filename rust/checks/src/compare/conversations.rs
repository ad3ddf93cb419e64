//! Whole conversations, through loops, with messages that come early, damaged or forbidden, and output buffers that are too short.

use super::both::Both;
use super::names::by_branch;
use super::steps::{due_of, fresh_of, step_of, Given};
use super::{Named, Outcome, Tally};
use crate::second::monitor::{turn, Side};
use crate::second::random::{
    any_message, damaged_message, endless_table, faulty_message, joined, named_tokens, setting, spoken, with_noise, Limits,
    Random,
};
use crate::second::table::Raw;
use sojimu::State;

/// How many messages are forwarded in one conversation.
const MESSAGES: usize = 10_000;
/// How many are in those over a text.
const FEW_MESSAGES: usize = 50;

/// One conversation. At each message others are tried as well: such as are refused go to the state itself, such as are blamed to a
/// copy of it, so that the conversation goes on. At its end one is forbidden in earnest, and more come after it.
pub fn case(random: &mut Random, tally: &mut Tally) -> Outcome {
    let (states, branches) = *random.pick(&[(3, 6), (8, 20), (12, 20), (32, 128)]);
    let columns = Raw::of(&endless_table(random, states, branches));
    let both = Both::of(&with_noise(random, &columns));
    let mut state = begun(random, &both, tally)?;
    for _ in 0..MESSAGES {
        state = others(random, &both, state, tally)?;
        let given = allowed(random, &both, &state);
        let more = random.bytes(12);
        let waiting: Vec<u8> = given.message.iter().copied().chain(more).collect();
        let early = any_message(random).bytes();
        let (device, host) = if given.side == Side::Device { (waiting, early) } else { (early, waiting) };
        due_of(&given, &both, &device, &host, tally)?;
        state = step_of(&given, &both, tally)?;
    }
    forbidden(random, &both, state, 20, tally)
}

/// Conversations over a text, mostly with names after the dot of a `rec`, which each of the two has read for itself. At an end another
/// begins.
pub fn of_text(random: &mut Random, tally: &mut Tally) -> Outcome {
    let limits = Limits { open: 6, ..Limits::any(random) };
    let tokens = named_tokens(random, limits);
    let text = joined(random, &tokens);
    let both = Both::read(&text, tally)?;
    let through = by_branch(&text);
    let mut state = begun(random, &both, tally)?;
    for _ in 0..FEW_MESSAGES {
        state = others(random, &both, state, tally)?;
        let given = allowed(random, &both, &state);
        let position = usize::from(state.position);
        let own = both.second.branches_of(position);
        let said = own.iter().find(|&&b| given.message.starts_with(&both.second.branches[b].label));
        state = step_of(&given, &both, tally)?;
        match said {
            Some(&branch) => tally.name(Named::Spoken, through[branch]),
            None => state = begun(random, &both, tally)?,
        }
    }
    forbidden(random, &both, state, 2, tally)
}

/// A conversation begins, under a table that is sound.
pub fn begun(random: &mut Random, both: &Both, tally: &mut Tally) -> Result<State, String> {
    let setting = setting(random);
    fresh_of(both, setting, tally)?.ok_or("the table is not sound".to_string())
}

/// What the protocol allows at a state, with room enough; at an end, any message.
pub fn allowed(random: &mut Random, both: &Both, state: &State) -> Given {
    let position = usize::from(state.position);
    let own = both.second.branches_of(position);
    let side = turn(both.second.states[position]).unwrap_or(Side::Device);
    let message = if own.is_empty() {
        any_message(random).bytes()
    } else {
        let branch = *random.pick(&own);
        spoken(random, &both.second.branches[branch]).bytes()
    };
    Given { state: *state, side, room: message.len() + random.below(3), message }
}

/// Now and then a message out of turn, a damaged one, one with too little room, or one that is forbidden.
fn others(random: &mut Random, both: &Both, state: State, tally: &mut Tally) -> Result<State, String> {
    let mut given = allowed(random, both, &state);
    match random.below(16) {
        0 => {
            given.side = given.side.other();
            step_of(&given, both, tally)?;
            Ok(state)
        }
        1 => {
            given.room = random.below(given.message.len());
            step_of(&given, both, tally)
        }
        2 => {
            given.message = damaged_message(random, &given.message);
            given.room = given.message.len();
            step_of(&given, both, tally)?;
            Ok(state)
        }
        3 => {
            forbidden(random, both, state, 1, tally)?;
            Ok(state)
        }
        _ => Ok(state),
    }
}

/// A message that is mostly forbidden, and so many more after it.
fn forbidden(random: &mut Random, both: &Both, state: State, more: usize, tally: &mut Tally) -> Outcome {
    let mut state = state;
    for _ in 0..=more {
        let mut given = allowed(random, both, &state);
        given.message = faulty_message(random, &both.second, usize::from(state.position));
        given.room = given.message.len().saturating_sub(usize::from(random.one_in(5)));
        state = step_of(&given, both, tally)?;
    }
    Ok(())
}
