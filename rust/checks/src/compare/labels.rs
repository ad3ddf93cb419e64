//! Labels where they stand: any bytes against a label that they begin with, that they are too few for, or that is another in one
//! byte; and messages whose label is a branch's but for one byte, through a step and a batch.

use super::batches::{self, batch_of};
use super::both::{party, state_codes, Both};
use super::steps::{self, step_of};
use super::{show, Outcome, Tally};
use crate::second::message::has_label;
use crate::second::monitor::turn;
use crate::second::random::{endless_table, label_of, spoken, state_at, Random, Waiting};
use crate::second::table::{Label, Raw, LABEL_BYTES};
use sojimu::message as proved;
use sojimu::{Reason, Verdict};

/// Letters and digits, those first that a label may begin with.
const LETTERS: &[u8; 62] = b"ABCDEFGHIJKLMNOPQRSTUVWXYZabcdefghijklmnopqrstuvwxyz0123456789";
const CAPITALS: usize = 26;

/// Any bytes with two labels, and one message.
pub fn case(random: &mut Random, tally: &mut Tally) -> Outcome {
    let bytes = random.bytes(2 * LABEL_BYTES);
    let mut label = label_of(&bytes);
    compared(&bytes, &label, tally)?;
    tally.label_there += u64::from(bytes.len() >= LABEL_BYTES);
    tally.label_cut += u64::from(bytes.len() < LABEL_BYTES);
    let place = random.below(LABEL_BYTES);
    label[place] ^= 1 << random.below(8);
    compared(&bytes, &label, tally)?;
    tally.label_apart[place] += u64::from(bytes.len() >= LABEL_BYTES);
    said(random, tally)
}

/// The compare through both.
fn compared(bytes: &[u8], label: &Label, tally: &mut Tally) -> Outcome {
    let show = || show::bytes("bytes", bytes) + &show::bytes("label", label);
    tally.same("has_label", proved::has_label(bytes, u64::from_be_bytes(*label)), has_label(label, bytes), show)
}

/// A message of one of two labels that differ in one byte, at a state that has the one or both.
fn said(random: &mut Random, tally: &mut Tally) -> Outcome {
    let mut table = endless_table(random, 3, 8);
    let position = table.branches[0].owner;
    let own = table.branches_of(position);
    let (label, other, place) = neighbours(random);
    let (first, last) = (own[0], own[own.len() - 1]);
    table.branches[last].label = other;
    table.branches[first].label = label;
    let speaker = *random.pick(&[first, last]);
    let mut message = spoken(random, &table.branches[speaker]);
    message.label = *random.pick(&[label, other, other]);
    let message = message.bytes();

    let both = Both::of(&Raw::of(&table));
    let state = state_codes(&state_at(random, &table, position));
    let side = turn(table.states[position]).expect("the state owns a branch");
    let room = message.len();
    let verdict = both.proved.step(&mut state.clone(), party(side), &message, &mut vec![0; room]);
    tally.label_blamed[place] += u64::from(matches!(verdict, Verdict::Blamed(_, Reason::NoLabel)));
    let mut waiting = Waiting::default();
    waiting.of(side).extend(&message);
    step_of(&steps::Given { state, side, message, room }, &both, tally)?;
    batch_of(&batches::Given { state, waiting, device_room: room, host_room: room }, &both, tally)?;
    Ok(())
}

/// Two legal labels that differ in one byte, and its place.
fn neighbours(random: &mut Random) -> (Label, Label, usize) {
    let place = random.below(LABEL_BYTES);
    let least = place.max(1);
    let length = least + random.below(LABEL_BYTES + 1 - least);
    let mut name = vec![*random.pick(&LETTERS[..CAPITALS])];
    name.extend((1..length).map(|_| *random.pick(LETTERS)));
    let label = label_of(&name);
    let mut other = label;
    while other == label {
        let shorter = place > 0 && place + 1 == length && random.one_in(8);
        other[place] = if shorter { 0 } else { *random.pick(&LETTERS[..if place == 0 { CAPITALS } else { LETTERS.len() }]) };
    }
    (label, other, place)
}
