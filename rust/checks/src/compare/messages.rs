//! Bytes as messages: what their front tells, 13, 14, 15 and 22.

use super::both::codes;
use super::{show, Outcome, Tally};
use crate::ffi;
use crate::second::message::{broken, front, read};
use crate::second::random::{message_for, sound_table, waiting, Random};
use sojimu::message as proved;
use sojimu::Question;

/// Bytes of any sort, through each call that takes bytes alone.
pub fn case(random: &mut Random, tally: &mut Tally) -> Outcome {
    let table = sound_table(random, 6, 12);
    let state = random.below(table.states.len());
    let bytes = if random.one_in(4) { waiting(random, &table) } else { message_for(random, &table, state) };
    let show = || show::bytes("message", &bytes);

    let question = proved::refusal(&bytes);
    tally.asked(question);
    tally.same("refusal", question, read(&bytes).err().map(Question), show)?;
    let announced = front(&bytes).map(|message| message.length());
    let head = ffi::front(&bytes);
    let told = (proved::front(&bytes), (head.question, head.length));
    tally.same("front", told, (announced.map_err(Question), codes(announced)), show)?;
    tally.broken += u64::from(proved::broken(&bytes));
    tally.same("broken", proved::broken(&bytes), broken(&bytes), show)?;
    let part = &bytes[..random.below(bytes.len().min(30) + 1)];
    tally.same("broken", proved::broken(part), broken(part), || show::bytes("part", part))
}
