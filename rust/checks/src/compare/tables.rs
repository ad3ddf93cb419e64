//! Tables: sound, with noise beyond their counts, damaged in each column, and any; question 9, the dual, and messages made.

use super::batches::{self, batch_of};
use super::both::{codes, state_codes, Both};
use super::show::{self, Columns};
use super::steps::{due_of, fresh_of, nobodys_step, step_of, Given, UNTOUCHED};
use super::{Issued, Outcome, Tally};
use crate::ffi;
use crate::second::message;
use crate::second::monitor::Side;
use crate::second::random::{
    any_raw, damaged_table, faulty_message, kind, number_of, sound_table, state_at, with_noise, Random, Waiting, COLUMNS,
};
use crate::second::table::{legal_label, Kind, Raw, MOST_BRANCHES, MOST_STATES};
use sojimu::message::{label_legal, range_legal};
use sojimu::{Question, Standing, State, Table};

/// A table, the same of every edition word that is telling, and its damaged copies, through each call that takes one.
pub fn case(random: &mut Random, tally: &mut Tally) -> Outcome {
    let (states, branches) = *random.pick(&[(4, 6), (4, 6), (12, 20), (12, 20), (32, 128)]);
    let table = Raw::of(&sound_table(random, states, branches));
    one(random, &table, tally)?;
    let noisy = with_noise(random, &table);
    one(random, &noisy, tally)?;
    for column in 0..COLUMNS {
        let whole = if random.one_in(2) { &noisy } else { &table };
        let damaged = damaged_table(random, whole, column);
        one(random, &damaged, tally)?;
    }
    for edition in [0, 1, 2, 3, u32::MAX] {
        one(random, &Raw { edition, ..table.clone() }, tally)?;
    }
    let any = any_raw(random);
    one(random, &any, tally)?;
    words(random, tally)
}

fn one(random: &mut Random, columns: &Raw, tally: &mut Tally) -> Outcome {
    let both = Both::of(columns);
    let show = || show::table("table", &both.proved);
    let sound = both.proved.sound();
    tally.asked((!sound).then_some(Question::UNSOUND));
    tally.wide += u64::from(!sound && last_bytes(columns).sound());
    tally.issue(Issued::Table, !sound && Raw { edition: 1, ..columns.clone() }.sound());
    tally.same("sound", sound, columns.sound(), show)?;
    let position = strange(random, tally, 34);
    tally.same("sound at", both.proved.sound_at(position), columns.sound_at(position as usize), show)?;
    dual(columns, &both, tally)?;
    make(random, &both, tally)?;
    let setting = random.below(1003) as u32;
    let setting = if random.one_in(4) { random.wide(setting) } else { setting };
    fresh_of(&both, setting, tally)?;
    let one = given(random, &both);
    step_of(&one, &both, tally)?;
    nobodys_step(random, &one, &both, tally)?;
    let other = given(random, &both);
    due_of(&other, &both, &other.message, &other.message, tally)?;
    let Given { state, message, room, .. } = other;
    let waiting = Waiting { device: message.clone(), host: message };
    batch_of(&batches::Given { state, waiting, device_room: room, host_room: room }, &both, tally).map(drop)
}

/// The table with the last byte of each word that is a count, a code or a number of a state.
fn last_bytes(columns: &Raw) -> Raw {
    let mut raw = columns.clone();
    let Raw { states, branches, sort, owner, target, fields, kind, edition, .. } = &mut raw;
    let words = [states, branches, edition].into_iter().chain(sort).chain(owner).chain(target).chain(fields).chain(kind);
    words.for_each(|word| *word &= 0xFF);
    raw
}

/// A number below a bound; now and then one that is far above.
fn strange(random: &mut Random, tally: &mut Tally, bound: usize) -> u32 {
    let number = random.below(bound) as u32;
    let number = if random.one_in(4) { random.wide(number) } else { number };
    tally.strange += u64::from(number > 255);
    number
}

/// The dual: the question, what the table means, and every word of it. Whatever the sorts do not say stays as it was.
fn dual(columns: &Raw, both: &Both, tally: &mut Tally) -> Outcome {
    let show = || show::table("table", &both.proved);
    let dual = both.proved.dual();
    tally.asked(dual.as_ref().err().copied());
    let (question, turned) = columns.dual();
    let meant = dual.as_ref().map(|table| Raw::from(table).table()).map_err(|question| question.0);
    let wanted = if question == 0 { Ok(turned.table()) } else { Err(question) };
    let given = ffi::sojimu_dual(&both.proved);
    let words = if question == 0 { exchanged(&both.proved) } else { Table::from(&Raw::empty()) };
    let proved = (meant, given.question, Columns(given.table));
    tally.same("dual", proved, (wanted, question.into(), Columns(words)), show)?;
    if let Ok(dual) = dual {
        let twice = dual.dual().map(Columns);
        tally.same("dual of the dual", twice, Ok(Columns(both.proved.clone())), show)?;
    }
    Ok(())
}

/// 1 and 2 exchanged in the whole column of sorts.
fn exchanged(table: &Table) -> Table {
    Table { sort: table.sort.map(|sort| if sort == 1 || sort == 2 { 3 - sort } else { sort }), ..table.clone() }
}

/// A message made from any branch, with any field high, in any room.
fn make(random: &mut Random, both: &Both, tally: &mut Tally) -> Outcome {
    let branches = (both.proved.branches as usize).min(MOST_BRANCHES);
    let branch = strange(random, tally, branches + 1);
    let high = match random.below(8) {
        0..=2 => None,
        3 => Some(random.byte().into()),
        _ => Some(strange(random, tally, 5)),
    };
    let room = if random.one_in(4) { random.below(60) } else { 300 };
    let mut output = [UNTOUCHED; 300];
    let field = high.map(|field| field as usize);
    let second = message::make(&both.second, branch as usize, field, &mut output[..room]);
    let second = (second.map_err(Question), codes(second), [output; 2]);

    let mut outputs = [[UNTOUCHED; 300]; 2];
    let made = both.proved.make(branch, high, &mut outputs[0][..room]);
    // The code 255 names no field, and no branch has field 256.
    let named = high.map_or(255, |field| if field == 255 { 256 } else { field });
    let given = ffi::make(&both.proved, branch, named, &mut outputs[1][..room]);
    tally.asked(made.err());
    tally.same("make", (made, (given.question, given.length), outputs), second, || {
        format!("branch {branch}, high {high:?}, room {room}\n{}", show::table("table", &both.proved))
    })
}

/// A step at any position of any table.
fn given(random: &mut Random, both: &Both) -> Given {
    let states = (both.proved.states as usize).min(MOST_STATES);
    let position = if random.one_in(4) { random.byte() } else { random.below(states) as u8 };
    let standing = if random.one_in(8) { Standing(random.byte()) } else { Standing::RUNNING };
    let state = random.below(both.second.states.len());
    let message = faulty_message(random, &both.second, state);
    let side = *random.pick(&Side::BOTH);
    let counted = state_codes(&state_at(random, &both.second, position.into()));
    Given { state: State { standing, ..counted }, side, room: message.len(), message }
}

/// Labels and ranges by themselves.
fn words(random: &mut Random, tally: &mut Tally) -> Outcome {
    let mut label = *random.pick(&[*b"Ask\0\0\0\0\0", *b"Abcdefgh", *b"Z9\0\0\0\0\0\0"]);
    for _ in 0..16 {
        let place = random.below(label.len());
        let mut changed = label;
        changed[place] = if random.one_in(2) { random.byte() } else { *random.pick(b"\0@AZ[`az{/09: \x7F\x80\xC1\xFF") };
        let legal = legal_label(&changed);
        let show = || show::bytes("label", &changed);
        tally.same("label_legal", label_legal(u64::from_be_bytes(changed)), legal, show)?;
        if legal {
            label = changed;
        }
    }
    for _ in 0..16 {
        let of = kind(random);
        let (low, high) = (near(random, of), near(random, of));
        let mut code = kind(random).code().into();
        if random.one_in(4) {
            code = random.wide(code);
        }
        let value = |number: u32| i64::from(number) - (1 << 31);
        let legal = |kind: Kind| low <= high && kind.holds(value(low)) && kind.holds(value(high));
        let known = u8::try_from(code).ok().and_then(Kind::of_code);
        tally.same("range_legal", range_legal(code, low, high), known.is_some_and(legal), || {
            format!("kind {code}, low {low:08X}, high {high:08X}\n")
        })?;
    }
    Ok(())
}

/// A number near the ends of a kind, plus 2^31.
fn near(random: &mut Random, kind: Kind) -> u32 {
    let number = number_of(random, kind) + random.between(-1, 1);
    (number + (1 << 31)) as u32
}
