//! Tables: sound, damaged in one entry, with anything where nothing counts, and any.

use super::{edition, fields, label, some_shares, Random};
use crate::second::table::{Branch, Label, Raw, Sort, Table, LABEL_BYTES, MOST_BRANCHES, MOST_FIELDS, MOST_STATES};

/// A sound table of at most so many states (1 to 32) and branches (0 to 128). Owners and targets are any, as no text has them.
/// State 0 is seldom an end. Half of them have choices with shares, and half are of edition 2.
pub fn sound_table(random: &mut Random, most_states: usize, most_branches: usize) -> Table {
    table_with_ends(random, most_states, most_branches, 5)
}

/// A sound table of choices alone, for conversations of any length; but for ends where the branches are fewer than the states.
pub fn endless_table(random: &mut Random, most_states: usize, most_branches: usize) -> Table {
    table_with_ends(random, most_states, most_branches, 0)
}

/// A sound table in which one state in `ends` is an end; none when it is 0.
fn table_with_ends(random: &mut Random, most_states: usize, most_branches: usize, ends: usize) -> Table {
    let count = 1 + random.below(most_states.clamp(1, MOST_STATES));
    let most_branches = most_branches.min(MOST_BRANCHES);
    let mut choices = Vec::new();
    let mut table = Table { edition: edition(random), ..Table::empty() };
    for state in 0..count {
        let end = ends > 0 && random.one_in(ends) && (state > 0 || random.one_in(4));
        if !end && choices.len() < most_branches {
            choices.push(state);
            table.states.push(*random.pick(&[Sort::Sends, Sort::Receives]));
        } else {
            table.states.push(Sort::End);
        }
    }
    let mut owners = choices.clone();
    if !choices.is_empty() {
        let more = match random.below(8) {
            0 => most_branches,
            1 => 0,
            _ => random.below(2 * choices.len() + 1),
        };
        while owners.len() < most_branches.min(choices.len() + more) {
            owners.push(*random.pick(&choices));
        }
    }
    random.shuffle(&mut owners);
    for owner in owners {
        let new = branch_for(random, &table, owner);
        table.branches.push(new);
    }
    if random.one_in(2) {
        some_shares(random, &mut table);
    }
    table
}

/// A branch for a state of the table, with a label that is new there and no share.
pub(super) fn branch_for(random: &mut Random, table: &Table, owner: usize) -> Branch {
    let labels: Vec<Label> = table.branches_of(owner).into_iter().map(|b| table.branches[b].label).collect();
    Branch {
        owner,
        label: label(random, &labels),
        fields: fields(random, MOST_FIELDS),
        share: None,
        target: random.below(table.states.len()),
    }
}

/// The columns of a raw table, by number: states, branches, sort, owner, target, fields, label (both words), kind, low, high,
/// share, edition.
pub const COLUMNS: usize = 12;

/// The raw table with one entry of a column changed, to a number that is telling there, mostly of an entry that counts. What
/// comes out is mostly, not always, unsound.
pub fn damaged_table(random: &mut Random, raw: &Raw, column: usize) -> Raw {
    let mut raw = raw.clone();
    let (states, branches) = counted(&raw);
    let state = entry(random, states, MOST_STATES);
    let branch = entry(random, branches, MOST_BRANCHES);
    let place = MOST_FIELDS * branch + entry(random, fields_of(&raw, branch), MOST_FIELDS);
    match column {
        0 => raw.states = near(random, raw.states),
        1 => raw.branches = near(random, raw.branches),
        2 => raw.sort[state] = near(random, raw.sort[state]),
        3 => raw.owner[branch] = near(random, raw.owner[branch]),
        4 => {
            let wide = random.wide(raw.target[branch]);
            raw.target[branch] = *random.pick(&[raw.states, raw.states.wrapping_sub(1), 0, 31, 32, 255, wide]);
        }
        5 => raw.fields[branch] = near(random, raw.fields[branch]),
        6 => {
            let mut label = raw.label(branch);
            match random.below(3) {
                0 => label[random.below(LABEL_BYTES)] = *random.pick(b"\0@AZ[`az{/09: \x01\x80\xC1\xFF"),
                1 => label = raw.label(entry(random, branches, MOST_BRANCHES)),
                _ => label = random.number().to_be_bytes(),
            }
            raw.set_label(branch, label);
        }
        7 => raw.kind[place] = near(random, raw.kind[place]),
        8 => raw.low[place] = telling_number(random, raw.low[place], raw.high[place]),
        9 => raw.high[place] = telling_number(random, raw.low[place], raw.high[place]),
        10 => damage_share(random, &mut raw, branch),
        _ => raw.edition = near(random, raw.edition),
    }
    raw
}

/// A branch's share changed: by itself, or against another's of its choice, so that they add to the same in 32 bits.
fn damage_share(random: &mut Random, raw: &mut Raw, branch: usize) {
    let share = raw.share[branch];
    let changed = match random.below(4) {
        0 => share.wrapping_add(*random.pick(&[1, u32::MAX])),
        1 => *random.pick(&[0, 1, 500, 999, 1000, 1001, 65536, 66536]),
        _ => random.wide(share),
    };
    raw.share[branch] = changed;
    let beside = |&other: &usize| other != branch && raw.owner[other] == raw.owner[branch];
    let others: Vec<usize> = (0..counted(raw).1).filter(beside).collect();
    if !others.is_empty() && random.one_in(2) {
        let other = *random.pick(&others);
        raw.share[other] = raw.share[other].wrapping_add(share.wrapping_sub(changed));
    }
}

/// How many states and branches count, of those that the columns hold.
fn counted(raw: &Raw) -> (usize, usize) {
    ((raw.states as usize).min(MOST_STATES), (raw.branches as usize).min(MOST_BRANCHES))
}

/// How many fields of a branch count, of those that the columns hold.
fn fields_of(raw: &Raw, branch: usize) -> usize {
    (raw.fields[branch] as usize).min(MOST_FIELDS)
}

/// An entry of those that count, now and then any of the column.
fn entry(random: &mut Random, count: usize, column: usize) -> usize {
    if count == 0 || random.one_in(10) {
        random.below(column)
    } else {
        random.below(count)
    }
}

/// A number next to this one, at one of the limits, or far out of every range.
fn near(random: &mut Random, number: u32) -> u32 {
    match random.below(4) {
        0 => number.wrapping_add(1),
        1 => number.wrapping_sub(1),
        2 => *random.pick(&[0, 1, 2, 3, 4, 5, 31, 32, 33, 64, 127, 128, 129, 254, 255]),
        _ => random.wide(number),
    }
}

/// A number in offset form near the ends of a range or of a kind.
fn telling_number(random: &mut Random, low: u32, high: u32) -> u32 {
    let ends = [low, high, 0, 0x7FFF_FFFF, 0x8000_0000, 0x8000_0001, 0x8000_0002, 0x8000_0040, 0x8000_0041, 0xFFFF_FFFF];
    random.pick(&ends).wrapping_add(random.pick(&[0, 1, u32::MAX]).to_owned())
}

/// The raw table with anything in the entries beyond its counts and in the reserved word, which mean nothing. Now and then it is
/// what an entry that counts says.
pub fn with_noise(random: &mut Random, raw: &Raw) -> Raw {
    let mut raw = raw.clone();
    let (states, branches) = counted(&raw);
    for state in states..MOST_STATES {
        raw.sort[state] = junk(random);
    }
    for b in 0..MOST_BRANCHES {
        if b >= branches {
            let like = random.below(branches);
            let again = branches > 0 && random.one_in(4);
            raw.owner[b] = if again { raw.owner[like] } else { junk(random) };
            raw.target[b] = junk(random);
            raw.fields[b] = junk(random);
            raw.share[b] = junk(random);
            raw.label_high[b] = if again { raw.label_high[like] } else { junk(random) };
            raw.label_low[b] = if again { raw.label_low[like] } else { junk(random) };
        }
        let from = if b < branches { fields_of(&raw, b) } else { 0 };
        for place in MOST_FIELDS * b + from..MOST_FIELDS * (b + 1) {
            raw.kind[place] = junk(random);
            raw.low[place] = junk(random);
            raw.high[place] = junk(random);
        }
    }
    raw.reserved = junk(random);
    raw
}

/// Any word; a small one half of the time.
fn junk(random: &mut Random) -> u32 {
    let word = random.number() as u32;
    if random.one_in(2) {
        word >> 24
    } else {
        word
    }
}

/// Any words: hardly ever a sound table.
pub fn any_raw(random: &mut Random) -> Raw {
    let mut raw = with_noise(random, &Raw::empty());
    raw.states = junk(random);
    raw.branches = junk(random);
    raw.edition = *random.pick(&[0, 1, 2, 3, u32::MAX]);
    match random.below(4) {
        0 => {}
        1 => raw.states %= 40,
        2 => raw.branches %= 130,
        _ => (raw.states, raw.branches) = (raw.states % 40, raw.branches % 130),
    }
    raw
}
