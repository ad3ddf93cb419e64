//! Pairs of related tables and texts for the fit check.

use super::names::NAMES;
use super::tables::branch_for;
use super::texts::STRANGE_TOKENS;
use super::ways::said_and_taken;
use super::{
    edition, fields, joined, label, mend_shares, named_tokens, number_of, other_shares, put_name_after_recs, reopened,
    some_shares, sound_table, tokens, without_shares, Limits, Random, LABELS,
};
use crate::second::table::{sound, Branch, Field, Sort, Table, MOST_BRANCHES, MOST_FIELDS, MOST_STATES};
use crate::second::text::{read, LONGEST_PROTOCOL};

/// A device that fits whenever this one does: a range that it sends narrower, one that it takes wider, a branch that it sends
/// less, one that it takes more, or a state written twice.
pub fn fitting_change(random: &mut Random, device: &Table) -> Table {
    let mut table = device.clone();
    if table.branches.is_empty() {
        return table;
    }
    let b = random.below(table.branches.len());
    let owner = table.branches[b].owner;
    let sends = table.states[owner] == Sort::Sends;
    match random.below(4) {
        0 | 1 if !table.branches[b].fields.is_empty() => {
            let f = random.below(table.branches[b].fields.len());
            fitting_range(random, &mut table.branches[b].fields[f], sends);
        }
        2 if sends && table.branches_of(owner).len() > 1 => {
            table.branches.remove(b);
        }
        2 if !sends && table.branches.len() < MOST_BRANCHES => {
            let new = branch_for(random, &table, owner);
            let place = random.below(table.branches.len() + 1);
            table.branches.insert(place, new);
        }
        _ => {
            let target = table.branches[b].target;
            let copies: Vec<Branch> = table.branches_of(target).into_iter().map(|c| table.branches[c].clone()).collect();
            if table.states.len() < MOST_STATES && table.branches.len() + copies.len() <= MOST_BRANCHES {
                let new = table.states.len();
                table.states.push(table.states[target]);
                table.branches.extend(copies.into_iter().map(|copy| Branch { owner: new, ..copy }));
                table.branches[b].target = new;
            }
        }
    }
    mend_shares(random, &mut table);
    table
}

/// A range that is sent narrower, one that is taken wider.
fn fitting_range(random: &mut Random, field: &mut Field, sends: bool) {
    let number = number_of(random, field.kind);
    if !sends {
        field.low = field.low.min(number);
        field.high = field.high.max(number);
    } else if field.holds(number) && random.one_in(2) {
        field.low = number;
    } else if field.holds(number) {
        field.high = number;
    } else {
        field.high = field.low;
    }
}

/// A sound table that differs from this one in one thing, whether it then fits or not. Now and then it is the same.
pub fn changed(random: &mut Random, table: &Table) -> Table {
    if table.branches.is_empty() {
        return table.clone();
    }
    for _ in 0..20 {
        let mut new = table.clone();
        change_one(random, &mut new);
        mend_shares(random, &mut new);
        if sound(&new) {
            return new;
        }
    }
    table.clone()
}

/// One thing changed, in a table that has a branch; it may be unsound then.
fn change_one(random: &mut Random, table: &mut Table) {
    let state = random.below(table.states.len());
    let b = random.below(table.branches.len());
    let f = random.below(table.branches[b].fields.len());
    match random.below(10) {
        0..=2 => {
            if let Some(field) = table.branches[b].fields.get_mut(f) {
                match random.below(4) {
                    0 => field.low -= 1,
                    1 => field.low += 1,
                    2 => field.high -= 1,
                    _ => field.high += 1,
                }
            }
        }
        3 => table.branches[b].fields = fields(random, MOST_FIELDS),
        4 => table.branches[b].label = label(random, &[]),
        5 => table.branches[b].target = random.below(table.states.len()),
        6 => table.states[state] = *random.pick(&[Sort::End, Sort::Sends, Sort::Receives]),
        7 => table.branches[b].owner = state,
        8 => {
            table.branches.remove(b);
        }
        _ => {
            let branch = branch_for(random, table, state);
            table.branches.insert(b, branch);
        }
    }
}

/// A device's table and a protocol's, related: the device comes from the protocol by fitting changes and, half of the time, one or
/// two of any sort; one in three has other shares, and each has either edition. Now and then the two have nothing to do with one
/// another.
pub fn table_pair(random: &mut Random, most_states: usize, most_branches: usize) -> (Table, Table) {
    let protocol = sound_table(random, most_states, most_branches);
    if random.one_in(12) {
        return (sound_table(random, most_states, most_branches), protocol);
    }
    let mut device = Table { edition: edition(random), ..protocol.clone() };
    for _ in 0..random.below(4) {
        device = fitting_change(random, &device);
    }
    if random.one_in(2) {
        for _ in 0..1 + random.below(2) {
            device = changed(random, &device);
        }
    }
    if random.one_in(3) {
        other_shares(random, &mut device);
    }
    (device, protocol)
}

/// The texts of a device and of a protocol, related: the device's is the protocol's with a few tokens changed, and is still read.
pub fn text_pair(random: &mut Random) -> (Vec<u8>, Vec<u8>) {
    let protocol = loop {
        let limits = Limits::any(random);
        let tokens = tokens(random, limits);
        if joined(random, &tokens).len() <= LONGEST_PROTOCOL / 2 {
            break tokens;
        }
    };
    related_texts(random, &protocol)
}

/// The same of small texts, mostly with names after the dot of a `rec`.
pub fn named_pair(random: &mut Random) -> (Vec<u8>, Vec<u8>) {
    let protocol = named_tokens(random, Limits { states: 5, branches: 7, fields: 2, open: 6 });
    related_texts(random, &protocol)
}

/// A device's text that is the protocol's, at times without its shares, with either edition or none, with a few tokens changed, or a
/// type replaced by a name; and the protocol's.
fn related_texts(random: &mut Random, protocol: &[Vec<u8>]) -> (Vec<u8>, Vec<u8>) {
    let mut device = if random.one_in(3) { without_shares(protocol) } else { protocol.to_vec() };
    device = reopened(random, &device);
    let changes = random.below(4);
    let mut made = 0;
    for _ in 0..60 {
        if made == changes {
            break;
        }
        let mut new = device.clone();
        change_tokens(random, &mut new);
        if new != device && read(&joined(random, &new)).is_ok() {
            device = new;
            made += 1;
        }
    }
    (joined(random, &device), joined(random, protocol))
}

/// One token changed: mostly a number to a number, a name or label to another; or a type replaced by a name after `rec`s.
fn change_tokens(random: &mut Random, tokens: &mut Vec<Vec<u8>>) {
    if random.one_in(8) {
        return put_name_after_recs(random, tokens);
    }
    let place = random.below(tokens.len());
    tokens[place] = match tokens[place].first() {
        Some(byte) if byte.is_ascii_digit() || *byte == b'-' => random.between(-2, 101).to_string().into_bytes(),
        Some(byte) if byte.is_ascii_uppercase() && random.one_in(2) => random.pick(&NAMES).to_vec(),
        Some(byte) if byte.is_ascii_uppercase() => random.pick(&LABELS).to_vec(),
        _ => random.pick(&STRANGE_TOKENS).to_vec(),
    };
}

/// The table with one range that reaches one number higher where it sends, one less high where it takes: what then fails, fails
/// with that field high alone. The same table where no field can be changed so.
pub fn raised(random: &mut Random, table: &Table) -> Table {
    let mut new = table.clone();
    for _ in 0..20 {
        let b = random.below(new.branches.len());
        let Some(branch) = new.branches.get_mut(b) else {
            return new;
        };
        let f = random.below(branch.fields.len());
        if let Some(field) = branch.fields.get_mut(f) {
            field.high += if new.states[branch.owner] == Sort::Sends { 1 } else { -1 };
            if sound(&new) {
                return new;
            }
            new = table.clone();
        }
    }
    new
}

/// Two cycles that agree but where one state of the device meets one of the protocol, if the lengths let them meet. The way there
/// may take nearly as many moves as there are pairs. The label, the kinds, the least or the greatest number is what differs.
pub fn cycle_pair(random: &mut Random) -> (Table, Table) {
    let lengths = [1 + random.below(MOST_STATES), MOST_STATES - random.below(5)];
    let (speaks, hears) = (*random.pick(&lengths), *random.pick(&lengths));
    let sort = *random.pick(&[Sort::Sends, Sort::Receives]);
    let step = Branch { owner: 0, label: label(random, &[]), fields: fields(random, MOST_FIELDS), share: None, target: 0 };
    let (odd, other) = said_and_taken(random, &[step.label]);
    let (asking, deaf) = (random.below(speaks), random.below(hears));
    // The speaker says the odd branch in one state; the hearer knows it in all states but one.
    let speaker = cycle(random, speaks, sort, &step, |state| (state == asking).then(|| odd.clone()));
    let hearer = cycle(random, hears, sort, &step, |state| Some(if state == deaf { other.clone() } else { odd.clone() }));
    match sort {
        Sort::Receives => (hearer, speaker),
        Sort::End | Sort::Sends => (speaker, hearer),
    }
}

/// States of one sort in a cycle, each with a branch to the next and perhaps another; the branches in any order.
fn cycle(random: &mut Random, length: usize, sort: Sort, step: &Branch, more: impl Fn(usize) -> Option<Branch>) -> Table {
    let mut table = Table { states: vec![sort; length], branches: Vec::new(), edition: edition(random) };
    for owner in 0..length {
        let target = (owner + 1) % length;
        let all = std::iter::once(step.clone()).chain(more(owner));
        table.branches.extend(all.map(|branch| Branch { owner, target, ..branch }));
    }
    random.shuffle(&mut table.branches);
    if random.one_in(4) {
        some_shares(random, &mut table);
    }
    table
}
