//! Shares of choices, in tables and in texts.

use super::Random;
use crate::second::table::{choice_right, Table, SHARES};

/// So many shares that are right together, for 1 to 1000 branches: any, alike, or one that is nearly all.
pub fn shares(random: &mut Random, count: usize) -> Vec<u32> {
    let left = SHARES - count as u32;
    match random.below(4) {
        0 => {
            let mut shares = vec![1; count];
            shares[random.below(count)] += left;
            shares
        }
        1 => {
            let (each, more) = (left as usize / count, left as usize % count);
            (0..count).map(|i| 1 + (each + usize::from(i < more)) as u32).collect()
        }
        _ => parts(random, left, count).into_iter().map(|part| 1 + part).collect(),
    }
}

/// So many numbers, at least one, that add to a sum.
pub fn parts(random: &mut Random, sum: u32, count: usize) -> Vec<u32> {
    let mut cuts: Vec<u32> = (1..count).map(|_| random.below(sum as usize + 1) as u32).collect();
    cuts.sort_unstable();
    cuts.push(sum);
    let mut from = 0;
    cuts.into_iter().map(|cut| cut - std::mem::replace(&mut from, cut)).collect()
}

/// Gives half of a table's choices shares, or most of them.
pub fn some_shares(random: &mut Random, table: &mut Table) {
    let without = *random.pick(&[2, 8]);
    for choice in 0..table.states.len() {
        if !random.one_in(without) {
            share_out(random, table, choice);
        }
    }
}

/// Gives the branches of a choice shares.
pub fn share_out(random: &mut Random, table: &mut Table, choice: usize) {
    let own = table.branches_of(choice);
    if own.is_empty() {
        return;
    }
    let shares = shares(random, own.len());
    own.into_iter().zip(shares).for_each(|(b, share)| table.branches[b].share = Some(share));
}

/// Other shares for a table: none; or some of its choices have others, some none, and the rest as before where those are right.
pub fn other_shares(random: &mut Random, table: &mut Table) {
    let none = random.one_in(3);
    for choice in 0..table.states.len() {
        match random.below(4) {
            0 | 1 if !none => share_out(random, table, choice),
            2 if !none => {}
            _ => drop_shares(table, choice),
        }
    }
    mend_shares(random, table);
}

/// Where the shares of a choice are no longer right, it gets new ones, or none.
pub fn mend_shares(random: &mut Random, table: &mut Table) {
    for choice in 0..table.states.len() {
        let own: Vec<Option<u32>> = table.branches_of(choice).into_iter().map(|b| table.branches[b].share).collect();
        if !choice_right(&own) {
            drop_shares(table, choice);
            if random.one_in(2) {
                share_out(random, table, choice);
            }
        }
    }
}

fn drop_shares(table: &mut Table, choice: usize) {
    table.branches.iter_mut().filter(|branch| branch.owner == choice).for_each(|branch| branch.share = None);
}

/// What stands in the place of a share: outside 1 to 1000, malformed, no number, or nearly right.
const STRANGE_SHARES: [&[u8]; 14] = [
    b"0",
    b"-5",
    b"-1",
    b"-1000",
    b"1001",
    b"65537",
    b"4294967297",
    b"18446744073709551617",
    b"05",
    b"-0",
    b"A",
    b"end",
    b"1",
    b"1000",
];

/// One share of a text made strange, dropped, a little more or less, or exchanged with another; or one put where none was.
pub fn damaged_shares(random: &mut Random, tokens: &mut Vec<Vec<u8>>) {
    let such = |wanted: &[u8], tokens: &[Vec<u8>]| (0..tokens.len()).filter(|&i| tokens[i] == wanted).collect::<Vec<_>>();
    let (marks, heads) = (such(b"@", tokens), such(b")", tokens));
    if marks.is_empty() || random.one_in(6) {
        if !heads.is_empty() {
            let share = random.pick(&[1, 500, 999, 1000]).to_string().into_bytes();
            let after = random.pick(&heads) + 1;
            tokens.splice(after..after, [b"@".to_vec(), share]);
        }
        return;
    }
    let mark = *random.pick(&marks);
    match random.below(6) {
        0 | 1 => tokens[mark + 1] = random.pick(&STRANGE_SHARES).to_vec(),
        2 => drop(tokens.splice(mark..mark + 2, [])),
        3 => {
            let other = random.pick(&marks) + 1;
            tokens.swap(mark + 1, other);
        }
        _ => {
            let share: i64 = String::from_utf8_lossy(&tokens[mark + 1]).parse().unwrap_or(0);
            tokens[mark + 1] = (share + random.pick(&[-1, 1])).to_string().into_bytes();
        }
    }
}

/// The tokens without shares.
pub fn without_shares(tokens: &[Vec<u8>]) -> Vec<Vec<u8>> {
    let of_share = |i: usize| tokens[i] == b"@" || (i > 0 && tokens[i - 1] == b"@");
    (0..tokens.len()).filter(|&i| !of_share(i)).map(|i| tokens[i].clone()).collect()
}
