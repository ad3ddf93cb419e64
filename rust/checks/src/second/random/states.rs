//! Conversations' states: counts that are sound, up to the most that is counted, and damaged ones. Every number has sixteen bits,
//! as it crosses a C boundary.

use super::{parts, Random};
use crate::second::monitor::{Standing, State, GREATEST_SETTING, MOST_COUNTED};
use crate::second::table::{Sort, Table, MOST_BRANCHES, MOST_STATES, SHARES};

/// A legal setting, the ends and the usual ones more often than chance has it.
pub fn setting(random: &mut Random) -> u32 {
    match random.below(3) {
        0 => *random.pick(&[1, 2, 100, 200, 442, 999, GREATEST_SETTING]),
        _ => 1 + random.below(GREATEST_SETTING as usize) as u32,
    }
}

/// A running conversation at a position of a sound table: its counts are sound, and anything stands where nothing is looked at.
pub fn state_at(random: &mut Random, table: &Table, position: usize) -> State {
    let (n, k) = ([0; MOST_STATES], [0; MOST_BRANCHES]);
    let mut state = State { position, standing: Standing::Running, setting: setting(random), n, k };
    if !random.one_in(8) {
        for choice in choices(table) {
            let n = counted(random);
            count_out(random, table, &mut state, choice, n);
        }
    }
    if random.one_in(2) {
        count_noise(random, table, &mut state);
    }
    state
}

/// The choices of a table.
fn choices(table: &Table) -> Vec<usize> {
    (0..table.states.len()).filter(|&state| table.states[state] != Sort::End).collect()
}

/// How many messages were counted at a choice.
fn counted(random: &mut Random) -> u32 {
    match random.below(6) {
        0 => 0,
        1 => MOST_COUNTED - 1,
        2 => MOST_COUNTED,
        3 => random.below(MOST_COUNTED as usize + 1) as u32,
        _ => 1 + random.below(40) as u32,
    }
}

/// Gives a choice of a table this n, and its branches k that add up to it: as their shares have it, all one branch's, or any.
pub fn count_out(random: &mut Random, table: &Table, state: &mut State, choice: usize, n: u32) {
    let own = table.branches_of(choice);
    if own.is_empty() {
        return;
    }
    let mut counts = match random.below(4) {
        0 => vec![0; own.len()],
        1 => own.iter().map(|&b| table.branches[b].share.unwrap_or(0) * n / SHARES).collect(),
        _ => parts(random, n, own.len()),
    };
    // Some of a share's thousandths are less than a message.
    counts[random.below(own.len())] += n - counts.iter().sum::<u32>();
    state.n[choice] = n;
    own.into_iter().zip(counts).for_each(|(b, k)| state.k[b] = k);
}

/// Anything at the ends and beyond the table, which nothing looks at.
fn count_noise(random: &mut Random, table: &Table, state: &mut State) {
    let choices = choices(table);
    for (number, n) in state.n.iter_mut().enumerate() {
        if !choices.contains(&number) {
            *n = sixteen_bits(random);
        }
    }
    state.k[table.branches.len().min(MOST_BRANCHES)..].fill_with(|| sixteen_bits(random));
}

fn sixteen_bits(random: &mut Random) -> u32 {
    random.below(1 << 16) as u32
}

/// The state with one thing wrong with its setting or its counts; now and then it is still right.
pub fn damaged_counts(random: &mut Random, table: &Table, state: &State) -> State {
    let mut state = *state;
    let choices = choices(table);
    if choices.is_empty() || random.one_in(4) {
        let any = sixteen_bits(random);
        state.setting = *random.pick(&[0, GREATEST_SETTING + 1, 1 << 15, (1 << 16) - 1, any]);
        return state;
    }
    let choice = *random.pick(&choices);
    let own = table.branches_of(choice);
    let branch = *random.pick(&own);
    match random.below(6) {
        0 => state.n[choice] = next_to(random, state.n[choice]),
        1 => state.k[branch] = next_to(random, state.k[branch]),
        2 => {
            // Too many, though they add up.
            let more = *random.pick(&[1, 10, (1 << 16) - MOST_COUNTED as usize - 1]);
            let n = MOST_COUNTED + 1 + random.below(more) as u32;
            count_out(random, table, &mut state, choice, n);
        }
        3 => {
            // As many more as sixteen bits do not tell.
            let (one, other) = (own[0], own[own.len() - 1]);
            [one, other].into_iter().for_each(|b| state.k[b] = (state.k[b] + (1 << 15)) % (1 << 16));
        }
        4 => {
            // One message counted at another branch, perhaps of another choice.
            let other = random.below(table.branches.len());
            state.k[branch] = (state.k[branch] + 1) % (1 << 16);
            state.k[other] = state.k[other].saturating_sub(1);
        }
        _ => state.k[branch] = sixteen_bits(random),
    }
    state
}

/// One more or one less, in sixteen bits.
fn next_to(random: &mut Random, number: u32) -> u32 {
    (number + *random.pick(&[1, (1 << 16) - 1])) % (1 << 16)
}
