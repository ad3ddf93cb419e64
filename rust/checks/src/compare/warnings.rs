//! Warnings: the warning of every branch, after each message of a conversation, at any state, at the edge of the rule, and where n
//! is at its most.

use super::both::{self, state, state_codes, warning_codes, Both};
use super::conversations::allowed;
use super::shares::{count_refused, count_warning};
use super::steps::{anywhere, fresh_of, step_of, Given, Odds};
use super::{show, Outcome, Shared, Tally};
use crate::ffi;
use crate::second::monitor::{GREATEST_SETTING, MOST_COUNTED};
use crate::second::random::{
    count_out, endless_table, parts, setting, some_shares, sound_table, spoken, state_at, with_noise, Random,
};
use crate::second::table::{Raw, Table, SHARES};
use crate::second::warning::warning;
use sojimu::{Question, State};

/// How many messages a conversation has.
const MESSAGES: usize = 40;

/// A conversation, a few states, some at the edge, and one where n is at its most.
pub fn case(random: &mut Random, tally: &mut Tally) -> Outcome {
    talk(random, tally)?;
    for _ in 0..8 {
        any_state(random, tally)?;
        at_the_edge(random, tally)?;
    }
    at_the_most(random, tally)
}

/// The warning of a branch through both: what the wrapper says, and every number that is given back.
fn warning_of(both: &Both, given: &State, branch: u32, tally: &mut Tally) -> Outcome {
    let second = warning(&both.second, &state(given), branch as usize);
    let proved = both.proved.warning(given, branch);
    match proved {
        Err(question) => {
            tally.asked(Some(question));
            tally.share(Shared::NoBranch, question == Question::NO_BRANCH);
            count_refused(both, given, question, tally);
        }
        Ok(warning) if second.is_ok() => count_warning(both, given, branch as usize, warning, tally),
        Ok(_) => {}
    }
    let codes = ffi::warning(&both.proved, given, branch);
    tally.same("warning", (proved, codes), (second.map(both::warning).map_err(Question), warning_codes(second)), || {
        format!("branch {branch}, {}{}", show::state(given), show::table("table", &both.proved))
    })
}

/// The warnings of every branch, of one more, and of one that is mostly far above.
fn warnings_of(random: &mut Random, both: &Both, given: &State, tally: &mut Tally) -> Outcome {
    let branches = both.second.branches.len() as u32;
    for branch in 0..=branches {
        warning_of(both, given, branch, tally)?;
    }
    let number = random.below(branches as usize + 1) as u32;
    let strange = random.wide(number);
    tally.strange += u64::from(strange > 255);
    warning_of(both, given, strange, tally)
}

/// A conversation from its beginning, in which one branch of each choice is said more often than the others.
fn talk(random: &mut Random, tally: &mut Tally) -> Outcome {
    let both = with_shares(random);
    let setting = setting(random);
    let Some(mut state) = fresh_of(&both, setting, tally)? else {
        return Ok(());
    };
    let seldom = 1 + random.below(8);
    for _ in 0..MESSAGES {
        let given = if random.one_in(seldom) { allowed(random, &both, &state) } else { usual(random, &both, &state) };
        state = step_of(&given, &both, tally)?;
        warnings_of(random, &both, &state, tally)?;
    }
    Ok(())
}

/// A table of choices, most of them with shares, and noise where nothing looks.
fn with_shares(random: &mut Random) -> Both {
    let mut table = endless_table(random, 4, 8);
    some_shares(random, &mut table);
    Both::of(&with_noise(random, &Raw::of(&table)))
}

/// The message of the position's first branch.
fn usual(random: &mut Random, both: &Both, state: &State) -> Given {
    let first = both.second.branches_of(usize::from(state.position)).first().map(|&b| &both.second.branches[b]);
    let mut given = allowed(random, both, state);
    if let Some(branch) = first {
        given.message = spoken(random, branch).bytes();
        given.room = given.message.len();
    }
    given
}

/// Any state of any table.
fn any_state(random: &mut Random, tally: &mut Tally) -> Outcome {
    let sound = sound_table(random, 5, 10);
    let (both, state) = anywhere(random, &sound, Odds { damaged: 24, beyond: 24, stopped: 8, counts: 4 });
    warnings_of(random, &both, &state, tally)
}

/// A branch at the edge, and with a hundredth less and more.
fn at_the_edge(random: &mut Random, tally: &mut Tally) -> Outcome {
    let Edge { share, n, k, setting } = edge(random);
    let (table, branch) = with_share(random, share);
    let choice = table.branches[branch].owner;
    let mut state = state_at(random, &table, choice);
    let others: Vec<usize> = table.branches_of(choice).into_iter().filter(|&other| other != branch).collect();
    let rest = parts(random, n - k, others.len());
    (state.n[choice], state.k[branch]) = (n, k);
    others.into_iter().zip(rest).for_each(|(other, k)| state.k[other] = k);
    let both = Both::of(&Raw::of(&table));
    for near in [setting - 1, setting, setting + 1] {
        state.setting = near;
        warning_of(&both, &state_codes(&state), branch as u32, tally)?;
    }
    Ok(())
}

/// Numbers with which the two sides of the rule are equal, and still within the limits with a hundredth less or more.
struct Edge {
    share: u32,
    n: u32,
    k: u32,
    setting: u32,
}

fn edge(random: &mut Random) -> Edge {
    loop {
        let usual = *random.pick(&[500, 500, 200, 800, 100, 900, 20, 980, 250, 750]);
        let share = if random.one_in(2) { usual } else { 1 + random.below(SHARES as usize - 1) as u32 };
        let least = without_squares(share * (SHARES - share));
        if least <= MOST_COUNTED {
            let times = 1 + random.below((MOST_COUNTED / least).isqrt() as usize) as u32;
            let mut all = edges(share, least * times * times);
            if !all.is_empty() {
                return all.swap_remove(random.below(all.len()));
            }
        }
    }
}

/// All of a share and an n, w x (1,000 - w) x n being a square: 100 x |1,000k - wn| is z times its root.
fn edges(share: u32, n: u32) -> Vec<Edge> {
    let (w, all) = (u64::from(share), u64::from(SHARES));
    let (middle, root) = (w * u64::from(n), (w * (all - w) * u64::from(n)).isqrt());
    let mut edges = Vec::new();
    for setting in 2..GREATEST_SETTING {
        let (far, rest) = (u64::from(setting) * root / 100, u64::from(setting) * root % 100);
        let places = [middle.checked_sub(far), Some(middle + far)].into_iter().flatten();
        let whole = places.filter(|place| rest == 0 && place % all == 0 && *place <= all * u64::from(n));
        edges.extend(whole.map(|place| Edge { share, n, k: (place / all) as u32, setting }));
    }
    edges
}

/// The least number whose product with this one is a square.
fn without_squares(number: u32) -> u32 {
    (2..).take_while(|root| root * root <= number).fold(number, |mut rest, root| {
        while rest % (root * root) == 0 {
            rest /= root * root;
        }
        rest
    })
}

/// A table of choices, a branch of which has this share, among others.
fn with_share(random: &mut Random, share: u32) -> (Table, usize) {
    loop {
        let mut table = endless_table(random, 3, 8);
        let branch = random.below(table.branches.len());
        let choice = table.branches[branch].owner;
        let others: Vec<usize> = table.branches_of(choice).into_iter().filter(|&other| other != branch).collect();
        let rest = (SHARES - share).checked_sub(others.len() as u32);
        if let Some(rest) = rest.filter(|_| !others.is_empty()) {
            some_shares(random, &mut table);
            table.branches[branch].share = Some(share);
            let rest = parts(random, rest, others.len());
            others.into_iter().zip(rest).for_each(|(other, part)| table.branches[other].share = Some(1 + part));
            return (table, branch);
        }
    }
}

/// A few messages where n is nearly at its most, or there.
fn at_the_most(random: &mut Random, tally: &mut Tally) -> Outcome {
    let both = with_shares(random);
    let mut full = state_at(random, &both.second, 0);
    for choice in 0..both.second.states.len() {
        let n = MOST_COUNTED - random.below(3) as u32;
        count_out(random, &both.second, &mut full, choice, n);
    }
    let mut state = state_codes(&full);
    for _ in 0..8 {
        let given = allowed(random, &both, &state);
        state = step_of(&given, &both, tally)?;
        warnings_of(random, &both, &state, tally)?;
    }
    Ok(())
}
