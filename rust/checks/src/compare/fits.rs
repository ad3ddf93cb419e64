//! Fit checks. Counts of pairs and of moves are compared. Which of the shortest lists is shown is left free: it is played on the
//! document's machine, and it is the one of the second implementation's rule.

use super::both::Both;
use super::names::has;
use super::{editions, failures, show, Named, Outcome, Shared, Tally};
use crate::ffi;
use crate::second::brute::explore;
use crate::second::fit::{fit, shows_no_fit, Answer};
use crate::second::random::{
    cycle_pair, damaged_table, named_pair, raised, small_two_ways_pair, table_pair, two_ways_pair, with_noise, Random, COLUMNS,
};
use crate::second::table::{Raw, Table};
use sojimu::{Fitting, Question};

/// A list's entries before the call.
const UNTOUCHED: u16 = 0xEEEE;
/// Those of the list that a second call is given, which also has so many more.
const OTHER: u16 = 0x0505;
const MORE: usize = 7;

/// Small tables, whose machine is explored whole: fitting or not, pairs, and the fewest moves.
pub fn small(random: &mut Random, tally: &mut Tally) -> Outcome {
    let (device, protocol) = related(random, 5, 7);
    let answer = pair(random, &device, &protocol, tally)?;
    explored(answer, &Both::of(&Raw::of(&device)), &Both::of(&Raw::of(&protocol)), tally)
}

/// Small texts, mostly with names after the dot of a `rec`, which each of the two has read for itself.
pub fn of_texts(random: &mut Random, tally: &mut Tally) -> Outcome {
    let (device, protocol) = named_pair(random);
    let named = has(&device) || has(&protocol);
    let (device, protocol) = (Both::read(&device, tally)?, Both::read(&protocol, tally)?);
    let answer = check(&device, &protocol, device.second.states.len() * protocol.second.states.len(), tally)?;
    tally.name(if matches!(answer, Fitting::Fits { .. }) { Named::Fits } else { Named::Fails }, named);
    explored(answer, &device, &protocol, tally)
}

/// The answer is what the whole machine shows.
fn explored(answer: Fitting, device: &Both, protocol: &Both, tally: &mut Tally) -> Outcome {
    let found = explore(&device.second, &protocol.second);
    let explored = match answer {
        Fitting::Refused(_) => return Ok(()),
        Fitting::Fits { pairs } => (true, 0, pairs),
        // The exploration goes on after a failure, and so meets pairs that the check need not.
        Fitting::Fails { moves, .. } => (false, moves, found.pairs),
    };
    tally.explored += u64::from(!explored.0);
    tally.same("fit, explored", explored, (found.safe, found.fewest, found.pairs), || show_pair(device, protocol))
}

/// Tables of any size.
pub fn large(random: &mut Random, tally: &mut Tally) -> Outcome {
    let (states, branches) = *random.pick(&[(12, 20), (20, 60), (32, 128)]);
    let (device, protocol) = related(random, states, branches);
    pair(random, &device, &protocol, tally).map(drop)
}

/// Cycles of two lengths that first fail where they meet: up to a thousand moves.
pub fn long(random: &mut Random, tally: &mut Tally) -> Outcome {
    let (device, protocol) = cycle_pair(random);
    pair(random, &device, &protocol, tally).map(drop)
}

/// A way, maybe a long one, to a pair from which one move jams the two on arrival, and another leads to a pair that fails then.
pub fn two_ways(random: &mut Random, tally: &mut Tally) -> Outcome {
    let (device, protocol) = two_ways_pair(random);
    pair(random, &device, &protocol, tally).map(drop)
}

/// The same of small tables, whose machine is explored whole.
pub fn small_two_ways(random: &mut Random, tally: &mut Tally) -> Outcome {
    let (device, protocol) = small_two_ways_pair(random);
    let answer = pair(random, &device, &protocol, tally)?;
    explored(answer, &Both::of(&Raw::of(&device)), &Both::of(&Raw::of(&protocol)), tally)
}

/// A pair of tables; now and then the device has a range that reaches too high, or not high enough.
fn related(random: &mut Random, states: usize, branches: usize) -> (Table, Table) {
    let (device, protocol) = table_pair(random, states, branches);
    if random.one_in(4) {
        return (raised(random, &device), protocol);
    }
    (device, protocol)
}

/// A pair through both, with a list of enough entries or too few, and now and then with a damaged table.
fn pair(random: &mut Random, device: &Table, protocol: &Table, tally: &mut Tally) -> Result<Fitting, String> {
    let product = device.states.len() * protocol.states.len();
    let columns = |random: &mut Random, table: &Table| {
        let raw = with_noise(random, &Raw::of(table));
        Both::of(&raw)
    };
    let (device, protocol) = (columns(random, device), columns(random, protocol));
    if random.one_in(8) {
        check(&device, &protocol, random.below(product), tally)?;
    }
    if random.one_in(16) {
        let column = random.below(COLUMNS);
        let damaged = Both::of(&damaged_table(random, &Raw::from(&device.proved), column));
        check(&damaged, &protocol, 1024, tally)?;
        check(&device, &damaged, 1024, tally)?;
    }
    under_each_edition(&device, &protocol, product, tally)?;
    check(&device, &protocol, product + random.below(3), tally)
}

/// Under every two editions the proved code has the same answer, and shows the same moves.
fn under_each_edition(device: &Both, protocol: &Both, room: usize, tally: &mut Tally) -> Outcome {
    let answer = |of_device: u32, of_protocol: u32| {
        let (mut device, mut protocol) = (device.proved.clone(), protocol.proved.clone());
        (device.edition, protocol.edition) = (of_device, of_protocol);
        let mut list = vec![UNTOUCHED; room];
        (device.fit(&protocol, &mut list), list)
    };
    let first = answer(1, 1);
    for (of_device, of_protocol) in [(1, 2), (2, 1), (2, 2)] {
        tally.same("fit, by editions", answer(of_device, of_protocol), first.clone(), || {
            format!("editions {of_device} and {of_protocol}\n{}", show_pair(device, protocol))
        })?;
    }
    Ok(())
}

/// The fit check through both. Of a failing list: the same moves, and on the machine they show that the device does not fit. What
/// the list had beyond them is unchanged. What it had before tells nothing: a second call, with another list, shows the same.
fn check(device: &Both, protocol: &Both, room: usize, tally: &mut Tally) -> Result<Fitting, String> {
    let mut list = vec![UNTOUCHED; room];
    let answer = device.proved.fit(&protocol.proved, &mut list);
    let (proved, moves) = match answer {
        Fitting::Refused(Question(number)) => (Answer::Refused(number), 0),
        Fitting::Fits { pairs } => (Answer::Fits(pairs), 0),
        Fitting::Fails { moves, high } => (Answer::NoFit(moves, high.map(|field| field as usize)), moves),
    };
    let more = if proved == Answer::Refused(17) { 0 } else { MORE };
    let mut again = vec![OTHER; room + more];
    let given = ffi::fit(&device.proved, &protocol.proved, &mut again);

    let mut wanted = vec![UNTOUCHED; room];
    let second = fit(&device.second, &protocol.second, &mut wanted);
    let mut wanted_again = vec![OTHER; room + more];
    // The machine is one of sound tables.
    let mut shown = true;
    if let (Answer::NoFit(_, high), Answer::NoFit(fewest, _)) = (proved, second) {
        wanted_again[..fewest].copy_from_slice(&wanted[..fewest]);
        shown = shows_no_fit(&device.second, &protocol.second, &list[..moves.min(room)], high);
        failures::count(&device.second, &protocol.second, tally);
    }
    count(answer, tally);
    let shared = [device, protocol].iter().any(|both| both.second.branches.iter().any(|branch| branch.share.is_some()));
    tally.share(Shared::Fits, shared && matches!(answer, Fitting::Fits { .. }));
    tally.share(Shared::Fails, shared && matches!(answer, Fitting::Fails { .. }));
    editions::count_fit(device, protocol, answer, tally);
    let wanted = (second, true, wanted, codes(second), wanted_again);
    tally.same("fit", (proved, shown, list, given, again), wanted, || {
        format!("room {room}, {answer:?}\n{}", show_pair(device, protocol))
    })?;
    Ok(answer)
}

/// The answer in the numbers that it is given back in: what does not apply is 0, and where no field is high, 255.
fn codes(answer: Answer) -> ffi::Fit {
    let (outcome, question, count, high) = match answer {
        Answer::Fits(pairs) => (0, 0, pairs, None),
        Answer::NoFit(moves, high) => (1, 0, moves, high),
        Answer::Refused(question) => (2, question.into(), 0, None),
    };
    ffi::Fit { outcome, question, count: count as u32, high: high.map_or(255, |field| field as u32) }
}

fn count(answer: Fitting, tally: &mut Tally) {
    match answer {
        Fitting::Refused(question) => tally.asked(Some(question)),
        Fitting::Fits { .. } => tally.fits += 1,
        Fitting::Fails { moves, high } => {
            tally.fails += 1;
            tally.high += u64::from(high.is_some());
            tally.most_moves = tally.most_moves.max(moves);
        }
    }
}

fn show_pair(device: &Both, protocol: &Both) -> String {
    show::table("device", &device.proved) + &show::table("protocol", &protocol.proved)
}
