//! The monitors that the benchmarks time are right: on random inputs they agree with the second implementation.

use sojimu::{Question, Standing, Table};
use sojimu_checks::bench::by_hand::{self, Pass, Place};
use sojimu_checks::bench::inputs::{scanner, small, texts, Input};
use sojimu_checks::bench::plain;
use sojimu_checks::compare::{self, party, state_codes, verdict};
use sojimu_checks::second::random::*;
use sojimu_checks::second::table::{self, Raw};
use sojimu_checks::second::{batch, message, monitor, text};

/// Where the scanner's conversation is at a state of its table.
fn pass(state: &monitor::State) -> Pass {
    let passes = [Pass::Idle, Pass::Started, Pass::Scanning, Pass::AtEdge, Pass::Over, Pass::Over];
    match state.standing {
        monitor::Standing::Running => passes[state.position],
        monitor::Standing::DeviceBlamed | monitor::Standing::HostBlamed => Pass::Stopped,
    }
}

/// The state of a conversation that begins.
fn begun(lists: &table::Table) -> monitor::State {
    monitor::State::fresh(lists, 200).unwrap()
}

#[test]
fn the_plain_monitor() {
    let (mut broken, mut early) = (0, 0);
    for seed in 0..400 {
        let mut random = Random::new(seed);
        let (states, branches) = *random.pick(&[(4, 6), (12, 20), (32, 128)]);
        let mut lists = sound_table(&mut random, states, branches);
        if random.one_in(2) {
            lists = with_texts(&mut random, &lists);
        }
        let columns = with_noise(&mut random, &Raw::of(&lists));
        let table = Table::from(&columns);
        let mut second = if random.one_in(2) { begun(&lists) } else { state_at(&mut random, &lists, 0) };
        let mut state = state_codes(&second);
        for turn in conversation(&mut random, &lists, 30, 8) {
            let (mut out, mut other) = (vec![0xEE; turn.room], vec![0xEE; turn.room]);
            let one = plain::step(&table, &mut state, party(turn.side), &turn.message, &mut out);
            let wanted = monitor::step(&lists, &mut second, turn.side, &turn.message, &mut other);
            assert_eq!((one, out), (verdict(wanted), other), "seed {seed}");
            assert_eq!(state, state_codes(&second), "seed {seed}");
            broken += usize::from(wanted == monitor::Verdict::Refused(22));
            early += usize::from(wanted == monitor::Verdict::Blamed(turn.side, monitor::Reason::Early));
            let (device, host) = (waiting(&mut random, &lists), waiting(&mut random, &lists));
            let part = monitor::due(&lists, &second, &device, &host);
            let due = plain::due(&table, &state, &device, &host);
            assert_eq!((due.side, due.message.len()), (party(part.side), part.length), "seed {seed}");
        }
        for branch in 0..=lists.branches.len() {
            let high = random.one_in(2).then(|| random.below(4));
            let (mut out, mut other) = ([0xEE; 300], [0xEE; 300]);
            let made = plain::make(&table, branch as u32, high.map(|field| field as u32), &mut out);
            let wanted = message::make(&lists, branch, high, &mut other);
            assert_eq!((made, out), (wanted.map_err(Question), other), "seed {seed}");
        }
        for column in 0..COLUMNS {
            let damaged = damaged_table(&mut random, &columns, column);
            assert_eq!(plain::sound(&Table::from(&damaged)), damaged.sound(), "seed {seed}, column {column}");
        }
        assert!(!plain::sound(&Table::from(&any_raw(&mut random))), "seed {seed}");
    }
    println!("refused by 22 {broken}, early {early}");
    assert!(broken > 20 && early > 20);
}

#[test]
fn the_plain_monitors_counts() {
    let mut counts = [0; 2];
    for seed in 0..4000 {
        let mut random = Random::new(seed);
        let lists = sound_table(&mut random, 6, 12);
        let position = random.below(lists.states.len());
        let mut second = state_at(&mut random, &lists, position);
        if random.one_in(2) {
            second = damaged_counts(&mut random, &lists, &second);
        }
        let (mut state, before) = (state_codes(&second), state_codes(&second));
        let side = monitor::turn(lists.states[position]).unwrap_or(monitor::Side::Device);
        let message = message_for(&mut random, &lists, position);
        let table = Table::from(&Raw::of(&lists));
        let one = plain::step(&table, &mut state, party(side), &message, &mut [0; 300]);
        let wanted = monitor::step(&lists, &mut second, side, &message, &mut [0; 300]);
        let left = if matches!(wanted, monitor::Verdict::Refused(_)) { before } else { state_codes(&second) };
        assert_eq!((one, state), (verdict(wanted), left), "seed {seed}");
        counts[usize::from(wanted == monitor::Verdict::Refused(9))] += 1;
    }
    println!("9 gets a yes {}, a no {}", counts[0], counts[1]);
    assert!(counts[0] > 1000 && counts[1] > 1000);
}

#[test]
fn the_monitor_written_by_hand() {
    let lists = text::read(&small().text).unwrap();
    let mut broken = 0;
    for seed in 0..400 {
        let mut random = Random::new(seed);
        let (mut place, mut second) = (Place::Asking, begun(&lists));
        for mut turn in conversation(&mut random, &lists, 30, 6) {
            // No message of the protocol's has a text, and a broken one is refused all the same.
            let branch = random.pick(&lists.branches).clone();
            let message = reshaped(&mut random, &branch);
            if let Some(message) = with_broken_text(&mut random, &message) {
                turn.message = message.bytes();
            }
            let (mut out, mut other) = (vec![0xEE; turn.room], vec![0xEE; turn.room]);
            let one = by_hand::step(&mut place, party(turn.side), &turn.message, &mut out);
            let wanted = monitor::step(&lists, &mut second, turn.side, &turn.message, &mut other);
            assert_eq!((one, out), (verdict(wanted), other), "seed {seed}");
            broken += usize::from(wanted == monitor::Verdict::Refused(22));
        }
    }
    println!("refused by 22 {broken}");
    assert!(broken > 50);
}

#[test]
fn the_scanners_monitor_written_by_hand() {
    let lists = text::read(&scanner().text).unwrap();
    let mut broken = 0;
    for seed in 0..4000 {
        let mut random = Random::new(seed);
        let position = random.below(lists.states.len());
        let standing = if random.one_in(20) { monitor::Standing::HostBlamed } else { monitor::Standing::Running };
        let mut state = monitor::State { standing, ..state_at(&mut random, &lists, position) };
        let mut place = pass(&state);
        let (messages, faults) = (*random.pick(&[2, 10, 100]), *random.pick(&[0, 4, 30]));
        let Waiting { mut device, mut host } = walk(&mut random, &lists, position, messages, faults);
        ragged(&mut random, &lists, &mut device);
        ragged(&mut random, &lists, &mut host);
        let mut room = |whole: usize| if random.one_in(4) { random.below(whole + 1) } else { whole };
        let mut outputs = [vec![0xEE; room(host.len())], vec![0xEE; room(device.len())]];
        let mut others = outputs.clone();
        let [to_device, to_host] = &mut outputs;
        let one = by_hand::scan(&mut place, &device, &host, to_device, to_host);
        let [to_device, to_host] = &mut others;
        let wanted = batch::batch(&lists, &mut state, &device, &host, to_device, to_host);
        assert_eq!((one, place), (compare::batch(wanted), pass(&state)), "seed {seed}");
        assert_eq!(outputs, others, "seed {seed}");
        broken += usize::from(wanted.last == Some(monitor::Verdict::Refused(22)));
    }
    println!("refused by 22 {broken}");
    assert!(broken > 20);
}

#[test]
fn the_inputs_are_of_the_sizes_they_say() {
    let sizes = Input::all().map(|input| (input.table().states, input.table().branches));
    assert_eq!(sizes, [(3, 3), (12, 20), (32, 128)]);
    let largest = Input::all()[2].table();
    assert!(largest.fields.iter().all(|&count| count == 4));
    assert_eq!((scanner().table().states, scanner().table().branches), (6, 9));
    assert_eq!((texts().table().states, texts().table().branches), (1, 1));
    for input in Input::all().into_iter().chain([scanner(), texts()]) {
        let (start, round) = input.conversation();
        assert_eq!(start.standing, Standing::RUNNING);
        assert!(!round.is_empty());
    }
}
