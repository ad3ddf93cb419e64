//! Random texts, tables, states, messages, conversations and batches through the second implementation: what the documents say of
//! all of them.

use sojimu_checks::second::batch::{batch, Batch};
use sojimu_checks::second::brute::explore;
use sojimu_checks::second::fit::{fit, right, shows_no_fit, Answer};
use sojimu_checks::second::machine::{fresh, play, saying, says, Move};
use sojimu_checks::second::mistaken::{depth_first, sorts_late};
use sojimu_checks::second::monitor::{
    due, judge, state_sound, step, turn, Reason, Side, Standing, State, Verdict, MOST_COUNTED,
};
use sojimu_checks::second::random::*;
use sojimu_checks::second::report::report;
use sojimu_checks::second::shortest::{search, Way};
use sojimu_checks::second::substituted::{means, refused};
use sojimu_checks::second::table::{dual, sound, Kind, Raw, Sort, Table};
use sojimu_checks::second::tree::{split, tree};
use sojimu_checks::second::warning::warning;
use sojimu_checks::second::{machine, message, text};

/// How many of each; more with the variable `ROUNDS`.
fn rounds(usual: u64) -> u64 {
    let more = std::env::var("ROUNDS").ok().and_then(|rounds| rounds.parse().ok()).unwrap_or(1);
    usual * more
}

#[test]
fn legal_texts_are_read() {
    let (mut states, mut branches, mut longest, mut shares) = (0, 0, 0, 0);
    for seed in 0..rounds(3000) {
        let mut random = Random::new(seed);
        let text = legal_text(&mut random);
        let table = text::read(&text).unwrap_or_else(|no| panic!("{no:?}: {}", String::from_utf8_lossy(&text)));
        assert!(sound(&table));
        states = states.max(table.states.len());
        branches = branches.max(table.branches.len());
        longest = longest.max(text.len());
        shares += usize::from(table.branches.iter().any(|branch| branch.share.is_some()));
    }
    println!("most states {states}, most branches {branches}, longest {longest}, with shares {shares}");
    assert_eq!(states, 32);
    assert!(branches > 100 && shares > 500);
}

#[test]
fn blanks_mean_nothing() {
    for seed in 0..rounds(500) {
        let mut random = Random::new(seed);
        let tokens = tokens(&mut random, Limits { states: 8, branches: 12, fields: 4, open: 8 });
        let (one, other) = (joined(&mut random, &tokens), joined(&mut random, &tokens));
        assert_eq!(text::read(&one).unwrap(), text::read(&other).unwrap());
    }
}

#[test]
fn names_mean_what_substitution_says() {
    let limits = Limits { states: 8, branches: 10, fields: 1, open: 7 };
    let (mut counts, mut moved) = ([0; 21], 0);
    for seed in 0..rounds(4000) {
        let mut random = Random::new(seed);
        let mut tokens = tokens(&mut random, limits);
        if !random.one_in(4) {
            put_name_after_recs(&mut random, &mut tokens);
        }
        let text = joined(&mut random, &tokens);
        assert_eq!(split(&text), tokens, "seed {seed}");
        let types = tree(&tokens).unwrap();
        if types.tokens.end < tokens.len() {
            continue;
        }
        match text::read(&text) {
            Ok(table) => {
                counts[0] += 1;
                assert_eq!(refused(&types), None, "seed {seed}");
                assert!(means(&table, &types), "seed {seed}: {}", String::from_utf8_lossy(&text));
                // A branch that leads elsewhere means something else, or a state that does the same.
                moved += usize::from(one_target_moved(&mut random, &table).is_some_and(|other| !means(&other, &types)));
            }
            Err((question @ (4 | 5), _)) => {
                counts[usize::from(question)] += 1;
                assert_eq!(refused(&types), Some(question), "seed {seed}");
            }
            Err((question, _)) => counts[usize::from(question)] += 1,
        }
    }
    println!("read, and refused by their numbers: {counts:?}; {moved} mean something else with another target");
    assert!(counts[0] > 1000 && counts[4] > 100 && counts[5] > 100 && moved > 500, "{counts:?}, {moved}");
}

/// The table with one branch that leads to another state, if it has one.
fn one_target_moved(random: &mut Random, table: &Table) -> Option<Table> {
    let mut other = table.clone();
    let b = random.below(other.branches.len());
    let branch = other.branches.get_mut(b)?;
    branch.target = (branch.target + 1) % table.states.len();
    Some(other)
}

#[test]
fn texts_of_any_sort() {
    let mut counts = [0; 24];
    for seed in 0..rounds(20_000) {
        let text = any_text(&mut Random::new(seed));
        match text::read(&text) {
            Ok(table) => {
                counts[0] += 1;
                assert!(sound(&table));
                assert_eq!(Raw::of(&table).table(), table);
            }
            Err((question, place)) => {
                counts[usize::from(question)] += 1;
                assert!(place <= text.len());
            }
        }
    }
    println!("read, and refused by their numbers: {counts:?}");
    assert!([0, 1, 2, 3, 4, 5, 6, 7, 8, 19, 20, 23].into_iter().all(|question| counts[question] > 20), "{counts:?}");
}

#[test]
fn a_refusal_does_not_look_ahead() {
    // What follows the token that is refused makes no difference, but for the whole length.
    for seed in 0..rounds(3000) {
        let mut random = Random::new(seed);
        let text = nearly_legal_text(&mut random);
        if let Err((question, place)) = text::read(&text) {
            if question == 1 || place == text.len() {
                continue;
            }
            let word = |byte: u8| byte.is_ascii_alphanumeric() || byte == b'.' || byte == b'-';
            let mut end = place + 1;
            while end < text.len() && word(text[end]) {
                end += 1;
            }
            assert_eq!(text::read(&text[..end]), Err((question, place)), "{}", String::from_utf8_lossy(&text));
        }
    }
}

#[test]
fn tables_and_their_columns() {
    for seed in 0..rounds(1000) {
        let mut random = Random::new(seed);
        let table = sound_table(&mut random, 32, 128);
        assert!(sound(&table));
        let raw = Raw::of(&table);
        assert!(raw.sound());
        assert_eq!(raw.table(), table);
        assert_eq!(with_noise(&mut random, &raw).table(), table);
        assert_eq!(dual(&dual(&table).unwrap()).unwrap(), table);
        assert_eq!(raw.dual().1.dual(), (0, raw.clone()));
        assert!(raw.sound_at(table.states.len() - 1));
        assert!(!raw.sound_at(table.states.len()));
    }
}

#[test]
fn damaged_tables() {
    let mut counts = [[0; 2]; COLUMNS];
    for seed in 0..rounds(4000) {
        let mut random = Random::new(seed);
        let raw = Raw::of(&sound_table(&mut random, 6, 12));
        for (column, count) in counts.iter_mut().enumerate() {
            let damaged = damaged_table(&mut random, &raw, column);
            count[usize::from(damaged.sound())] += 1;
            if !damaged.sound() {
                assert_eq!(damaged.dual(), (9, Raw::empty()));
                assert_eq!(message::make(&damaged.table(), 0, None, &mut [0; 300]), Err(9));
            }
        }
        assert!(!any_raw(&mut random).sound());
    }
    println!("unsound and sound, by column: {counts:?}");
    assert!(counts.iter().all(|count| count[0] > 100 && count[1] > 100), "{counts:?}");
}

#[test]
fn messages_of_any_sort() {
    let mut counts = [0; 23];
    for seed in 0..rounds(4000) {
        let mut random = Random::new(seed);
        let table = sound_table(&mut random, 6, 12);
        let state = random.below(table.states.len());
        let bytes = message_for(&mut random, &table, state);
        match message::read(&bytes) {
            Ok(message) => {
                counts[0] += 1;
                assert_eq!(message.bytes(), bytes);
                assert_eq!(message.length(), bytes.len());
                assert!(message.well_formed());
                // The reasons of the monitor and the machine's rule agree.
                let judged = judge(&table, state, &message).ok().map(|b| &table.branches[b]);
                assert_eq!(judged, saying(&table, state, &message));
            }
            Err(question) => counts[usize::from(question)] += 1,
        }
        for (b, branch) in table.branches.iter().enumerate() {
            let message = spoken(&mut random, branch);
            assert!(says(branch, &message) && message.well_formed());
            assert!(!says(branch, &reshaped(&mut random, branch)) || !branch.fields.is_empty());
            let mut buffer = [0xEE; 300];
            let high = random.below(branch.fields.len() + 1);
            let high = (high < branch.fields.len()).then_some(high);
            let length = message::make(&table, b, high, &mut buffer).unwrap();
            assert!(says(branch, &message::read(&buffer[..length]).unwrap()));
            assert!(buffer[length..].iter().all(|&byte| byte == 0xEE));
        }
    }
    println!("well formed {}, 13: {}, 14: {}, 15: {}, 22: {}", counts[0], counts[13], counts[14], counts[15], counts[22]);
    assert!(counts[0] > 1000 && counts[13] > 50 && counts[14] > 20 && counts[15] > 50 && counts[22] > 50);
}

/// RFC 3629's ABNF, by its rows alone: `UTF8-octets = *( UTF8-char )`.
fn octets(text: &[u8]) -> bool {
    let begins = |row: &[(u8, u8)]| {
        let bytes = text.get(..row.len())?;
        let held = row.iter().zip(bytes).all(|((low, high), byte)| (low..=high).contains(&byte));
        held.then(|| octets(&text[row.len()..]))
    };
    text.is_empty() || ROWS.into_iter().filter_map(begins).any(|rest| rest)
}

/// Is 22 asked of a message with this text, and nothing else against it?
fn refused_by_22(text: &[u8]) -> bool {
    let message =
        message::Message { label: label_of(b"Say"), fields: vec![(Kind::Text, text.len() as i64)], texts: text.into() };
    match message::read(&message.bytes()) {
        Ok(read) => {
            assert_eq!(read, message);
            assert!(message.well_formed());
            false
        }
        Err(question) => {
            assert_eq!(question, 22);
            assert!(!message.well_formed());
            true
        }
    }
}

#[test]
fn texts_are_those_of_the_grammar() {
    for first in 0..=255 {
        assert_eq!(refused_by_22(&[first]), !octets(&[first]));
        for second in 0..=255 {
            assert_eq!(refused_by_22(&[first, second]), !octets(&[first, second]));
        }
    }
    let mut counts = [0; 2];
    for seed in 0..rounds(40_000) {
        let mut random = Random::new(seed);
        let length = random.below(30);
        let whole = utf8_bytes(&mut random, length);
        assert!(whole.len() == length && octets(&whole) && !refused_by_22(&whole), "seed {seed}");
        let damaged = damaged_utf8(&mut random, &whole);
        assert_eq!(refused_by_22(&damaged), !octets(&damaged), "seed {seed}");
        counts[usize::from(octets(&damaged))] += 1;
        if length > 0 {
            let broken = broken_utf8(&mut random, length);
            assert!(broken.len() == length && !octets(&broken), "seed {seed}");
        }
    }
    println!("damaged, not well formed {}, well formed {}", counts[0], counts[1]);
    assert!(counts.iter().all(|&count| count > 1000));
}

#[test]
fn a_broken_text_is_no_move() {
    let (mut moves, mut borders) = (0, 0);
    for seed in 0..rounds(2000) {
        let mut random = Random::new(seed);
        let table = endless_table(&mut random, 5, 8);
        let table = with_texts(&mut random, &table);
        let start = fresh(&table, &table);
        let side = turn(table.states[0]).unwrap();
        let branch = *random.pick(&table.branches_of(0));
        let message = spoken(&mut random, &table.branches[branch]);
        let Some(broken) = with_broken_text(&mut random, &message) else {
            continue;
        };
        moves += 1;
        assert!(octets(&message.texts) && broken.each_text().any(|text| !octets(text)), "seed {seed}");
        borders += usize::from(octets(&broken.texts));
        let target = table.branches[branch].target;
        let (left, forwarded) = play(&table, &table, start, &Move { side, message });
        assert_eq!((left.device, left.position, forwarded), (target, target, true), "seed {seed}");
        assert_eq!(play(&table, &table, start, &Move { side, message: broken }), (start, false), "seed {seed}");
    }
    println!("moves {moves}, of which well formed when joined {borders}");
    assert!(moves > 1000 && borders > 20);
}

#[test]
fn broken_bytes() {
    // The longest front: label, count, and arrays of four.
    const TELLING: usize = 29;
    let (mut broken, mut more) = (0, 0);
    for seed in 0..rounds(4000) {
        let mut random = Random::new(seed);
        let table = sound_table(&mut random, 6, 12);
        let mut bytes = waiting(&mut random, &table);
        if random.one_in(4) {
            bytes = random.bytes(40);
        }
        for length in 0..=bytes.len() {
            let part = &bytes[..length];
            let front = message::front(part);
            if message::broken(part) {
                broken += 1;
                assert!(front.is_err(), "seed {seed}");
                // Nothing that follows makes a message of them.
                let mut longer = bytes[..length].to_vec();
                longer.extend(random.bytes(60));
                assert!(message::broken(&longer) && message::front(&longer).is_err(), "seed {seed}");
            } else if front.is_err() {
                more += 1;
                assert!(length < TELLING, "seed {seed}");
            }
        }
        // No beginning of a message is broken.
        let whole = any_message(&mut random).bytes();
        assert!((0..=whole.len()).all(|length| !message::broken(&whole[..length])), "seed {seed}");
    }
    println!("broken {broken}, not all there {more}");
    assert!(broken > 1000 && more > 1000);
}

/// The state of a conversation that begins.
fn begun(table: &Table) -> State {
    State::fresh(table, 200).unwrap()
}

#[test]
fn conversations() {
    let mut refused = [0; 23];
    let mut blamed = [[0; 5]; 2];
    let mut forwarded = 0;
    for seed in 0..rounds(600) {
        let mut random = Random::new(seed);
        let table = if random.one_in(4) { sound_table(&mut random, 8, 20) } else { endless_table(&mut random, 8, 20) };
        let faults = *random.pick(&[0, 4, 20, 100]);
        let mut state = begun(&table);
        for turn in conversation(&mut random, &table, 60, faults) {
            let before = state;
            let mut output = vec![0xEE; turn.room];
            let verdict = step(&table, &mut state, turn.side, &turn.message, &mut output);
            match verdict {
                Verdict::Refused(question) => {
                    refused[usize::from(question)] += 1;
                    assert_eq!(state, before);
                }
                Verdict::Blamed(side, reason) => {
                    blamed[if side == Side::Device { 0 } else { 1 }][usize::from(reason.number())] += 1;
                    assert_eq!(side, turn.side);
                    assert_eq!(state.position, before.position);
                }
                Verdict::Forwarded => {
                    forwarded += 1;
                    let (message, rest) = output.split_at(turn.message.len());
                    assert_eq!(message, turn.message);
                    assert!(rest.iter().all(|&byte| byte == 0xEE));
                    // What was forwarded was due, whatever follows it.
                    let mut waiting = turn.message.clone();
                    waiting.extend(random.bytes(5));
                    let part = match turn.side {
                        Side::Device => due(&table, &before, &waiting, b""),
                        Side::Host => due(&table, &before, b"", &waiting),
                    };
                    assert_eq!((part.side, part.length), (turn.side, turn.message.len()));
                }
            }
            if verdict != Verdict::Forwarded {
                assert!(output.iter().all(|&byte| byte == 0xEE));
            }
            if faults == 0 {
                assert_eq!(state.standing, Standing::Running);
            }
        }
    }
    println!("forwarded {forwarded}, refused {refused:?}, blamed {blamed:?}");
    assert!([10, 11, 12, 13, 14, 15, 16, 22].into_iter().all(|question| refused[question] > 0), "{refused:?}");
    assert!(blamed.iter().all(|counts| counts[1..].iter().all(|&count| count > 0)), "{blamed:?}");
}

#[test]
fn counts_and_their_damage() {
    let (mut full, mut damaged) = (0, [0; 2]);
    for seed in 0..rounds(4000) {
        let mut random = Random::new(seed);
        let table = sound_table(&mut random, 6, 12);
        let state = state_at(&mut random, &table, 0);
        assert!(state_sound(&table, &state), "seed {seed}");
        full += usize::from(state.n[..table.states.len()].contains(&MOST_COUNTED));
        let other = damaged_counts(&mut random, &table, &state);
        damaged[usize::from(state_sound(&table, &other))] += 1;
        let numbers = other.n.iter().chain(&other.k).chain([&other.setting]);
        assert!(numbers.into_iter().all(|&number| number < 1 << 16), "seed {seed}");
    }
    println!("with an n of 10,000 {full}; damaged {}, and sound {}", damaged[0], damaged[1]);
    assert!(full > 500 && damaged[0] > 1000 && damaged[1] > 100);
}

#[test]
fn messages_are_counted() {
    let (mut raised, mut full) = (0, 0);
    for seed in 0..rounds(600) {
        let mut random = Random::new(seed);
        let table = endless_table(&mut random, 4, 8);
        let mut state = state_at(&mut random, &table, 0);
        let mut wanted = state;
        for turn in conversation(&mut random, &table, 40, 20) {
            let position = state.position;
            if step(&table, &mut state, turn.side, &turn.message, &mut vec![0; turn.room]) == Verdict::Forwarded {
                let own = table.branches_of(position);
                let branch = own.into_iter().find(|&b| turn.message.starts_with(&table.branches[b].label)).unwrap();
                let counted = wanted.n[position] < 10_000;
                wanted.n[position] += u32::from(counted);
                wanted.k[branch] += u32::from(counted);
                *(if counted { &mut raised } else { &mut full }) += 1;
            }
            assert_eq!((state.n, state.k, state.setting), (wanted.n, wanted.k, wanted.setting), "seed {seed}");
            assert!(state_sound(&table, &state), "seed {seed}");
        }
    }
    println!("counted {raised}, not counted {full}");
    assert!(raised > 1000 && full > 1000);
}

#[test]
fn warnings_are_those_of_the_confidence_interval() {
    let (mut warns, mut calm, mut without) = (0, 0, 0);
    for seed in 0..rounds(2000) {
        let mut random = Random::new(seed);
        let table = sound_table(&mut random, 6, 12);
        let state = state_at(&mut random, &table, 0);
        for (b, branch) in table.branches.iter().enumerate() {
            let told = warning(&table, &state, b).unwrap();
            let (n, k) = (f64::from(state.n[branch.owner]), f64::from(state.k[b]));
            match told.estimate {
                None => assert_eq!(n, 0.0, "seed {seed}"),
                Some(estimate) => assert_eq!(f64::from(estimate), (1000.0 * k / n + 0.5).floor(), "seed {seed}"),
            }
            let (Some(share), true) = (branch.share, n > 0.0) else {
                without += 1;
                assert!(!told.warns, "seed {seed}");
                continue;
            };
            // Source document 000: the estimate leaves the interval around the share by more than z standard errors.
            let share = f64::from(share) / 1000.0;
            let error = f64::from(state.setting) / 100.0 * (share * (1.0 - share) / n).sqrt();
            let off = (k / n - share).abs();
            if (off - error).abs() > 1e-9 {
                assert_eq!(told.warns, off > error, "seed {seed}, branch {b}");
            }
            *(if told.warns { &mut warns } else { &mut calm }) += 1;
        }
    }
    println!("warns {warns}, does not {calm}, no share or nothing counted {without}");
    assert!(warns > 500 && calm > 500 && without > 500);
}

#[test]
fn due_parts() {
    let (mut found, mut nothing, mut broken) = (0, 0, 0);
    for seed in 0..rounds(4000) {
        let mut random = Random::new(seed);
        let mut table = sound_table(&mut random, 6, 12);
        if random.one_in(2) {
            table = with_texts(&mut random, &table);
        }
        let standing = *random.pick(&[Standing::Running, Standing::Running, Standing::DeviceBlamed, Standing::HostBlamed]);
        let state = State { position: random.below(table.states.len() + 1), standing, ..begun(&table) };
        let (device, host) = (waiting(&mut random, &table), waiting(&mut random, &table));
        let part = due(&table, &state, &device, &host);
        // The first message is the only beginning of the bytes that 13, 14 and 15 do not refuse; 22 may.
        let wanted = match table.states.get(state.position) {
            Some(Sort::Sends) if standing == Standing::Running => (Side::Device, first_message(&device)),
            Some(Sort::Receives) if standing == Standing::Running => (Side::Host, first_message(&host)),
            _ => (Side::Device, 0),
        };
        assert_eq!((part.side, part.length), wanted, "seed {seed}");
        if part.length > 0 {
            found += 1;
            let waiting = if part.side == Side::Device { &device } else { &host };
            broken += usize::from(message::read(&waiting[..part.length]) == Err(22));
        } else {
            nothing += 1;
        }
    }
    println!("due {found}, of which with a broken text {broken}, nothing due {nothing}");
    assert!(found > 500 && nothing > 500 && broken > 20);
}

#[test]
fn batches() {
    let (mut untried, mut forwarded, mut blamed, mut refused) = (0, 0, 0, 0);
    for seed in 0..rounds(600) {
        let mut random = Random::new(seed);
        let table = if random.one_in(4) { sound_table(&mut random, 8, 20) } else { endless_table(&mut random, 8, 20) };
        let position = random.below(table.states.len());
        let start = state_at(&mut random, &table, position);
        let faults = *random.pick(&[0, 4, 40]);
        let Waiting { device, host } = walk(&mut random, &table, start.position, 60, faults);
        let (mut to_device, mut to_host) = (vec![0xEE; host.len()], vec![0xEE; device.len()]);
        let mut state = start;
        let whole = batch(&table, &mut state, &device, &host, &mut to_device, &mut to_host);
        assert_passed_on(&to_device, &host, whole.written_to_device);
        assert_passed_on(&to_host, &device, whole.written_to_host);
        if faults == 0 {
            assert_eq!((whole.written_to_device, whole.written_to_host), (host.len(), device.len()));
        }
        match whole.last {
            None => untried += 1,
            Some(Verdict::Forwarded) => forwarded += 1,
            Some(Verdict::Blamed(..)) => blamed += 1,
            Some(Verdict::Refused(22)) => {
                refused += 1;
                // More bytes and more room do not help.
                let device = [&device[whole.used_device..], &device].concat();
                let host = [&host[whole.used_host..], &host].concat();
                let (mut to_device, mut to_host) = (vec![0xEE; 9999], vec![0xEE; 9999]);
                let more = batch(&table, &mut state, &device, &host, &mut to_device, &mut to_host);
                let nothing =
                    Batch { used_device: 0, used_host: 0, written_to_device: 0, written_to_host: 0, last: whole.last };
                assert_eq!(more, nothing, "seed {seed}");
            }
            Some(Verdict::Refused(question)) => panic!("seed {seed}: refused {question}"),
        }
        let mut again = start;
        let parts = with_little_room(&table, &mut again, &device, &host);
        assert_eq!((parts, again), (whole, state), "seed {seed}");
    }
    println!("untried {untried}, forwarded {forwarded}, blamed {blamed}, refused by 22 {refused}");
    assert!(untried > 20 && forwarded > 100 && blamed > 100 && refused > 10);
}

/// The output opens with so many of the bytes that waited, and the rest of it is unchanged.
fn assert_passed_on(output: &[u8], waiting: &[u8], written: usize) {
    let (passed, rest) = output.split_at(written);
    assert_eq!(passed, &waiting[..written]);
    assert!(rest.iter().all(|&byte| byte == 0xEE));
}

/// What batches come to whose outputs hold one message of any sort: whenever 16 has refused, the next has room again.
fn with_little_room(table: &Table, state: &mut State, device: &[u8], host: &[u8]) -> Batch {
    let mut all = Batch { used_device: 0, used_host: 0, written_to_device: 0, written_to_host: 0, last: None };
    loop {
        let (mut to_device, mut to_host) = ([0xEE; 285], [0xEE; 285]);
        let (device, host) = (&device[all.used_device..], &host[all.used_host..]);
        let batch = batch(table, state, device, host, &mut to_device, &mut to_host);
        assert_passed_on(&to_device, host, batch.written_to_device);
        assert_passed_on(&to_host, device, batch.written_to_host);
        all.used_device += batch.used_device;
        all.used_host += batch.used_host;
        all.written_to_device += batch.written_to_device;
        all.written_to_host += batch.written_to_host;
        all.last = batch.last.or(all.last);
        if batch.last != Some(Verdict::Refused(16)) {
            return all;
        }
        assert!(batch.used_device + batch.used_host > 0);
    }
}

fn first_message(bytes: &[u8]) -> usize {
    (0..=bytes.len()).find(|&length| matches!(message::read(&bytes[..length]), Ok(_) | Err(22))).unwrap_or(0)
}

#[test]
fn the_fit_check_and_the_machine() {
    let (mut fitting, mut failing, mut moves_at_most, mut highs) = (0, 0, 0, 0);
    for seed in 0..rounds(5000) {
        let mut random = Random::new(seed);
        let (device, protocol) = table_pair(&mut random, 5, 7);
        let found = explore(&device, &protocol);
        assert_eq!(search(&device, &protocol).fewest(), (!found.safe).then_some(found.fewest), "seed {seed}");
        let product = device.states.len() * protocol.states.len();
        let room = product + random.below(3);
        let mut list = vec![0xEEEE; room];
        match fit(&device, &protocol, &mut list) {
            Answer::Fits(pairs) => {
                fitting += 1;
                assert!(found.safe, "seed {seed}");
                assert_eq!(pairs, found.pairs, "seed {seed}");
                assert!(list.iter().all(|&entry| entry == 0xEEEE));
            }
            Answer::NoFit(moves, high) => {
                failing += 1;
                moves_at_most = moves_at_most.max(moves);
                highs += usize::from(high.is_some());
                assert!(!found.safe, "seed {seed}");
                assert_eq!(moves, found.fewest, "seed {seed}");
                assert!(shows_no_fit(&device, &protocol, &list[..moves], high), "seed {seed}");
                assert!(list[moves..].iter().all(|&entry| entry == 0xEEEE));
            }
            Answer::Refused(question) => panic!("seed {seed}: {question}"),
        }
        assert_eq!(fit(&device, &protocol, &mut vec![0; product - 1]), Answer::Refused(17));
    }
    println!("fitting {fitting}, failing {failing}, by at most {moves_at_most} moves, with one high {highs}");
    assert!(fitting > 500 && failing > 500 && moves_at_most > 2 && highs > 20);
}

#[test]
fn editions_differ_out_of_turn_only() {
    let (mut same, mut early, mut refused) = (0, 0, [0; 23]);
    for seed in 0..rounds(20_000) {
        let mut random = Random::new(seed);
        let one = Table { edition: 1, ..sound_table(&mut random, 6, 12) };
        let two = Table { edition: 2, ..one.clone() };
        let position = random.below(one.states.len());
        let before = state_at(&mut random, &one, position);
        let (side, message) = (*random.pick(&Side::BOTH), message_for(&mut random, &one, position));
        let room = if random.one_in(6) { random.below(message.len() + 1) } else { message.len() };
        let stepped = |table: &Table| {
            let (mut state, mut output) = (before, vec![0xEE; room]);
            (step(table, &mut state, side, &message, &mut output), state, output)
        };
        let (first, second) = (stepped(&one), stepped(&two));
        if turn(one.states[position]).is_none_or(|speaker| speaker == side) {
            same += 1;
            assert_eq!(first, second, "seed {seed}");
            continue;
        }
        let untouched = vec![0xEE; room];
        assert_eq!(first, (Verdict::Refused(12), before, untouched.clone()), "seed {seed}");
        match second.0 {
            Verdict::Refused(question) => {
                refused[usize::from(question)] += 1;
                assert_eq!(second, (Verdict::Refused(question), before, untouched), "seed {seed}");
            }
            verdict => {
                early += 1;
                let standing = if side == Side::Device { Standing::DeviceBlamed } else { Standing::HostBlamed };
                assert_eq!(verdict, Verdict::Blamed(side, Reason::Early), "seed {seed}");
                assert_eq!(second, (verdict, State { standing, ..before }, untouched), "seed {seed}");
            }
        }
    }
    println!("the same {same}, early {early}, refused {refused:?}");
    assert!(same > 1000 && early > 1000 && [13, 14, 15, 16, 22].into_iter().all(|question| refused[question] > 20));
}

/// On the machine the host says anything, the device what its state has; the protocol half does what a step does, and under either
/// edition a device that fits is never blamed or jammed.
#[test]
fn the_machine_and_the_step_under_either_edition() {
    let (mut fitting, mut failing, mut blamed) = (0, 0, [0; 3]);
    for seed in 0..rounds(5000) {
        let mut random = Random::new(seed);
        let (device, protocol) = table_pair(&mut random, 5, 7);
        let found = |edition| explore(&device, &Table { edition, ..protocol.clone() });
        assert_eq!(found(1), found(2), "seed {seed}");
        let safe = found(1).safe;
        *(if safe { &mut fitting } else { &mut failing }) += 1;
        let (mut machine, mut state) = (fresh(&device, &protocol), begun(&protocol));
        for _ in 0..20 {
            let side = *random.pick(&Side::BOTH);
            let (table, at) = if side == Side::Device { (&device, machine.device) } else { (&protocol, machine.position) };
            let own = table.branches_of(at);
            let says = if own.is_empty() || (side == Side::Host && random.one_in(4)) {
                any_message(&mut random)
            } else {
                let branch = *random.pick(&own);
                spoken(&mut random, &table.branches[branch])
            };
            let one = Move { side, message: says };
            let speaks = side == Side::Host || device.states[machine.device] == Sort::Sends;
            if machine.standing != machine::Standing::Running || !speaks || (side == Side::Device && own.is_empty()) {
                continue;
            }
            let (left, forwarded) = play(&device, &protocol, machine, &one);
            let verdict = step(&protocol, &mut state, side, &one.message.bytes(), &mut [0; 300]);
            let wanted = match (left.standing, forwarded) {
                (machine::Standing::HostBlamed, _) => matches!(verdict, Verdict::Blamed(Side::Host, _)),
                (machine::Standing::DeviceBlamed, _) => matches!(verdict, Verdict::Blamed(Side::Device, _)),
                (machine::Standing::Running, false) => matches!(verdict, Verdict::Refused(11 | 12)),
                _ => verdict == Verdict::Forwarded,
            };
            assert!(wanted, "seed {seed}: {left:?}, {verdict:?}");
            let early = verdict == Verdict::Blamed(Side::Host, Reason::Early);
            assert!(!early || protocol.edition == 2);
            assert!(
                !safe || matches!(left.standing, machine::Standing::Running | machine::Standing::HostBlamed),
                "seed {seed}"
            );
            blamed[if early { 2 } else { usize::from(left.standing == machine::Standing::HostBlamed) }] += 1;
            machine = left;
        }
    }
    println!("fitting {fitting}, failing {failing}; nobody, the host, the host early: {blamed:?}");
    assert!(fitting > 500 && failing > 500 && blamed.iter().all(|&count| count > 100));
}

#[test]
fn cycles_fail_late_and_raised_ranges_high() {
    let (mut fitting, mut moves_at_most, mut highs) = (0, 0, 0);
    for seed in 0..rounds(300) {
        let mut random = Random::new(seed);
        let (device, protocol) = cycle_pair(&mut random);
        assert!(sound(&device) && sound(&protocol), "seed {seed}");
        let mut list = vec![0; 32 * 32];
        match fit(&device, &protocol, &mut list) {
            Answer::Fits(_) => fitting += 1,
            Answer::NoFit(moves, high) => {
                moves_at_most = moves_at_most.max(moves);
                assert!(shows_no_fit(&device, &protocol, &list[..moves], high), "seed {seed}");
            }
            Answer::Refused(question) => panic!("seed {seed}: {question}"),
        }
        let protocol = sound_table(&mut random, 6, 12);
        let device = raised(&mut random, &protocol);
        assert!(sound(&device), "seed {seed}");
        if let Answer::NoFit(_, high) = fit(&device, &protocol, &mut list) {
            assert!(high.is_some(), "seed {seed}");
            highs += 1;
        }
    }
    println!("fitting {fitting}, by at most {moves_at_most} moves, with one high {highs}");
    assert!(fitting > 50 && moves_at_most > 500 && highs > 50);
}

#[test]
fn the_fewest_moves() {
    let (mut late, mut deep, mut both, mut several, mut long) = (0, 0, 0, 0, 0);
    for seed in 0..rounds(1000) {
        let mut random = Random::new(seed);
        let small = random.one_in(2);
        let (device, protocol) = if small { small_two_ways_pair(&mut random) } else { two_ways_pair(&mut random) };
        assert!(sound(&device) && sound(&protocol), "seed {seed}");
        let found = search(&device, &protocol);
        let fewest = found.fewest().unwrap();
        let shown = found.shown().unwrap();
        assert_eq!(shown.list.len(), fewest, "seed {seed}");
        assert!(shows_no_fit(&device, &protocol, &shown.list, shown.high), "seed {seed}");
        if small {
            assert_eq!(explore(&device, &protocol).fewest, fewest, "seed {seed}");
        }
        // What the mistaken searches find fails, too.
        let mistaken = [sorts_late(&device, &protocol), depth_first(&device, &protocol)].map(Option::unwrap);
        assert!(mistaken[0] == fewest || mistaken[0] == fewest + 1, "seed {seed}");
        assert!(mistaken[1] >= fewest, "seed {seed}");
        late += usize::from(mistaken[0] > fewest);
        deep += usize::from(mistaken[1] > fewest);
        both += usize::from(found.ways.contains(&Way::Arrival) && found.ways.len() > 1);
        several += usize::from(shown.several);
        long += usize::from(fewest >= 100);
    }
    println!("late {late}, deep {deep}, both {both}, several {several}, of a hundred moves and more {long}");
    assert!(late > 200 && deep > 200 && both > 50 && several > 50 && long > 50);
}

#[test]
fn fitting_changes_fit() {
    for seed in 0..rounds(1000) {
        let mut random = Random::new(seed);
        let protocol = sound_table(&mut random, 20, 60);
        let mut device = protocol.clone();
        for _ in 0..random.below(12) {
            device = fitting_change(&mut random, &device);
            assert!(sound(&device));
        }
        let mut list = vec![0; 32 * 32];
        assert!(matches!(fit(&device, &protocol, &mut list), Answer::Fits(_)), "seed {seed}");
        assert!(right(&device, 0, &protocol, 0));
    }
}

#[test]
fn reports_of_related_texts() {
    let (mut fitting, mut failing) = (0, 0);
    for seed in 0..rounds(1000) {
        let (device, protocol) = text_pair(&mut Random::new(seed));
        let report = String::from_utf8(report(&protocol, &device)).unwrap();
        if report.starts_with("fit ") {
            fitting += 1;
            assert_eq!(report.lines().count(), 1);
        } else {
            failing += 1;
            let moves: usize = report.lines().next().unwrap().strip_prefix("no fit ").unwrap().parse().unwrap();
            assert_eq!(report.lines().count(), moves + 2);
            assert!(matches!(report.lines().last(), Some("blamed" | "jammed")));
        }
        assert!(report.ends_with('\n'));
    }
    println!("fitting {fitting}, failing {failing}");
    assert!(fitting > 100 && failing > 100);
}
