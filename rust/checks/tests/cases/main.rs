//! The repository's case files, through the second implementation and through the proved library.
//!
//! A line is `COMMAND given = wanted # comment`. Numbers are hexadecimal, `20*5` is a number repeated (the count in hexadecimal
//! too), double-quoted text stands for its bytes. The files are those of `crates/cases/data`.

mod calls;

use calls::{Calls, Proved, Second};
use sojimu::{Batch, Party, Reason, Standing, State, Verdict, Warning, MOST_BRANCHES, MOST_STATES};
use sojimu_checks::second::brute::explore;
use sojimu_checks::second::fit::{shows_no_fit, Answer};
use sojimu_checks::second::shortest::search;
use sojimu_checks::second::table::Raw;
use std::path::Path;

const UNTOUCHED: u8 = 0xEE;
const UNTOUCHED_ENTRY: u16 = 0xEEEE;
const NO_FIELD: u64 = 0xFF;
/// In the place of a verdict.
const NONE_DUE: [u64; 4] = [3, 0, 0, 0];
/// The setting of every conversation, in hundredths.
const SETTING: u16 = 200;
/// From this number on, what names a field names none; it also ends a text among other numbers.
const NO_BYTE: u64 = 0x100;
const NO_ESTIMATE: u64 = 0xFFFF;

#[test]
fn tables() {
    run("tables", 150);
}

#[test]
fn messages() {
    run("messages", 350);
}

#[test]
fn texts() {
    run("texts", 930);
}

#[test]
fn monitor() {
    run("monitor", 650);
}

#[test]
fn fits() {
    run("fits", 270);
}

#[test]
fn reports() {
    run("reports", 165);
}

#[test]
fn batches() {
    run("batches", 120);
}

#[test]
fn counts() {
    run("counts", 110);
}

#[test]
fn editions() {
    run("editions", 110);
}

#[test]
fn warnings() {
    run("warnings", 60);
}

/// Runs a file, which has at least so many cases, through both.
fn run(name: &str, least: usize) {
    run_through(name, least, "second", &Second);
    run_through(name, least, "proved", &Proved);
}

fn run_through(name: &str, least: usize, which: &str, calls: &dyn Calls) {
    let path = Path::new(env!("CARGO_MANIFEST_DIR")).join("../../crates/cases/data").join(name);
    let lines = std::fs::read(&path).unwrap();
    let mut run = Run { calls, table: Raw::empty(), state: uncounted(0, Standing::RUNNING) };
    let mut cases = 0;
    let mut wrong = Vec::new();
    for (number, line) in lines.split(|&byte| byte == b'\n').enumerate() {
        let Some((command, given, wanted)) = parsed(line) else {
            continue;
        };
        cases += 1;
        let got = run.case(command, &given);
        if got != wanted {
            wrong.push(format!("{name} line {}, {which}: {command} wanted {wanted:X?} got {got:X?}", number + 1));
        }
    }
    println!("{}, {which}: {cases} cases, {} wrong", path.display(), wrong.len());
    assert!(wrong.is_empty(), "{}", wrong.join("\n"));
    assert!(cases >= least, "{name}: only {cases} cases");
}

/// A line's command, given and wanted numbers; none for a line without a case.
fn parsed(line: &[u8]) -> Option<(char, Vec<u64>, Vec<u64>)> {
    let line = std::str::from_utf8(line).unwrap();
    let command = line.chars().next()?;
    if command == '#' {
        return None;
    }
    let mut sides = vec![Vec::new()];
    let mut rest = line[1..].trim_start();
    while let Some(first) = rest.chars().next() {
        if first == '#' {
            break;
        }
        if first == '"' {
            let end = 1 + rest[1..].find('"').unwrap();
            sides.last_mut().unwrap().extend(rest[1..end].bytes().map(u64::from));
            rest = rest[end + 1..].trim_start();
            continue;
        }
        let end = rest.find(' ').unwrap_or(rest.len());
        match &rest[..end] {
            "=" => sides.push(Vec::new()),
            word => {
                let (number, count) = word.split_once('*').unwrap_or((word, "1"));
                let number = u64::from_str_radix(number, 16).unwrap();
                let count = usize::from_str_radix(count, 16).unwrap();
                sides.last_mut().unwrap().extend(std::iter::repeat_n(number, count));
            }
        }
        rest = rest[end..].trim_start();
    }
    assert_eq!(sides.len(), 2, "{line}");
    let wanted = sides.pop().unwrap();
    let given = sides.pop().unwrap();
    Some((command, given, wanted))
}

/// What the lines of a file have in common: whose calls they go through, the last `j` table and the last `g` conversation.
struct Run<'a> {
    calls: &'a dyn Calls,
    table: Raw,
    state: State,
}

impl Run<'_> {
    fn case(&mut self, command: char, given: &[u64]) -> Vec<u64> {
        match command {
            'j' => {
                self.table = edited(&Raw::empty(), given);
                vec![question_9(self.calls.sound(&self.table))]
            }
            't' => vec![question_9(self.calls.sound(&edited(&self.table, given)))],
            'p' => {
                let table = edited(&self.table, &given[1..]);
                vec![question_9(self.calls.sound_at(&table, word(given[0])))]
            }
            'v' => self.dual(&edited(&self.table, given)),
            'm' => vec![self.calls.refusal(&bytes(given)).into()],
            'n' => length(self.calls.front(&bytes(given))),
            'h' => vec![self.calls.has_label(&bytes(&given[1..]), given[0]).into()],
            'k' => self.make(&edited(&self.table, &given[3..]), word(given[0]), given[1], given[2] as usize),
            'q' => self.read(&bytes(given))[..4].to_vec(),
            'r' => self.read(&bytes(given)),
            'l' => self.read_shares(&bytes(given)),
            'a' => self.read_edition(&bytes(given)),
            'x' => self.fit(given, true),
            'y' => self.fit(given, false)[..2].to_vec(),
            'o' => self.report(given),
            'z' => self.report_in_room(given[0] as usize, &given[1..]),
            _ => self.monitor(command, given),
        }
    }

    fn monitor(&mut self, command: char, given: &[u64]) -> Vec<u64> {
        match command {
            'f' => self.start(word(given[0])),
            'i' => {
                self.state = self.state(&given[..2], given[2], &given[3..]);
                vec![self.calls.turn(&self.table, &self.state).err().unwrap_or(0).into()]
            }
            'e' => self.counts(),
            'd' => self.warning(given),
            'g' => {
                self.state = self.calls.fresh(&self.table, SETTING.into()).unwrap();
                vec![self.state.position.into(), self.state.standing.0.into()]
            }
            's' => {
                let mut state = state(given);
                self.step(&mut state, &given[2..])
            }
            'u' => {
                let mut state = self.state;
                let numbers = self.step(&mut state, given);
                self.state = state;
                numbers
            }
            'w' => self.due(given),
            'b' => {
                let mut state = state(given);
                self.batch(&mut state, &given[2..])
            }
            'c' => {
                let mut state = self.state;
                let numbers = self.batch(&mut state, given);
                self.state = state;
                numbers
            }
            _ => panic!("no such command: {command}"),
        }
    }

    fn dual(&self, table: &Raw) -> Vec<u64> {
        let (question, once) = self.calls.dual(table);
        let (_, twice) = self.calls.dual(&once);
        assert!([once.edition, twice.edition].iter().all(|&edition| edition == if question == 0 { table.edition } else { 0 }));
        let mut numbers = vec![question.into(), once.states, once.branches];
        numbers.extend(&once.sort[..4]);
        numbers.push(twice.states);
        numbers.extend(&twice.sort[..4]);
        numbers.into_iter().map(u64::from).collect()
    }

    fn make(&self, table: &Raw, branch: u32, high: u64, room: usize) -> Vec<u64> {
        let high = (high < NO_BYTE).then_some(high as u32);
        let mut buffer = vec![UNTOUCHED; room];
        let mut numbers = length(self.calls.make(table, branch, high, &mut buffer));
        numbers.extend(buffer.into_iter().map(u64::from));
        numbers
    }

    fn read(&self, text: &[u8]) -> Vec<u64> {
        let (question, place, raw) = match self.calls.read(text) {
            Ok(table) => (0, 0, table),
            Err((question, place)) => (question, place, Raw::empty()),
        };
        let mut numbers = vec![question.into(), place as u64, raw.states.into(), raw.branches.into()];
        numbers.extend(raw.sort[..raw.states as usize].iter().map(|&sort| u64::from(sort)));
        for b in 0..raw.branches as usize {
            let label = u64::from_be_bytes(raw.label(b));
            numbers.extend([raw.owner[b].into(), label, raw.target[b].into(), raw.fields[b].into()]);
            for f in 4 * b..4 * b + raw.fields[b] as usize {
                numbers.extend([u64::from(raw.kind[f]), raw.low[f].into(), raw.high[f].into()]);
            }
        }
        numbers
    }

    /// The question and its place, or 0 and 0 and the share of each branch.
    fn read_shares(&self, text: &[u8]) -> Vec<u64> {
        match self.calls.read(text) {
            Ok(raw) => [0, 0].into_iter().chain(raw.share[..raw.branches as usize].iter().map(|&share| share.into())).collect(),
            Err((question, place)) => vec![question.into(), place as u64],
        }
    }

    /// The question and its place, or 0 and 0, and the edition; of a text that is refused, 0.
    fn read_edition(&self, text: &[u8]) -> Vec<u64> {
        match self.calls.read(text) {
            Ok(raw) => vec![0, 0, raw.edition.into()],
            Err((question, place)) => vec![question.into(), place as u64, 0],
        }
    }

    /// A conversation with a setting. Where it is refused, the counts of its state are all 0.
    fn start(&mut self, setting: u32) -> Vec<u64> {
        let started = self.calls.fresh(&self.table, setting);
        self.state = started.unwrap_or(State { setting: 0, ..uncounted(0, Standing::RUNNING) });
        let State { position, standing, setting, .. } = self.state;
        vec![started.err().unwrap_or(0).into(), position.into(), standing.0.into(), setting.into()]
    }

    /// A state with a setting, n of each state of the table, and k of each branch.
    fn state(&self, place: &[u64], setting: u64, counts: &[u64]) -> State {
        let (n, k) = counts.split_at(self.table.states as usize);
        assert_eq!(k.len(), self.table.branches as usize);
        let mut state = State { setting: half(setting), ..state(place) };
        state.n.iter_mut().zip(n).for_each(|(count, &number)| *count = half(number));
        state.k.iter_mut().zip(k).for_each(|(count, &number)| *count = half(number));
        state
    }

    /// n of each state of the table, and k of each branch; those beyond are 0.
    fn counts(&self) -> Vec<u64> {
        let (n, beyond) = self.state.n.split_at(self.table.states as usize);
        let (k, past) = self.state.k.split_at(self.table.branches as usize);
        assert!(beyond.iter().chain(past).all(|&count| count == 0));
        n.iter().chain(k).map(|&count| count.into()).collect()
    }

    /// Given: position, standing, setting, branch, n of each state of the table, k of each branch.
    fn warning(&self, given: &[u64]) -> Vec<u64> {
        let state = self.state(&given[..2], given[2], &given[4..]);
        match self.calls.warning(&self.table, &state, word(given[3])) {
            Ok(Warning { warns, sender, estimate }) => {
                vec![0, warns.into(), sender as u64, estimate.map_or(NO_ESTIMATE, u64::from)]
            }
            Err(question) => vec![question.into(), 0, 0, NO_ESTIMATE],
        }
    }

    /// Given: side, room, message.
    fn step(&self, state: &mut State, given: &[u64]) -> Vec<u64> {
        let mut output = vec![UNTOUCHED; given[1] as usize];
        let verdict = self.calls.step(&self.table, state, side(given[0]), &bytes(&given[2..]), &mut output);
        let mut numbers = answer(verdict).to_vec();
        numbers.extend([u64::from(state.position), state.standing.0.into()]);
        numbers.extend(output.into_iter().map(u64::from));
        numbers
    }

    /// Given: the rooms to the device and to the host, how many of the bytes are the device's, bytes.
    fn batch(&self, state: &mut State, given: &[u64]) -> Vec<u64> {
        let (device, host) = given[3..].split_at(given[2] as usize);
        let (device, host) = (bytes(device), bytes(host));
        let (mut to_device, mut to_host) = (vec![UNTOUCHED; given[0] as usize], vec![UNTOUCHED; given[1] as usize]);
        let batch = self.calls.batch(&self.table, state, &device, &host, &mut to_device, &mut to_host);
        let Batch { used_device, used_host, written_to_device, written_to_host, last } = batch;
        let counts = [used_device, used_host, written_to_device, written_to_host];
        let mut numbers: Vec<u64> = counts.into_iter().map(|count| count as u64).collect();
        numbers.extend(last.map_or(NONE_DUE, answer));
        numbers.extend([u64::from(state.position), state.standing.0.into()]);
        numbers.extend(to_device.into_iter().chain(to_host).map(u64::from));
        numbers
    }

    /// Given: position, standing, how many of the bytes are the device's, bytes.
    fn due(&self, given: &[u64]) -> Vec<u64> {
        let (device, host) = given[3..].split_at(given[2] as usize);
        let (device, host) = (bytes(device), bytes(host));
        let part = self.calls.due(&self.table, &state(given), &device, &host);
        let mut numbers = vec![part.len() as u64];
        numbers.extend(part.iter().map(|&byte| u64::from(byte)));
        numbers
    }

    /// Given: the device's text, 100, the protocol's, 100, the list's entries. Texts that are refused are empty tables. Is the
    /// list said to be the only one of its length?
    fn fit(&self, given: &[u64], only: bool) -> Vec<u64> {
        let parts: Vec<&[u64]> = given.split(|&number| number == NO_BYTE).collect();
        let table = |text: &[u64]| self.calls.read(&bytes(text)).unwrap_or(Raw::empty());
        let (device, protocol) = (table(parts[0]), table(parts[1]));
        let mut list = vec![UNTOUCHED_ENTRY; parts[2][0] as usize];
        let answer = self.calls.fit(&device, &protocol, &mut list);
        played(&device, &protocol, answer, &list, only);
        let mut numbers = match answer {
            Answer::Refused(question) => vec![0, question.into(), NO_FIELD],
            Answer::Fits(pairs) => vec![1, pairs as u64, NO_FIELD],
            Answer::NoFit(moves, high) => vec![2, moves as u64, high.map_or(NO_FIELD, |field| field as u64)],
        };
        numbers.extend(list.into_iter().map(u64::from));
        numbers
    }

    /// The report's length and the buffer that it opens; 0 and the buffer unchanged, where it does not hold it.
    fn report_in_room(&self, room: usize, given: &[u64]) -> Vec<u64> {
        let (protocol, device) = two_texts(given);
        let mut buffer = vec![UNTOUCHED; room];
        let mut numbers = vec![self.calls.report_into(&protocol, &device, &mut buffer) as u64];
        numbers.extend(buffer.into_iter().map(u64::from));
        numbers
    }

    fn report(&self, given: &[u64]) -> Vec<u64> {
        let (protocol, device) = two_texts(given);
        self.calls.report(&protocol, &device).into_iter().map(u64::from).collect()
    }
}

/// The document's machine says the same of two tables as the fit check, and plays its moves. There are no fewer, and where the
/// list is said to be the only one of its length, no others that are as few.
fn played(device: &Raw, protocol: &Raw, answer: Answer, list: &[u16], only: bool) {
    let (device, protocol) = (device.table(), protocol.table());
    let small = device.branches.len() + protocol.branches.len() <= 20;
    let found = || small.then(|| explore(&device, &protocol));
    match answer {
        Answer::Refused(_) => {}
        Answer::Fits(pairs) => assert!(found().is_none_or(|found| found.safe && found.pairs == pairs)),
        Answer::NoFit(moves, high) => {
            assert!(found().is_none_or(|found| !found.safe && found.fewest == moves));
            assert!(shows_no_fit(&device, &protocol, &list[..moves], high));
            let shown = search(&device, &protocol).shown().unwrap();
            assert_eq!(shown.list.len(), moves);
            assert!(!(only && shown.several), "{:?}", shown.list);
        }
    }
}

/// A verdict in four numbers.
fn answer(verdict: Verdict) -> [u64; 4] {
    match verdict {
        Verdict::Refused(question) => [0, question.0.into(), 0, 0],
        Verdict::Blamed(party, reason) => {
            let field = match reason {
                Reason::OutOfRange(field) => field.into(),
                Reason::NoLabel | Reason::OtherKinds | Reason::Early => NO_FIELD,
            };
            [1, party as u64, reason.number().into(), field]
        }
        Verdict::Forwarded => [2, 0, 0, 0],
    }
}

fn question_9(sound: bool) -> u64 {
    if sound {
        0
    } else {
        9
    }
}

/// An answer's question, or 0, and its length, or 0.
fn length(answer: Result<usize, u8>) -> Vec<u64> {
    match answer {
        Ok(length) => vec![0, length as u64],
        Err(question) => vec![question.into(), 0],
    }
}

fn bytes(numbers: &[u64]) -> Vec<u8> {
    numbers.iter().map(|&number| u8::try_from(number).unwrap()).collect()
}

fn half(number: u64) -> u16 {
    u16::try_from(number).unwrap()
}

fn word(number: u64) -> u32 {
    u32::try_from(number).unwrap()
}

/// Given: the protocol's text, 100, the device's.
fn two_texts(given: &[u64]) -> (Vec<u8>, Vec<u8>) {
    let parts: Vec<&[u64]> = given.split(|&number| number == NO_BYTE).collect();
    (bytes(parts[0]), bytes(parts[1]))
}

fn side(number: u64) -> Party {
    match number {
        0 => Party::Device,
        1 => Party::Host,
        _ => panic!("no such side: {number}"),
    }
}

/// Given: position, standing.
fn state(given: &[u64]) -> State {
    let byte = |number: u64| u8::try_from(number).unwrap();
    uncounted(byte(given[0]), Standing(byte(given[1])))
}

/// A state in which nothing is counted.
fn uncounted(position: u8, standing: Standing) -> State {
    State { position, standing, setting: SETTING, n: [0; MOST_STATES], k: [0; MOST_BRANCHES] }
}

/// The table with entries changed: column, index, value.
fn edited(table: &Raw, edits: &[u64]) -> Raw {
    let mut table = table.clone();
    for edit in edits.chunks(3) {
        let (index, value) = (edit[1] as usize, edit[2]);
        match edit[0] {
            0 => table.states = word(value),
            1 => table.branches = word(value),
            2 => table.sort[index] = word(value),
            3 => table.owner[index] = word(value),
            4 => table.target[index] = word(value),
            5 => table.fields[index] = word(value),
            6 => table.set_label(index, value.to_be_bytes()),
            7 => table.kind[index] = word(value),
            8 => table.low[index] = word(value),
            9 => table.high[index] = word(value),
            10 => table.share[index] = word(value),
            11 => table.edition = word(value),
            column => panic!("no such column: {column}"),
        }
    }
    table
}
