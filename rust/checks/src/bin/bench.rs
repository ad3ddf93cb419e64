//! Prints what the proved code costs next to plain Rust, in nanoseconds and as ratios of one run.
//!
//!     cargo run --release --bin bench

use sojimu::message::{self, LONGEST_TEXT};
use sojimu::{Fitting, Party, Table, Verdict};
use sojimu_checks::bench::by_hand::{self, Pass, Place};
use sojimu_checks::bench::clock::{race, Race};
use sojimu_checks::bench::inputs::{said, scanner, small, texts, Input};
use sojimu_checks::bench::plain;
use sojimu_checks::bench::scans::Scan;
use sojimu_checks::second::random::label_of;
use sojimu_checks::second::table::{Branch, Raw, Sort, Table as Lists};
use sojimu_checks::second::{fit, text};
use std::hint::black_box;

/// How many messages a scan has.
const SCAN: usize = 100;
/// How many bytes wait behind it.
const BEHIND: usize = 64 * 1024;

fn main() {
    let inputs = Input::all();
    println!("ns of one call, in a batch of one message, the best round;");
    println!("ratio: the median of all rounds, below 1 where the proved code is faster");
    println!("{:8} {:8} {:>9} {:>9} {:>7}   against", "call", "table", "proved", "other", "ratio");
    let mut grown = Vec::new();
    for call in [step, due, make, sound, refusal, read, fit] {
        let rows: Vec<Row> = inputs.iter().map(call).collect();
        rows.iter().for_each(Row::print);
        let (from, to) = (&rows[0].race, &rows[2].race);
        grown.push((rows[0].call, to.first / from.first, to.second / from.second));
    }
    for call in [counts, shares, editions] {
        inputs.iter().map(call).for_each(|row| row.print());
    }
    hand_written().print();
    longest_fit().print();
    scan_by_hand().print();
    singly(&scanner(), SCAN).print();
    singly(&small(), SCAN / 2).print();
    text_step().print();
    text_refusal("ASCII", &[b'a'; LONGEST_TEXT]).print();
    text_refusal("3 bytes", (" ".to_string() + &"€".repeat(LONGEST_TEXT / 3)).as_bytes()).print();
    println!("\ngrowth from small to largest: proved, other");
    for (call, proved, other) in grown {
        println!("{call:8} {proved:>9.1} {other:>9.1}");
    }
    println!("\nother batches of the scanner's, and the one of {SCAN} frames: ns of one message, ratio");
    for scan in [fewer, more, unfinished, no_message] {
        scan().print();
    }
}

/// One line: a call on a table, proved and otherwise.
struct Row {
    call: &'static str,
    table: &'static str,
    against: &'static str,
    race: Race,
}

impl Row {
    fn print(&self) {
        let Row { call, table, against, race: Race { first, second, ratio } } = self;
        println!("{call:8} {table:8} {first:>9.1} {second:>9.1} {ratio:>7.2}   {against}");
    }

    /// The two contenders in turn; each call of them does `each` steps.
    fn of(
        call: &'static str,
        table: &'static str,
        against: &'static str,
        each: usize,
        proved: &mut dyn FnMut(),
        other: &mut dyn FnMut(),
    ) -> Row {
        let mut race = race(proved, other);
        race.first /= each as f64;
        race.second /= each as f64;
        Row { call, table, against, race }
    }
}

/// One step, the mean over a round of the conversation.
fn step(input: &Input) -> Row {
    let table = &input.table();
    let (start, _) = input.conversation();
    let (mut one, mut other) = (start, start);
    let (mut out, mut room) = ([0; 300], [0; 300]);
    steps(
        input,
        "plain monitor",
        |side, message| table.step(black_box(&mut one), side, message, &mut out),
        |side, message| plain::step(table, black_box(&mut other), side, message, &mut room),
    )
}

/// A round of the conversation, step by step of either contender.
fn steps(
    input: &Input,
    against: &'static str,
    mut proved: impl FnMut(Party, &[u8]) -> Verdict,
    mut other: impl FnMut(Party, &[u8]) -> Verdict,
) -> Row {
    let (_, round) = &input.conversation();
    Row::of(
        "step",
        input.name,
        against,
        round.len(),
        &mut || {
            for (side, message) in round {
                black_box(proved(*side, black_box(message)));
            }
        },
        &mut || {
            for (side, message) in round {
                black_box(other(*side, black_box(message)));
            }
        },
    )
}

/// Whose turn it is, for which 9 is asked of the counts, too, against 9 of the table and the position alone.
fn counts(input: &Input) -> Row {
    let table = &input.table();
    let (state, _) = &input.conversation();
    Row::of(
        "turn",
        input.name,
        "9 of table and position",
        1,
        &mut || {
            black_box(table.turn(black_box(state))).ok();
        },
        &mut || {
            black_box(table.sound_at(black_box(state).position.into()));
        },
    )
}

/// One step over a table with shares, against one over the same without.
fn shares(input: &Input) -> Row {
    let (table, shared) = (&input.table(), &input.shared());
    let (start, _) = input.conversation();
    let (mut one, mut other) = (start, start);
    let (mut out, mut room) = ([0; 300], [0; 300]);
    steps(
        input,
        "the same without shares",
        |side, message| shared.step(black_box(&mut one), side, message, &mut out),
        |side, message| table.step(black_box(&mut other), side, message, &mut room),
    )
}

/// One step under edition 2, against one over the same table under edition 1.
fn editions(input: &Input) -> Row {
    let (table, second) = (&input.table(), &Table { edition: 2, ..input.table() });
    let (start, _) = input.conversation();
    let (mut one, mut other) = (start, start);
    let (mut out, mut room) = ([0; 300], [0; 300]);
    steps(
        input,
        "the same under edition 1",
        |side, message| second.step(black_box(&mut one), side, message, &mut out),
        |side, message| table.step(black_box(&mut other), side, message, &mut room),
    )
}

/// One step on the small table, against the monitor that has no table.
fn hand_written() -> Row {
    let input = &small();
    let table = &input.table();
    let (mut state, _) = input.conversation();
    let mut place = Place::Asking;
    let (mut out, mut room) = ([0; 300], [0; 300]);
    steps(
        input,
        "written by hand, no table",
        |side, message| table.step(black_box(&mut state), side, message, &mut out),
        |side, message| by_hand::step(black_box(&mut place), side, message, &mut room),
    )
}

/// A scan's frames at once, against the monitor that has no table.
fn scan_by_hand() -> Row {
    let table = &scanner().table();
    let mut one = Scan::of(&scanner(), SCAN, &[], &[]);
    let (mut other, mut pass) = (one.clone(), Pass::Scanning);
    Row::of(
        "batch",
        "scanner",
        "written by hand, no table",
        SCAN,
        &mut || {
            black_box(black_box(&mut one).batch(table));
        },
        &mut || {
            let Scan { device, host, to_device, to_host, .. } = black_box(&mut other);
            black_box(by_hand::scan(black_box(&mut pass), device, host, to_device, to_host));
        },
    )
}

/// So many rounds of a conversation at once, against one message after the other.
fn singly(input: &Input, rounds: usize) -> Row {
    let table = &input.table();
    let mut one = Scan::of(input, rounds, &[], &[]);
    let mut other = one.clone();
    Row::of(
        "batch",
        input.name,
        "single due and step",
        one.messages,
        &mut || {
            black_box(black_box(&mut one).batch(table));
        },
        &mut || {
            black_box(black_box(&mut other).singly(table));
        },
    )
}

fn fewer() -> Row {
    against_frames("10 frames", Scan::of(&scanner(), 10, &[], &[]))
}

fn more() -> Row {
    against_frames("1,000 frames", Scan::of(&scanner(), 1000, &[], &[]))
}

fn unfinished() -> Row {
    let frame = Scan::of(&scanner(), 1, &[], &[]).device;
    let early = b"Next\0\0\0\0\0".repeat(BEHIND / 9);
    against_frames(
        "as many, then an unfinished one, and 64 KiB of early ones",
        Scan::of(&scanner(), SCAN, &frame[..20], &early),
    )
}

fn no_message() -> Row {
    against_frames("as many, then 64 KiB that are no message", Scan::of(&scanner(), SCAN, &[b' '; BEHIND], &[]))
}

/// A batch of frames against that of a scan with nothing behind it. Times and ratio are those of one message.
fn against_frames(what: &'static str, mut one: Scan) -> Row {
    let table = &scanner().table();
    let mut other = Scan::of(&scanner(), SCAN, &[], &[]);
    let more = one.messages as f64 / SCAN as f64;
    let mut row = Row::of(
        "batch",
        "scanner",
        what,
        SCAN,
        &mut || {
            black_box(black_box(&mut one).batch(table));
        },
        &mut || {
            black_box(black_box(&mut other).batch(table));
        },
    );
    row.race.first /= more;
    row.race.ratio /= more;
    row
}

/// The due part of two messages that wait on either side.
fn due(input: &Input) -> Row {
    let table = &input.table();
    let Scan { state, device, host, .. } = &Scan::of(input, 1, &[], &[]);
    Row::of(
        "due",
        input.name,
        "plain monitor",
        1,
        &mut || {
            black_box(table.due(black_box(state), black_box(device), black_box(host)));
        },
        &mut || {
            black_box(plain::due(table, black_box(state), black_box(device), black_box(host)));
        },
    )
}

/// The message of the round's first branch.
fn make(input: &Input) -> Row {
    let table = &input.table();
    let branch = input.round[0];
    let (mut out, mut room) = ([0; 300], [0; 300]);
    Row::of(
        "make",
        input.name,
        "plain monitor",
        1,
        &mut || {
            black_box(table.make(black_box(branch), Some(0), &mut out)).ok();
        },
        &mut || {
            black_box(plain::make(table, black_box(branch), Some(0), &mut room)).ok();
        },
    )
}

/// Question 9 alone.
fn sound(input: &Input) -> Row {
    let table = &input.table();
    Row::of(
        "9",
        input.name,
        "plain monitor",
        1,
        &mut || {
            black_box(black_box(table).sound());
        },
        &mut || {
            black_box(plain::sound(black_box(table)));
        },
    )
}

/// One step with a text of 64 bytes, ASCII, against one with an empty text.
fn text_step() -> Row {
    let input = &texts();
    let table = &input.table();
    let (start, _) = input.conversation();
    let (mut one, mut other) = (start, start);
    let (mut out, mut room) = ([0; 300], [0; 300]);
    let (long, empty) = (said(&[b'a'; LONGEST_TEXT]), said(b""));
    Row::of(
        "step",
        input.name,
        "the same, the text empty instead of 64 bytes, ASCII",
        1,
        &mut || {
            black_box(table.step(black_box(&mut one), Party::Device, black_box(&long), &mut out));
        },
        &mut || {
            black_box(table.step(black_box(&mut other), Party::Device, black_box(&empty), &mut room));
        },
    )
}

/// The questions of a message alone, of one with a text of 64 bytes, against 22 of the text as the standard library asks it.
fn text_refusal(name: &'static str, text: &[u8]) -> Row {
    assert_eq!(text.len(), LONGEST_TEXT);
    let bytes = said(text);
    Row::of(
        "13-15,22",
        name,
        "from_utf8 of the 64 bytes of text alone",
        1,
        &mut || {
            black_box(message::refusal(black_box(&bytes)));
        },
        &mut || {
            black_box(std::str::from_utf8(black_box(text))).ok();
        },
    )
}

/// Questions 13, 14, 15 and 22 alone.
fn refusal(input: &Input) -> Row {
    let (_, round) = input.conversation();
    let bytes = &round[0].1;
    Row::of(
        "13-15,22",
        input.name,
        "plain monitor",
        1,
        &mut || {
            black_box(message::refusal(black_box(bytes)));
        },
        &mut || {
            black_box(plain::parse(black_box(bytes))).ok();
        },
    )
}

/// Reading the text.
fn read(input: &Input) -> Row {
    Row::of(
        "read",
        input.name,
        "second implementation",
        1,
        &mut || {
            black_box(&Table::read(black_box(&input.text)));
        },
        &mut || {
            black_box(&text::read(black_box(&input.text)));
        },
    )
}

/// The fit check of a protocol with itself.
fn fit(input: &Input) -> Row {
    let lists = text::read(&input.text).expect("a legal text");
    fit_row(input.name, &input.table(), &input.table(), &lists, &lists)
}

/// The fit check of two cycles, 31 states and 32, which meets every pair.
fn longest_fit() -> Row {
    let (device, protocol) = (cycle(31), cycle(32));
    let columns = |lists: &Lists| Table::from(&Raw::of(lists));
    fit_row("cycles", &columns(&device), &columns(&protocol), &device, &protocol)
}

/// States that send the same, each on to the next.
fn cycle(length: usize) -> Lists {
    let branch = |owner| Branch { owner, label: label_of(b"Go"), fields: vec![], share: None, target: (owner + 1) % length };
    Lists { states: vec![Sort::Sends; length], branches: (0..length).map(branch).collect(), edition: 1 }
}

fn fit_row(name: &'static str, device: &Table, protocol: &Table, d: &Lists, p: &Lists) -> Row {
    let (mut list, mut other) = ([0; 1024], [0; 1024]);
    assert!(matches!(device.fit(protocol, &mut list), Fitting::Fits { .. }));
    Row::of(
        "fit",
        name,
        "second implementation",
        1,
        &mut || {
            black_box(black_box(device).fit(black_box(protocol), &mut list));
        },
        &mut || {
            black_box(fit::fit(black_box(d), black_box(p), &mut other));
        },
    )
}
