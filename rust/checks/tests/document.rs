//! Every example of document 01, and those of the requests in document 02 that are built; of requests 4, 5, 6 and 7 every sentence,
//! through both implementations.

use sojimu::Question;
use sojimu_checks::compare::{self, party, state_codes};
use sojimu_checks::second::batch::{batch, Batch};
use sojimu_checks::second::brute::explore;
use sojimu_checks::second::fit::{fit, shows_no_fit, Answer};
use sojimu_checks::second::machine::{self, Machine, Move};
use sojimu_checks::second::message;
use sojimu_checks::second::monitor::{awaited, due, step, Part, Reason, Side, Standing, State, Verdict};
use sojimu_checks::second::random::label_of;
use sojimu_checks::second::report::{report, report_in};
use sojimu_checks::second::shortest::{search, Way};
use sojimu_checks::second::table::{dual, sound, sound_at, Kind, Raw, Sort, Table};
use sojimu_checks::second::text::read;
use sojimu_checks::second::warning::{estimate, warning, Told};

const P: &[u8] = b"rec X.+{!Ask(int[0..100]).&{?Ok().X},!Quit().end}";
const PINGS: &[u8] = b"rec X.+{!Ping().&{?Pong().X},!Quit().end}";
const ASK_100: [u8; 14] = [0x41, 0x73, 0x6B, 0, 0, 0, 0, 0, 1, 0, 0, 0, 0, 0x64];

fn table(text: &[u8]) -> Table {
    read(text).unwrap()
}

/// Ask with an int.
fn ask(number: u8) -> [u8; 14] {
    let mut bytes = ASK_100;
    bytes[13] = number;
    bytes
}

/// A message of a label alone.
fn bare(label: &[u8]) -> Vec<u8> {
    let mut bytes = label_of(label).to_vec();
    bytes.push(0);
    bytes
}

/// The state of a conversation that begins.
fn fresh(table: &Table) -> State {
    State::fresh(table, 200).unwrap()
}

/// A state in which nothing is counted.
fn at(table: &Table, position: usize, standing: Standing) -> State {
    State { position, standing, ..fresh(table) }
}

// The twelve proved examples

#[test]
fn end_reads_one_state() {
    assert_eq!(table(b"end").states, [Sort::End]);
    assert!(table(b"end").branches.is_empty());
}

#[test]
fn texts_refused() {
    assert_eq!(read(b""), Err((3, 0)));
    assert_eq!(read(b"rec X.X"), Err((5, 6)));
    assert_eq!(read(b"+{!A().X}"), Err((4, 7)));
    assert_eq!(read(b"+{!A().end,!A().end}"), Err((7, 12)));
    assert_eq!(read(b"+{!A(int[5..4]).end}"), Err((6, 12)));
}

#[test]
fn a_range_of_one_reads() {
    assert!(read(b"+{!A(int[5..5]).end}").is_ok());
}

#[test]
fn ask_100_is_forwarded() {
    let mut state = fresh(&table(P));
    let mut output = [0xEE; 20];
    assert_eq!(step(&table(P), &mut state, Side::Device, &ASK_100, &mut output), Verdict::Forwarded);
    assert_eq!((state.position, state.standing), (1, Standing::Running));
    assert_eq!(output[..14], ASK_100);
    assert_eq!(output[14..], [0xEE; 6]);
}

#[test]
fn ask_101_blames_the_device() {
    let mut state = fresh(&table(P));
    let mut output = [0xEE; 20];
    let verdict = step(&table(P), &mut state, Side::Device, &ask(101), &mut output);
    assert_eq!(verdict, Verdict::Blamed(Side::Device, Reason::Range(0)));
    assert_eq!(Reason::Range(0).number(), 3);
    assert_eq!(state, at(&table(P), 0, Standing::DeviceBlamed));
    assert_eq!(output, [0xEE; 20]);
}

#[test]
fn ok_first_is_12() {
    let mut state = fresh(&table(P));
    let mut output = [0xEE; 20];
    assert_eq!(step(&table(P), &mut state, Side::Host, &bare(b"Ok"), &mut output), Verdict::Refused(12));
    assert_eq!(state, fresh(&table(P)));
    assert_eq!(output, [0xEE; 20]);
}

#[test]
fn p_fits_p_in_3_pairs() {
    let mut list = [7; 9];
    assert_eq!(fit(&table(P), &table(P), &mut list), Answer::Fits(3));
    assert_eq!(list, [7; 9]);
}

#[test]
fn end_does_not_fit_p() {
    let mut list = [7; 3];
    assert_eq!(fit(&table(b"end"), &table(P), &mut list), Answer::NoFit(0, None));
    assert_eq!(list, [7; 3]);
    assert!(shows_no_fit(&table(b"end"), &table(P), &[], None));
    let jammed = Machine { device: 0, position: 0, standing: machine::Standing::Jammed };
    assert_eq!(machine::fresh(&table(b"end"), &table(P)), jammed);
}

// Protocol text

#[test]
fn p_as_a_table() {
    let p = table(P);
    assert_eq!(p.states, [Sort::Sends, Sort::Receives, Sort::End]);
    let rows: Vec<_> = p.branches.iter().map(|branch| (branch.owner, branch.label, branch.target)).collect();
    assert_eq!(rows, [(0, label_of(b"Ask"), 1), (1, label_of(b"Ok"), 0), (0, label_of(b"Quit"), 2)]);
    assert_eq!((p.branches[0].fields[0].kind, p.branches[0].fields[0].low), (Kind::Int, 0));
    assert_eq!(p.branches[0].fields[0].high, 100);
}

#[test]
fn a_token_that_begins_with_a_digit_takes_digits_only() {
    assert_eq!(read(b"5A"), Err((3, 0)));
    assert_eq!(read(b"+{!A(int[5A..6]).end}"), Err((3, 10)));
}

#[test]
fn a_name_that_outlives_its_rec() {
    assert_eq!(read(b"+{!A().rec X.&{?B().X},!C().X}"), Err((4, 28)));
}

#[test]
fn what_is_closed_no_longer_counts_as_open() {
    let labels: Vec<String> = (0..20).map(|i| format!("B{i}")).collect();
    let recs: Vec<String> = labels.iter().map(|label| format!("!{label}().rec X.end")).collect();
    assert_eq!(table(format!("+{{{}}}", recs.join(",")).as_bytes()).states.len(), 21);
    let choices: Vec<String> = labels.iter().map(|label| format!("!{label}().+{{!A().R}}")).collect();
    assert_eq!(table(format!("rec R.+{{{}}}", choices.join(",")).as_bytes()).branches.len(), 40);
}

#[test]
fn the_longest_text() {
    let mut text = b"end".to_vec();
    text.resize(8192, b' ');
    assert!(read(&text).is_ok());
    text.push(b' ');
    assert_eq!(read(&text), Err((1, 0)));
}

// Document 02, request 1: names straight after rec

#[test]
fn names_straight_after_rec() {
    let states_and_targets = |text: &[u8]| {
        let table = table(text);
        (table.states.len(), table.branches.iter().map(|branch| branch.target).collect::<Vec<_>>())
    };
    assert_eq!(states_and_targets(b"rec Y.+{!A().rec X.Y}"), (1, vec![0]));
    assert_eq!(states_and_targets(b"rec Y.+{!A().rec X.rec Z.Y}"), (1, vec![0]));
    // Its own binder is the innermost.
    assert_eq!(states_and_targets(b"rec X.+{!A().rec X.+{!B().rec Z.X}}"), (2, vec![1, 1]));
    assert_eq!(states_and_targets(b"rec X.+{!A().rec Y.+{!B().rec Z.X}}"), (2, vec![1, 0]));
}

#[test]
fn loops_that_pass_no_message() {
    assert_eq!(read(b"rec X.rec Y.X"), Err((5, 12)));
    assert_eq!(read(b"+{!A().rec X.X}"), Err((5, 13)));
    assert_eq!(read(b"rec X.+{!A().rec X.X}"), Err((5, 19)));
    assert_eq!(read(b"+{!A().rec X.Y}"), Err((4, 13)));
}

// Tables

#[test]
fn the_empty_table_is_refused() {
    assert!(!sound(&Table::empty()));
    assert!(!Raw::empty().sound());
    assert_eq!(dual(&Table::empty()), Err(9));
    assert_eq!(message::make(&Table::empty(), 0, None, &mut []), Err(9));
    assert_eq!(fit(&Table::empty(), &table(P), &mut [0; 99]), Answer::Refused(9));
    assert_eq!(fit(&table(P), &Table::empty(), &mut [0; 99]), Answer::Refused(9));
    let mut state = fresh(&table(P));
    assert_eq!(step(&Table::empty(), &mut state, Side::Device, &[], &mut []), Verdict::Refused(9));
    assert_eq!(due(&Table::empty(), &state, &ASK_100, &[]), Part { side: Side::Device, length: 0 });
}

#[test]
fn positions() {
    assert!(sound_at(&table(P), 2));
    assert!(!sound_at(&table(P), 3));
}

#[test]
fn dual_of_dual() {
    let once = dual(&table(P)).unwrap();
    assert_eq!(once.states, [Sort::Receives, Sort::Sends, Sort::End]);
    assert_eq!(dual(&once).unwrap(), table(P));
}

#[test]
fn the_raw_table() {
    assert_eq!(std::mem::size_of::<Raw>(), 9360);
    let raw = Raw::of(&table(P));
    assert_eq!((raw.label_high[0], raw.label_low[0]), (0x41736B00, 0));
    assert_eq!(raw.label(0), label_of(b"Ask"));
    assert_eq!((raw.low[0], raw.high[0]), (0x8000_0000, 0x8000_0064));
    assert_eq!(raw.table(), table(P));
}

// Messages

#[test]
fn ask_100_in_bytes() {
    let message = message::read(&ASK_100).unwrap();
    assert_eq!(message.label, label_of(b"Ask"));
    assert_eq!(message.fields, [(Kind::Int, 100)]);
    let mut buffer = [0xEE; 16];
    assert_eq!(message::make(&table(P), 0, Some(0), &mut buffer), Ok(14));
    assert_eq!(buffer[..14], ASK_100);
    assert_eq!(buffer[14..], [0xEE; 2]);
}

#[test]
fn make_asks_9_18_16() {
    let mut buffer = [0xEE; 13];
    assert_eq!(message::make(&Table::empty(), 9, None, &mut buffer), Err(9));
    assert_eq!(message::make(&table(P), 3, None, &mut buffer), Err(18));
    assert_eq!(message::make(&table(P), 0, Some(1), &mut buffer), Err(18));
    assert_eq!(message::make(&table(P), 1, Some(0), &mut buffer), Err(18));
    assert_eq!(message::make(&table(P), 0, None, &mut buffer), Err(16));
    assert_eq!(buffer, [0xEE; 13]);
}

// The monitor

#[test]
fn the_questions_of_a_step_in_their_order() {
    let p = table(P);
    let at = |position, standing| at(&p, position, standing);
    let ask = |mut state: State, side, message: &[u8], room: usize| {
        let before = state;
        let verdict = step(&p, &mut state, side, message, &mut vec![0; room]);
        assert_eq!(state, before);
        verdict
    };
    use Side::{Device, Host};
    use Standing::{DeviceBlamed, HostBlamed, Running};
    assert_eq!(ask(at(3, DeviceBlamed), Host, b"", 0), Verdict::Refused(9));
    assert_eq!(ask(at(2, DeviceBlamed), Host, b"", 0), Verdict::Refused(10));
    assert_eq!(ask(at(1, HostBlamed), Host, &bare(b"Ok"), 9), Verdict::Refused(10));
    assert_eq!(ask(at(2, Running), Host, b"", 0), Verdict::Refused(11));
    assert_eq!(ask(at(0, Running), Host, b"", 0), Verdict::Refused(12));
    assert_eq!(ask(at(0, Running), Device, b"", 0), Verdict::Refused(13));
    assert_eq!(ask(at(0, Running), Device, b"Ask\0\0\0\0\0\x01\x03\0\0\0\0\0", 0), Verdict::Refused(14));
    assert_eq!(ask(at(0, Running), Device, b"Ask\0\0\0\0\0\x01\0\0\0\0\0\0", 0), Verdict::Refused(15));
    assert_eq!(ask(at(0, Running), Device, &ASK_100, 13), Verdict::Refused(16));
}

#[test]
fn the_reasons() {
    let p = table(P);
    let judged = |message: &[u8]| step(&p, &mut fresh(&p), Side::Device, message, &mut [0; 300]);
    assert_eq!(judged(&bare(b"Ok")), Verdict::Blamed(Side::Device, Reason::Label));
    assert_eq!(judged(&bare(b"Ask")), Verdict::Blamed(Side::Device, Reason::Kinds));
    assert_eq!(judged(&ask(101)), Verdict::Blamed(Side::Device, Reason::Range(0)));
    let mut host = at(&p, 1, Standing::Running);
    let verdict = step(&p, &mut host, Side::Host, &bare(b"Busy"), &mut [0; 300]);
    assert_eq!(verdict, Verdict::Blamed(Side::Host, Reason::Label));
    assert_eq!(host, at(&p, 1, Standing::HostBlamed));
}

#[test]
fn the_due_part() {
    let p = table(P);
    let at = |position, standing| at(&p, position, standing);
    let part = |side, length| Part { side, length };
    let mut device = ASK_100.to_vec();
    device.extend(ASK_100);
    let host = bare(b"Ok");
    assert_eq!(due(&p, &fresh(&p), &device, &host), part(Side::Device, 14));
    assert_eq!(due(&p, &at(1, Standing::Running), &device, &host), part(Side::Host, 9));
    // Not all there, and 13: empty, at that side's start.
    assert_eq!(due(&p, &fresh(&p), &device[..13], &host), part(Side::Device, 0));
    assert_eq!(due(&p, &at(1, Standing::Running), &device, &host[..8]), part(Side::Host, 0));
    assert_eq!(due(&p, &at(1, Standing::Running), &device, b""), part(Side::Host, 0));
    // 9, 10 and 11: empty, at the device's start.
    assert_eq!(due(&p, &at(3, Standing::Running), &device, &host), part(Side::Device, 0));
    assert_eq!(due(&p, &at(1, Standing::HostBlamed), &device, &host), part(Side::Device, 0));
    assert_eq!(due(&p, &at(2, Standing::Running), &device, &host), part(Side::Device, 0));
}

// Document 02, request 2: a scan's worth of messages together

#[test]
fn a_batch() {
    let p = table(P);
    let device = [ask(1), ask(101)].concat();
    let host = [bare(b"Ok"), bare(b"Ok")].concat();
    let mut state = fresh(&p);
    let (mut to_device, mut to_host) = ([0xEE; 10], [0xEE; 28]);
    let blamed = Some(Verdict::Blamed(Side::Device, Reason::Range(0)));
    let wanted = Batch { used_device: 28, used_host: 9, written_to_device: 9, written_to_host: 14, last: blamed };
    assert_eq!(batch(&p, &mut state, &device, &host, &mut to_device, &mut to_host), wanted);
    assert_eq!((state.position, state.standing), (0, Standing::DeviceBlamed));
    assert_eq!((to_device[..9].to_vec(), to_device[9]), (bare(b"Ok"), 0xEE));
    assert_eq!((&to_host[..14], &to_host[14..]), (&ask(1)[..], &[0xEE; 14][..]));
}

#[test]
fn the_last_answer_of_a_batch() {
    let p = table(P);
    let last = |position, standing, device: &[u8], host: &[u8], room: usize| {
        batch(&p, &mut at(&p, position, standing), device, host, &mut vec![0; room], &mut vec![0; room]).last
    };
    use Standing::{HostBlamed, Running};
    // With no step tried, none was due: early, not all there, at an end.
    assert_eq!(last(0, Running, b"", &bare(b"Ok"), 99), None);
    assert_eq!(last(0, Running, &ASK_100[..13], b"", 99), None);
    assert_eq!(last(2, Running, &ASK_100, b"", 99), None);
    // Else that of the last step, also where none is due after it.
    assert_eq!(last(0, Running, &ASK_100, b"", 99), Some(Verdict::Forwarded));
    assert_eq!(last(0, Running, &bare(b"Quit"), &bare(b"Ok"), 99), Some(Verdict::Forwarded));
    assert_eq!(last(0, Running, &ASK_100, b"", 13), Some(Verdict::Refused(16)));
    assert_eq!(last(0, Running, &[ask(1), ask(2)].concat(), &bare(b"Ok"), 27), Some(Verdict::Refused(16)));
    // 9 and 10 are asked first.
    assert_eq!(last(3, HostBlamed, b"", b"", 0), Some(Verdict::Refused(9)));
    assert_eq!(last(2, HostBlamed, b"", b"", 0), Some(Verdict::Refused(10)));
}

// Document 02, request 4: shares on choices

/// The shares that both read, 0 for none; or the question and the place.
fn shares(text: &str) -> Result<Vec<u32>, (u8, usize)> {
    let second = read(text.as_bytes());
    let proved = sojimu::Table::read(text.as_bytes());
    let words = proved.as_ref().map(Raw::from).map_err(|no| (no.question.0, no.at));
    assert_eq!(words, second.as_ref().map(Raw::of).map_err(|no| *no), "{text}");
    second.map(|table| table.branches.iter().map(|branch| branch.share.unwrap_or(0)).collect())
}

#[test]
fn a_branch_may_carry_a_share() {
    assert_eq!(shares("+{!A()@10.end,!B()@990.end}"), Ok(vec![10, 990]));
    assert_eq!(shares("&{?A(int[0..1],flag[0..1])@1.end,?B()@999.end}"), Ok(vec![1, 999]));
    assert_eq!(shares("+{!A()@1000.end}"), Ok(vec![1000]));
    assert_eq!(shares("+{!A().end,!B().end}"), Ok(vec![0, 0]));
    assert_eq!(shares("+{!A() @\n 10 .end,!B()@990\n.end}"), Ok(vec![10, 990]));
    // After `)` alone, once, and a number.
    assert_eq!(shares("+{!A@10().end}"), Err((3, 4)));
    assert_eq!(shares("+{!A(@10).end}"), Err((3, 5)));
    assert_eq!(shares("+{!A().@10end}"), Err((3, 7)));
    assert_eq!(shares("+{!A()@10@990.end}"), Err((3, 9)));
    assert_eq!(shares("+{!A()@.end}"), Err((3, 7)));
    assert_eq!(shares("+{!A()@"), Err((3, 7)));
    assert_eq!(shares("+{!A()10.end}"), Err((3, 6)));
    assert_eq!(shares("+{!A()@1000,"), Err((3, 11)));
    assert_eq!(shares("@"), Err((3, 0)));
}

#[test]
fn shares_outside_1_to_1000() {
    let text = |share: &str| format!("+{{!A()@{share}.end}}");
    for share in ["0", "-5", "-1000", "1001", "2147483648", "4294967297", "18446744073709552616"] {
        assert_eq!(shares(&text(share)), Err((19, 7)), "{share}");
    }
    assert_eq!(shares(&text(&"1".repeat(5000))), Err((19, 7)));
    assert_eq!(shares(&text(&format!("-{}", "1".repeat(5000)))), Err((19, 7)));
    assert_eq!(shares(&text("1000")), Ok(vec![1000]));
    // 2 and 3 come before it.
    for share in ["05", "00", "-0", "-", "-05"] {
        assert_eq!(shares(&text(share)), Err((2, 7)), "{share}");
    }
    for share in ["A", "end", ".", "@", "(", "}"] {
        assert_eq!(shares(&text(share)), Err((3, 7)), "{share}");
    }
    // So does what stands before it; and it comes before what stands after it.
    assert_eq!(shares("+{!A(int[5..4])@0.end}"), Err((6, 12)));
    assert_eq!(shares("+{!A(int[5..4294967296])@0.end}"), Err((6, 12)));
    assert_eq!(shares("+{!A()@0.end,!A()@0.end}"), Err((19, 7)));
    assert_eq!(shares("+{!A()@1.end,!A()@0.end}"), Err((7, 14)));
    assert_eq!(shares("+{!A()@1.X,!B()@0.end}"), Err((4, 9)));
    assert_eq!(shares("+{!A(int[0..1],int[0..1],int[0..1],int[0..1],int[0..1])@0.end}"), Err((8, 45)));
}

#[test]
fn shares_of_a_choice() {
    // Mixed, at the closing brace.
    assert_eq!(shares("+{!A()@1000.end,!B().end}"), Err((20, 24)));
    assert_eq!(shares("+{!A().end,!B()@1000.end}"), Err((20, 24)));
    assert_eq!(shares("+{!A()@500.end,!B().end,!C()@500.end}"), Err((20, 36)));
    // They do not add to 1000.
    assert_eq!(shares("+{!A()@999.end}"), Err((20, 14)));
    assert_eq!(shares("+{!A()@499.end,!B()@500.end}"), Err((20, 27)));
    assert_eq!(shares("+{!A()@501.end,!B()@500.end}"), Err((20, 27)));
    assert_eq!(shares("+{!A()@1000.end,!B()@1000.end}"), Err((20, 29)));
    // It does not look ahead, and what stands before the brace is asked first.
    assert_eq!(shares("+{!A()@999.end}#"), Err((20, 14)));
    assert_eq!(shares("+{!A()@999.end"), Err((3, 14)));
    let ends: Vec<String> = (0..32).map(|i| format!("!B{i}()@31.end")).collect();
    let text = format!("+{{{}}}", ends.join(","));
    assert_eq!(shares(&text), Err((8, text.len() - 4)));
}

#[test]
fn each_choice_by_itself() {
    let nested = "+{!A()@500.&{?C().end,?D().end},!B()@500.&{?E()@1.end,?F()@999.end}}";
    assert_eq!(shares(nested), Ok(vec![500, 0, 0, 500, 1, 999]));
    assert_eq!(shares("+{!A().&{?C()@1000.end},!B().end}"), Ok(vec![0, 1000, 0]));
    assert_eq!(shares("+{!A()@500.&{?C()@999.end},!B()@500.end}"), Err((20, 25)));
    assert_eq!(shares("+{!A()@500.&{?C()@500.end},!B()@500.end}"), Err((20, 25)));
    assert_eq!(shares("+{!A()@500.&{?C()@1000.end},!B()@499.end}"), Err((20, 40)));
    assert_eq!(shares("+{!A()@500.&{?C()@500.end,?D().end},!B()@500.end}"), Err((20, 34)));
    assert_eq!(shares("rec X.+{!A()@500.rec Y.X,!B()@500.rec X.&{?A()@1000.X}}"), Ok(vec![500, 500, 1000]));
}

/// Is a table with these shares sound, as both say?
fn sound_with(text: &[u8], shares: &[u32]) -> bool {
    let mut raw = Raw::of(&table(text));
    raw.share[..shares.len()].copy_from_slice(shares);
    assert_eq!(sojimu::Table::from(&raw).sound(), raw.sound());
    raw.sound()
}

#[test]
fn question_9_asks_for_shares() {
    let two = b"+{!A().end,!B().end}";
    for right in [[0, 0], [10, 990], [999, 1]] {
        assert!(sound_with(two, &right), "{right:?}");
    }
    for wrong in [[0, 1000], [1000, 0], [499, 500], [501, 500], [1001, 0], [1001, u32::MAX], [1 << 31, (1 << 31) + 1000]] {
        assert!(!sound_with(two, &wrong), "{wrong:?}");
    }
    // Each choice by itself, and no more than the branches.
    let choices = b"+{!A().&{?B().end}}";
    assert!(sound_with(choices, &[1000, 0]) && sound_with(choices, &[0, 1000]) && sound_with(choices, &[1000, 1000]));
    assert!(!sound_with(choices, &[500, 500]));
    assert!(sound_with(choices, &[0, 0, 7]));
    // Whatever takes a table asks it.
    let mut raw = Raw::of(&table(two));
    raw.share[0] = 1000;
    let wrong = sojimu::Table::from(&raw);
    let mut list = [0; 9];
    assert_eq!((wrong.dual(), wrong.fresh(200)), (Err(Question(9)), Err(Question(9))));
    assert_eq!(wrong.make(0, None, &mut [0; 9]), Err(Question(9)));
    assert_eq!(wrong.fit(&wrong, &mut list), sojimu::Fitting::Refused(Question(9)));
    assert_eq!(wrong.turn(&state_codes(&fresh(&table(two)))), Err(Question(9)));
}

/// A conversation in both implementations.
struct Talk {
    second: Table,
    proved: sojimu::Table,
    state: State,
}

impl Talk {
    /// It begins; or the question that refuses it.
    fn begin(text: &str, setting: u32) -> Result<Talk, u8> {
        let second = table(text.as_bytes());
        let proved = sojimu::Table::read(text.as_bytes()).unwrap();
        let state = State::fresh(&second, setting);
        let codes = state.as_ref().map(state_codes).map_err(|no| Question(*no));
        assert_eq!(proved.fresh(setting), codes);
        Ok(Talk { second, proved, state: state? })
    }

    fn say(&mut self, side: Side, message: &[u8]) -> Verdict {
        let mut proved = state_codes(&self.state);
        let told = self.proved.step(&mut proved, party(side), message, &mut [0; 300]);
        let verdict = step(&self.second, &mut self.state, side, message, &mut [0; 300]);
        assert_eq!((told, proved), (compare::verdict(verdict), state_codes(&self.state)));
        verdict
    }

    /// Labels alone, each forwarded in its turn.
    fn says(&mut self, labels: &[&str]) {
        for label in labels {
            let side = awaited(&self.second, &self.state).unwrap();
            assert_eq!(self.say(side, &bare(label.as_bytes())), Verdict::Forwarded, "{label}");
        }
    }

    fn batch(&mut self, device: &[u8], host: &[u8]) -> Batch {
        let mut proved = state_codes(&self.state);
        let told = self.proved.batch(&mut proved, device, host, &mut [0; 300], &mut [0; 300]);
        let batch = batch(&self.second, &mut self.state, device, host, &mut [0; 300], &mut [0; 300]);
        assert_eq!((told, proved), (compare::batch(batch), state_codes(&self.state)));
        batch
    }

    fn warning(&self, branch: usize) -> Result<Told, u8> {
        let told = warning(&self.second, &self.state, branch);
        let proved = self.proved.warning(&state_codes(&self.state), branch as u32);
        assert_eq!(proved, told.map(compare::warning).map_err(Question));
        told
    }

    /// The question that every call refuses this state by, or 0: whose turn it is, a step, a batch, a warning, the due part.
    fn refused(&mut self) -> u8 {
        let question = awaited(&self.second, &self.state).err().unwrap_or(0);
        let codes = state_codes(&self.state);
        assert_eq!(self.proved.turn(&codes).err().map_or(0, |no| no.0), question);
        let no = (question != 0).then_some(Verdict::Refused(question));
        assert_eq!(self.say(Side::Device, b""), no.unwrap_or(Verdict::Refused(13)));
        assert_eq!(self.batch(b"", b"").last, no);
        assert_eq!(self.warning(0).err().unwrap_or(0), question);
        let message = bare(b"A");
        let length = if question == 0 { message.len() } else { 0 };
        assert_eq!(due(&self.second, &self.state, &message, b""), Part { side: Side::Device, length });
        assert_eq!(self.proved.due(&codes, &message, b"").message.len(), length);
        question
    }

    /// The counts of the table's states and branches.
    fn counts(&self) -> (&[u32], &[u32]) {
        (&self.state.n[..self.second.states.len()], &self.state.k[..self.second.branches.len()])
    }

    /// Counts instead of those that messages make.
    fn count(&mut self, n: &[u32], k: &[u32]) {
        self.state.n[..n.len()].copy_from_slice(n);
        self.state.k[..k.len()].copy_from_slice(k);
    }
}

const SHARED: &str = "rec X.+{!Ask()@900.&{?Ok().X,?Busy().X},!Quit()@100.end}";

#[test]
fn conversations_are_made_with_a_setting() {
    assert_eq!(Talk::begin(SHARED, 1).unwrap().state.setting, 1);
    let talk = Talk::begin(SHARED, 1000).unwrap();
    assert_eq!(talk.state, State { position: 0, standing: Standing::Running, setting: 1000, n: [0; 32], k: [0; 128] });
    for setting in [0, 1001, 65536 + 200, u32::MAX] {
        assert_eq!(Talk::begin(SHARED, setting).err(), Some(21), "{setting}");
    }
    // After 9.
    assert_eq!(State::fresh(&Table::empty(), 0), Err(9));
    assert_eq!(sojimu::Table::empty().fresh(0), Err(Question(9)));
}

#[test]
fn forwarding_raises_the_counts() {
    let mut talk = Talk::begin(SHARED, 200).unwrap();
    talk.says(&["Ask", "Busy", "Ask", "Ok", "Ask", "Busy"]);
    // Ask, Ok, Busy and Quit: those without a share, too.
    assert_eq!(talk.counts(), (&[3, 3, 0][..], &[3, 1, 2, 0][..]));
    talk.says(&["Quit"]);
    assert_eq!(talk.counts(), (&[4, 3, 0][..], &[3, 1, 2, 1][..]));
    assert_eq!(talk.say(Side::Device, &bare(b"Ask")), Verdict::Refused(11));
    assert_eq!(talk.counts(), (&[4, 3, 0][..], &[3, 1, 2, 1][..]));
}

#[test]
fn a_batch_raises_the_counts() {
    let mut talk = Talk::begin(SHARED, 200).unwrap();
    let device = [bare(b"Ask"), bare(b"Ask"), bare(b"Nope")].concat();
    let last = talk.batch(&device, &[bare(b"Ok"), bare(b"Busy")].concat()).last;
    assert_eq!(last, Some(Verdict::Blamed(Side::Device, Reason::Label)));
    assert_eq!(talk.counts(), (&[2, 2, 0][..], &[2, 1, 1, 0][..]));
}

#[test]
fn refusals_and_blames_raise_nothing() {
    let mut talk = Talk::begin(SHARED, 200).unwrap();
    talk.says(&["Ask"]);
    let before = talk.state;
    assert_eq!(talk.say(Side::Device, &bare(b"Ask")), Verdict::Refused(12));
    assert_eq!(talk.say(Side::Host, b"Ok"), Verdict::Refused(13));
    assert_eq!(talk.state, before);
    assert_eq!(talk.say(Side::Host, &bare(b"Nope")), Verdict::Blamed(Side::Host, Reason::Label));
    assert_eq!(talk.state, State { standing: Standing::HostBlamed, ..before });
    assert_eq!(talk.say(Side::Host, &bare(b"Ok")), Verdict::Refused(10));
    assert_eq!((talk.state.n, talk.state.k), (before.n, before.k));
}

#[test]
fn counting_stops_at_10_000() {
    let mut talk = Talk::begin(SHARED, 200).unwrap();
    talk.count(&[9_999, 9_998], &[9_000, 9_990, 8, 999]);
    talk.says(&["Ask", "Ok"]);
    assert_eq!(talk.counts(), (&[10_000, 9_999, 0][..], &[9_001, 9_991, 8, 999][..]));
    talk.says(&["Ask", "Busy", "Ask", "Ok", "Quit"]);
    assert_eq!(talk.counts(), (&[10_000, 10_000, 0][..], &[9_001, 9_991, 9, 999][..]));
    assert_eq!((talk.state.position, talk.state.standing), (2, Standing::Running));
    // In a batch, too.
    let mut talk = Talk::begin(SHARED, 200).unwrap();
    talk.count(&[9_999, 10_000], &[9_999, 0, 10_000, 0]);
    let batch = talk.batch(&bare(b"Ask").repeat(3), &bare(b"Ok").repeat(3));
    assert_eq!((batch.used_device, batch.used_host), (27, 27));
    assert_eq!(talk.counts(), (&[10_000, 10_000, 0][..], &[10_000, 0, 10_000, 0][..]));
}

#[test]
fn question_9_asks_for_counts() {
    let refused = |setting: u32, n: &[u32], k: &[u32]| {
        let mut talk = Talk::begin("rec X.+{!A()@500.X,!B()@500.&{?C().end}}", 200).unwrap();
        talk.count(n, k);
        talk.state.setting = setting;
        talk.refused()
    };
    assert_eq!(refused(200, &[7, 2], &[3, 4, 2]), 0);
    assert_eq!(refused(1000, &[10_000, 10_000], &[10_000, 0, 10_000]), 0);
    // A choice's k do not add up to its n.
    for (n, k) in [([8, 2], [3, 4, 2]), ([7, 2], [3, 3, 2]), ([7, 2], [3, 4, 1]), ([7, 2], [3, 5, 1]), ([0, 1], [0, 0, 0])] {
        assert_eq!(refused(200, &n, &k), 9, "{n:?} {k:?}");
    }
    // n is above 10,000, or the sum is as much more as sixteen bits do not tell.
    assert_eq!(refused(200, &[10_001, 0], &[10_000, 1, 0]), 9);
    assert_eq!(refused(200, &[65_535, 0], &[65_535, 0, 0]), 9);
    assert_eq!(refused(200, &[0, 10_001], &[0, 0, 10_001]), 9);
    assert_eq!(refused(200, &[7, 0], &[32_771, 32_772, 0]), 9);
    for setting in [0, 1001, 65_535] {
        assert_eq!(refused(setting, &[7, 2], &[3, 4, 2]), 9, "{setting}");
    }
    // What belongs to no choice of the table does no harm.
    assert_eq!(refused(200, &[7, 2, 65_535, 65_535], &[3, 4, 2, 65_535]), 0);
}

#[test]
fn question_9_comes_before_10() {
    let mut talk = Talk::begin(SHARED, 200).unwrap();
    talk.state.standing = Standing::HostBlamed;
    assert_eq!(awaited(&talk.second, &talk.state), Err(10));
    talk.state.n[0] = 1;
    assert_eq!(awaited(&talk.second, &talk.state), Err(9));
    assert_eq!(talk.batch(b"", b"").last, Some(Verdict::Refused(9)));
    // A warning asks for no standing.
    assert_eq!(talk.warning(0), Err(9));
    talk.state.n[0] = 0;
    assert!(talk.warning(0).is_ok());
}

/// With share w, the setting z, n and k: does the branch warn?
fn warns(w: u32, z: u32, n: u32, k: u32) -> bool {
    let text = if w == 1000 { "+{!A()@1000.end}".into() } else { format!("+{{!A()@{w}.end,!B()@{}.end}}", 1000 - w) };
    let mut talk = Talk::begin(&text, z).unwrap();
    talk.count(&[n], &[k, n - k]);
    talk.warning(0).unwrap().warns
}

#[test]
fn a_branch_warns() {
    // Document 02's example.
    assert!(warns(10, 442, 6, 2));
    // Source document 000's, with z = 4.42, and 1.96 at which it would warn earlier.
    assert!(!warns(200, 442, 9, 5));
    assert!(warns(200, 442, 17, 13));
    assert!(warns(200, 196, 9, 5));
    // Too seldom, too.
    assert!(warns(900, 200, 100, 80) && !warns(900, 200, 100, 90));
    // The edge is inside: 10,000 x (4,000 - 2,000)^2 = 200^2 x 500 x 500 x 4.
    assert!(!warns(500, 200, 4, 4) && warns(500, 199, 4, 4));
    assert!(!warns(500, 200, 4, 0) && warns(500, 199, 4, 0));
    assert!(!warns(500, 200, 10_000, 5_100) && warns(500, 200, 10_000, 5_101) && warns(500, 199, 10_000, 5_100));
    // Nothing counted, or all of the only branch.
    assert!(!warns(1, 1, 0, 0) && !warns(1000, 1, 0, 0) && !warns(1000, 1, 10_000, 10_000));
    // The largest numbers that the rule meets.
    assert!(warns(1, 1000, 10_000, 10_000) && warns(999, 1000, 10_000, 0) && !warns(999, 1000, 10_000, 10_000));
}

#[test]
fn what_a_warning_tells() {
    let text = "rec X.+{!A()@10.&{?C()@1.X,?D()@999.X},!B()@989.X,!E()@1.end}";
    let mut talk = Talk::begin(text, 442).unwrap();
    let told = |warns, sender, estimate| Ok(Told { warns, sender, estimate });
    // While n is 0 there is no estimate.
    assert_eq!(talk.warning(0), told(false, Side::Device, None));
    talk.count(&[6, 2], &[2, 2, 0, 4, 0]);
    assert_eq!(talk.warning(0), told(true, Side::Device, Some(333)));
    assert_eq!(talk.warning(1), told(true, Side::Host, Some(1000)));
    assert_eq!(talk.warning(2), told(true, Side::Host, Some(0)));
    assert_eq!(talk.warning(3), told(true, Side::Device, Some(667)));
    // 18: the branches are five.
    assert_eq!(talk.warning(5), Err(18));
    assert_eq!(talk.warning(127), Err(18));
    assert_eq!(talk.proved.warning(&state_codes(&talk.state), u32::MAX), Err(Question(18)));
    // After 9.
    talk.state.position = 3;
    assert_eq!(talk.warning(5), Err(9));
}

#[test]
fn a_branch_without_a_share_never_warns() {
    let mut talk = Talk::begin("rec X.+{!A().X,!B().X}", 1).unwrap();
    for (n, k) in [(1, 0), (1, 1), (10_000, 0), (10_000, 10_000)] {
        talk.count(&[n], &[k, n - k]);
        let told = talk.warning(0).unwrap();
        assert_eq!((told.warns, told.estimate), (false, Some(1000 * k / n)));
    }
}

#[test]
fn estimates() {
    let mut talk = Talk::begin("+{!A().end,!B().end}", 200).unwrap();
    // Halves up: 62.5, 187.5, 0.5, 999.5.
    let halves = [(16, 1, 63), (16, 3, 188), (10_000, 5, 1), (10_000, 9_995, 1000)];
    let others =
        [(3, 1, 333), (3, 2, 667), (10_000, 4, 0), (10_000, 9_994, 999), (7, 7, 1000), (7, 0, 0), (9_999, 9_998, 1000)];
    for (n, k, wanted) in halves.into_iter().chain(others) {
        talk.count(&[n], &[k, n - k]);
        assert_eq!(talk.warning(0).unwrap().estimate, Some(wanted), "{k} of {n}");
        assert_eq!(estimate(n.into(), k.into()), Some(wanted));
    }
}

#[test]
fn a_warning_is_taken_back() {
    let mut talk = Talk::begin("rec X.+{!A()@500.X,!B()@500.X}", 200).unwrap();
    talk.says(&["A", "A", "A", "A"]);
    assert!(!talk.warning(0).unwrap().warns);
    talk.says(&["A"]);
    assert!(talk.warning(0).unwrap().warns && talk.warning(1).unwrap().warns);
    talk.says(&["B"]);
    assert!(!talk.warning(0).unwrap().warns && !talk.warning(1).unwrap().warns);
}

#[test]
fn forwarding_blame_and_fit_take_no_notice() {
    let plain = "rec X.+{!Ask().&{?Ok().X,?Busy().X},!Quit().end}";
    for labels in [&["Ask", "Ok", "Ask", "Busy", "Quit", "Quit"][..], &["Nope", "Ask"], &["Ask", "Nope"], &["Ask", "Ask"]] {
        let (mut one, mut other) = (Talk::begin(SHARED, 1).unwrap(), Talk::begin(plain, 1).unwrap());
        for label in labels {
            let side = awaited(&one.second, &one.state).unwrap_or(Side::Device);
            assert_eq!(one.say(side, &bare(label.as_bytes())), other.say(side, &bare(label.as_bytes())));
            assert_eq!(one.state, other.state);
        }
    }
    let fits = |device: &str, protocol: &str| {
        let mut list = [7; 9];
        let proved = sojimu::Table::read(device.as_bytes()).unwrap();
        let told = proved.fit(&sojimu::Table::read(protocol.as_bytes()).unwrap(), &mut list);
        assert_eq!(told, sojimu::Fitting::Fits { pairs: 3 });
        fit(&table(device.as_bytes()), &table(protocol.as_bytes()), &mut list)
    };
    let other = SHARED.replace("900", "1").replace("100", "999");
    for (device, protocol) in [(SHARED, plain), (plain, SHARED), (SHARED, &other)] {
        assert_eq!(fits(device, protocol), Answer::Fits(3));
    }
    assert_eq!(sojimu::report(SHARED.as_bytes(), b"end"), report(plain.as_bytes(), b"end"));
}

#[test]
fn the_dual_keeps_shares() {
    let once = dual(&table(SHARED.as_bytes())).unwrap();
    assert_eq!(once.branches, table(SHARED.as_bytes()).branches);
    let proved = sojimu::Table::read(SHARED.as_bytes()).unwrap().dual().unwrap();
    assert_eq!(Raw::from(&proved), Raw::of(&once));
    // The choice is the host's then.
    let talk = Talk { state: fresh(&once), second: once, proved };
    assert_eq!(talk.warning(0).unwrap().sender, Side::Host);
}

// Document 02, request 5: fewest moves in a failure

/// What both show of a device that does not fit: the moves, and the field that is high in the last one. Played on the machine
/// they show it, and where the tables are small, the machine is explored whole.
fn shown(device: &str, protocol: &str) -> (Vec<u16>, Option<usize>) {
    let read = |text: &str| (sojimu::Table::read(text.as_bytes()).unwrap(), table(text.as_bytes()));
    let ((proved, device), (proved_protocol, protocol)) = (read(device), read(protocol));
    let mut list = [0xEEEE; sojimu::LONGEST_LIST];
    let sojimu::Fitting::Fails { moves, high } = proved.fit(&proved_protocol, &mut list) else {
        panic!("it fits");
    };
    let mut wanted = [0xEEEE; sojimu::LONGEST_LIST];
    let high = high.map(|field| field as usize);
    assert_eq!(fit(&device, &protocol, &mut wanted), Answer::NoFit(moves, high));
    assert_eq!(list, wanted);
    assert!(shows_no_fit(&device, &protocol, &list[..moves], high));
    assert_eq!(search(&device, &protocol).fewest(), Some(moves));
    if device.branches.len() + protocol.branches.len() <= 30 {
        assert_eq!(explore(&device, &protocol).fewest, moves);
    }
    (list[..moves].to_vec(), high)
}

/// Have several lists as few moves?
fn several(device: &str, protocol: &str) -> bool {
    search(&table(device.as_bytes()), &table(protocol.as_bytes())).shown().unwrap().several
}

#[test]
fn a_short_way_that_is_written_last() {
    // Blamed for C after A and B, or for E after D.
    let device = "+{!A().+{!B().+{!C().end}},!D().+{!E().end}}";
    let protocol = "+{!A().+{!B().+{!X().end}},!D().+{!Y().end}}";
    assert_eq!(shown(device, protocol), (vec![3, 4], None));
    assert!(!several(device, protocol));
    // The host's, by the protocol's numbers: X and Y are not taken.
    let turned = |text: &str| text.replace('+', "&").replace('!', "?");
    assert_eq!(shown(&turned(device), &turned(protocol)), (vec![3, 4], None));
    // Both sides: A B C H, H not taken; or E F G, G blamed. E and G are the device's numbers, F is the protocol's.
    let device = "+{!A().&{?B().+{!C().&{?D().end}}},!E().&{?F().+{!G().end}}}";
    let protocol = "+{!A().&{?B().+{!C().&{?D().end,?H().end}}},!E().&{?F().+{!I().end}}}";
    assert_eq!(shown(device, protocol), (vec![4, 6, 6], None));
}

#[test]
fn sorts_that_differ_on_arrival() {
    // After A B (2, 2), where C is blamed by a third move; after D E (5, 5), which is jammed with the second.
    let device = "+{!A().+{!B().+{!C().end}},!D().+{!E().&{?F().end}}}";
    let protocol = "+{!A().+{!B().+{!X().end}},!D().+{!E().+{!G().end}}}";
    assert_eq!(shown(device, protocol), (vec![3, 4], None));
    assert!(!several(device, protocol));
    // The same, the jammed pair being the lower one: A B, not D E F.
    let device = "+{!A().+{!B().&{?C().end}},!D().+{!E().+{!F().end}}}";
    let protocol = "+{!A().+{!B().+{!C().end}},!D().+{!E().+{!G().end}}}";
    assert_eq!(shown(device, protocol), (vec![0, 1], None));
    // At an end, after a move of the host's: B, not A X.
    assert_eq!(shown("&{?A().&{?C().end},?B().end}", "&{?A().&{?X().end},?B().+{!D().end}}"), (vec![2], None));
}

#[test]
fn before_any_move() {
    for (device, protocol) in [("end", "+{!A().end}"), ("+{!A().end}", "&{?A().end}"), ("&{?A().end}", "end")] {
        assert_eq!(shown(device, protocol), (vec![], None));
        assert_eq!(search(&table(device.as_bytes()), &table(protocol.as_bytes())).ways, [Way::AtOnce]);
    }
}

#[test]
fn one_of_several_shortest_lists() {
    // A X and B X. The last move is made at the lowest pair: (1, 1), after A, and not (3, 3), after B.
    let device = "+{!A().+{!X().end},!B().+{!X().end}}";
    let protocol = "+{!A().+{!C().end},!B().+{!C().end}}";
    assert_eq!(shown(device, protocol), (vec![0, 1], None));
    assert!(several(device, protocol));
    // After B the device is in its first state again, where it says A or B: B A, B B and A X. Now the lowest pair is (0, 3), and
    // the lowest branch there A, so that the first move is not the lowest that there is.
    let device = "rec R.+{!A().+{!X().end},!B().R}";
    assert_eq!(shown(device, protocol), (vec![2, 0], None));
    assert!(several(device, protocol));
    // Of two pairs with the device's first state, (0, 1) after B and (0, 3) after A: B A; not B B, A A or A B.
    assert_eq!(shown("rec R.+{!A().R,!B().R}", "+{!B().+{!C().end},!A().+{!C().end}}"), (vec![1, 0], None));
    // C A C and C B C: A and B lead from (1, 1) to (0, 1), and A is the lower one.
    let (device, protocol) = ("rec R.+{!C().+{!A().R,!B().R}}", "+{!C().rec Q.+{!A().Q,!B().Q}}");
    assert_eq!(shown(device, protocol), (vec![0, 1, 0], None));
    assert!(several(device, protocol));
}

#[test]
fn both_ways_of_failing() {
    let ways = |device: &str, protocol: &str| search(&table(device.as_bytes()), &table(protocol.as_bytes())).ways;
    // A is forwarded and jams, B is blamed.
    let (device, protocol) = ("+{!A().end,!B().end}", "+{!A().&{?C().end}}");
    assert_eq!(shown(device, protocol), (vec![0], None));
    assert_eq!(ways(device, protocol), [Way::Arrival, Way::Blame]);
    // A C is forwarded and jams, B E is not taken.
    let (device, protocol) = ("&{?A().&{?C().end},?B().&{?C().end}}", "&{?A().&{?C().+{!D().end}},?B().&{?E().end}}");
    assert_eq!(shown(device, protocol), (vec![0, 1], None));
    assert_eq!(ways(device, protocol), [Way::Arrival, Way::NotTaken]);
    // With its number low the one message is forwarded and jams, with its number high it is blamed.
    let (device, protocol) = ("+{!A(int[0..9]).end}", "+{!A(int[0..8]).&{?C().end}}");
    assert_eq!(shown(device, protocol), (vec![0], Some(0)));
    assert_eq!(ways(device, protocol), [Way::Arrival, Way::Blame]);
}

#[test]
fn the_field_that_is_high() {
    let sends = |fields: &str| format!("+{{!A({fields}).end}}");
    let high = |device: &str, protocol: &str| shown(&sends(device), &sends(protocol)).1;
    assert_eq!(high("int[0..9],int[0..9]", "int[0..9],int[0..8]"), Some(1));
    // The first field that tells: by its high end, or by its low end.
    assert_eq!(high("int[0..9],int[0..9]", "int[0..8],int[1..9]"), Some(0));
    assert_eq!(high("int[0..9],int[0..9]", "int[1..9],int[0..8]"), None);
    assert_eq!(high("int[0..9],int[0..9]", "int[0..8],flag[0..1]"), Some(0));
    assert_eq!(high("int[0..9],int[0..9]", "text[0..8],int[0..8]"), None);
    // Another number of fields tells before any of them.
    assert_eq!(high("int[0..9]", "int[0..8],int[0..9]"), None);
    // Nothing of the range is allowed: its high end is above.
    assert_eq!(high("int[5..9]", "int[0..4]"), Some(0));
}

#[test]
fn moves_that_change_nothing_count() {
    // P, with Quit not allowed after the first Ask: Ask, Ok, Quit.
    let device = "rec X.+{!Ask(int[0..100]).&{?Ok().X},!Quit().end}";
    let protocol = "+{!Ask(int[0..100]).&{?Ok().+{!Ask(int[0..100]).&{?Ok().end}}},!Quit().end}";
    assert_eq!(shown(device, protocol), (vec![0, 1, 2], None));
    // Out of turn the host's Ok changes nothing: a list with it is longer.
    let ok = |text: &str| message::made(&table(text.as_bytes()).branches[1], None);
    let mut moves: Vec<Move> = [0, 2].map(|b| message::made(&table(device.as_bytes()).branches[b], None)).map(by_device).into();
    moves.insert(1, Move { side: Side::Host, message: ok(protocol) });
    moves.insert(0, Move { side: Side::Host, message: ok(protocol) });
    let (left, forwarded) = machine::play_all(&table(device.as_bytes()), &table(protocol.as_bytes()), &moves);
    assert_eq!((left.standing, forwarded), (machine::Standing::DeviceBlamed, vec![false, true, true, false]));
}

fn by_device(message: message::Message) -> Move {
    Move { side: Side::Device, message }
}

/// States in a cycle, each with A to the next and what else it has, from the outermost to the innermost.
fn cycle(more: &[&str]) -> String {
    let open = "+{!A().".repeat(more.len());
    let rest: String = more.iter().rev().map(|more| format!("{more}}}")).collect();
    format!("rec X.{open}X{rest}")
}

#[test]
fn lists_of_a_hundred_moves_and_more() {
    // The device says Z in the last of its 14 states; the protocol allows it in all but the last of its 15, and both begin anew
    // with it. They are in these two states after a number of moves that is one less than a multiple of 14 and of 15: first 209.
    let (mut device, mut protocol) = ([""; 14], [",!Z().X"; 15]);
    (device[13], protocol[14]) = (",!Z().X", "");
    let wanted: Vec<u16> = (0..209).map(|i| i % 14).chain([14]).collect();
    assert_eq!(shown(&cycle(&device), &cycle(&protocol)), (wanted, None));
    assert!(!several(&cycle(&device), &cycle(&protocol)));
    // Of 9 and 13: one less than 117. Z leads to an end and a choice then, and V to the device's first state and one that only
    // allows R, which is a move more. Elsewhere Z leads to ends, and with V both begin anew.
    let (mut device, mut protocol) = ([""; 9], [",!V().X,!Z().end"; 13]);
    device[8] = ",!V().X,!Z().end";
    protocol[12] = ",!V().+{!R().X},!Z().&{?W().end}";
    let wanted: Vec<u16> = (0..116).map(|i| i % 9).chain([10]).collect();
    assert_eq!(shown(&cycle(&device), &cycle(&protocol)), (wanted, None));
    // In its first state, and the protocol in its sixth: 18 is twice 9, and 5 more than 13.
    let (mut device, mut protocol) = ([""; 9], [",!Z().X"; 13]);
    (device[0], protocol[5]) = (",!Z().X", "");
    let wanted: Vec<u16> = (0..18).map(|i| i % 9).chain([9]).collect();
    assert_eq!(shown(&cycle(&device), &cycle(&protocol)), (wanted, None));
}

#[test]
fn reports_of_the_fewest_moves() {
    let same = |protocol: &str, device: &str, wanted: &str| {
        assert_eq!(String::from_utf8(report(protocol.as_bytes(), device.as_bytes())).unwrap(), wanted);
        assert_eq!(String::from_utf8(sojimu::report(protocol.as_bytes(), device.as_bytes())).unwrap(), wanted);
    };
    let device = "+{!A().+{!B().+{!C().end}},!D().+{!E().&{?F().end}}}";
    let protocol = "+{!A().+{!B().+{!X().end}},!D().+{!E().+{!G().end}}}";
    same(protocol, device, "no fit 2\nin D\nin E\njammed\n");
    let device = "+{!A().&{?B().+{!C().&{?D().end}}},!E().&{?F().+{!G().end}}}";
    let protocol = "+{!A().&{?B().+{!C().&{?D().end,?H().end}}},!E().&{?F().+{!I().end}}}";
    same(protocol, device, "no fit 3\nin E\nout F\nin G\nblamed\n");
    let (mut device, mut protocol) = ([""; 14], [",!Z().X"; 15]);
    (device[13], protocol[14]) = (",!Z().X", "");
    let wanted = format!("no fit 210\n{}in Z\nblamed\n", "in A\n".repeat(209));
    same(&cycle(&protocol), &cycle(&device), &wanted);
}

// Document 02, request 6: texts must be UTF-8

/// The question that both refuse the bytes by, or 0.
fn refusal(bytes: &[u8]) -> u8 {
    let question = message::read(bytes).err().unwrap_or(0);
    assert_eq!(sojimu::message::refusal(bytes).map_or(0, |no| no.0), question, "{bytes:02X?}");
    question
}

/// A message of a label and these texts.
fn saying(label: &[u8], texts: &[&[u8]]) -> Vec<u8> {
    let fields = texts.iter().map(|text| (Kind::Text, text.len() as i64)).collect();
    message::Message { label: label_of(label), fields, texts: texts.concat() }.bytes()
}

/// A number in the form of so many bytes, if it has so many bits at the most: UTF-8 as it would be without RFC 3629's limits.
fn form(number: u32, length: usize) -> Option<Vec<u8>> {
    let (lead, bits) = [(0x00, 7), (0xC0, 11), (0xE0, 16), (0xF0, 21)][length - 1];
    let tail = |place: usize| (number >> (6 * place)) as u8 & 0x3F | 0x80;
    let first = lead | (number >> (6 * (length - 1))) as u8;
    (number >> bits == 0).then(|| std::iter::once(first).chain((0..length - 1).rev().map(tail)).collect())
}

#[test]
fn every_form_of_every_number() {
    // The shortest form of a number up to 10FFFF that is no surrogate, and no other.
    let (mut formed, mut not) = (0, 0);
    for number in 0..0x20_0000 {
        let character = char::from_u32(number).map(String::from);
        for text in (1..=4).filter_map(|length| form(number, length)) {
            let well_formed = character.as_ref().is_some_and(|character| character.as_bytes() == text);
            assert_eq!(refusal(&saying(b"Say", &[&text])), if well_formed { 0 } else { 22 }, "{number:X}");
            *(if well_formed { &mut formed } else { &mut not }) += 1;
        }
    }
    assert_eq!(formed, 0x11_0000 - 0x800);
    assert_eq!(formed + not, 0x80 + 0x800 + 0x1_0000 + 0x20_0000);
}

#[test]
fn every_text_is_asked_by_itself() {
    let name = "Größe €, \u{10FFFF}\0\u{FEFF}\u{FFFE}\u{FFFF}\u{1FFFE}".as_bytes();
    assert_eq!(refusal(&saying(b"Say", &[b"", name, b"", name])), 0);
    for cut in 0..=name.len() {
        let (one, other) = name.split_at(cut);
        let whole = std::str::from_utf8(one).is_ok();
        assert_eq!(refusal(&saying(b"Say", &[one, other])), if whole { 0 } else { 22 }, "{cut}");
        assert_eq!(refusal(&saying(b"Say", &[one, b"", other])), if whole { 0 } else { 22 }, "{cut}");
    }
    for place in 0..4 {
        let mut texts = [name; 4];
        texts[place] = b"\xC3(";
        assert_eq!(refusal(&saying(b"Say", &texts)), 22, "{place}");
    }
    // A text of one kind of bytes alone; numbers are no texts.
    assert_eq!(refusal(&saying(b"Say", &[&[0xFF; 64]])), 22);
    assert_eq!(refusal(b"Say\0\0\0\0\0\x01\0\xFF\xFF\xC3("), 0);
}

const NAMED: &str = "+{!Say(text[1..2]).&{?Ok(text[0..64]).end},!Quit().end}";

#[test]
fn lengths_are_still_bytes() {
    let mut talk = Talk::begin(NAMED, 200).unwrap();
    assert_eq!(refusal(b"Say\0\0\0\0\0\x01\x01\0\0\0\x01\xC3\xA9"), 15);
    assert_eq!(talk.say(Side::Device, &saying(b"Say", &["é".as_bytes()])), Verdict::Forwarded);
    // 21 characters of three bytes and one of one are 64; one more of three is above what a number may be.
    let long = "€".repeat(21) + ".";
    assert_eq!(refusal(&saying(b"Ok", &[("€".repeat(22)).as_bytes()])), 14);
    assert_eq!(talk.say(Side::Host, &saying(b"Ok", &[long.as_bytes()])), Verdict::Forwarded);
    let mut talk = Talk::begin(NAMED, 200).unwrap();
    let blamed = Verdict::Blamed(Side::Device, Reason::Range(0));
    assert_eq!(talk.say(Side::Device, &saying(b"Say", &["€".as_bytes()])), blamed);
}

#[test]
fn a_step_asks_22_after_15_and_before_16() {
    let mut talk = Talk::begin(NAMED, 200).unwrap();
    let before = talk.state;
    let broken = saying(b"Say", &[b"\xFF"]);
    let longer = [&broken[..], b"\xFF"].concat();
    assert_eq!(talk.say(Side::Host, &broken), Verdict::Refused(12));
    assert_eq!(talk.say(Side::Device, &saying(b"say", &[b"\xFF"])), Verdict::Refused(13));
    assert_eq!(talk.say(Side::Device, &saying(b"Say", &[&[0xFF; 65]])), Verdict::Refused(14));
    assert_eq!(talk.say(Side::Device, &longer), Verdict::Refused(15));
    assert_eq!(talk.say(Side::Device, &broken), Verdict::Refused(22));
    // Before it is judged: no such label, other kinds, out of range.
    assert_eq!(talk.say(Side::Device, &saying(b"Nope", &[b"\xFF"])), Verdict::Refused(22));
    assert_eq!(talk.say(Side::Device, &saying(b"Quit", &[b"\xFF"])), Verdict::Refused(22));
    assert_eq!(talk.say(Side::Device, &saying(b"Say", &[b"abc\xFF"])), Verdict::Refused(22));
    assert_eq!(talk.state, before);
    // Without room.
    for room in [0, broken.len() - 1] {
        let (mut out, mut state) = (vec![0xEE; room], before);
        assert_eq!(step(&talk.second, &mut state, Side::Device, &broken, &mut out), Verdict::Refused(22));
        let mut codes = state_codes(&before);
        let told = talk.proved.step(&mut codes, sojimu::Party::Device, &broken, &mut out);
        assert_eq!(told, sojimu::Verdict::Refused(Question(22)));
        assert_eq!((out, state, codes), (vec![0xEE; room], before, state_codes(&before)));
    }
    // After it the conversation goes on.
    assert_eq!(talk.say(Side::Device, &saying(b"Say", &[b"\x7F"])), Verdict::Forwarded);
}

#[test]
fn a_batch_stops_at_22_again_and_again() {
    let mut talk = Talk::begin("rec X.+{!Say(text[0..64]).&{?Ok(text[0..64]).X}}", 200).unwrap();
    let (said, ok) = (saying(b"Say", &["é".as_bytes()]), saying(b"Ok", &[b""]));
    let broken = saying(b"Say", &[b"\xE2\x82"]);
    let device = [&said[..], &broken, &said].concat();
    let refused = Some(Verdict::Refused(22));
    let (used, answered) = (said.len(), ok.len());
    let wanted =
        Batch { used_device: used, used_host: answered, written_to_device: answered, written_to_host: used, last: refused };
    assert_eq!(talk.batch(&device, &ok), wanted);
    let nothing = Batch { used_device: 0, used_host: 0, written_to_device: 0, written_to_host: 0, last: refused };
    let left = talk.state;
    for more in 0..3 {
        let device = [&device[used..], &said.repeat(more)].concat();
        assert_eq!((talk.batch(&device, &ok.repeat(more)), talk.state), (nothing, left));
    }
    // The host's, too.
    assert_eq!(talk.batch(&said, &saying(b"Ok", &[b"\x80"])).last, refused);
    assert_eq!((talk.state.position, talk.state.standing), (1, Standing::Running));
}

#[test]
fn the_due_part_is_cut_by_length_as_before() {
    let talk = Talk::begin(NAMED, 200).unwrap();
    let broken = saying(b"Say", &[b"\xC3"]);
    let length = broken.len();
    let waiting = [&broken[..], b"\xA9"].concat();
    assert_eq!(due(&talk.second, &talk.state, &waiting, b""), Part { side: Side::Device, length });
    assert_eq!(talk.proved.due(&state_codes(&talk.state), &waiting, b"").message, broken);
    assert_eq!(sojimu::message::front(&waiting), Ok(length));
    assert!(!sojimu::message::broken(&waiting) && !message::broken(&waiting));
}

#[test]
fn what_is_made_is_well_formed() {
    let text = "+{!Say(text[0..64],int[-5..5],text[7..9],flag[0..1]).end}";
    for high in [None, Some(0), Some(1), Some(2), Some(3)] {
        let (mut one, mut other) = ([0; 300], [0; 300]);
        let length = message::make(&table(text.as_bytes()), 0, high, &mut one).unwrap();
        let proved = sojimu::Table::read(text.as_bytes()).unwrap();
        assert_eq!(proved.make(0, high.map(|field| field as u32), &mut other), Ok(length));
        assert_eq!((one, refusal(&one[..length])), (other, 0));
    }
}

#[test]
fn a_move_is_a_well_formed_message() {
    let text = b"+{!Say(text[1..9]).&{?Ok(text[1..9]).end}}".as_slice();
    let says = |label: &[u8], text: &[u8]| {
        let fields = vec![(Kind::Text, text.len() as i64)];
        message::Message { label: label_of(label), fields, texts: text.into() }
    };
    let of = |side, message| Move { side, message };
    let moves = [
        of(Side::Device, says(b"Say", b"\xFF")),
        of(Side::Device, says(b"Say", "é".as_bytes())),
        // One that the protocol forbids would blame the host.
        of(Side::Host, says(b"Nope", b"\xFF")),
        of(Side::Host, says(b"Ok", b"\xED\xA0\x80")),
        of(Side::Host, says(b"Ok", "é".as_bytes())),
    ];
    let (left, forwarded) = machine::play_all(&table(text), &table(text), &moves);
    assert_eq!(left, Machine { device: 2, position: 2, standing: machine::Standing::Running });
    assert_eq!(forwarded, [false, true, false, false, true]);
    let nope = of(Side::Host, says(b"Nope", b"?"));
    let (left, _) = machine::play_all(&table(text), &table(text), &[moves[1].clone(), nope]);
    assert_eq!(left.standing, machine::Standing::HostBlamed);
}

// Document 02, request 7: edition two and the early message

/// A text under each edition: by its opening, and without one, which is 1.
fn editions(text: &str) -> [(String, u32); 3] {
    [(text.to_string(), 1), (format!("edition 1 {text}"), 1), (format!("edition 2 {text}"), 2)]
}

/// The edition of a text, or the refusal, as both have it.
fn edition(text: &[u8]) -> Result<u32, (u8, usize)> {
    let second = read(text).map(|table| table.edition);
    let proved = sojimu::Table::read(text).map(|table| table.edition).map_err(|no| (no.question.0, no.at));
    assert_eq!(proved, second);
    second
}

#[test]
fn a_text_may_open_with_its_edition() {
    for text in ["end", "rec X.+{!A().X}", "+{!A()@1000.end}"] {
        for (opened, number) in editions(text) {
            assert_eq!(edition(opened.as_bytes()), Ok(number), "{opened}");
            // But for the edition it is the same table.
            assert_eq!(Table { edition: 1, ..table(opened.as_bytes()) }, table(text.as_bytes()));
        }
    }
    assert_eq!(edition(b"edition 2end"), Ok(2));
    assert_eq!(edition(b"\n edition\n\n1 end "), Ok(1));
    // Question 2 knows the word alone, and numbers are as they were.
    assert_eq!(edition(b"edition1 end"), Err((2, 0)));
    assert_eq!(edition(b"edition 02 end"), Err((2, 8)));
    assert_eq!(edition(b"Edition 2 end"), Err((4, 0)));
    // The grammar has it at the opening, once, with its number, and a type after it.
    assert_eq!(edition(b"edition end"), Err((3, 8)));
    assert_eq!(edition(b"edition"), Err((3, 7)));
    assert_eq!(edition(b"edition 2"), Err((3, 9)));
    assert_eq!(edition(b"edition 2 edition 2 end"), Err((3, 10)));
    assert_eq!(edition(b"rec X.edition 2 end"), Err((3, 6)));
    assert_eq!(edition(b"end edition 2"), Err((3, 4)));
}

#[test]
fn any_other_edition_number_is_23() {
    let digits = "1".repeat(5000);
    for number in ["0", "3", "-1", "-2", "12", "21", "4294967297", "18446744073709551618", &digits] {
        assert_eq!(edition(format!("edition {number} end").as_bytes()), Err((23, 8)), "{number}");
        // Ahead of what is asked at the tokens behind it.
        assert_eq!(edition(format!("edition {number} rec X.X").as_bytes()), Err((23, 8)), "{number}");
    }
    assert_eq!(edition(b"edition 2 rec X.X"), Err((5, 16)));
}

#[test]
fn question_9_asks_for_the_edition() {
    for (number, sound) in [(0, false), (1, true), (2, true), (3, false), (0x101, false), (u32::MAX, false)] {
        let raw = Raw { edition: number, ..Raw::of(&table(P)) };
        let proved = sojimu::Table::from(&raw);
        assert_eq!((raw.sound(), proved.sound(), proved.sound_at(2)), (sound, sound, sound), "{number}");
        let question = if sound { None } else { Some(Question(9)) };
        let begun = sojimu::Table::from(&Raw::of(&table(P))).fresh(200).unwrap();
        assert_eq!((proved.dual().err(), proved.fresh(200).err()), (question, question));
        assert_eq!((proved.turn(&begun).err(), proved.make(1, None, &mut [0; 9]).err()), (question, question));
        let mut list = [7; 9];
        let fits = question.map_or(sojimu::Fitting::Fits { pairs: 3 }, sojimu::Fitting::Refused);
        assert_eq!((proved.fit(&proved, &mut list), list), (fits, [7; 9]));
    }
    let dual = dual(&table(b"edition 2 +{!A().end}")).unwrap();
    assert_eq!(dual, table(b"edition 2 &{?A().end}"));
    assert_eq!(sojimu::Table::read(b"edition 2 +{!A().end}").unwrap().dual().unwrap().edition, 2);
}

/// P under edition 2, after some Asks and Oks.
fn second_edition(messages: &[&[u8]]) -> Talk {
    let mut talk = Talk::begin(&format!("edition 2 {}", String::from_utf8_lossy(P)), 200).unwrap();
    for (i, message) in messages.iter().enumerate() {
        assert_eq!(talk.say(if i % 2 == 0 { Side::Device } else { Side::Host }, message), Verdict::Forwarded);
    }
    talk
}

#[test]
fn under_2_an_early_message_blames_its_sender() {
    let ok = bare(b"Ok");
    let mut talk = second_edition(&[]);
    assert_eq!(talk.say(Side::Host, &ok), Verdict::Blamed(Side::Host, Reason::Early));
    assert_eq!(Reason::Early.number(), 4);
    // For ever, and nothing was counted.
    assert_eq!(talk.state, at(&talk.second, 0, Standing::HostBlamed));
    assert_eq!(talk.say(Side::Device, &ASK_100), Verdict::Refused(10));
    let mut talk = second_edition(&[&ASK_100, &ok, &ASK_100]);
    let before = talk.state;
    assert_eq!(talk.say(Side::Device, &ASK_100), Verdict::Blamed(Side::Device, Reason::Early));
    assert_eq!(talk.state, State { standing: Standing::DeviceBlamed, ..before });
    // Under 1 it is 12 still.
    let mut talk = Talk::begin("edition 1 +{!A().&{?B().end}}", 200).unwrap();
    assert_eq!(talk.say(Side::Host, &bare(b"B")), Verdict::Refused(12));
}

#[test]
fn reason_4_is_ahead_of_the_others() {
    // What the other side may say; reasons 1, 2 and 3.
    for message in [&ASK_100[..], &bare(b"Quit"), &bare(b"Nope"), &bare(b"Ask"), &ask(101)] {
        assert_eq!(second_edition(&[]).say(Side::Host, message), Verdict::Blamed(Side::Host, Reason::Early));
    }
    // In turn all is as under 1.
    let judged = |message: &[u8]| second_edition(&[]).say(Side::Device, message);
    assert_eq!(judged(&bare(b"Ok")), Verdict::Blamed(Side::Device, Reason::Label));
    assert_eq!(judged(&bare(b"Ask")), Verdict::Blamed(Side::Device, Reason::Kinds));
    assert_eq!(judged(&ask(101)), Verdict::Blamed(Side::Device, Reason::Range(0)));
    assert_eq!(judged(&ASK_100), Verdict::Forwarded);
}

#[test]
fn step_12_gives_way_to_the_message_questions_and_16() {
    let early = |message: &[u8], room: usize| {
        let mut talk = second_edition(&[&ASK_100]);
        let (mut codes, mut out) = (state_codes(&talk.state), vec![0xEE; room]);
        let told = talk.proved.step(&mut codes, sojimu::Party::Device, message, &mut out);
        let verdict = step(&talk.second, &mut talk.state, Side::Device, message, &mut vec![0; room]);
        assert_eq!((told, codes, out), (compare::verdict(verdict), state_codes(&talk.state), vec![0xEE; room]));
        verdict
    };
    let broken = saying(b"Say", &[b"\xFF"]);
    assert_eq!(early(b"", 0), Verdict::Refused(13));
    assert_eq!(early(b"Ask\0\0\0\0\0\x01\x03\0\0\0\0", 0), Verdict::Refused(14));
    assert_eq!(early(b"Ask\0\0\0\0\0\x01\0\0\0\0\0\0", 0), Verdict::Refused(15));
    assert_eq!(early(&broken, broken.len() - 1), Verdict::Refused(22));
    assert_eq!(early(&ASK_100, 13), Verdict::Refused(16));
    assert_eq!(early(&ASK_100, 14), Verdict::Blamed(Side::Device, Reason::Early));
    // 9, 10 and 11 come before all of them; at an end nobody is early.
    let mut talk = second_edition(&[&bare(b"Quit")]);
    assert_eq!(talk.say(Side::Host, b""), Verdict::Refused(11));
    assert_eq!(talk.say(Side::Host, &bare(b"Ok")), Verdict::Refused(11));
    talk.state.n[0] = 7;
    assert_eq!(talk.say(Side::Host, &bare(b"Ok")), Verdict::Refused(9));
}

#[test]
fn an_early_message_is_not_due() {
    let ok = bare(b"Ok");
    let mut talk = second_edition(&[]);
    assert_eq!(due(&talk.second, &talk.state, b"", &ok), Part { side: Side::Device, length: 0 });
    let none = Batch { used_device: 0, used_host: 0, written_to_device: 0, written_to_host: 0, last: None };
    assert_eq!(talk.batch(&ASK_100[..13], &ok.repeat(2)), none);
    let two =
        Batch { used_device: 14, used_host: 9, written_to_device: 9, written_to_host: 14, last: Some(Verdict::Forwarded) };
    // The second Ok waits, and who takes it by a step blames the host.
    assert_eq!(talk.batch(&ASK_100, &ok.repeat(2)), two);
    assert_eq!(talk.say(Side::Host, &ok), Verdict::Blamed(Side::Host, Reason::Early));
    assert_eq!(talk.batch(&ASK_100, &ok).last, Some(Verdict::Refused(10)));
}

#[test]
fn the_machine_blames_the_host_likewise() {
    use machine::Standing::{HostBlamed, Running};
    use Side::{Device, Host};
    for ((protocol, number), early) in editions("+{!A().&{?B().end}}").into_iter().zip([Running, Running, HostBlamed]) {
        for (device, _) in editions("+{!A().&{?B().end}}") {
            let (device, protocol) = (device.as_bytes(), protocol.as_bytes());
            // Whichever message it is, out of turn; the device's edition is not looked at.
            for branch in [0, 1] {
                assert_eq!(played(device, protocol, &[(Host, protocol, branch, None)]), (early, vec![false]), "{number}");
            }
            // The device never speaks out of turn: the move changes nothing.
            let moves = [(Device, device, 0, None), (Device, device, 0, None), (Host, protocol, 1, None)];
            assert_eq!(played(device, protocol, &moves), (Running, vec![true, false, true]));
            // At an end a host move still changes nothing.
            let moves = [(Device, device, 0, None), (Host, protocol, 1, None), (Host, protocol, 1, None)];
            assert_eq!(played(device, protocol, &moves), (Running, vec![true, true, false]));
        }
    }
    let end = table(b"edition 2 end");
    let (left, _) = machine::play_all(&end, &end, &[Move { side: Host, message: message::made(&table(P).branches[1], None) }]);
    assert_eq!(left.standing, Running);
}

#[test]
fn fit_looks_at_the_protocols_edition_only() {
    let pairs =
        [("end", "rec X.+{!A().X}"), ("+{!A(int[0..9]).end}", "+{!A(int[0..8]).end}"), ("&{?A().end}", "&{?A().end,?B().end}")];
    for (device, protocol) in pairs {
        let wanted = shown(device, protocol);
        for (device, _) in editions(device) {
            for (protocol, _) in editions(protocol) {
                assert_eq!(shown(&device, &protocol), wanted);
                let told = sojimu::report(protocol.as_bytes(), device.as_bytes());
                assert_eq!(told, report(protocol.as_bytes(), device.as_bytes()));
            }
        }
    }
    // A device that passes is never blamed or jammed, under either.
    for (device, _) in editions(&String::from_utf8_lossy(PINGS)) {
        for (protocol, _) in editions(&String::from_utf8_lossy(PINGS)) {
            let (device, protocol) = (table(device.as_bytes()), table(protocol.as_bytes()));
            assert_eq!(fit(&device, &protocol, &mut [0; 9]), Answer::Fits(3));
            let found = explore(&device, &protocol);
            assert!(found.safe && found.pairs == 3);
        }
    }
}

// Device and monitor together

/// The machine after moves of made messages: side, table of the branch, branch, high field.
fn played(device: &[u8], protocol: &[u8], moves: &[(Side, &[u8], usize, Option<usize>)]) -> (machine::Standing, Vec<bool>) {
    let moves: Vec<Move> = moves
        .iter()
        .map(|&(side, text, branch, high)| Move { side, message: message::made(&table(text).branches[branch], high) })
        .collect();
    let (left, forwards) = machine::play_all(&table(device), &table(protocol), &moves);
    (left.standing, forwards)
}

#[test]
fn the_machine() {
    use machine::Standing::{DeviceBlamed, HostBlamed, Jammed, Running};
    use Side::{Device, Host};
    let busy = b"+{!Ping().&{?Busy().end}}".as_slice();
    assert_eq!(played(busy, PINGS, &[(Device, busy, 0, None), (Host, PINGS, 1, None)]), (Jammed, vec![true, false]));
    // A host move that the protocol forbids blames the host, whatever the device takes.
    assert_eq!(played(busy, PINGS, &[(Device, busy, 0, None), (Host, busy, 1, None)]), (HostBlamed, vec![true, false]));
    // Out of turn, and what the device has not: nothing changes.
    assert_eq!(played(busy, PINGS, &[(Host, PINGS, 1, None), (Device, PINGS, 2, None)]), (Running, vec![false, false]));
    // The device is blamed for what the protocol forbids, and nothing changes afterwards.
    let wide = b"rec X.+{!Ask(int[0..101]).&{?Ok().X},!Quit().end}".as_slice();
    let moves = [(Device, wide, 0, Some(0)), (Device, wide, 0, None)];
    assert_eq!(played(wide, P, &moves), (DeviceBlamed, vec![false, false]));
    // Jammed by the move that leads to states that differ in sort.
    let over = b"+{!Ping().end}".as_slice();
    assert_eq!(played(over, PINGS, &[(Device, over, 0, None)]), (Jammed, vec![true]));
}

// The fit check

#[test]
fn the_list_is_long_enough() {
    assert_eq!(fit(&table(P), &table(P), &mut [0; 8]), Answer::Refused(17));
    assert_eq!(fit(&table(P), &table(P), &mut []), Answer::Refused(17));
    assert_eq!(fit(&table(b"end"), &table(b"end"), &mut [0; 1]), Answer::Fits(1));
}

#[test]
fn containment_turns_round_with_the_direction() {
    let sends = |range: &str| table(format!("+{{!A(int[{range}]).end}}").as_bytes());
    let takes = |range: &str| table(format!("&{{?A(int[{range}]).end}}").as_bytes());
    let mut list = [0; 4];
    assert_eq!(fit(&sends("1..8"), &sends("0..9"), &mut list), Answer::Fits(2));
    assert_eq!(fit(&sends("0..9"), &sends("1..9"), &mut list), Answer::NoFit(1, None));
    assert_eq!(fit(&sends("0..9"), &sends("0..8"), &mut list), Answer::NoFit(1, Some(0)));
    assert_eq!(fit(&takes("0..9"), &takes("1..8"), &mut list), Answer::Fits(2));
    assert_eq!(fit(&takes("1..9"), &takes("0..9"), &mut list), Answer::NoFit(1, None));
    assert_eq!(fit(&takes("0..8"), &takes("0..9"), &mut list), Answer::NoFit(1, Some(0)));
}

#[test]
fn loops_fit() {
    let mut list = [0; 99];
    assert_eq!(fit(&table(b"rec X.+{!Ping().&{?Pong().X}}"), &table(PINGS), &mut list), Answer::Fits(2));
}

// The report program

#[test]
fn the_reports() {
    assert_eq!(report(PINGS, b"+{!Ping().&{?Busy().end}}"), b"no fit 2\nin Ping\nout Pong\njammed\n");
    assert_eq!(report(PINGS, b"+{!Quit().end}"), b"fit 2\n");
    assert_eq!(report(b"", b"end"), b"protocol refused 3 at 0\n");
    assert_eq!(report(b"end", b""), b"device refused 3 at 0\n");
    assert_eq!(report(b"x", b"y"), b"protocol refused 2 at 0\n");
    assert_eq!(report(P, b"rec X.+{!Ask(int[0..101]).&{?Ok().X}}"), b"no fit 1\nin Ask high 0\nblamed\n");
    assert_eq!(report(P, b"end"), b"no fit 0\njammed\n");
}

#[test]
fn files_that_cannot_be_opened_are_empty_texts() {
    let nowhere = std::path::Path::new(env!("CARGO_MANIFEST_DIR")).join("no such directory");
    assert_eq!(report_in(&nowhere), b"protocol refused 3 at 0\n");
}
