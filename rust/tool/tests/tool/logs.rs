//! Recorded conversations, replayed.

use super::folder::{self, Folder, Run};
use super::xml;
use sojimu::message::{encode, label, Field};
use sojimu::LONGEST_MESSAGE;
use sojimu_checks::second::random::{conversation, damaged_message, legal_text, Random};
use sojimu_checks::second::{message, monitor, text};
use sojimu_tool::{run, World};
use std::cell::RefCell;
use std::ffi::OsString;
use std::io::{self, BufWriter, ErrorKind, Read, Write};
use std::rc::Rc;
use std::time::Duration;
use Field::{Flag, Int, Text};

/// States 0 (line 1), 1 (line 2), 2 (line 5, an end).
const ASK: &str = "rec X.+{
    !Ask(int[0..100], text[0..8]).&{
        ?Ok(flag[0..0]).X
    },
    !Quit().end
}
";

fn entry(side: u8, name: &str, fields: &[Field]) -> Vec<u8> {
    let mut bytes = vec![side; 1 + LONGEST_MESSAGE];
    let length = encode(label(name).unwrap(), fields, &mut bytes[1..]).unwrap();
    bytes.truncate(1 + length);
    bytes
}

fn device(name: &str, fields: &[Field]) -> Vec<u8> {
    entry(0, name, fields)
}

fn host(name: &str, fields: &[Field]) -> Vec<u8> {
    entry(1, name, fields)
}

/// An entry of 25 bytes.
fn ask() -> Vec<u8> {
    device("Ask", &[Int(7), Text(b"Grade")])
}

/// What is said of a log that comes by standard input.
fn heard(protocol: &str, log: &[u8]) -> Run {
    Folder::with(&[("protocol.txt", protocol.as_bytes())]).run_on(&["replay", "protocol.txt", "-"], log)
}

/// The same of a log in a file; all of it is as given.
fn replayed(protocol: &str, log: &[Vec<u8>], status: u8, out: &str) {
    let folder = Folder::with(&[("protocol.txt", protocol.as_bytes()), ("some.log", &log.concat())]);
    let run = folder.run(&["replay", "protocol.txt", "some.log"]);
    let out = out.strip_prefix('\n').unwrap();
    assert_eq!((run.status, run.out.as_str(), run.err.as_str()), (status, out, ""));
    assert_eq!(heard(protocol, &log.concat()), run);
}

/// What is said of the last entry, behind its message.
fn last(protocol: &str, log: &[Vec<u8>]) -> String {
    let out = heard(protocol, &log.concat()).out;
    let start = format!("{:5}  ", log.len());
    let line = out.lines().find(|line| line.starts_with(&start)).unwrap();
    line[15..].split_once("  ").unwrap().1.trim_start().to_string()
}

#[test]
fn all_forwarded() {
    let log = [ask(), host("Ok", &[Flag(false)]), device("Ask", &[Int(100), Text(b"")])];
    let out = r#"
    1  device  Ask(7, "Grade")                   forwarded
    2  host    Ok(false)                         forwarded
    3  device  Ask(100, "")                      forwarded

entries    3
forwarded  3: 2 of the device, 1 of the host
stands     at state 1 (line 2), the host's turn
"#;
    replayed(ASK, &log, 0, out);
}

#[test]
fn reasons_of_the_device() {
    let no_label = "device blamed, reason 1: the protocol has no Say there, but Ask or Quit (line 1)";
    assert_eq!(last(ASK, &[device("Say", &[])]), no_label);
    let kinds = "device blamed, reason 2: its fields are (int, flag), and the protocol has (int[0..100], text[0..8]) (line 2)";
    assert_eq!(last(ASK, &[device("Ask", &[Int(1), Flag(true)])]), kinds);
    let count = "device blamed, reason 2: its fields are (int), and the protocol has () (line 5)";
    assert_eq!(last(ASK, &[device("Quit", &[Int(1)])]), count);
    let range = "device blamed, reason 3: field 0 is -1, and the protocol has int[0..100] (line 2)";
    assert_eq!(last(ASK, &[device("Ask", &[Int(-1), Text(b"")])]), range);
    let long = "device blamed, reason 3: field 1 is a text of 9 bytes, and the protocol has text[0..8] (line 2)";
    assert_eq!(last(ASK, &[device("Ask", &[Int(1), Text(b"Newsprint")])]), long);
    let early = "device blamed, reason 4: it is the other side's turn, and under edition 2 nobody speaks out of turn";
    assert_eq!(last(&format!("edition 2 {ASK}"), &[ask(), ask()]), early);
}

#[test]
fn reasons_of_the_host() {
    let no_label = "host blamed, reason 1: the protocol has no Quit there, but Ok (line 2)";
    assert_eq!(last(ASK, &[ask(), host("Quit", &[])]), no_label);
    let kinds = "host blamed, reason 2: its fields are (), and the protocol has (flag[0..0]) (line 3)";
    assert_eq!(last(ASK, &[ask(), host("Ok", &[])]), kinds);
    let range = "host blamed, reason 3: field 0 is true, and the protocol has flag[0..0] (line 3)";
    assert_eq!(last(ASK, &[ask(), host("Ok", &[Flag(true)])]), range);
    let early = "host blamed, reason 4: it is the other side's turn, and under edition 2 nobody speaks out of turn";
    assert_eq!(last(&format!("edition 2 {ASK}"), &[host("Ok", &[Flag(false)])]), early);
}

#[test]
fn refused_after_a_blame() {
    let log = [ask(), host("No", &[]), host("Ok", &[Flag(false)]), ask()];
    let out = r#"
    1  device  Ask(7, "Grade")                   forwarded
    2  host    No()                              host blamed, reason 1: the protocol has no No there, but Ok (line 2)
    3  host    Ok(false)                         refused by question 10, is the standing running? The host was blamed at entry 2.
    4  device  Ask(7, "Grade")                   refused by question 10, is the standing running? The host was blamed at entry 2.

entries    4
forwarded  1: 1 of the device, 0 of the host
refused    2 by question 10, is the standing running?
blamed     the host at entry 2, reason 1: the protocol has no No there, but Ok (line 2)
stands     at state 1 (line 2), stopped by the blame
"#;
    replayed(ASK, &log, 1, out);
}

#[test]
fn refused_after_the_end() {
    let log = [device("Quit", &[]), host("Ok", &[Flag(false)])];
    let out = "
    1  device  Quit()                            forwarded
    2  host    Ok(false)                         refused by question 11, is the position not an end? The conversation ended with entry 1.

entries    2
forwarded  1: 1 of the device, 0 of the host
refused    1 by question 11, is the position not an end?
stands     at state 2 (line 5), the conversation has ended
";
    replayed(ASK, &log, 1, out);
    let none = "refused by question 11, is the position not an end? The protocol has no message at all.";
    assert_eq!(last("end", &[ask()]), none);
}

/// Two of the host's come early, and once more in its turn; a text is broken by its last byte.
#[test]
fn refused_and_gone_on() {
    let (ok, mut broken) = (host("Ok", &[Flag(false)]), ask());
    *broken.last_mut().unwrap() = 0xC3;
    let log = [ok.clone(), broken, ask(), ask(), ok.clone(), ok];
    let out = r#"
    1  host    Ok(false)                         refused by question 12, is it this side's turn? It is the device's.
    2  device  Ask(7, "Grad\xC3")                refused by question 22, is every text well-formed UTF-8? Field 1 is not.
    3  device  Ask(7, "Grade")                   forwarded
    4  device  Ask(7, "Grade")                   refused by question 12, is it this side's turn? It is the host's.
    5  host    Ok(false)                         forwarded
    6  host    Ok(false)                         refused by question 12, is it this side's turn? It is the device's.

entries    6
forwarded  2: 1 of the device, 1 of the host
refused    3 by question 12, is it this side's turn?
refused    1 by question 22, is every text well-formed UTF-8?
stands     at state 0 (line 1), the device's turn
"#;
    replayed(ASK, &log, 1, out);
}

/// Which text is meant where there are several: the second one, of two bytes that begin a character of three.
#[test]
fn the_field_that_is_no_utf8() {
    let mut broken = device("Say", &[Text(b"ab"), Flag(true), Text(b"xx"), Text(b"")]);
    let length = broken.len();
    broken[length - 2..].copy_from_slice(b"\xE2\x82");
    let out = last("+{!Say(text[0..8], flag[0..1], text[0..8], text[0..8]).end}", &[broken]);
    assert_eq!(out, "refused by question 22, is every text well-formed UTF-8? Field 2 is not.");
}

/// Numbers and texts that no terminal should get, and a message that is longer than its column.
#[test]
fn values() {
    let protocol = "rec X.+{!Say(int[-2147483648..2147483647], text[0..64], text[0..64]).X}";
    let log = [
        device("Say", &[Int(i32::MIN), Text(b"\x1b[2J\n"), Text("é\"\\".as_bytes())]),
        device("Say", &[Int(i32::MAX), Text(b""), Text(b"")]),
    ];
    let out = r#"
    1  device  Say(-2147483648, "\x1B[2J\x0A", "é\"\\")  forwarded
    2  device  Say(2147483647, "", "")           forwarded

entries    2
forwarded  2: 2 of the device, 0 of the host
stands     at state 0 (line 1), the device's turn
"#;
    replayed(protocol, &log, 0, out);
}

#[test]
fn an_empty_log() {
    let out = "
entries    0
forwarded  0: 0 of the device, 0 of the host
stands     at state 0 (line 1), the device's turn
";
    replayed(ASK, &[], 0, out);
}

#[test]
fn another_side_byte() {
    let out = r#"
    1  device  Ask(7, "Grade")                   forwarded
    2  the log breaks off with the entry at byte 25: the side byte is 2, and a side is 0 (device) or 1 (host)

entries    1
forwarded  1: 1 of the device, 0 of the host
breaks     off at entry 2
stands     at state 1 (line 2), the host's turn
"#;
    replayed(ASK, &[ask(), entry(2, "Ok", &[Flag(false)]), ask()], 2, out);
    replayed(ASK, &[ask(), vec![2]], 2, out);
}

/// A blame does not matter to the status of a log that is none.
#[test]
fn messages_that_are_none() {
    let broken = |at: usize, byte: u8| {
        let mut log = [device("Say", &[]), ask(), ask()].concat();
        log[at] = byte;
        let run = heard(ASK, &log);
        assert_eq!(run.status, 2);
        run.out.lines().nth(1).unwrap().to_string()
    };
    let off = "    2  the log breaks off with the entry at byte 10: the message is refused by question";
    let whole = "are there nine bytes, a legal label, a count of at most 4, and both arrays whole?";
    // The label's first byte, its filling, the count.
    assert_eq!(broken(11, b'a'), format!(r#"{off} 13, {whole} The label is "ask\x00\x00\x00\x00\x00"."#));
    assert_eq!(broken(18, b'!'), format!(r#"{off} 13, {whole} The label is "Ask\x00\x00\x00\x00!"."#));
    assert_eq!(broken(19, 5), format!("{off} 13, {whole} The count is 5."));
    let known = "is every kind known and every number within its kind?";
    // A kind that there is not, a text of 69 bytes.
    assert_eq!(broken(20, 3), format!("{off} 14, {known} The kind of field 0 is 3."));
    assert_eq!(broken(29, 69), format!("{off} 14, {known} The number of field 1 is 69."));
}

/// A label that is illegal is known to be so once nine bytes are there, not before: the count stands behind it.
#[test]
fn cut_before_it_can_be_told() {
    let bad = [vec![0], b"ask\0\0\0\0\0".to_vec()].concat();
    let cut = heard(ASK, &bad).out;
    assert!(cut.starts_with("    1  the log breaks off with the entry at byte 0: it ends inside the entry"), "{cut}");
    let broken = heard(ASK, &[bad, vec![0]].concat()).out;
    assert!(broken.starts_with("    1  the log breaks off with the entry at byte 0: the message is refused"), "{broken}");
}

/// The second entry has a side byte, nine bytes to the count, ten of arrays and five of text: 13 up to 20 bytes, then 15.
#[test]
fn cut_at_each_byte() {
    let whole = [host("Ok", &[Flag(false)]), ask()].concat();
    assert_eq!(whole.len(), 15 + 25);
    for length in 16..whole.len() {
        let question = match length - 15 {
            ..20 => "13, are there nine bytes, a legal label, a count of at most 4, and both arrays whole?",
            _ => "15, is the length exactly what this gives?",
        };
        let out = format!(
            "
    1  host    Ok(false)                         refused by question 12, is it this side's turn? It is the device's.
    2  the log breaks off with the entry at byte 15: it ends inside the entry, and the message is refused by question {question}

entries    1
forwarded  0: 0 of the device, 0 of the host
refused    1 by question 12, is it this side's turn?
breaks     off at entry 2
stands     at state 0 (line 1), the device's turn
"
        );
        replayed(ASK, &[whole[..length].to_vec()], 2, &out);
    }
}

/// Document 02's example: of six messages two are Knot, whose share is 10, and it warns at 442. 10,000 x (2,000 - 60)^2 is
/// 37,636,000,000. At 795 the other side, 795^2 x 10 x 990 x 6, is 37,542,285,000, and at 796 it is 37,636,790,400. Of Clear both
/// sides are the same.
#[test]
fn shares() {
    let protocol = "rec X.+{!Knot()@10.X,\n!Clear()@990.X}";
    let folder = Folder::with(&[("protocol.txt", protocol.as_bytes())]);
    let log = [["Clear", "Knot", "Clear"]; 2].concat().iter().flat_map(|name| device(name, &[])).collect::<Vec<u8>>();
    let told = |arguments: &[&str]| {
        let run = folder.run_on(&[&["replay", "protocol.txt", "-"], arguments].concat(), &log);
        assert_eq!((run.status, run.err.as_str()), (0, ""));
        run.out.split_once("\n\n").unwrap().1.to_string()
    };
    let summary =
        "entries    6\nforwarded  6: 6 of the device, 0 of the host\nstands     at state 0 (line 1), the device's turn\n";
    let both = "warns      Knot by the device, 333 of 1000 and not 10 (line 1)
warns      Clear by the device, 667 of 1000 and not 990 (line 2)\n";
    assert_eq!(told(&["--setting", "442"]), format!("{summary}setting    442\n{both}"));
    assert_eq!(told(&[]), format!("{summary}setting    300\n{both}"));
    assert_eq!(told(&["--setting", "795"]), format!("{summary}setting    795\n{both}"));
    assert_eq!(told(&["--setting", "796"]), format!("{summary}setting    796\nwarns      nothing\n"));
}

#[test]
fn settings() {
    let folder = Folder::with(&[("protocol.txt", ASK.as_bytes())]);
    let run = |setting: &str| folder.run(&["replay", "protocol.txt", "-", "--setting", setting]);
    for refused in ["0", "1001", "4294967295"] {
        let out = format!("setting {refused}: refused by question 21, is the setting 1 to 1000?\n");
        assert_eq!(run(refused), Run { status: 2, out, err: String::new() });
    }
    for wrong in ["", "x", "-1", "4294967296"] {
        let Run { status, out, err } = run(wrong);
        assert_eq!((status, out.as_str()), (2, ""));
        assert_eq!(err, "sojimu: --setting wants a number from 1 to 1000; see sojimu replay --help\n");
    }
    assert_eq!((run("1").status, run("1000").status), (0, 0));
}

/// The protocol is looked at before the setting, and both before the log.
#[test]
fn refused_protocols() {
    let folder = Folder::with(&[("protocol.txt", b"rec X.X"), ("good.txt", b"end")]);
    let run = folder.run(&["replay", "protocol.txt", "none.log", "--setting", "0"]);
    assert_eq!((run.status, run.err.as_str()), (2, ""));
    assert!(run.out.starts_with("protocol.txt:1:7: refused by question 5"), "{}", run.out);
    let run = folder.run(&["replay", "good.txt", "none.log", "--setting", "0"]);
    assert_eq!((run.status, run.err.as_str()), (2, ""));
}

#[test]
fn what_cannot_be_read() {
    let folder = Folder::with(&[("protocol.txt", ASK.as_bytes())]);
    let unreadable = |name: &str| Run { status: 2, out: String::new(), err: format!("sojimu: cannot read {name}\n") };
    assert_eq!(folder.run(&["replay", "protocol.txt", "none.log"]), unreadable("none.log"));
    assert_eq!(folder.run(&["replay", "none.txt", "-"]), unreadable("none.txt"));
    // The folder itself.
    assert_eq!(folder.run(&["replay", "protocol.txt", "."]), unreadable("."));
}

#[test]
fn standard_input_once() {
    let folder = Folder::with(&[("some.log", &ask())]);
    assert_eq!(folder.run_on(&["replay", "-", "some.log"], ASK.as_bytes()).status, 0);
    let err = "sojimu: standard input cannot be both the protocol and the log; see sojimu replay --help\n".to_string();
    assert_eq!(folder.run(&["replay", "-", "-"]), Run { status: 2, out: String::new(), err });
}

/// A file of the examples as an argument.
fn example(name: &str) -> String {
    folder::example(name).display().to_string()
}

/// What is said of a log of the examples, which is made of these entries.
fn held(protocol: &str, log: &str, entries: &[Vec<u8>]) -> Run {
    assert_eq!(std::fs::read(example(log)).unwrap(), entries.concat(), "{log}");
    Folder::new().run(&["replay", &example(protocol), &example(log)])
}

fn frame(place: i32, moisture: i32, weight: i32) -> Vec<u8> {
    device("Frame", &[Int(place), Int(moisture), Int(weight)])
}

#[test]
fn one_pass() {
    let mut log = vec![host("Start", &[Int(0), Int(6200), Int(300)]), device("Ready", &[])];
    log.extend([frame(0, 62, 80), frame(1550, 71, 80), frame(3100, 68, 79), frame(4650, 70, 80), frame(6200, 65, 81)]);
    log.extend([device("Edge", &[Flag(true)]), host("Home", &[]), host("Off", &[])]);
    let out = "
    1  host    Start(0, 6200, 300)               forwarded
    2  device  Ready()                           forwarded
    3  device  Frame(0, 62, 80)                  forwarded
    4  device  Frame(1550, 71, 80)               forwarded
    5  device  Frame(3100, 68, 79)               forwarded
    6  device  Frame(4650, 70, 80)               forwarded
    7  device  Frame(6200, 65, 81)               forwarded
    8  device  Edge(true)                        forwarded
    9  host    Home()                            forwarded
   10  host    Off()                             forwarded

entries    10
forwarded  10: 7 of the device, 3 of the host
stands     at state 5 (line 13), the conversation has ended
";
    let run = held("scanner/protocol.txt", "scanner/one-pass.log", &log);
    assert_eq!((run.status, run.out.as_str(), run.err.as_str()), (0, &out[1..], ""));
}

/// It is the example of the help.
#[test]
fn frame_off_sheet() {
    let mut log = vec![host("Start", &[Int(0), Int(9000), Int(300)]), device("Ready", &[])];
    log.extend([frame(8400, 69, 80), frame(9000, 71, 80), frame(9600, 0, 30)]);
    log.extend([device("Edge", &[Flag(true)]), host("Home", &[])]);
    let run = held("scanner/protocol.txt", "scanner/frame-off-sheet.log", &log);
    let help = Folder::new().run(&["replay", "--help"]);
    assert_eq!((run.status, run.err.as_str(), help.status, help.err.as_str()), (1, "", 0, ""));
    let from = help.out.find("        1  host").unwrap();
    let shown = help.out[from..].lines().take(run.out.lines().count()).map(|line| line.strip_prefix("    ").unwrap_or(line));
    assert_eq!(shown.collect::<Vec<&str>>(), run.out.lines().collect::<Vec<&str>>());
    let blame = "device blamed, reason 3: field 0 is 9600, and the protocol has int[0..9000] (line 4)";
    assert_eq!(run.out.lines().nth(4), Some(format!("    5  device  Frame(9600, 0, 30)                {blame}").as_str()));
}

#[test]
fn set_twice() {
    let log = [
        device("Status", &[Int(310), Int(128)]),
        host("Set", &[Int(3), Int(450)]),
        host("Set", &[Int(4), Int(430)]),
        device("Done", &[Int(3)]),
    ];
    let out = "
    1  device  Status(310, 128)                  forwarded
    2  host    Set(3, 450)                       forwarded
    3  host    Set(4, 430)                       host blamed, reason 4: it is the other side's turn, and under edition 2 nobody speaks out of turn
    4  device  Done(3)                           refused by question 10, is the standing running? The host was blamed at entry 3.

entries    4
forwarded  2: 1 of the device, 1 of the host
refused    1 by question 10, is the standing running?
blamed     the host at entry 3, reason 4: it is the other side's turn, and under edition 2 nobody speaks out of turn
stands     at state 2 (line 4), stopped by the blame
";
    let run = held("editions/protocol.txt", "editions/set-twice.log", &log);
    assert_eq!((run.status, run.out.as_str(), run.err.as_str()), (1, &out[1..], ""));
}

/// The first 28 lines of `scans.moves`, of which examples/README.md has the page: 81 frames and 9 edges, of which 45 in 1000 should be.
#[test]
fn edge_sensor() {
    let moves = std::fs::read_to_string(example("shares/scans.moves")).unwrap();
    let said = |line: &str| {
        let words: Vec<&str> = line.split(' ').collect();
        let entry = match words[1] {
            "Start" => host("Start", &[Int(0), Int(0), Int(50)]),
            "Frame" => frame(0, 0, 30),
            "Edge" => device("Edge", &[Flag(false)]),
            label => entry(u8::from(words[0] == "out"), label, &[]),
        };
        entry.repeat(words.get(2).map_or(1, |times| times[1..].parse().unwrap()))
    };
    let log: Vec<Vec<u8>> = moves.lines().take(28).map(said).collect();
    assert_eq!(std::fs::read(example("shares/edge-sensor.log")).unwrap(), log.concat());
    let (protocol, file) = (example("shares/protocol.txt"), example("shares/edge-sensor.log"));
    let run = Folder::new().run(&["replay", &protocol, &file, "--setting", "200"]);
    let summary = "entries    100
forwarded  100: 91 of the device, 9 of the host
stands     at state 3 (line 5), the host's turn
setting    200
warns      Frame by the device, 900 of 1000 and not 950 (line 4)
warns      Edge by the device, 100 of 1000 and not 45 (line 5)
";
    assert_eq!((run.status, run.out.split_once("\n\n").unwrap().1), (0, summary));
}

/// A log that comes a few bytes at a time, and is interrupted every now and then.
struct Bites<'a> {
    log: &'a [u8],
    most: usize,
    reads: usize,
}

impl Read for Bites<'_> {
    fn read(&mut self, into: &mut [u8]) -> io::Result<usize> {
        // However long the log is, there is not room for all of it.
        assert!(into.len() <= 1 << 16);
        self.reads += 1;
        if self.reads.is_multiple_of(5) {
            return Err(ErrorKind::Interrupted.into());
        }
        self.log.take(self.most as u64).read(into).inspect(|&read| self.log = &self.log[read..])
    }
}

/// What is said of a log that comes by standard input, under the scanner's protocol.
fn piped(input: &mut dyn Read, out: &mut dyn Write, progress: bool) -> (u8, String) {
    let arguments = ["replay", &example("scanner/protocol.txt"), "-"].map(OsString::from);
    let mut err = Vec::new();
    let status = run(&arguments, &mut World { input, out, err: &mut err, colours: false, progress });
    (status, String::from_utf8(err).unwrap())
}

/// A log of so many entries, the last of which is blamed.
fn scan(entries: usize) -> Vec<u8> {
    let mut log = vec![host("Start", &[Int(0), Int(9000), Int(300)]), device("Ready", &[])];
    log.extend((2..entries - 1).map(|place| frame(place as i32 % 9000, 70, 80)));
    log.push(frame(9001, 70, 80));
    log.concat()
}

#[test]
fn a_long_log_in_small_bites() {
    for (entries, most) in [(1_000, 1), (200_000, 7), (200_000, 1 << 20)] {
        let (log, mut out) = (scan(entries), Vec::new());
        let ended = piped(&mut Bites { log: &log, most, reads: 0 }, &mut out, false);
        assert_eq!(ended, (1, String::new()));
        let out = String::from_utf8(out).unwrap();
        let blame =
            format!("the device at entry {entries}, reason 3: field 0 is 9001, and the protocol has int[0..9000] (line 4)");
        let (device, forwarded) = (entries - 2, entries - 1);
        let summary = format!(
            "\n\nentries    {entries}\nforwarded  {forwarded}: {device} of the device, 1 of the host\nblamed     {blame}\n\
             stands     at state 2 (line 3), stopped by the blame\n"
        );
        assert!(out.ends_with(&summary), "{}", &out[out.len() - 400..]);
        assert_eq!(out.lines().take_while(|line| line.len() > 50).count(), entries);
    }
}

/// A log that cannot be read on: what came before stands.
#[test]
fn a_log_that_fails() {
    struct Fails;
    impl Read for Fails {
        fn read(&mut self, _: &mut [u8]) -> io::Result<usize> {
            Err(ErrorKind::Other.into())
        }
    }
    let mut out = Vec::new();
    let ended = piped(&mut scan(4).chain(Fails), &mut out, false);
    assert_eq!(ended, (2, "sojimu: cannot read -\n".to_string()));
    assert_eq!(String::from_utf8(out).unwrap().lines().count(), 4);
}

/// Each entry's line is written out before the next entry is waited for.
#[test]
fn lines_as_they_come() {
    #[derive(Clone, Default)]
    struct Shared(Rc<RefCell<Vec<u8>>>);
    impl Write for Shared {
        fn write(&mut self, bytes: &[u8]) -> io::Result<usize> {
            self.0.borrow_mut().write(bytes)
        }
        fn flush(&mut self) -> io::Result<()> {
            Ok(())
        }
    }
    struct Waits(Shared, Vec<Vec<u8>>, usize);
    impl Read for Waits {
        fn read(&mut self, into: &mut [u8]) -> io::Result<usize> {
            assert_eq!(self.0 .0.borrow().iter().filter(|&&byte| byte == b'\n').count(), self.2);
            let Some(entry) = self.1.get(self.2) else { return Ok(0) };
            self.2 += 1;
            entry.as_slice().read(into)
        }
    }
    let entries = vec![host("Start", &[Int(0), Int(9000), Int(300)]), device("Ready", &[]), frame(1, 70, 80)];
    let out = Shared::default();
    let ended = piped(&mut Waits(out.clone(), entries, 0), &mut BufWriter::new(out), false);
    assert_eq!(ended, (0, String::new()));
}

/// After a second that it waits for more, it shows how far it is; at the end that is erased.
#[test]
fn progress() {
    struct Late<'a>(&'a [u8]);
    impl Read for Late<'_> {
        fn read(&mut self, into: &mut [u8]) -> io::Result<usize> {
            std::thread::sleep(Duration::from_millis(if self.0.is_empty() { 0 } else { 1_100 }));
            self.0.read(into)
        }
    }
    let shown = "\r4 entries\r         \r".to_string();
    assert_eq!(piped(&mut Late(&scan(4)), &mut Vec::new(), true), (1, shown));
    assert_eq!(piped(&mut Late(&scan(4)), &mut Vec::new(), false), (1, String::new()));
}

/// Who no longer listens is told nothing; of other trouble it is said.
#[test]
fn answers_that_cannot_be_written() {
    struct Full(ErrorKind);
    impl Write for Full {
        fn write(&mut self, _: &[u8]) -> io::Result<usize> {
            Err(self.0.into())
        }
        fn flush(&mut self) -> io::Result<()> {
            Ok(())
        }
    }
    assert_eq!(piped(&mut scan(4).as_slice(), &mut Full(ErrorKind::BrokenPipe), false), (3, String::new()));
    let (status, err) = piped(&mut scan(4).as_slice(), &mut Full(ErrorKind::StorageFull), false);
    assert!(status == 3 && err.starts_with("sojimu: cannot write the answer: "), "{err}");
}

#[test]
fn pictures() {
    let folder = Folder::with(&[("protocol.txt", ASK.as_bytes()), ("some.log", &ask())]);
    let plain = folder.run(&["replay", "protocol.txt", "some.log"]);
    assert_eq!(folder.run(&["replay", "protocol.txt", "some.log", "--picture", "some.svg"]), plain);
    assert!(folder.take("some.svg").contains("some.log under "));
    let nowhere = folder.run(&["replay", "protocol.txt", "some.log", "--picture", "no/some.svg"]);
    assert!(nowhere.status == 3 && nowhere.err.starts_with("sojimu: cannot write no/some.svg: "), "{}", nowhere.err);
}

/// Of 25 entries, the last of which is blamed, the last twenty.
#[test]
fn the_last_twenty_are_drawn() {
    let folder = Folder::with(&[("some.log", &scan(25))]);
    folder.run(&["replay", &example("scanner/protocol.txt"), "some.log", "--picture", "some.svg"]);
    let svg = folder.take("some.svg");
    let drawn = (2..24).filter(|place| svg.contains(&format!("Frame({place}, 70, 80)"))).collect::<Vec<usize>>();
    assert_eq!(drawn, (5..24).collect::<Vec<usize>>());
    assert!(svg.contains("Frame(9001, 70, 80)") && !svg.contains("Start(0, 9000, 300)"));
    assert!(svg.contains("field 0 is 9001"));
}

/// A blame that is older stands above them.
#[test]
fn the_blamed_entry_is_drawn() {
    let frames: Vec<u8> = (0..30).flat_map(|place| frame(place, 70, 80)).collect();
    let folder = Folder::with(&[("some.log", &[scan(5), frames].concat())]);
    folder.run(&["replay", &example("scanner/protocol.txt"), "some.log", "--picture", "some.svg"]);
    let svg = folder.take("some.svg");
    let parts = ["… 4 more", "Frame(9001, 70, 80)", ">blamed<", "… 10 more", ">refused by 10<"];
    let places: Vec<usize> = parts.iter().map(|part| svg.find(part).unwrap()).collect();
    assert!(places.is_sorted(), "{places:?}");
    assert_eq!(svg.matches(">refused by 10<").count(), 20);
}

/// What is to be said of each entry by the second implementation, and the status.
fn expected(protocol: &[u8], mut log: &[u8]) -> (Vec<String>, u8) {
    let table = text::read(protocol).unwrap();
    let mut state = monitor::State::fresh(&table, 300).unwrap();
    let (mut said, mut status) = (Vec::new(), 0);
    while let Some((&side, rest)) = log.split_first() {
        let length = message::front(rest).map(|front| front.length());
        let length = match length {
            _ if side > 1 => Err(format!("the side byte is {side},")),
            Err(question) if message::broken(rest) => Err(format!("the message is refused by question {question},")),
            Err(question) => Err(format!("inside the entry, and the message is refused by question {question},")),
            Ok(length) if length > rest.len() => {
                Err("inside the entry, and the message is refused by question 15,".to_string())
            }
            Ok(length) => Ok(length),
        };
        let length = match length {
            Ok(length) => length,
            Err(why) => {
                said.push(why);
                return (said, 2);
            }
        };
        let side = monitor::Side::BOTH[usize::from(side)];
        let verdict = monitor::step(&table, &mut state, side, &rest[..length], &mut [0; 300]);
        status = status.max(u8::from(verdict != monitor::Verdict::Forwarded));
        said.push(match verdict {
            monitor::Verdict::Forwarded => "forwarded".to_string(),
            monitor::Verdict::Refused(question) => format!("refused by question {question},"),
            monitor::Verdict::Blamed(side, reason) => format!("{side:?} blamed, reason {}:", reason.number()).to_lowercase(),
        });
        log = &rest[length..];
    }
    (said, status)
}

/// A conversation with a few faults, damaged at times; or any bytes.
fn any_log(random: &mut Random, protocol: &[u8]) -> Vec<u8> {
    if random.one_in(10) {
        return random.bytes(60);
    }
    let (turns, faults, damage) = (random.below(30), random.below(2) * random.below(30), random.one_in(3));
    let turns = conversation(random, &text::read(protocol).unwrap(), turns, faults);
    let log: Vec<u8> = turns.into_iter().flat_map(|turn| [vec![turn.side as u8], turn.message].concat()).collect();
    match damage {
        true => damaged_message(random, &log),
        false => log,
    }
}

#[test]
fn random_logs() {
    let mut random = Random::new(12);
    let folder = Folder::new();
    let mut statuses = [0; 3];
    for _ in 0..1000 {
        let protocol = legal_text(&mut random);
        folder.put("protocol.txt", &protocol);
        for _ in 0..10 {
            let log = any_log(&mut random, &protocol);
            let run = folder.run_on(&["replay", "protocol.txt", "-", "--picture", "some.svg"], &log);
            let (said, status) = expected(&protocol, &log);
            assert_eq!((run.status, run.err.as_str()), (status, ""), "{log:?}");
            let wrong = run.out.lines().zip(&said).find(|(line, said)| !line.contains(said.as_str()));
            assert_eq!(wrong, None, "{}", run.out);
            assert_eq!(run.out.lines().take_while(|line| line.starts_with(' ')).count(), said.len());
            statuses[usize::from(status)] += 1;
        }
        xml::check(&folder.take("some.svg"));
    }
    assert!(statuses.iter().all(|&times| times > 500), "{statuses:?}");
}
