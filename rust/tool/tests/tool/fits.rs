//! Devices that fit and devices that do not, explained.

use super::folder::{Folder, Run};
use super::xml;
use sojimu_checks::second::fit::{fit, Answer};
use sojimu_checks::second::random::{damaged_text, named_pair, text_pair, Random};
use sojimu_checks::second::text;

const PING: &str = "rec X.+{!Ping().&{?Pong().X},!Quit().end}";

/// What is said of a protocol and a device, and the status.
#[track_caller]
fn explained(protocol: &str, device: &str, status: u8, out: &str) {
    let folder = Folder::with(&[("protocol.txt", protocol.as_bytes()), ("device.txt", device.as_bytes())]);
    let run = folder.run(&["explain", "protocol.txt", "device.txt"]);
    assert_eq!((run.out.as_str(), run.err.as_str(), run.status), (out.trim_start(), "", status), "{}", run.out);
}

#[test]
fn a_device_that_fits() {
    let out = "
device.txt fits protocol.txt.
As long as it keeps to its text it is never blamed, and the two never jam, whatever the host says; 2 pairs of states are met.
";
    explained(PING, "+{!Quit().end}", 0, out);
}

#[test]
fn one_pair() {
    let out = "
device.txt fits protocol.txt.
As long as it keeps to its text it is never blamed, and the two never jam, whatever the host says; 1 pair of states is met.
";
    explained("end", "end", 0, out);
}

#[test]
fn blamed_for_a_label() {
    let out = "
device.txt does not fit protocol.txt.
One move shows it:

  1  device sends Stop()  device line 2

blamed: the device sends what the protocol forbids: the protocol has no Stop there, but Ping or Quit (line 1).
The fault is the device's.

protocol, protocol.txt:1:7
  1 | rec X.+{!Ping().&{?Pong().X},!Quit().end}
    |       ^ no Stop in this choice

device, device.txt:2:1
  2 | !Stop().end}
    | ^^^^^^^ the device may send this
";
    explained(PING, "+{!Quit().end,\n!Stop().end}", 1, out);
}

#[test]
fn blamed_for_kinds() {
    let out = "
device.txt does not fit protocol.txt.
One move shows it:

  1  device sends A(0, false, \"\")  protocol line 1, device line 1

blamed: the device sends what the protocol forbids: its fields are (int, flag, text), and the protocol has (int[0..9], flag[0..1]) (line 1).
The fault is the device's.

protocol, protocol.txt:1:3
  1 | +{!A(int[0..9], flag[0..1]).end}
    |   ^^^^^^^^^^^^^^^^^^^^^^^^^ the protocol allows this

device, device.txt:1:3
  1 | +{!A(int[0..9], flag[0..1], text[0..0]).end}
    |   ^^^^^^^^^^^^^^^^^^^^^^^^^^^^^^^^^^^^^ the device may send this
";
    explained("+{!A(int[0..9], flag[0..1]).end}", "+{!A(int[0..9], flag[0..1], text[0..0]).end}", 1, out);
}

#[test]
fn blamed_for_a_low_number() {
    let out = "
device.txt does not fit protocol.txt.
One move shows it:

  1  device sends A(0, -1)  protocol line 1, device line 1

blamed: the device sends what the protocol forbids: field 1 is -1, and the protocol has int[0..9] (line 1).
The fault is the device's.

protocol, protocol.txt:1:17
  1 | +{!A(int[0..9], int[0..9]).end}
    |                 ^^^^^^^^^ the protocol allows this

device, device.txt:1:17
  1 | +{!A(int[0..9], int[-1..9]).end}
    |                 ^^^^^^^^^^ the device may send this
";
    explained("+{!A(int[0..9], int[0..9]).end}", "+{!A(int[0..9], int[-1..9]).end}", 1, out);
}

#[test]
fn blamed_for_a_long_text() {
    let out = "
device.txt does not fit protocol.txt.
One move shows it:

  1  device sends A(\"   \")  protocol line 1, device line 1

blamed: the device sends what the protocol forbids: field 0 is a text of 3 bytes, and the protocol has text[0..2] (line 1).
The fault is the device's.

protocol, protocol.txt:1:6
  1 | +{!A(text[0..2]).end}
    |      ^^^^^^^^^^ the protocol allows this

device, device.txt:1:6
  1 | +{!A(text[0..3]).end}
    |      ^^^^^^^^^^ the device may send this
";
    explained("+{!A(text[0..2]).end}", "+{!A(text[0..3]).end}", 1, out);
}

#[test]
fn a_label_not_taken() {
    let out = "
device.txt does not fit protocol.txt.
2 moves show it, and no fewer do:

  1  device sends Ping()  protocol line 1, device line 1
  2  host sends Pong()    protocol line 1

jammed: the device does not take what the host may send: the device has no Pong there, but Busy (line 1).
The fault is the device's.

protocol, protocol.txt:1:19
  1 | rec X.+{!Ping().&{?Pong().X},!Quit().end}
    |                   ^^^^^^^ the host may send this

device, device.txt:1:11
  1 | +{!Ping().&{?Busy().end}}
    |           ^ no Pong in this choice
";
    explained(PING, "+{!Ping().&{?Busy().end}}", 1, out);
}

#[test]
fn kinds_not_taken() {
    let out = "
device.txt does not fit protocol.txt.
One move shows it:

  1  host sends Set(1)  protocol line 1, device line 2

jammed: the device does not take what the host may send: its fields are (int), and the device has () (line 2).
The fault is the device's.

protocol, protocol.txt:1:3
  1 | &{?Set(int[1..24]).end}
    |   ^^^^^^^^^^^^^^^^ the host may send this

device, device.txt:2:1
  2 | ?Set().end}
    | ^^^^^^ the device takes this
";
    explained("&{?Set(int[1..24]).end}", "&{\n?Set().end}", 1, out);
}

#[test]
fn a_range_not_taken() {
    let out = "
device.txt does not fit protocol.txt.
One move shows it:

  1  host sends On(true)  protocol line 1, device line 1

jammed: the device does not take what the host may send: field 0 is true, and the device has flag[0..0] (line 1).
The fault is the device's.

protocol, protocol.txt:1:7
  1 | &{?On(flag[0..1]).end}
    |       ^^^^^^^^^^ the host may send this

device, device.txt:1:7
  1 | &{?On(flag[0..0]).end}
    |       ^^^^^^^^^^ the device takes this
";
    explained("&{?On(flag[0..1]).end}", "&{?On(flag[0..0]).end}", 1, out);
}

/// Every way in which two sorts of states do not go together, before any move.
#[test]
fn out_of_step() {
    let (sends, receives, end) = ("+{!A().end}", "&{?A().end}", "end");
    let (device_turn, host_turn) = ("by the protocol it is the device's turn", "by the protocol it is the host's turn");
    let ways = [
        (receives, host_turn, sends, "the device means to send"),
        (sends, device_turn, receives, "the device waits for the host"),
        (sends, device_turn, end, "the device has ended"),
        (receives, host_turn, end, "the device has ended"),
        (end, "the protocol has ended", sends, "the device means to send"),
        (end, "the protocol has ended", receives, "the device waits for the host"),
    ];
    for (protocol, at_protocol, device, at_device) in ways {
        let caret = |text: &str| if text == "end" { "^^^" } else { "^" };
        let out = format!(
            "
device.txt does not fit protocol.txt.
It shows before any move.

jammed: {at_device}, and {at_protocol}.
The fault is the device's.

protocol, protocol.txt:1:1
  1 | {protocol}
    | {} {at_protocol}

device, device.txt:1:1
  1 | {device}
    | {} {at_device}
",
            caret(protocol),
            caret(device)
        );
        explained(protocol, device, 1, &out);
    }
}

#[test]
fn out_of_step_after_a_loop() {
    let out = "
device.txt does not fit protocol.txt.
2 moves show it, and no fewer do:

  1  device sends Ping()  protocol line 1, device line 1
  2  host sends Pong()    protocol line 1, device line 1

jammed: the device waits for the host, and by the protocol it is the device's turn.
The fault is the device's.

protocol, protocol.txt:1:7
  1 | rec X.+{!Ping().&{?Pong().X},!Quit().end}
    |       ^ by the protocol it is the device's turn

device, device.txt:1:23
  1 | rec X.+{!Ping().rec Y.&{?Pong().Y}}
    |                       ^ the device waits for the host
";
    explained(PING, "rec X.+{!Ping().rec Y.&{?Pong().Y}}", 1, out);
}

/// The branch that leads there is shown where it stands in another line.
#[test]
fn out_of_step_in_several_lines() {
    let protocol = "rec X.+{\n    !Ping().&{\n        ?Pong().X\n    }\n}\n";
    let device = "rec X.+{\n    !Ping().rec Y.&{\n        ?Pong().Y\n    }\n}\n";
    let out = "
device.txt does not fit protocol.txt.
2 moves show it, and no fewer do:

  1  device sends Ping()  protocol line 2, device line 2
  2  host sends Pong()    protocol line 3, device line 3

jammed: the device waits for the host, and by the protocol it is the device's turn.
The fault is the device's.

protocol, protocol.txt:1:7
  3 |         ?Pong().X
    |         ^^^^^^^ after this
  1 | rec X.+{
    |       ^ by the protocol it is the device's turn

device, device.txt:2:19
  3 |         ?Pong().Y
    |         ^^^^^^^ after this
  2 |     !Ping().rec Y.&{
    |                   ^ the device waits for the host
";
    explained(protocol, device, 1, out);
}

#[test]
fn both_refused() {
    let folder = Folder::with(&[("protocol.txt", b"rec X.X"), ("device.txt", b"+{!A(int[5..4]).end}")]);
    let run = folder.run(&["explain", "protocol.txt", "device.txt", "--picture", "none.svg"]);
    let (protocol, device) = run.out.split_once("\n\n").unwrap();
    assert!(protocol.starts_with("protocol.txt:1:7: refused by question 5, "), "{protocol}");
    assert!(device.starts_with("device.txt:1:13: refused by question 6, "), "{device}");
    assert_eq!((run.err.as_str(), run.status), ("sojimu: none.svg is not drawn\n", 2));
    assert!(!folder.has("none.svg"));
}

#[test]
fn the_report_is_as_it_was() {
    let folder =
        Folder::with(&[("protocol.txt", PING.as_bytes()), ("device.txt", b"+{!Ping().&{?Busy().end}}"), ("none.txt", b"")]);
    let report = |device: &str| {
        let run = folder.run(&["protocol.txt", device]);
        assert_eq!(run.err, "");
        (run.out, run.status)
    };
    assert_eq!(report("device.txt"), ("no fit 2\nin Ping\nout Pong\njammed\n".into(), 1));
    assert_eq!(report("protocol.txt"), ("fit 3\n".into(), 0));
    assert_eq!(report("none.txt"), ("device refused 3 at 0\n".into(), 2));
}

/// Two texts that were meant to be legal, at times damaged.
fn any_pair(random: &mut Random) -> (Vec<u8>, Vec<u8>) {
    let (protocol, device) = if random.one_in(4) { named_pair(random) } else { text_pair(random) };
    match random.below(8) {
        0 => (damaged_text(random, &protocol), device),
        1 => {
            let device = damaged_text(random, &device);
            (protocol, device)
        }
        _ => (protocol, device),
    }
}

/// The status that goes with two texts by the second implementation, and how many moves show that they do not fit.
fn expected(protocol: &[u8], device: &[u8]) -> (u8, usize) {
    let (Ok(protocol), Ok(device)) = (text::read(protocol), text::read(device)) else { return (2, 0) };
    match fit(&device, &protocol, &mut [0; 1024]) {
        Answer::NoFit(moves, _) => (1, moves),
        _ => (0, 0),
    }
}

/// Whatever the texts, it ends with the right status, shows as many moves as there are, and draws what can be drawn.
#[test]
fn random_pairs() {
    let (folder, mut statuses) = (Folder::new(), [0; 3]);
    for seed in 0..10_000 {
        let (protocol, device) = any_pair(&mut Random::new(seed));
        folder.put("protocol.txt", &protocol);
        folder.put("device.txt", &device);
        let drawn: &[&str] = if seed % 10 == 0 { &["--picture", "pair.svg"] } else { &[] };
        let Run { status, out, err } = folder.run(&[&["explain", "protocol.txt", "device.txt"], drawn].concat());
        let (expected, moves) = expected(&protocol, &device);
        let shown = out.lines().filter(|line| line.contains(" sends ") && line.contains(" line ")).count();
        let not_drawn = if status == 2 && !drawn.is_empty() { "sojimu: pair.svg is not drawn\n" } else { "" };
        assert_eq!((status, shown, err.as_str()), (expected, moves, not_drawn), "{out}");
        assert!(out.chars().all(|character| character == '\n' || !character.is_control()), "{out}");
        if !drawn.is_empty() && status < 2 {
            xml::check(&folder.take("pair.svg"));
        }
        statuses[usize::from(status)] += 1;
    }
    assert!(statuses.iter().all(|&times| times > 500) && !folder.has("pair.svg"), "{statuses:?}");
}
