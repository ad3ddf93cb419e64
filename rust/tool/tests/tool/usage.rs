//! Arguments, help, and where things are read from and written to.

use super::folder::{Folder, Run};

const PING: &[u8] = b"rec X.+{!Ping().&{?Pong().X},!Quit().end}";

fn folder() -> Folder {
    Folder::with(&[("protocol.txt", PING), ("quits.txt", b"+{!Quit().end}"), ("empty.log", b"")])
}

#[track_caller]
fn says(arguments: &[&str], status: u8, out: &str, err: &str) {
    let run = folder().run(arguments);
    assert_eq!(run, Run { status, out: out.into(), err: err.into() });
}

#[test]
fn every_command_has_help() {
    for command in ["explain", "read", "replay", "questions"] {
        let run = folder().run(&[command, "--help"]);
        assert_eq!(folder().run(&[command, "a", "--help"]), run);
        assert_eq!((run.status, run.err.as_str()), (0, ""));
        assert!(run.out.starts_with(&format!("usage: sojimu {command}")));
        // So has who gives it the wrong number of files.
        assert_eq!(folder().run(&[command, "a", "b", "c"]), Run { status: 2, out: String::new(), err: run.out });
    }
    let run = folder().run(&["--help"]);
    assert_eq!((run.status, run.err.as_str()), (0, ""));
    assert!(run.out.starts_with("usage: sojimu PROTOCOL DEVICE"));
    for wrong in [&[][..], &["a"], &["a", "b", "c"]] {
        assert_eq!(folder().run(wrong), Run { status: 2, out: String::new(), err: run.out.clone() });
    }
}

#[test]
fn options() {
    let see = |words: &str| format!("sojimu: {words}\n");
    says(
        &["read", "--pictures", "a.svg", "protocol.txt"],
        2,
        "",
        &see("there is no option --pictures; see sojimu read --help"),
    );
    says(&["read", "protocol.txt", "--setting", "1"], 2, "", &see("there is no option --setting; see sojimu read --help"));
    says(
        &["explain", "protocol.txt", "quits.txt", "--picture"],
        2,
        "",
        &see("nothing stands behind --picture; see sojimu explain --help"),
    );
    says(&["protocol.txt", "quits.txt", "--picture"], 2, "", &see("nothing stands behind --picture; see sojimu --help"));
    says(
        &["replay", "--setting", "1", "--setting", "2", "protocol.txt", "empty.log"],
        2,
        "",
        &see("given twice: --setting; see sojimu replay --help"),
    );
    says(
        &["replay", "--setting", "x", "protocol.txt", "empty.log"],
        2,
        "",
        &see("--setting wants a number from 1 to 1000; see sojimu replay --help"),
    );
}

#[test]
fn a_picture_takes_no_file_s_place() {
    let folder = folder();
    let err = "sojimu: the picture would take the place of quits.txt; see sojimu explain --help\n";
    let run = folder.run(&["explain", "protocol.txt", "quits.txt", "--picture", "quits.txt"]);
    assert_eq!(run, Run { status: 2, out: String::new(), err: err.into() });
    assert_eq!(folder.take("quits.txt"), "+{!Quit().end}");
    says(&["read", "protocol.txt", "--picture", "-"], 2, "", "sojimu: --picture wants a file; see sojimu read --help\n");
}

#[test]
fn what_is_refused_is_not_drawn() {
    let folder = folder();
    folder.put("a.txt", b"en");
    let commands = [
        &["read", "a.txt", "--picture", "a.svg"][..],
        &["explain", "a.txt", "quits.txt", "--picture", "a.svg"],
        &["a.txt", "quits.txt", "--picture", "a.svg"],
        &["replay", "a.txt", "empty.log", "--picture", "a.svg"],
        &["replay", "protocol.txt", "empty.log", "--setting", "0", "--picture", "a.svg"],
    ];
    for arguments in commands {
        let run = folder.run(arguments);
        assert_eq!((run.status, run.err.as_str(), folder.has("a.svg")), (2, "sojimu: a.svg is not drawn\n", false));
    }
}

#[test]
fn a_report_with_a_picture() {
    let folder = folder();
    for arguments in [["protocol.txt", "quits.txt", "--picture", "a.svg"], ["--picture", "a.svg", "protocol.txt", "quits.txt"]]
    {
        assert_eq!(folder.run(&arguments), Run { status: 0, out: "fit 2\n".into(), err: String::new() });
        assert!(folder.take("a.svg").contains("quits.txt fits "));
    }
}

#[test]
fn files_that_cannot_be_read() {
    for arguments in [&["read", "none.txt"][..], &["explain", "protocol.txt", "none.txt"], &["none.txt", "quits.txt"]] {
        says(arguments, 2, "", "sojimu: cannot read none.txt\n");
    }
    says(&["replay", "protocol.txt", "none.log"], 2, "", "sojimu: cannot read none.log\n");
    says(&["read", "a\x1b[31m.txt"], 2, "", "sojimu: cannot read a\\x1B[31m.txt\n");
}

#[test]
fn standard_input() {
    let folder = folder();
    let run = folder.run_on(&["protocol.txt", "-"], b"end");
    assert_eq!((run.status, run.out.as_str()), (1, "no fit 0\njammed\n"));
    let both = "sojimu: standard input cannot be both the protocol and the device; see sojimu explain --help\n";
    assert_eq!(folder.run(&["explain", "-", "-"]), Run { status: 2, out: String::new(), err: both.into() });
    let run = folder.run_on(&["read", "-"], b"+{!A()");
    assert!(run.status == 2 && run.out.starts_with("-:1:7: refused by question 3, "), "{run:?}");
}

/// Output without what sets its colours.
fn plain(coloured: &str) -> String {
    let (first, rest) = coloured.split_once("\x1b[").unwrap_or((coloured, ""));
    let behind = |part: &str| part.split_once('m').unwrap().1.to_string();
    first.to_string() + &rest.split("\x1b[").filter(|part| !part.is_empty()).map(behind).collect::<String>()
}

#[test]
fn colours_change_no_word() {
    let folder = folder();
    folder.put("a.txt", b"+{!A().end,!A().end}");
    folder.put("b.txt", b"+{!Ping().end}");
    folder.put("a.log", b"\0Quit\0\0\0\0\0\0Quit");
    let answers = [
        &["read", "protocol.txt"][..],
        &["read", "a.txt"],
        &["explain", "protocol.txt", "b.txt"],
        &["explain", "protocol.txt", "quits.txt"],
        &["replay", "protocol.txt", "a.log"],
    ];
    for arguments in answers {
        let (coloured, bare) = (folder.run_coloured(arguments), folder.run(arguments));
        assert!(coloured.out.contains("\x1b["), "{arguments:?}");
        assert_eq!(Run { out: plain(&coloured.out), ..coloured }, bare);
    }
    // The report and the list of questions are for programs, too.
    for arguments in [&["protocol.txt", "quits.txt"][..], &["questions"]] {
        assert_eq!(folder.run_coloured(arguments), folder.run(arguments));
    }
}

#[test]
fn what_a_text_is_read_into() {
    let folder = Folder::with(&[(
        "a.txt",
        b"edition 2\nrec X.+{\n  !Ask(int[-5..100], text[0..8]) @900.&{?Ok().X},\n  !Quit() @100.end}",
    )]);
    let run = folder.run(&["read", "a.txt"]);
    let out = "
a.txt: 3 states, 3 branches, edition 2

state 0, device sends, line 2
    0  line 3  !Ask(int[-5..100], text[0..8]) @900 to state 1
    2  line 4  !Quit() @100 to state 2

state 1, host sends, line 3
    1  line 3  ?Ok() to state 0

state 2, end, line 4
";
    assert_eq!(run, Run { status: 0, out: out.trim_start().into(), err: String::new() });
}

#[test]
fn every_question_and_reason_has_words() {
    let run = folder().run(&["questions"]);
    let out = "
questions, of which the first that gets a no refuses
   1  is the text at most 8,192 bytes long?
   2  is the token well formed?
   3  does the grammar allow it here?
   4  is the name bound by a rec around it?
   5  does a choice stand between the name after the dot of a rec and its own binder?
   6  is the number within its kind, and high not below low?
   7  is the label new in its choice?
   8  is the token within the limits?
   9  is the table sound, its edition 1 or 2, the position one of its states, and are the counts sound?
  10  is the standing running?
  11  is the position not an end?
  12  is it this side's turn?
  13  are there nine bytes, a legal label, a count of at most 4, and both arrays whole?
  14  is every kind known and every number within its kind?
  15  is the length exactly what this gives?
  16  does the output buffer hold the message?
  17  has the list device states times protocol states entries?
  18  does the branch exist, and has it the named field?
  19  is the share 1 to 1000?
  20  has the choice no shares, or one for each branch, which add to 1000?
  21  is the setting 1 to 1000?
  22  is every text well-formed UTF-8?
  23  is the edition 1 or 2?

reasons, for which a sender is blamed
   1  the protocol has no such label there
   2  the count or the kinds of the fields differ
   3  a number is outside its range
   4  it is the other side's turn, under edition 2
";
    assert_eq!(run, Run { status: 0, out: out.trim_start().into(), err: String::new() });
}
