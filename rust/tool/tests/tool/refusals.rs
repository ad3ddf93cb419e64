//! Refused texts, shown where they fail: every question that reading asks, odd bytes, and that what is offered is true.

use super::folder::{example, Folder, Run};
use sojimu_checks::second::random::{any_text, damaged_text, nearly_legal_text, Random};
use sojimu_checks::second::text::{read, LONGEST_PROTOCOL};
use std::collections::BTreeSet;

/// What is shown of a refused text.
fn refused(text: impl AsRef<[u8]>, out: &str) {
    let run = Folder::with(&[("device.txt", text.as_ref())]).run(&["read", "device.txt"]);
    assert_eq!((run.status, run.out.as_str(), run.err.as_str()), (2, out.trim_start(), ""));
}

/// What is shown of a refused text below the heading.
fn refused_below(text: impl AsRef<[u8]>, below: &str) {
    let run = Folder::with(&[("device.txt", text.as_ref())]).run(&["read", "device.txt"]);
    assert_eq!((run.status, run.out.split_once('\n').unwrap().1), (2, below.trim_start_matches('\n')));
}

fn text_of(name: &str) -> Vec<u8> {
    std::fs::read(example(name)).unwrap()
}

#[test]
fn question_1() {
    refused(
        "end".to_string() + &"\n".repeat(8000) + &"x".repeat(200),
        "
device.txt:8001:190: refused by question 1, is the text at most 8,192 bytes long?
8001 | ... xxxxxxxxxxxxxxxxxxxxxxxxxxxxxxxxxxxxxxxxx
     |                                             ^ byte 8193, the first one too many
",
    );
}

#[test]
fn question_1_within_a_character() {
    refused(
        "\n".repeat(8191) + "\u{E9}",
        r"
device.txt:8192:2: refused by question 1, is the text at most 8,192 bytes long?
8192 | é
     | ^ byte 8193, the first one too many
",
    );
    refused(
        "\n".repeat(8192) + "\u{E9}",
        r"
device.txt:8193:1: refused by question 1, is the text at most 8,192 bytes long?
8193 | \xC3
     | ^^^^ byte 8193, the first one too many
",
    );
}

#[test]
fn question_2_names_and_words() {
    refused(
        "+{!Pressures().end}",
        "
device.txt:1:4: refused by question 2, is the token well formed?
  1 | +{!Pressures().end}
    |    ^^^^^^^^^ 9 letters and digits; a name or label has at most 8
",
    );
    refused(
        "+{\n    !ping().end\n}\n",
        "
device.txt:2:6: refused by question 2, is the token well formed?
  2 |     !ping().end
    |      ^^^^ no word of the notation
a word in lower case is `edition`, `end`, `rec`, `int`, `text` or `flag`; names and labels begin with a capital letter
here could stand: a label
",
    );
    refused_below(
        "+{!Set_To().end}",
        "
  1 | +{!Set_To().end}
    |       ^ `_` is no sign of the notation
here could stand: `(`
",
    );
}

#[test]
fn question_2_numbers_and_dots() {
    let notes = [
        ("05", "^^ a number has no leading zero\n"),
        ("-05", "^^^ a number has no leading zero\n"),
        ("-0", "^^ 0 has no minus sign\n"),
        ("- 5", "^ a minus sign without a number\nhere could stand: a number\n"),
    ];
    for (number, note) in notes {
        let row = format!("+{{!A(int[{number}..9]).end}}");
        refused_below(&row, &format!("  1 | {row}\n    |          {note}"));
    }
    refused_below(
        "+{!A(int[0...9]).end}",
        "
  1 | +{!A(int[0...9]).end}
    |           ^^^ 3 dots in a row; one stands before a type, two stand in a range
here could stand: `..`
",
    );
}

#[test]
fn question_2_signs() {
    refused_below(
        "+{!A().end;!B().end}",
        "
  1 | +{!A().end;!B().end}
    |           ^ `;` is no sign of the notation
here could stand: `,` or `}`
",
    );
    refused_below(
        "# pings\nend",
        "
  1 | # pings
    | ^ `#` is no sign of the notation; it has no comments
here could stand: `edition`, `end`, `rec`, `+` or `&`
",
    );
}

#[test]
fn question_2_bytes_of_other_files() {
    refused_below("+{\n\t!A().end}", "  2 |     !A().end}\n    | ^^^^ a tab; use spaces\n");
    refused_below("\u{FEFF}end", "  1 | \\u{feff}end\n    | ^^^^^^^^ a byte order mark; save the file without one\n");
    refused_below("end\r", "  1 | end\\x0D\n    |    ^^^^ a carriage return; a line ends with a line feed\n");
    refused_below("end\0\x1B[2J", "  1 | end\\x00\\x1B[2J\n    |    ^^^^ the control byte 0x00\n");
    refused_below(
        "+{\r\n!A().end}\r\n",
        r"
  1 | +{\x0D
    |   ^^^^ a carriage return: the file has Windows line ends
save it with Unix line ends: a line feed alone
",
    );
    refused_below(
        b"\xFF\xFEe\0n\0d\0",
        r"
  1 | \xFF\xFEe\x00n\x00d\x00
    | ^^^^ the mark of a file in UTF-16; save it as ASCII or as UTF-8 without a mark
",
    );
}

#[test]
fn question_2_no_ascii() {
    refused_below(
        "+{!\u{C9}tat().end}",
        "
  1 | +{!État().end}
    |    ^ U+00C9 is no ASCII character
here could stand: a label
",
    );
    refused_below(
        b"+{!A()\xE9.end,\t\x9B!\xC3",
        r"
  1 | +{!A()\xE9.end,    \x9B!\xC3
    |       ^^^^ the byte 0xE9 is no character
here could stand: `@` or `.`
",
    );
    refused_below(
        "end\u{A0}",
        r"
  1 | end\u{a0}
    |    ^^^^^^ U+00A0 is no ASCII character
nothing could stand here: the text is whole before it
",
    );
}

#[test]
fn question_3_at_a_token() {
    refused(
        "rec Run.+{\n    !Ping() Run\n}\n",
        "
device.txt:2:13: refused by question 3, does the grammar allow it here?
  2 |     !Ping() Run
    |             ^^^ `Run` cannot stand here
here could stand: `@` or `.`
",
    );
    refused_below(
        "+{!A(5).end}",
        "
  1 | +{!A(5).end}
    |      ^ a number cannot stand here
here could stand: `int`, `text`, `flag` or `)`
",
    );
    refused_below(
        "end}",
        "
  1 | end}
    |    ^ `}` cannot stand here
nothing could stand here: the text is whole before it
",
    );
}

/// What could stand at the end of a text that ran out: `X` is bound.
#[test]
fn question_3_at_every_place() {
    let places = [
        ("", "`edition`, `end`, `rec`, `+` or `&`"),
        ("edition", "a number"),
        ("edition 2", "`end`, `rec`, `+` or `&`"),
        ("rec", "a name"),
        ("rec X", "`.`"),
        ("rec X.", "`end`, `rec`, `+` or `&`"),
        ("rec X.+", "`{`"),
        ("rec X.+{", "`!`"),
        ("rec X.&{", "`?`"),
        ("rec X.+{!", "a label"),
        ("rec X.+{!A", "`(`"),
        ("rec X.+{!A(", "`int`, `text`, `flag` or `)`"),
        ("rec X.+{!A(int", "`[`"),
        ("rec X.+{!A(int[", "a number"),
        ("rec X.+{!A(int[1", "`..`"),
        ("rec X.+{!A(int[1..", "a number"),
        ("rec X.+{!A(int[1..2", "`]`"),
        ("rec X.+{!A(int[1..2]", "`)` or `,`"),
        ("rec X.+{!A(int[1..2],", "`int`, `text` or `flag`"),
        ("rec X.+{!A()", "`@` or `.`"),
        ("rec X.+{!A()@", "a number"),
        ("rec X.+{!A()@5", "`.`"),
        ("rec X.+{!A().", "`end`, `rec`, `+`, `&` or `X`"),
        ("rec X.+{!A().rec Y.", "`end`, `rec`, `+`, `&` or `X`"),
        ("rec X.+{!A().rec Y.&{?B().", "`end`, `rec`, `+`, `&`, `X` or `Y`"),
        ("rec X.+{!A().X", "`,` or `}`"),
        ("rec X.+{!A().X,", "`!`"),
        // Its shares do not add to 1000 yet, so that the choice cannot be closed.
        ("rec X.+{!A()@5.X", "`,`"),
    ];
    for (text, offers) in places {
        let (row, blanks) = (format!("  1 | {text}"), " ".repeat(text.len()));
        let rows = format!("{}\n    | {blanks}^ the text ends here\n", row.trim_end());
        refused_below(text, &format!("{rows}here could stand: {offers}\n"));
    }
}

#[test]
fn question_3_past_the_last_line() {
    refused(
        text_of("spray/unbalanced.txt"),
        "
device.txt:11:1: refused by question 3, does the grammar allow it here?
 10 |     }
 11 |
    | ^ the text ends here
here could stand: `,` or `}`
",
    );
    refused(
        "+{!A().end\n\n    ",
        "
device.txt:3:5: refused by question 3, does the grammar allow it here?
  1 | +{!A().end
  3 |
    |     ^ the text ends here
here could stand: `,` or `}`
",
    );
    refused(
        "\n",
        "
device.txt:2:1: refused by question 3, does the grammar allow it here?
  2 |
    | ^ the text ends here
here could stand: `edition`, `end`, `rec`, `+` or `&`
",
    );
}

#[test]
fn question_3_where_limits_leave_nothing() {
    refused_below(
        "+{!A(flag[0..1],flag[0..1],flag[0..1],flag[0..1],).end}",
        "
  1 | +{!A(flag[0..1],flag[0..1],flag[0..1],flag[0..1],).end}
    |                                                  ^ `)` cannot stand here
nothing could stand here: a branch has at most 4 fields
",
    );
}

/// A text of 8,192 bytes: something can be tried behind it only in the place of blanks.
#[test]
fn question_3_in_a_full_text() {
    refused_below(
        " ".repeat(8190) + "+{",
        "
  1 | ...                                       +{
    |                                             ^ the text ends here
here could stand: `!`
",
    );
    let branch = |number: usize| format!("!A{number:03}(int[-2147483648..2147483647],int[-2147483648..100000000]).X,");
    let text = "rec X.+{".to_string() + &(0..124).map(branch).collect::<String>();
    assert_eq!(text.len(), LONGEST_PROTOCOL);
    refused_below(
        text,
        "
  1 | ... 7483647],int[-2147483648..100000000]).X,
    |                                             ^ the text ends here
",
    );
}

#[test]
fn question_4() {
    refused(
        "rec Run.+{\n    !A().rec Wait.&{?B().Wait},\n    !C().rec Go.&{?D().Rum}\n}\n",
        "
device.txt:3:24: refused by question 4, is the name bound by a rec around it?
  3 |     !C().rec Go.&{?D().Rum}
    |                        ^^^ no rec `Rum` is around it
in scope here: `Run`, `Go`
",
    );
    refused_below(
        "+{!A().rec X.&{?B().X},\n!C().X}",
        "
  2 | !C().X}
    |      ^ no rec `X` is around it
the rec `X` of line 1 has ended before it
no name is in scope here
",
    );
    refused_below(
        "rec X.End",
        "
  1 | rec X.End
    |       ^^^ no rec `End` is around it
the word `end` is written in lower case
in scope here, but not before a message: `X`
",
    );
}

#[test]
fn question_5() {
    refused(
        "+{!A().rec X.\n    rec Y.X}",
        "
device.txt:2:11: refused by question 5, does a choice stand between the name after the dot of a rec and its own binder?
  2 |     rec Y.X}
    |           ^ no message passes between this name and its rec
  1 | +{!A().rec X.
    |            ^ its rec
between the two a choice must stand, `+{` or `&{`
",
    );
}

#[test]
fn question_6() {
    refused(
        "+{!A(int[5..4]).end}",
        "
device.txt:1:13: refused by question 6, is the number within its kind, and high not below low?
  1 | +{!A(int[5..4]).end}
    |             ^ below the low number, 5
an int is -2147483648 to 2147483647
",
    );
    refused_below(
        "+{!A(int[0..2147483648]).end}",
        "
  1 | +{!A(int[0..2147483648]).end}
    |             ^^^^^^^^^^ an int is -2147483648 to 2147483647
",
    );
    refused_below("+{!A(text[65", "  1 | +{!A(text[65\n    |           ^^ a text has 0 to 64 bytes\n");
    refused_below("+{!A(flag[-1", "  1 | +{!A(flag[-1\n    |           ^^ a flag is 0 or 1, false or true\n");
}

#[test]
fn question_7() {
    refused(
        "+{\n    !Ping().&{?Pong().end},\n    !Pong().end,\n    !Ping().end\n}\n",
        "
device.txt:4:6: refused by question 7, is the label new in its choice?
  4 |     !Ping().end
    |      ^^^^ a second `Ping` in this choice
  2 |     !Ping().&{?Pong().end},
    |      ^^^^ first used here
",
    );
}

#[test]
fn question_8() {
    let branches =
        |count: usize, target: &str| (0..count).map(|number| format!("!A{number}().{target},\n")).collect::<String>();
    refused(
        format!("+{{\n{}}}", branches(32, "end")),
        "
device.txt:33:8: refused by question 8, is the token within the limits?
 33 | !A31().end,
    |        ^^^ one too many: a text has at most 32 states
each `+`, `&` and `end` is a state
",
    );
    refused_below(
        format!("rec X.+{{\n{}}}", branches(129, "X")),
        "
130 | !A128().X,
    | ^ one too many: a text has at most 128 branches
each `!` and `?` begins a branch
",
    );
    refused_below(
        "+{!A(int[0..9], int[0..9], int[0..9], text[0..9], flag[0..1]).end}",
        "
  1 | +{!A(int[0..9], int[0..9], int[0..9], text[0..9], flag[0..1]).end}
    |                                                   ^^^^ one too many: a branch has at most 4 fields
each `int`, `text` and `flag` is a field
",
    );
}

#[test]
fn question_8_of_what_is_open() {
    for opened in ["rec X.", "+{!A().", "&{?A()."] {
        let row = format!("{}{opened}end", " ".repeat(7 - opened.len()));
        let (caret, blanks) = ("^".repeat(if opened == "rec X." { 3 } else { 1 }), " ".repeat(7 - opened.len()));
        refused_below(
            format!("{}{row}", format!("{opened}\n").repeat(16)),
            &format!(
                " 17 | {row}
    | {blanks}{caret} one too many: at most 16 choices and recs stand around one another
each `+`, `&` and `rec` is open to the end of its type
"
            ),
        );
    }
}

#[test]
fn question_19() {
    refused(
        "+{!Knot()@0.end}",
        "
device.txt:1:11: refused by question 19, is the share 1 to 1000?
  1 | +{!Knot()@0.end}
    |           ^ a share is 1 to 1000, in thousandths of its choice
",
    );
}

#[test]
fn question_20() {
    refused(
        "+{\n    !Knot()@10.&{?A()@1000.end},\n    !Clear()@980.end\n}\n",
        "
device.txt:4:1: refused by question 20, has the choice no shares, or one for each branch, which add to 1000?
  4 | }
    | ^ the shares of this choice add to 990
line 2: `Knot` has 10
line 3: `Clear` has 980
",
    );
    refused_below(
        "+{\n    !Knot()@10.&{?A().end},\n    !Clear().end\n}\n",
        "
  4 | }
    | ^ of this choice some branches have a share, and some have none
line 2: `Knot` has 10
line 3: `Clear` has none
",
    );
}

#[test]
fn question_23() {
    refused(
        text_of("editions/third-edition.txt"),
        "
device.txt:1:9: refused by question 23, is the edition 1 or 2?
  1 | edition 3
    |         ^ the editions are 1 and 2
",
    );
}

#[test]
fn long_lines_and_long_tokens() {
    refused_below(
        "+{!".to_string() + &"A".repeat(8000) + "().end}",
        &format!(
            "  1 | +{{!{} ...\n    |    {}... 8000 letters and digits; a name or label has at most 8\n",
            "A".repeat(97),
            "^".repeat(40)
        ),
    );
    refused_below(
        "+{!Place(int[0..9000], int[0..1000], int[0..500]).end, !Edge(flag[0..1]).\
        &{?Back() end, ?Home(int[0..9000]).end, ?Stay(int[0..9]).end}}",
        "
  1 | ... .500]).end, !Edge(flag[0..1]).&{?Back() end, ?Home(int[0..9000]).end, ?Stay(int[0..9]).end}}
    |                                             ^^^ `end` cannot stand here
here could stand: `@` or `.`
",
    );
}

/// The signs and words of documents 01 and 02.
const FIXED: [&str; 20] =
    ["edition", "end", "rec", "+", "&", "{", "}", "!", "?", "(", ")", "int", "text", "flag", "[", "]", "..", ",", ".", "@"];

/// The question that refuses a token behind the beginning of a text, by the second implementation.
fn refuses(before: &[u8], token: &str) -> Option<u8> {
    let text = [before, b" ", token.as_bytes()].concat();
    read(&text).err().filter(|&(_, place)| place == before.len() + 1).map(|(question, _)| question)
}

/// The names, labels and words of a text. A number ends where letters begin.
fn runs(text: &[u8]) -> impl Iterator<Item = &str> {
    let runs = text.split(|byte| !byte.is_ascii_alphanumeric()).map(|run| std::str::from_utf8(run).unwrap());
    runs.map(|run| run.trim_start_matches(|first: char| first.is_ascii_digit())).filter(|run| !run.is_empty())
}

/// The names of a text that are not refused as types behind it.
fn names(before: &[u8]) -> BTreeSet<String> {
    let names = runs(before).filter(|run| run.as_bytes()[0].is_ascii_uppercase());
    names.filter(|name| refuses(before, name).is_none()).map(|name| format!("`{name}`")).collect()
}

/// What can stand behind the beginning of a text, by the second implementation.
fn standing(before: &[u8]) -> BTreeSet<String> {
    let mut all: BTreeSet<String> =
        FIXED.iter().filter(|token| refuses(before, token).is_none()).map(|token| format!("`{token}`")).collect();
    let ended = before.trim_ascii_end();
    let grammar = |token| !matches!(refuses(before, token), Some(2 | 3));
    match ended.last() {
        Some(b'!' | b'?') => all.extend(grammar("A").then(|| "a label".to_string())),
        Some(b'c') if runs(ended).last() == Some("rec") => all.extend(grammar("A").then(|| "a name".to_string())),
        _ => all.extend(names(before)),
    }
    all.extend(grammar("0").then(|| "a number".to_string()));
    all
}

/// What a line lists behind its first words.
fn listed(out: &str, words: &str) -> Option<BTreeSet<String>> {
    let line = out.lines().find_map(|line| line.strip_prefix(words))?;
    Some(line.split(", ").flat_map(|part| part.split(" or ")).map(str::to_string).collect())
}

/// Holds what is shown of a text to what the second implementation says of it. Gives the question that refuses it.
fn held(text: &[u8], run: &Run) -> Option<u8> {
    let odd = |character: char| character.is_control() && character != '\n';
    assert!(!run.out.contains(odd) && run.err.is_empty(), "{run:?}");
    let Err((question, place)) = read(text) else {
        assert_eq!(run.status, 0);
        return None;
    };
    let before = &text[..if question == 1 { LONGEST_PROTOCOL } else { place }];
    let lines: Vec<&[u8]> = before.split(|&byte| byte == b'\n').collect();
    let heading = format!("-:{}:{}: refused by question {question}, ", lines.len(), lines[lines.len() - 1].len() + 1);
    assert!(run.status == 2 && run.out.starts_with(&heading), "{heading} {run:?}");
    if before.len() + 9 > LONGEST_PROTOCOL {
        return Some(question);
    }
    let (offered, standing) = (listed(&run.out, "here could stand: "), standing(before));
    let nothing = run.out.contains("\nnothing could stand here: ");
    match question {
        3 if standing.is_empty() => assert!(nothing && offered.is_none(), "{run:?}"),
        3 => assert_eq!((offered, nothing), (Some(standing), false), "{run:?}"),
        4 => assert_eq!(listed(&run.out, "in scope here: ").unwrap_or_default(), names(before), "{run:?}"),
        _ => assert!(offered.is_none_or(|offered| offered == standing) && !(nothing && !standing.is_empty()), "{run:?}"),
    }
    Some(question)
}

#[test]
fn what_is_shown_is_true() {
    let files =
        ["scanner/protocol.txt", "steambox/fits-named.txt", "spray/protocol.txt", "shares/protocol.txt", "editions/fits.txt"];
    let examples = files.map(text_of);
    let (folder, mut random) = (Folder::new(), Random::new(11));
    let mut asked = BTreeSet::new();
    for number in 0..10_000 {
        let text = match number % 4 {
            0 => any_text(&mut random),
            1 => random.bytes(40),
            2 => nearly_legal_text(&mut random),
            _ => {
                let example = random.pick(&examples);
                damaged_text(&mut random, example)
            }
        };
        asked.extend(held(&text, &folder.run_on(&["read", "-"], &text)));
    }
    assert_eq!(asked, BTreeSet::from([1, 2, 3, 4, 5, 6, 7, 8, 19, 20, 23]));
}
