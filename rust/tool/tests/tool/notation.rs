//! docs/NOTATION.md: what it shows is what the program prints, its texts are those of the examples, what it mends is read, and its tables
//! leave out no line, no question and no reason.

use super::folder::{example, Folder};
use super::page;
use sojimu::message::{self, Field, LONGEST_MESSAGE, LONGEST_TEXT};
use sojimu::{LONGEST_PROTOCOL, MOST_BRANCHES, MOST_FIELDS, MOST_OPEN, MOST_STATES};
use std::collections::BTreeSet;

fn page() -> String {
    page::page("NOTATION.md")
}

fn text(name: &str) -> String {
    std::fs::read_to_string(example(name)).unwrap()
}

/// The rows of the table below a heading, in cells.
fn rows(heading: &str) -> Vec<Vec<String>> {
    let page = page();
    let (_, part) = page.split_once(&format!("\n{heading}\n")).unwrap();
    let part = part.split("\n#").next().unwrap();
    let cells = |row: &str| row.trim_matches('|').split('|').map(|cell| cell.trim().to_string()).collect();
    part.lines().filter(|line| line.starts_with("| ")).skip(1).map(cells).collect()
}

/// One column of it.
fn column(heading: &str, at: usize) -> Vec<String> {
    rows(heading).into_iter().map(|mut row| row.swap_remove(at)).collect()
}

#[test]
fn what_is_shown_is_printed() {
    let all = page::shown(&page());
    page::check_printed(&all);
    let mistakes: Vec<_> = all.iter().filter(|(arguments, _)| arguments.starts_with("read examples/mistakes/")).collect();
    assert!(mistakes.len() >= 10 && mistakes.len() + 1 == all.len());
    let refused = |number: u8| mistakes.iter().any(|(_, output)| output.contains(&format!(": refused by question {number}, ")));
    for question in [2, 3, 4, 5, 6, 7, 8, 20, 23] {
        assert!(refused(question), "{question}");
    }
}

/// A text of one line is shown by what is printed of it.
#[test]
fn every_mistake_is_shown() {
    let page = page();
    for file in std::fs::read_dir(example("mistakes")).unwrap() {
        let name = file.unwrap().file_name().into_string().unwrap();
        assert!(page.contains(&format!("    $ ./sojimu read examples/mistakes/{name}\n")), "{name}");
        let text = text(&format!("mistakes/{name}"));
        let whole = if text.lines().count() == 1 { format!("\n      1 | {text}") } else { format!("\n```text\n{text}```\n") };
        assert!(page.contains(&whole), "{name}");
    }
}

#[test]
fn what_is_mended_is_read() {
    let page = page();
    let mended: Vec<&str> = page.lines().filter_map(|line| line.strip_prefix("Mended: `")?.strip_suffix('`')).collect();
    for text in &mended {
        assert_eq!(Folder::new().run_on(&["read", "-"], text.as_bytes()).status, 0, "{text}");
    }
    assert_eq!(mended.len(), std::fs::read_dir(example("mistakes")).unwrap().count());
}

#[test]
fn every_line_is_explained() {
    const PART: &str = "## 1. A protocol, line by line";
    let text = text("notation/protocol.txt");
    assert!(page().contains(&format!("\n```text\n{text}```\n")));
    let lines: Vec<String> = text.lines().map(|line| format!("`{}`", line.trim())).collect();
    let numbers: Vec<String> = (1..=lines.len()).map(|number| number.to_string()).collect();
    assert_eq!((column(PART, 0), column(PART, 1)), (numbers, lines));
}

/// The numbers that `./sojimu questions` lists, 1 to 23 and 1 to 4, have a row each.
#[test]
fn every_question_and_reason_has_its_row() {
    let listed = Folder::new().run(&["questions"]).out;
    let (questions, reasons) = listed.split_once("\n\n").unwrap();
    for (heading, part, most) in [("### The questions", questions, 23), ("### The reasons of a blame", reasons, 4)] {
        let numbers: Vec<String> = (1..=most).map(|number| number.to_string()).collect();
        let listed: Vec<&str> = part.lines().skip(1).filter_map(|line| line.split_whitespace().next()).collect();
        assert_eq!((column(heading, 0), listed), (numbers.clone(), numbers.iter().map(String::as_str).collect()));
        assert!(rows(heading).concat().iter().all(|cell| !cell.is_empty()));
    }
}

/// Every question is asked by some call.
#[test]
fn every_question_is_asked() {
    let asked = column("### Which call asks what", 2).join(" ");
    let asked: BTreeSet<u8> = asked.split(|c: char| !c.is_ascii_digit()).filter_map(|word| word.parse().ok()).collect();
    assert_eq!(asked, (1..=23).collect());
}

#[test]
fn limits_are_those_of_the_library() {
    let limits = rows("## 3. Limits");
    let known = [
        ("bytes of a text, blanks included", LONGEST_PROTOCOL),
        ("states", MOST_STATES),
        ("branches in the whole text", MOST_BRANCHES),
        ("fields in a branch", MOST_FIELDS),
        ("choices and `rec`s open around one another", MOST_OPEN),
        ("a `text`, in bytes", LONGEST_TEXT),
        ("a message, in bytes", LONGEST_MESSAGE),
    ];
    for (name, most) in known {
        let limit = limits.iter().find(|row| row[0] == name).map(|row| row[1].replace(',', "")).unwrap();
        assert_eq!(limit.rsplit(' ').next(), Some(most.to_string().as_str()), "{name}");
    }
}

#[test]
fn bytes_are_those_of_the_messages() {
    let messages: [(&str, &[Field]); 2] = [("Grade", &[Field::Text(b"A4")]), ("Status", &[Field::Int(-5), Field::Flag(true)])];
    for (label, fields) in messages {
        let mut out = [0; LONGEST_MESSAGE];
        let length = message::encode(message::label(label).unwrap(), fields, &mut out).unwrap();
        let bytes: Vec<String> = out[..length].iter().map(|byte| format!("{byte:02X}")).collect();
        assert!(page().lines().any(|line| line.split_whitespace().eq(bytes.iter())), "{label}");
    }
}
