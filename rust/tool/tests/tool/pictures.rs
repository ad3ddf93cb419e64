//! Pictures: well formed, the same for the same texts, and those of the examples as they stand beside them.

use super::folder::{root, Folder};
use super::xml;
use sojimu::Table;
use sojimu_checks::bench::inputs::largest;
use sojimu_checks::second::random::{legal_text, two_ways_texts, Random};
use std::collections::BTreeSet;
use std::path::Path;
use std::process::Command;

/// The picture that the program draws when it is started in a folder; none where it draws nothing.
fn drawn_in(folder: &Path, arguments: &[&str]) -> Option<String> {
    let place = Folder::new();
    let file = place.path().join("picture.svg");
    let mut command = Command::new(env!("CARGO_BIN_EXE_sojimu"));
    command.current_dir(folder).args(arguments).arg("--picture").arg(&file).output().unwrap();
    let picture = std::fs::read_to_string(&file).ok()?;
    xml::check_twice(&picture);
    Some(picture)
}

/// The picture of a text.
fn drawn(text: &[u8]) -> String {
    let folder = Folder::with(&[("text.txt", text)]);
    drawn_in(folder.path(), &["read", "text.txt"]).unwrap()
}

/// The picture of a protocol and a device.
fn drawn_pair(protocol: &[u8], device: &[u8]) -> String {
    let folder = Folder::with(&[("protocol.txt", protocol), ("device.txt", device)]);
    drawn_in(folder.path(), &["explain", "protocol.txt", "device.txt"]).unwrap()
}

/// A text with choices of one branch that lead round, the last one with the other words.
fn ring(length: usize, words: &str, last: &str, at: usize) -> String {
    let choice = |place: usize| format!("+{{!{}.", if place == at { last } else { words });
    format!("rec X.{}X{}", (0..length).map(choice).collect::<String>(), "}".repeat(length))
}

fn has(picture: &str, parts: &[&str]) {
    parts.iter().for_each(|part| assert!(picture.contains(part), "{part} is not in {picture}"));
}

/// The folders of the examples.
fn examples() -> Vec<String> {
    let folders = std::fs::read_dir(root().join("examples")).unwrap().map(|folder| folder.unwrap());
    let folders = folders.filter(|folder| folder.path().is_dir());
    folders.map(|folder| format!("examples/{}", folder.file_name().to_str().unwrap())).collect()
}

/// The names of an example's files of a kind.
fn named(example: &str, kind: &str) -> BTreeSet<String> {
    let files = std::fs::read_dir(root().join(example)).unwrap().map(|file| file.unwrap().path());
    let of_kind = files.filter(|file| file.extension().is_some_and(|extension| extension == kind));
    of_kind.map(|file| file.file_stem().unwrap().to_str().unwrap().to_string()).collect()
}

/// What draws the files of an example, by their names.
fn drawing(example: &str) -> Vec<(String, Vec<String>)> {
    let protocol = format!("{example}/protocol.txt");
    let of_text = |name: String| match name.as_str() {
        "protocol" => (name, vec!["read".to_string(), protocol.clone()]),
        _ => (name.clone(), vec!["explain".to_string(), protocol.clone(), format!("{example}/{name}.txt")]),
    };
    let of_log = |name: String| {
        let log = format!("{example}/{name}.log");
        (name, vec!["replay".to_string(), protocol.clone(), log])
    };
    named(example, "txt").into_iter().map(of_text).chain(named(example, "log").into_iter().map(of_log)).collect()
}

#[test]
fn every_example_has_its_picture() {
    for example in examples() {
        let mut pictures = BTreeSet::new();
        for (name, arguments) in drawing(&example) {
            let arguments: Vec<&str> = arguments.iter().map(String::as_str).collect();
            let committed = std::fs::read_to_string(root().join(format!("{example}/{name}.svg"))).ok();
            let drawn = drawn_in(&root(), &arguments);
            assert!(drawn == committed, "{example}/{name}.svg is not what `./sojimu {} --picture` draws", arguments.join(" "));
            pictures.extend(drawn.map(|_| name));
        }
        assert_eq!(named(&example, "svg"), pictures, "no other pictures");
    }
}

/// 32 states of 4 branches with 4 fields each, the most that a table holds.
#[test]
fn the_largest_table_has_its_picture() {
    let text = "rust/tool/tests/tool/largest.txt";
    assert_eq!(Table::read(&std::fs::read(root().join(text)).unwrap()), Ok(largest().table()));
    let committed = std::fs::read_to_string(root().join("rust/tool/tests/tool/largest.svg")).ok();
    let same = drawn_in(&root(), &["read", text]) == committed;
    assert!(same, "rust/tool/tests/tool/largest.svg is not what `./sojimu read {text} --picture` draws");
}

#[test]
fn states_and_branches_by_number_and_line() {
    let picture = drawn(b"rec X.+{\n  !Ask(int[0..100],\n text[1..2]) @1 .&{?Ok().X},\n  !Quit() @999 .end\n}");
    has(&picture, &["<title>text.txt</title>", ">3 states, 3 branches, edition 1<"]);
    has(&picture, &["state 0, line 1: device sends", "state 1, line 3: host sends", "state 2, line 4: end"]);
    has(&picture, &["branch 0, line 2: !Ask(int[0..100], text[1..2]) @1 to state 1", "branch 1, line 3: ?Ok() to state 0"]);
    has(&picture, &[">!Ask(int[0..100], text[1..2]) @1<", ">?Ok()<", ">!Quit() @999<", ">line 2<", ">line 3<", ">line 4<"]);
    has(&picture, &[">→ 0<", ">→ 1<", ">→ 2<"]);
}

#[test]
fn a_fault_with_its_moves() {
    let picture =
        drawn_pair(b"rec X.+{!Ask(int[0..100]).&{?Ok().X},!Quit().end}", b"rec X.+{!Ask(int[0..101]).&{?Ok().X},!Quit().end}");
    has(&picture, &["<title>device.txt does not fit protocol.txt</title>", ">Ask(101)<", ">blamed<", ">×1<"]);
    has(&picture, &[">device: device.txt<", ">protocol: protocol.txt<", "class=\"fault\""]);
    has(
        &picture,
        &[
            ">blamed: the device sends what the protocol forbids: field 0<",
            ">is 101, and the protocol has int[0..100] (line 1).<",
        ],
    );
}

#[test]
fn a_fault_before_any_move() {
    let picture = drawn_pair(b"+{!Ask().end}", b"end");
    has(&picture, &[">device<", ">gateway<", ">host<", "fault-border", ">jammed: the device has ended"]);
}

#[test]
fn a_fit_has_no_moves() {
    let picture = drawn_pair(b"+{!Ask().end}", b"+{!Ask().end}");
    has(&picture, &["device.txt fits protocol.txt"]);
    assert!(!picture.contains("gateway") && !picture.contains("class=\"fault\""));
}

#[test]
fn all_of_many_moves() {
    let (device, protocol) = (ring(14, "M(int[0..5])", "M(int[0..9])", 13), ring(15, "M(int[0..9])", "M(int[0..5])", 3));
    let picture = drawn_pair(protocol.as_bytes(), device.as_bytes());
    let shown = picture.matches("by the device: M(").count();
    assert!(shown > 100 && picture.contains(&format!("{shown}, by the device: M(9)")), "{shown}");
}

#[test]
fn the_limits() {
    let int = "int[-2147483648..2147483647]";
    drawn(b"end");
    drawn(format!("rec X.+{{!Aaaaaaaa({int},{int},{int},{int})@1000.X}}").as_bytes());
    drawn(format!("+{{{}}}", (0..31).map(|n| format!("!E{n}().end")).collect::<Vec<String>>().join(",")).as_bytes());
    drawn(format!("rec X.+{{{}}}", (0..128).map(|n| format!("!E{n}().X")).collect::<Vec<String>>().join(",")).as_bytes());
    drawn(ring(15, "M()", "M()", 0).as_bytes());
}

#[test]
fn names_that_are_markup() {
    let folder = Folder::with(&[("a&b<c>\"d\u{1}\u{E9}.txt", b"end")]);
    let picture = drawn_in(folder.path(), &["read", "a&b<c>\"d\u{1}\u{E9}.txt"]).unwrap();
    has(&picture, &["<title>a&amp;b&lt;c&gt;&quot;d\\x01\u{E9}.txt</title>"]);
}

#[test]
fn the_same_texts_have_the_same_picture() {
    let (protocol, device) = (b"+{!A().&{?B().end}}", b"+{!A().&{?C().end}}");
    assert_eq!(drawn_pair(protocol, device), drawn_pair(protocol, device));
}

#[test]
fn random_texts_and_pairs() {
    let mut random = Random::new(20);
    for _ in 0..300 {
        let (device, protocol) = two_ways_texts(&mut random);
        let text = legal_text(&mut random);
        let folder = Folder::with(&[("text.txt", &text), ("protocol.txt", &protocol), ("device.txt", &device)]);
        folder.run(&["read", "text.txt", "--picture", "text.svg"]);
        folder.run(&["explain", "protocol.txt", "device.txt", "--picture", "pair.svg"]);
        xml::check(&folder.take("text.svg"));
        xml::check(&folder.take("pair.svg"));
    }
}
