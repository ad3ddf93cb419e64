//! docs/GATEWAY.md: its programs are the files that it names, they compile, and they print what it says.

mod compiled;
#[allow(dead_code)]
#[path = "../examples/gateway.rs"]
mod gateway;

use compiled::{file, printed_by};
use gateway::{hear, Conversation, TOGETHER, WAITING};
use sojimu::{Party, Table};

fn contents(name: &str) -> String {
    let path = file(name);
    std::fs::read_to_string(&path).unwrap_or_else(|error| panic!("{}: {error}", path.display()))
}

/// The page's one block of a language.
fn block(language: &str) -> String {
    let page = contents("docs/GATEWAY.md");
    let mut blocks = page.split("```").skip(1).step_by(2).filter_map(|block| block.strip_prefix(language)?.strip_prefix('\n'));
    let block = blocks.next().unwrap_or_else(|| panic!("no {language} in the page"));
    assert_eq!(blocks.next(), None, "one block of {language}");
    block.to_string()
}

#[test]
fn the_programs_are_the_files() {
    assert_eq!(block("c"), contents("tests/c/gateway.c"));
    assert_eq!(block("rust"), contents("rust/sojimu/examples/gateway.rs"));
}

#[test]
fn the_rust_program() {
    let mut printed = Vec::new();
    gateway::run(&mut printed).unwrap();
    assert_eq!(String::from_utf8(printed).unwrap(), block("text"));
}

#[test]
fn the_c_program() {
    assert_eq!(printed_by(&file("tests/c/gateway.c")), block("text"));
}

/// What the gateway logs of one side's bytes, in pieces of some length, and whether the conversation goes on.
fn heard(protocol: &[u8], side: Party, bytes: &[u8], piece: usize) -> (String, bool) {
    let protocol = Table::read(protocol).unwrap();
    let (mut talk, mut log) = (Conversation::begin(&protocol), Vec::new());
    let goes_on = bytes.chunks(piece).all(|piece| hear(&protocol, &mut talk, side, piece, &mut log).unwrap());
    (String::from_utf8(log).unwrap(), goes_on)
}

/// How many bytes were passed on from the device at a time.
fn passed_on(log: &str) -> Vec<usize> {
    let bytes = |line: &str| line.strip_prefix("from Device: ")?.strip_suffix(" bytes")?.parse().ok();
    log.lines().map(|line| bytes(line).unwrap_or_else(|| panic!("{line}"))).collect()
}

const SAYS: &[u8] = b"rec X.+{!Say(text[0..64]).X}";

#[test]
fn what_waits_is_bounded() {
    let message = [b"Say\0\0\0\0\0\x01\x01\0\0\0\x40".as_slice(), &[b' '; 64]].concat();
    let many = message.repeat(100);
    for piece in [1, 9, 78, 285, 286, many.len()] {
        let (log, goes_on) = heard(SAYS, Party::Device, &many, piece);
        assert!(goes_on);
        assert_eq!(passed_on(&log).iter().sum::<usize>(), many.len());
        // It is never the host's turn.
        assert_eq!(heard(SAYS, Party::Host, &many, piece), ("too much from Host\n".into(), false));
        assert_eq!(heard(SAYS, Party::Host, &many[..WAITING], piece), (String::new(), true));
    }
}

#[test]
fn an_output_that_is_full_is_passed_on() {
    let message = [b"Say\0\0\0\0\0\x01\x01\0\0\0\x40".as_slice(), &[b' '; 64]].concat();
    let (most, whole) = (TOGETHER / message.len() * message.len(), 80 * message.len());
    let (log, goes_on) = heard(SAYS, Party::Device, &message.repeat(80), whole);
    let mut wanted = vec![most; whole / most];
    wanted.push(whole % most);
    assert_eq!((passed_on(&log), goes_on), (wanted, true));
}

#[test]
fn under_edition_2_who_is_early_is_blamed() {
    let second = [b"edition 2 ", SAYS].concat();
    let said = [b"Say\0\0\0\0\0\x01\x01\0\0\0\x03".as_slice(), "€".as_bytes()].concat();
    for piece in [1, 9, 17, 100] {
        let blamed = ("Host blamed, reason 4\n".to_string(), false);
        assert_eq!(heard(&second, Party::Host, &said.repeat(2), piece), blamed);
        // What is not all there yet, or no message, waits, as all does under edition 1.
        assert_eq!(heard(&second, Party::Host, &said[..16], piece), (String::new(), true));
        assert_eq!(heard(&second, Party::Host, b"GET / HTTP", piece), (String::new(), true));
        assert_eq!(heard(SAYS, Party::Host, &said.repeat(2), piece), (String::new(), true));
        assert_eq!(heard(&second, Party::Device, &said.repeat(2), piece).1, true);
    }
}

#[test]
fn a_broken_text_closes_the_line() {
    let said = |text: &[u8]| [b"Say\0\0\0\0\0\x01\x01\0\0\0\x03", text].concat();
    let whole = said("€".as_bytes());
    for piece in [1, 9, 17, 100] {
        let bytes = [&whole[..], &said(b"\xE2\x82?"), &whole].concat();
        let (log, goes_on) = heard(SAYS, Party::Device, &bytes, piece);
        assert_eq!((log.as_str(), goes_on), ("from Device: 17 bytes\nno message from Device\n", false), "{piece}");
    }
}

#[test]
fn what_cannot_become_a_message_closes_the_line() {
    for piece in [1, 5, 100] {
        let closed = ("no message from Device\n".to_string(), false);
        for junk in ["GET / HTTP", "Say\0\0\0\0\0\x05", "Say\0\0\0\0\0\x01\x01\0\0\0\x41", "Say\0\0\0\0\0\x01\x03\0\0\0\0"] {
            assert_eq!(heard(SAYS, Party::Device, junk.as_bytes(), piece), closed);
        }
        for start in ["GET / HT", "Say\0\0\0\0\0\x01\x01\0\0\0"] {
            assert_eq!(heard(SAYS, Party::Device, start.as_bytes(), piece), (String::new(), true));
        }
    }
}
