//! Editions: what was compared of texts that open with one, of tables, and of fit checks.

use super::both::Both;
use super::Tally;
use crate::second::text::LONGEST_PROTOCOL;
use crate::second::tree::{opening, split};
use sojimu::Fitting;

/// What is counted of them.
#[derive(Clone, Copy, Debug, PartialEq, Eq)]
pub enum Issued {
    /// Texts that are read and open with no edition.
    Unopened,
    /// Texts that are read and open with edition 1.
    One,
    /// Texts that are read and open with edition 2.
    Two,
    /// Texts that are read, a word straight behind the edition's number.
    Run,
    /// Texts of 8,192 bytes that are read and open with an edition.
    Longest,
    /// Texts that are refused by 3 at what stands in the place of the number.
    NoNumber,
    /// Texts that are refused by 2 there.
    Malformed,
    /// Texts that are refused by 23 at a number below 0.
    Negative,
    /// Texts that are refused by 23 at a number of more than ten digits.
    Digits,
    /// Texts that are refused by 3 for they end within the opening, or with it.
    Cut,
    /// Texts that are refused by 3 at the word, which stands elsewhere, or again.
    Elsewhere,
    /// Texts with an opening that are refused behind it.
    Later,
    /// Tables that 9 refuses for their edition alone.
    Table,
    /// Devices of edition 1 that fit a protocol of edition 1.
    Fits11,
    /// Devices of edition 1 that fit one of edition 2.
    Fits12,
    /// Devices of edition 2 that fit one of edition 1.
    Fits21,
    /// Devices of edition 2 that fit one of edition 2.
    Fits22,
    /// Devices of edition 1 that do not fit a protocol of edition 1.
    Fails11,
    /// Devices of edition 1 that do not fit one of edition 2.
    Fails12,
    /// Devices of edition 2 that do not fit one of edition 1.
    Fails21,
    /// Devices of edition 2 that do not fit one of edition 2.
    Fails22,
}

impl Issued {
    /// Each of them in a few letters, in their order.
    pub const ALL: [&str; 21] = [
        "edition, none",
        "edition, 1",
        "edition, 2",
        "edition, run",
        "edition, 8192",
        "edition, by 3",
        "edition, by 2",
        "edition, minus",
        "edition, digits",
        "edition, cut",
        "edition, other",
        "edition, later",
        "edition, by 9",
        "fits, 1 in 1",
        "fits, 1 in 2",
        "fits, 2 in 1",
        "fits, 2 in 2",
        "fails, 1 in 1",
        "fails, 1 in 2",
        "fails, 2 in 1",
        "fails, 2 in 2",
    ];
}

/// Counts how a text opens, by the question that got a no, or 0, and its place.
pub fn count_text(text: &[u8], question: u8, at: usize, tally: &mut Tally) {
    if question == 0 {
        let tokens = split(text);
        let opened = opening(&tokens) > 0;
        tally.issue(Issued::Unopened, !opened);
        tally.issue(Issued::One, opened && tokens[1] == b"1");
        tally.issue(Issued::Two, opened && tokens[1] == b"2");
        tally.issue(Issued::Run, opened && runs_on(text));
        tally.issue(Issued::Longest, opened && text.len() == LONGEST_PROTOCOL);
        return;
    }
    let before = split(&text[..at]);
    let opened = opening(&before);
    let token = split(&text[at..]).into_iter().next().unwrap_or_default();
    tally.issue(Issued::NoNumber, question == 3 && opened == 1 && !token.is_empty());
    tally.issue(Issued::Malformed, question == 2 && opened == 1);
    tally.issue(Issued::Negative, question == 23 && token.starts_with(b"-"));
    tally.issue(Issued::Digits, question == 23 && token.len() > 11);
    tally.issue(Issued::Cut, question == 3 && opened > 0 && opened == before.len() && token.is_empty());
    tally.issue(Issued::Elsewhere, question == 3 && token == b"edition");
    tally.issue(Issued::Later, opened == 2 && before.len() > 2);
}

/// Does a letter stand straight behind the first digit of a text?
fn runs_on(text: &[u8]) -> bool {
    let number = text.iter().position(u8::is_ascii_digit);
    number.and_then(|number| text.get(number + 1)).is_some_and(u8::is_ascii_alphabetic)
}

/// Counts a fit check.
pub fn count_fit(device: &Both, protocol: &Both, answer: Fitting, tally: &mut Tally) {
    let (fits, fails) = match (device.second.edition, protocol.second.edition) {
        (1, 1) => (Issued::Fits11, Issued::Fails11),
        (1, 2) => (Issued::Fits12, Issued::Fails12),
        (2, 1) => (Issued::Fits21, Issued::Fails21),
        (2, 2) => (Issued::Fits22, Issued::Fails22),
        _ => return,
    };
    tally.issue(fits, matches!(answer, Fitting::Fits { .. }));
    tally.issue(fails, matches!(answer, Fitting::Fails { .. }));
}
