//! The bytes of texts: well-formed UTF-8 of every row of RFC 3629's ABNF, and such as is broken in every way.

use super::Random;
use crate::second::message::Message;
use crate::second::table::{Field, Kind, Table, LONGEST_TEXT, MOST_FIELDS};
use std::str::from_utf8;

/// UTF8-tail.
const TAIL: (u8, u8) = (0x80, 0xBF);

/// The rows of the ABNF: of each byte of a character the least and the greatest. UTF8-1, UTF8-2, four of UTF8-3, three of UTF8-4.
pub const ROWS: [&[(u8, u8)]; 9] = [
    &[(0x00, 0x7F)],
    &[(0xC2, 0xDF), TAIL],
    &[(0xE0, 0xE0), (0xA0, 0xBF), TAIL],
    &[(0xE1, 0xEC), TAIL, TAIL],
    &[(0xED, 0xED), (0x80, 0x9F), TAIL],
    &[(0xEE, 0xEF), TAIL, TAIL],
    &[(0xF0, 0xF0), (0x90, 0xBF), TAIL, TAIL],
    &[(0xF1, 0xF3), TAIL, TAIL, TAIL],
    &[(0xF4, 0xF4), (0x80, 0x8F), TAIL, TAIL],
];

/// The bytes at which a row's range begins or ends, and those next to them.
const EDGES: [u8; 24] = [
    0x00, 0x7F, 0x80, 0x81, 0x8F, 0x90, 0x9F, 0xA0, 0xBF, 0xC0, 0xC1, 0xC2, 0xDF, 0xE0, 0xE1, 0xEC, 0xED, 0xEE, 0xEF, 0xF0,
    0xF4, 0xF5, 0xF8, 0xFF,
];

/// What is no character, whatever stands around it: stray tails, overlong forms, surrogates, what is above U+10FFFF, bytes of no
/// row, and leads that another character interrupts.
const BROKEN: [&[u8]; 27] = [
    b"\x80",
    b"\xBF",
    b"\xC0\x80",
    b"\xC0\xAF",
    b"\xC1\xBF",
    b"\xE0\x80\x80",
    b"\xE0\x80\xAF",
    b"\xE0\x9F\xBF",
    b"\xF0\x80\x80\x80",
    b"\xF0\x82\x82\xAC",
    b"\xF0\x8F\xBF\xBF",
    b"\xED\xA0\x80",
    b"\xED\xAF\xBF",
    b"\xED\xBF\xBF",
    b"\xED\xA0\xBD\xED\xB8\x80",
    b"\xF4\x90\x80\x80",
    b"\xF4\xBF\xBF\xBF",
    b"\xF5\x80\x80\x80",
    b"\xF7\xBF\xBF\xBF",
    b"\xF8\x88\x80\x80\x80",
    b"\xFE",
    b"\xFF",
    b"\xC3 ",
    b"\xE2\x82 ",
    b"\xE2\xC3\xA9",
    b"\xF0\x9F\x98 ",
    b"\xF0\x9F\xE2\x82\xAC",
];

/// A character of a row, of the ends of its ranges more often than chance has it.
pub fn character(random: &mut Random, row: &[(u8, u8)]) -> Vec<u8> {
    row.iter()
        .map(|&(low, high)| match random.below(4) {
            0 => low,
            1 => high,
            _ => random.between(low.into(), high.into()) as u8,
        })
        .collect()
}

/// A well-formed text of so many bytes: ASCII alone, one row's characters, or any.
pub fn utf8_bytes(random: &mut Random, length: usize) -> Vec<u8> {
    let (kind, one) = (random.below(4), random.below(ROWS.len()));
    let mut text = Vec::new();
    while text.len() < length {
        let row = match kind {
            0 => ROWS[0],
            1 => ROWS[one],
            _ => *random.pick(&ROWS),
        };
        // What is left may be too little for it.
        let row = if row.len() <= length - text.len() { row } else { ROWS[0] };
        text.extend(character(random, row));
    }
    text
}

/// Bytes with one thing wrong (or, at times, nothing): a byte changed, dropped or put in, the end cut off, or what is no character
/// put in.
pub fn damaged_utf8(random: &mut Random, text: &[u8]) -> Vec<u8> {
    let mut text = text.to_vec();
    let place = random.below(text.len());
    match random.below(7) {
        0 if !text.is_empty() => text[place] = random.byte(),
        1 if !text.is_empty() => text[place] = *random.pick(&EDGES),
        2 if !text.is_empty() => {
            text.remove(place);
        }
        3 => text.insert(place, *random.pick(&EDGES)),
        4 => text.truncate(place),
        _ => {
            let broken: &&[u8] = random.pick(&BROKEN);
            text.splice(place..place, broken.iter().copied());
        }
    }
    text
}

/// A text of so many bytes, of which there is at least one, that is not well formed: damaged, or with a character that its end cuts.
pub fn broken_utf8(random: &mut Random, length: usize) -> Vec<u8> {
    for _ in 0..8 {
        let whole = utf8_bytes(random, length);
        let mut text = if random.one_in(4) { cut_character(random, &whole) } else { damaged_utf8(random, &whole) };
        text.resize(length, b' ');
        if from_utf8(&text).is_err() {
            return text;
        }
    }
    let mut text = utf8_bytes(random, length);
    text[random.below(length)] = 0xFF;
    text
}

/// The text with the beginning of a character in the place of its last bytes.
fn cut_character(random: &mut Random, text: &[u8]) -> Vec<u8> {
    let row = *random.pick(&ROWS[1..]);
    let mut start = character(random, row);
    start.truncate(1 + random.below(row.len() - 1));
    start.truncate(text.len());
    let kept = text.len() - start.len();
    [&text[..kept], &start].concat()
}

/// The message with one of its texts broken, or two next to each other by a character that goes from the one on into the other;
/// none where every text is empty.
pub fn with_broken_text(random: &mut Random, message: &Message) -> Option<Message> {
    let mut texts: Vec<Vec<u8>> = message.each_text().map(<[u8]>::to_vec).collect();
    let long: Vec<usize> = (0..texts.len()).filter(|&field| !texts[field].is_empty()).collect();
    let place = random.below(long.len());
    let broken = *long.get(place)?;
    match long.get(place + 1) {
        Some(&next) if random.one_in(2) => {
            let (one, other) = cut_at_a_border(random, texts[broken].len(), texts[next].len());
            (texts[broken], texts[next]) = (one, other);
        }
        _ => texts[broken] = broken_utf8(random, texts[broken].len()),
    }
    Some(Message { texts: texts.concat(), ..message.clone() })
}

/// Two texts of so many bytes, at least one each, that are well formed when they are joined, and not by themselves.
fn cut_at_a_border(random: &mut Random, one: usize, other: usize) -> (Vec<u8>, Vec<u8>) {
    let rows: Vec<_> = ROWS[1..].iter().filter(|row| row.len() <= one + other).collect();
    let row = **random.pick(&rows);
    let character = character(random, row);
    let least = character.len().saturating_sub(other).max(1);
    let cut = least + random.below(one.min(character.len() - 1) + 1 - least);
    let before = utf8_bytes(random, one - cut);
    let behind = utf8_bytes(random, other - (character.len() - cut));
    ([&before, &character[..cut]].concat(), [&character[cut..], &behind].concat())
}

/// The table with a text that is not empty in most of its branches.
pub fn with_texts(random: &mut Random, table: &Table) -> Table {
    let mut table = table.clone();
    for branch in &mut table.branches {
        let (one, other) = (random.between(1, LONGEST_TEXT), random.between(1, LONGEST_TEXT));
        let field = Field { kind: Kind::Text, low: one.min(other), high: one.max(other) };
        let place = random.below(branch.fields.len() + 1);
        if place < branch.fields.len() {
            branch.fields[place] = field;
        } else if place < MOST_FIELDS {
            branch.fields.push(field);
        }
    }
    table
}
