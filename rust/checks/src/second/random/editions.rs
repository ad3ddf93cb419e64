//! Editions: those of tables, and how texts open, right and damaged.

use super::Random;
use crate::second::tree::opening;

/// Either edition.
pub fn edition(random: &mut Random) -> u32 {
    *random.pick(&[1, 2])
}

/// The word and a number, as a text opens with them.
fn opening_of(number: &[u8]) -> Vec<Vec<u8>> {
    vec![b"edition".to_vec(), number.to_vec()]
}

/// How a text opens: with either edition, or with none.
pub fn any_opening(random: &mut Random) -> Vec<Vec<u8>> {
    match random.below(5) {
        0 | 1 => Vec::new(),
        2 => opening_of(b"1"),
        _ => opening_of(b"2"),
    }
}

/// The tokens of a text with another opening, or the same.
pub fn reopened(random: &mut Random, tokens: &[Vec<u8>]) -> Vec<Vec<u8>> {
    let mut all = any_opening(random);
    all.extend_from_slice(&tokens[opening(tokens)..]);
    all
}

/// What stands in the place of an edition's number: another number, one that is 1 or 2 again in its last bits, malformed, or no
/// number.
const STRANGE_EDITIONS: [&[u8]; 28] = [
    b"0",
    b"3",
    b"4",
    b"10",
    b"12",
    b"21",
    b"22",
    b"-1",
    b"-2",
    b"-12",
    b"257",
    b"258",
    b"65538",
    b"4294967297",
    b"4294967298",
    b"18446744073709551617",
    b"18446744073709551618",
    b"-4294967294",
    b"00",
    b"01",
    b"02",
    b"-0",
    b"-",
    b"2A",
    b"A",
    b"end",
    b"rec",
    b".",
];

/// A text's opening damaged, or one put before it and damaged: its number strange, very long, or missing; the word missing, or another;
/// twice; nothing behind it; or moved into the text.
pub fn damaged_opening(random: &mut Random, tokens: &mut Vec<Vec<u8>>) {
    let rest = tokens.split_off(opening(tokens));
    *tokens = opening_of(if random.one_in(2) { b"1" } else { b"2" });
    match random.below(9) {
        0..=2 => tokens[1] = random.pick(&STRANGE_EDITIONS).to_vec(),
        3 => {
            let digits = *random.pick(&[2, 9, 10, 11, 20, 300, 5000]);
            tokens[1].extend((0..digits).map(|_| *random.pick(b"0129")));
        }
        4 => drop(tokens.remove(random.below(2))),
        5 => {
            tokens[0] =
                random.pick::<&[u8]>(&[b"edition1", b"edition2", b"editions", b"editio", b"Edition", b"rec", b"end"]).to_vec()
        }
        6 => tokens.extend(any_opening(random).into_iter().take(1 + random.below(2))),
        7 => {
            tokens.truncate(1 + random.below(2));
            return;
        }
        _ => {
            let moved = std::mem::replace(tokens, rest);
            let place = random.below(tokens.len() + 1);
            tokens.splice(place..place, moved);
            return;
        }
    }
    tokens.extend(rest);
}
