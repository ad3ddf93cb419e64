//! Numbers outside their kind, and ranges that are empty: question 6.

use super::{number, Refused, Said};
use crate::places::tokens;
use crate::words::{kind, value};
use sojimu::message;

/// What is said of such a number.
pub fn said(refused: &Refused) -> Said {
    let before: Vec<&[u8]> = tokens(refused.before).map(|part| &refused.before[part]).collect();
    let (word, low) = match before.as_slice() {
        [.., word, b"[", low, b".."] => (*word, Some(*low)),
        [.., word, b"["] => (*word, None),
        _ => return Said::default(),
    };
    let Some(code) = (0..3).find(|&code| kind(code).as_bytes() == word) else { return Said::default() };
    let (least, greatest) = range_of(code);
    let range = match kind(code) {
        "text" => format!("a text has {least} to {greatest} bytes"),
        "flag" => format!("a flag is {least} or {greatest}, false or true"),
        _ => format!("an int is {least} to {greatest}"),
    };
    let within = number(refused.token).is_some_and(|number| (least..=greatest).contains(&number));
    match low.filter(|_| within) {
        Some(low) => Said::note(format!("below the low number, {}", String::from_utf8_lossy(low))).help([range]),
        None => Said::note(range),
    }
}

/// The least and the greatest number of a kind, asked of the library: 0 is of every kind, and there are no gaps.
fn range_of(kind: u32) -> (i64, i64) {
    const ZERO: u32 = 1 << 31;
    let legal = |offset: u32| message::range_legal(kind, offset, offset);
    let down = farthest(|steps| ZERO.checked_sub(steps).is_some_and(legal));
    let up = farthest(|steps| ZERO.checked_add(steps).is_some_and(legal));
    (value(ZERO - down), value(ZERO + up))
}

/// The greatest number that passes, where every smaller one does.
fn farthest(passes: impl Fn(u32) -> bool) -> u32 {
    let bits = (0..u32::BITS).rev().map(|bit| 1 << bit);
    bits.fold(0, |sum, bit| if passes(sum | bit) { sum | bit } else { sum })
}
