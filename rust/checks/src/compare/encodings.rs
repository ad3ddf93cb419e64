//! What the texts that were compared are as UTF-8, and where 22 refused them.

use super::Tally;
use std::str::from_utf8;

/// What is counted of them. A row is one of RFC 3629's ABNF.
#[derive(Clone, Copy, Debug, PartialEq, Eq)]
pub enum Encoded {
    /// A text that is well formed.
    Formed,
    /// A text that is not.
    Broken,
    /// A character of UTF8-1.
    One,
    /// A character of UTF8-2.
    Two,
    /// A character of UTF8-3, its first byte E0.
    ThreeE0,
    /// E1 to EC.
    Three,
    /// ED.
    ThreeEd,
    /// EE or EF.
    ThreeEe,
    /// A character of UTF8-4, its first byte F0.
    FourF0,
    /// F1 to F3.
    Four,
    /// F4.
    FourF4,
    /// Of what a text first fails by: a surrogate.
    Surrogate,
    /// Two bytes where one would do.
    Overlong2,
    /// Three where two would.
    Overlong3,
    /// Four where three would.
    Overlong4,
    /// Above U+10FFFF.
    Above,
    /// A tail that no lead is before.
    Stray,
    /// A byte of no row that is not even the lead of a longer form of four bytes.
    NoLead,
    /// A lead that too few tails follow, with something else behind them.
    Interrupted,
    /// A character that the text's end cuts.
    Cut,
    /// The same, and the next text goes on with it: joined, they are well formed.
    Border,
    /// 22 refused a step.
    Step,
    /// The same where 16 would have, too.
    With16,
    /// The same where the message is forbidden, too.
    Forbidden,
    /// 15 refused a step with a broken text.
    By15,
    /// 12 did.
    By12,
    /// A message with a broken text was due.
    Due,
    /// A batch stopped at a message that 22 refused, and so did the next with more bytes and more room.
    Twice,
    /// Without the message, the next forwarded others.
    Dropped,
}

impl Encoded {
    /// Each of them in a few letters, in their order.
    pub const ALL: [&str; 29] = [
        "utf8, formed",
        "utf8, broken",
        "utf8, 00 to 7F",
        "utf8, C2 to DF",
        "utf8, E0",
        "utf8, E1 to EC",
        "utf8, ED",
        "utf8, EE to EF",
        "utf8, F0",
        "utf8, F1 to F3",
        "utf8, F4",
        "not, surrogate",
        "not, C0 and C1",
        "not, E0 80",
        "not, F0 80",
        "not, above",
        "not, stray",
        "not, F8 to FF",
        "not, broken up",
        "not, cut",
        "not, border",
        "22, step",
        "22, with 16",
        "22, forbidden",
        "22, after 15",
        "22, after 12",
        "22, due",
        "22, twice",
        "22, dropped",
    ];
}

/// Counts a text: as what it is whole, the row of each character, or what it first fails by.
pub fn count(text: &[u8], tally: &mut Tally) {
    tally.texts += 1;
    match from_utf8(text) {
        Ok(text) => {
            tally.encode(Encoded::Formed, true);
            text.chars().for_each(|character| tally.encode(row(character), true));
        }
        Err(no) => {
            tally.encode(Encoded::Broken, true);
            let rest = &text[no.valid_up_to()..];
            tally.encode(if no.error_len().is_none() { Encoded::Cut } else { fault(rest) }, true);
        }
    }
}

fn row(character: char) -> Encoded {
    match u32::from(character) {
        0..=0x7F => Encoded::One,
        0x80..=0x7FF => Encoded::Two,
        0x800..=0xFFF => Encoded::ThreeE0,
        0x1000..=0xCFFF => Encoded::Three,
        0xD000..=0xD7FF => Encoded::ThreeEd,
        0xD800..=0xFFFF => Encoded::ThreeEe,
        0x1_0000..=0x3_FFFF => Encoded::FourF0,
        0x4_0000..=0xF_FFFF => Encoded::Four,
        _ => Encoded::FourF4,
    }
}

/// Of bytes that begin with no character, nor with the start of one alone.
fn fault(bytes: &[u8]) -> Encoded {
    match (bytes[0], bytes.get(1)) {
        (0x80..=0xBF, _) => Encoded::Stray,
        (0xC0 | 0xC1, _) => Encoded::Overlong2,
        (0xE0, Some(0x80..=0x9F)) => Encoded::Overlong3,
        (0xF0, Some(0x80..=0x8F)) => Encoded::Overlong4,
        (0xED, Some(0xA0..=0xBF)) => Encoded::Surrogate,
        (0xF4, Some(0x90..=0xBF)) | (0xF5..=0xF7, _) => Encoded::Above,
        (0xF8..=0xFF, _) => Encoded::NoLead,
        _ => Encoded::Interrupted,
    }
}
