//! Texts: legal, nearly legal, with tokens of any length, and any bytes.

use super::show::{self, Columns};
use super::{editions, names, Outcome, Shared, Tally};
use crate::ffi;
use crate::second::random::{any_text, damaged_opening, damaged_text, joined, tokens, Limits, Random};
use crate::second::table::Raw;
use crate::second::text::{self, LONGEST_PROTOCOL};
use sojimu::{Question, Refusal, Table};

/// One text: question and place, or every word of the table.
pub fn case(random: &mut Random, tally: &mut Tally) -> Outcome {
    let mut bytes = any_text(random);
    if random.one_in(16) {
        stretch(random, &mut bytes);
    }
    read(&bytes, tally)
}

/// A text whose opening is mostly damaged; at times the text is filled up with blanks, mostly to just 8,192 bytes, or has a byte
/// damaged among the first.
pub fn opening(random: &mut Random, tally: &mut Tally) -> Outcome {
    let limits = Limits::any(random);
    let mut tokens = tokens(random, limits);
    if !random.one_in(3) {
        damaged_opening(random, &mut tokens);
    }
    let mut bytes = joined(random, &tokens);
    match random.below(8) {
        0 => {
            let blanks = LONGEST_PROTOCOL.saturating_sub(bytes.len()) + usize::from(random.one_in(4));
            let at = *random.pick(&[0, 7.min(bytes.len()), bytes.len()]);
            bytes.splice(at..at, vec![b' '; blanks]);
        }
        1 => {
            let rest = bytes.split_off(bytes.len().min(12));
            bytes = damaged_text(random, &bytes);
            bytes.extend(rest);
        }
        _ => {}
    }
    read(&bytes, tally)
}

/// What the wrapper says, and every number of what is given back: the place is 0, or the table empty, where it does not apply.
pub fn read(bytes: &[u8], tally: &mut Tally) -> Outcome {
    let (question, at, table) = match text::read(bytes) {
        Ok(table) => (0, 0, Raw::of(&table)),
        Err((question, at)) => (question, at, Raw::empty()),
    };
    let table = Columns(Table::from(&table));
    let second = match question {
        0 => Ok(table.clone()),
        _ => Err(Refusal { question: Question(question), at }),
    };
    let proved = Table::read(bytes).map(Columns);
    let given = ffi::read(bytes);
    tally.asked(proved.as_ref().err().map(|refusal| refusal.question));
    names::count(bytes, question, at, tally);
    editions::count_text(bytes, question, at, tally);
    tally.share(Shared::Read, table.0.share.iter().any(|&share| share > 0));
    let proved = (proved, given.question, given.at, Columns(given.table));
    tally.same("read", proved, (second, question.into(), at as u32, table), || show::bytes("text", bytes))
}

/// One byte of the text becomes many: long numbers, names and words, many dots and blanks.
fn stretch(random: &mut Random, bytes: &mut Vec<u8>) {
    let place = random.below(bytes.len() + 1);
    let byte = match bytes.get(place) {
        Some(&byte) if !random.one_in(4) => byte,
        _ => *random.pick(b"09.- \nAzx@"),
    };
    let times = *random.pick(&[2, 3, 9, 10, 11, 19, 20, 21, 64, 300, 5000]);
    bytes.splice(place..place, std::iter::repeat_n(byte, times));
}
