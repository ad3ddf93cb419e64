//! The limits of question 8.

use super::trying::Beginning;
use super::{Refused, Said};
use sojimu::{Question, MOST_BRANCHES, MOST_FIELDS, MOST_OPEN, MOST_STATES};

/// A limit in words.
pub struct Limit {
    /// How many there may be.
    pub most: String,
    /// What is counted.
    counted: &'static str,
}

/// What is said of a token that passes one.
pub fn said(refused: &Refused) -> Said {
    let Limit { most, counted } = passed(refused.before, refused.token);
    Said::note(format!("one too many: {most}")).help([counted.to_string()])
}

/// The limit that a token passes, behind the beginning of a text. A sign passes that of what is open where a `rec` does, too.
pub fn passed(before: &[u8], token: &[u8]) -> Limit {
    let is_open_full = || Beginning::of(before).is_some_and(|beginning| beginning.refuses("rec") == Some(Question::TOO_MANY));
    let (most, counted) = match token {
        b"int" | b"text" | b"flag" => {
            (format!("a branch has at most {MOST_FIELDS} fields"), "each `int`, `text` and `flag` is a field")
        }
        b"!" | b"?" => (format!("a text has at most {MOST_BRANCHES} branches"), "each `!` and `?` begins a branch"),
        b"end" | b"+" | b"&" if token == b"end" || !is_open_full() => {
            (format!("a text has at most {MOST_STATES} states"), "each `+`, `&` and `end` is a state")
        }
        _ => (
            format!("at most {MOST_OPEN} choices and recs stand around one another"),
            "each `+`, `&` and `rec` is open to the end of its type",
        ),
    };
    Limit { most, counted }
}
