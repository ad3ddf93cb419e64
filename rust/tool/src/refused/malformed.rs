//! Tokens that are not well formed: question 2.

use super::trying::{could_stand, FIXED};
use super::{ticked, Refused, Said};
use crate::words::one_of;
use sojimu::{Question, Refusal, Table};

/// The most letters and digits of a name or label.
const MOST_LETTERS: usize = 8;

/// What is said of such a token.
pub fn said(refused: &Refused) -> Said {
    let offers = could_stand(refused.before);
    match refused.token {
        [b'A'..=b'Z', ..] => long_name(refused.token.len()),
        [b'a'..=b'z', ..] => Said::note("no word of the notation").help([words()]).help(offers),
        [b'-'] => Said::note("a minus sign without a number").help(offers),
        b"-0" => Said::note("0 has no minus sign"),
        [b'0'..=b'9' | b'-', ..] => Said::note("a number has no leading zero"),
        [b'.', ..] => dots(refused.token.len()).help(offers),
        [b'!'..=b'~'] => sign(refused.token).help(offers),
        _ => foreign(refused),
    }
}

fn long_name(letters: usize) -> Said {
    Said::note(format!("{letters} letters and digits; a name or label has at most {MOST_LETTERS}"))
}

fn dots(dots: usize) -> Said {
    Said::note(format!("{dots} dots in a row; one stands before a type, two stand in a range"))
}

fn sign(token: &[u8]) -> Said {
    let comments = if matches!(token, b"#" | b"/") { "; it has no comments" } else { "" };
    Said::note(format!("{} is no sign of the notation{comments}", ticked(token)))
}

/// The words that there are: of those in the notation, the ones that the library takes for well formed.
fn words() -> String {
    let formed = |word: &&&str| !matches!(Table::read(word.as_bytes()), Err(Refusal { question: Question::BAD_TOKEN, .. }));
    let words = FIXED.iter().filter(|token| token.starts_with(|first: char| first.is_ascii_lowercase()));
    let words: Vec<String> = words.filter(formed).map(|word| ticked(word.as_bytes())).collect();
    format!("a word in lower case is {}; names and labels begin with a capital letter", one_of(&words))
}

/// What no text has: a blank of another sort, a control byte, a character that is no ASCII, or a byte that is no character.
fn foreign(refused: &Refused) -> Said {
    let rest = &refused.text.bytes[refused.part.start..];
    let character = std::str::from_utf8(refused.token).ok().and_then(|token| token.chars().next());
    let byte = rest.first().copied().unwrap_or_default();
    match character {
        Some('\t') => Said::note("a tab; use spaces"),
        Some('\r') if rest.starts_with(b"\r\n") => Said::note("a carriage return: the file has Windows line ends")
            .help(["save it with Unix line ends: a line feed alone".to_string()]),
        Some('\r') => Said::note("a carriage return; a line ends with a line feed"),
        Some('\u{FEFF}') => Said::note("a byte order mark; save the file without one"),
        Some(control) if control.is_ascii() => Said::note(format!("the control byte 0x{byte:02X}")),
        Some(other) => Said::note(format!("U+{:04X} is no ASCII character", other as u32)).help(could_stand(refused.before)),
        None if rest.starts_with(b"\xFF\xFE") || rest.starts_with(b"\xFE\xFF") => {
            Said::note("the mark of a file in UTF-16; save it as ASCII or as UTF-8 without a mark")
        }
        None => Said::note(format!("the byte 0x{byte:02X} is no character")).help(could_stand(refused.before)),
    }
}
