//! What could stand at a place, asked of the library by trying: the text up to there, and each token behind it.

use super::{limits, ticked};
use crate::places::{tokens, Places};
use crate::words::one_of;
use sojimu::{Question, Table, LONGEST_PROTOCOL};

/// The signs and words of the notation, as they follow one another in a text.
pub const FIXED: [&str; 20] =
    ["edition", "end", "rec", "+", "&", "{", "!", "?", "(", "int", "text", "flag", "[", "..", "]", ")", "@", ".", ",", "}"];

/// The most bytes that are tried behind a text: a blank and a name.
const TRIED: usize = 9;

/// The beginning of a text.
pub struct Beginning {
    /// Its tokens, with no more blanks than they need.
    packed: Vec<u8>,
}

impl Beginning {
    /// Of bytes in which nothing is refused. None where they leave no room to try anything.
    pub fn of(before: &[u8]) -> Option<Beginning> {
        let packed = packed(before);
        (packed.len() + TRIED <= LONGEST_PROTOCOL).then_some(Beginning { packed })
    }

    /// The question that refuses a token here. A refusal further on means that the token was taken.
    pub fn refuses(&self, token: &str) -> Option<Question> {
        let text = [&self.packed, " ".as_bytes(), token.as_bytes()].concat();
        let refusal = Table::read(&text).err()?;
        (refusal.at <= self.packed.len() + 1).then_some(refusal.question)
    }

    /// The names that can stand here as a type; and those in scope with no choice between, which 5 refuses.
    fn scope(&self) -> (Vec<String>, Vec<String>) {
        let (mut free, mut bare) = (Vec::new(), Vec::new());
        for name in self.names() {
            match self.refuses(&name) {
                None => free.push(ticked(name.as_bytes())),
                Some(Question::UNGUARDED) => bare.push(ticked(name.as_bytes())),
                _ => {}
            }
        }
        (free, bare)
    }

    /// The names that stand behind a `rec`, each once.
    fn names(&self) -> Vec<String> {
        let mut names: Vec<String> = Vec::new();
        for part in Places::of(&self.packed).names {
            let name = String::from_utf8_lossy(&self.packed[part]).into_owned();
            if !names.contains(&name) {
                names.push(name);
            }
        }
        names
    }

    /// What could stand here, in the order of [`FIXED`], then names, labels and numbers.
    fn offers(&self) -> Vec<String> {
        let fixed = FIXED.iter().filter(|token| self.refuses(token).is_none()).map(|token| ticked(token.as_bytes()));
        let last = tokens(&self.packed).last().map(|part| &self.packed[part]);
        let names = match last {
            Some(b"rec") => self.class("X", "a name"),
            Some(b"!" | b"?") => self.class("X", "a label"),
            _ => self.scope().0,
        };
        fixed.chain(names).chain(self.class("1", "a number")).collect()
    }

    /// A class of tokens, where the grammar allows one of them; what other questions say of this one is no matter.
    fn class(&self, one: &str, words: &str) -> Vec<String> {
        match self.refuses(one) {
            Some(Question(2 | 3)) => Vec::new(),
            _ => vec![words.to_string()],
        }
    }
}

/// What could stand behind the beginning of a text, in words.
pub fn could_stand(before: &[u8]) -> Option<String> {
    let beginning = Beginning::of(before)?;
    let offers = beginning.offers();
    if !offers.is_empty() {
        return Some(format!("here could stand: {}", one_of(&offers)));
    }
    let why = match Table::read(&beginning.packed) {
        Ok(_) => "the text is whole before it".to_string(),
        Err(_) => {
            let limited = FIXED.iter().find(|token| beginning.refuses(token) == Some(Question::TOO_MANY))?;
            limits::passed(before, limited.as_bytes()).most
        }
    };
    Some(format!("nothing could stand here: {why}"))
}

/// The names in scope behind the beginning of a text, in words; before them the word that the refused name would be in lower case,
/// where that could stand there.
pub fn scope(before: &[u8], name: &[u8]) -> Vec<String> {
    let Some(beginning) = Beginning::of(before) else { return Vec::new() };
    let lower = name.to_ascii_lowercase();
    let word = FIXED.iter().find(|word| word.as_bytes() == lower && beginning.refuses(word).is_none());
    let word = word.map(|word| format!("the word `{word}` is written in lower case"));
    let scope = match beginning.scope() {
        (free, bare) if free.is_empty() && bare.is_empty() => "no name is in scope here".to_string(),
        (free, bare) if free.is_empty() => format!("in scope here, but not before a message: {}", bare.join(", ")),
        (free, _) => format!("in scope here: {}", free.join(", ")),
    };
    word.into_iter().chain([scope]).collect()
}

/// The tokens of a text, with a blank only where two of them would run together.
fn packed(text: &[u8]) -> Vec<u8> {
    let mut packed: Vec<u8> = Vec::new();
    let mut end = 0;
    for part in tokens(text) {
        let joined = [packed.last(), text.get(part.start)];
        if part.start > end && joined.iter().all(|byte| byte.is_some_and(u8::is_ascii_alphanumeric)) {
            packed.push(b' ');
        }
        end = part.end;
        packed.extend(&text[part]);
    }
    packed
}
