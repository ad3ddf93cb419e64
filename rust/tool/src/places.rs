//! Where the states, branches and fields of a text stand in it.
//!
//! Document 01 numbers states in the order in which `+`, `&` and `end` stand in the text, and branches in that of `!` and `?`: so
//! the tokens of a text tell the places, without its grammar.

use sojimu::Reason;
use std::ops::Range;

/// A part of a text, from its first byte to behind its last one.
pub type Part = Range<usize>;

/// The places of what a text has. Of what stands before a token that is refused they are the same.
#[derive(Default)]
pub struct Places {
    /// `+`, `&` or `end`, by the number of the state.
    pub states: Vec<Part>,
    /// By the number of the branch.
    pub branches: Vec<Branch>,
    /// The names that stand behind a `rec`.
    pub names: Vec<Part>,
}

/// The places of a branch.
pub struct Branch {
    /// `!` or `?`, and the label.
    pub label: Part,
    /// From there to the closing bracket of its fields.
    pub whole: Part,
    /// Each field: its kind and its range.
    pub fields: Vec<Part>,
}

/// Something of a text that is meant, by its numbers.
#[derive(Clone, Copy, Debug, PartialEq, Eq)]
pub enum Mark {
    State(usize),
    Branch(usize),
    /// A branch, and which of its fields.
    Field(usize, usize),
}

impl Mark {
    /// What a judgement is about, where the state has or has not a branch of the message's label: the field that is out of range, or
    /// the branch; the state, where there is none or it is not its turn.
    pub fn of(reason: Reason, branch: Option<usize>, state: usize) -> Mark {
        match (reason, branch) {
            (Reason::Early, _) | (_, None) => Mark::State(state),
            (Reason::OutOfRange(field), Some(branch)) => Mark::Field(branch, field.into()),
            (_, Some(branch)) => Mark::Branch(branch),
        }
    }
}

impl Places {
    /// Where it stands.
    pub fn part(&self, mark: Mark) -> Part {
        match mark {
            Mark::State(state) => self.states[state].clone(),
            Mark::Branch(branch) => self.branches[branch].whole.clone(),
            Mark::Field(branch, field) => self.branches[branch].fields[field].clone(),
        }
    }

    /// The places of a text.
    pub fn of(text: &[u8]) -> Places {
        let mut places = Places::default();
        let mut last: &[u8] = b"";
        for part in tokens(text) {
            let token = &text[part.clone()];
            match token {
                b"+" | b"&" | b"end" => places.states.push(part),
                b"!" | b"?" => places.branches.push(Branch { label: part.clone(), whole: part, fields: Vec::new() }),
                _ if last == b"rec" => places.names.push(part),
                _ => places.within(last, token, part),
            }
            last = token;
        }
        places
    }

    /// A token that is part of a branch: its label behind the sign, a field's kind, the end of a field's range or of all fields.
    fn within(&mut self, last: &[u8], token: &[u8], part: Part) {
        let Some(branch) = self.branches.last_mut() else { return };
        match token {
            _ if last == b"!" || last == b"?" => branch.label.end = part.end,
            b")" => branch.whole.end = part.end,
            b"int" | b"text" | b"flag" => branch.fields.push(part),
            b"]" => branch.fields.iter_mut().last().into_iter().for_each(|field| field.end = part.end),
            _ => {}
        }
    }
}

/// The tokens of a text, as they are told from one another: runs of letters and digits, of digits, of dots; each other character by
/// itself. None is asked whether it is well formed.
pub fn tokens(text: &[u8]) -> impl Iterator<Item = Part> + '_ {
    let mut at = 0;
    std::iter::from_fn(move || {
        at += text[at..].iter().take_while(|byte| b" \n".contains(byte)).count();
        let part = at..at + length(&text[at..])?;
        at = part.end;
        Some(part)
    })
}

/// The token that begins at a byte; of the place past the last one, nothing.
pub fn token_at(text: &[u8], at: usize) -> Part {
    at..at + length(&text[at.min(text.len())..]).unwrap_or(0)
}

/// How long the token is with which bytes begin.
fn length(bytes: &[u8]) -> Option<usize> {
    let run = |from: usize, of: fn(&u8) -> bool| from + bytes[from..].iter().take_while(|byte| of(byte)).count();
    Some(match bytes.first()? {
        b'A'..=b'Z' | b'a'..=b'z' => run(1, u8::is_ascii_alphanumeric),
        b'0'..=b'9' | b'-' => run(1, u8::is_ascii_digit),
        b'.' => run(1, |&byte| byte == b'.'),
        0..=0x7F => 1,
        _ => character(bytes),
    })
}

/// How many bytes the character has that is no ASCII; 1 where there is none.
fn character(bytes: &[u8]) -> usize {
    bytes.utf8_chunks().next().and_then(|chunk| chunk.valid().chars().next()).map_or(1, char::len_utf8)
}

#[cfg(test)]
mod tests {
    use super::*;
    use crate::words;
    use sojimu::Table;
    use sojimu_checks::second::random::{legal_text, Random};

    /// The places of a text that is read are those of its table: as many, of the same signs, labels and fields.
    #[test]
    fn places_are_those_of_the_table() {
        for seed in 0..2000 {
            let text = legal_text(&mut Random::new(seed));
            let (table, places) = (Table::read(&text).expect("a legal text"), Places::of(&text));
            let shown = |mark: Mark| String::from_utf8_lossy(&text[places.part(mark)]).into_owned();
            let without = |words: String| words.replace([' ', '\n'], "");
            assert_eq!((places.states.len(), places.branches.len()), (table.states as usize, table.branches as usize));
            for state in 0..places.states.len() {
                assert_eq!(shown(Mark::State(state)), ["end", "+", "&"][table.sort[state] as usize]);
            }
            for branch in 0..places.branches.len() {
                let (label, share) = words::branch_ends(&table, branch);
                let whole = without(words::branch(&table, branch).replace(&share, ""));
                assert_eq!(without(shown(Mark::Branch(branch))), whole);
                assert_eq!(without(String::from_utf8_lossy(&text[places.branches[branch].label.clone()]).into_owned()), label);
                let fields = (0..places.branches[branch].fields.len()).map(|field| without(shown(Mark::Field(branch, field))));
                assert_eq!(fields.collect::<Vec<String>>(), words::branch_fields(&table, branch));
            }
        }
    }
}
