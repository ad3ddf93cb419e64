//! A refused text, shown where it fails.

mod choice;
mod limits;
mod malformed;
mod range;
mod trying;

use super::places::{token_at, Part, Places};
use super::style::Style;
use super::text::{shown as character, Text};
use sojimu::{Question, Refusal, LONGEST_PROTOCOL};

/// The question in words, the place, the line with a caret under the token, and what helps to mend it.
pub fn shown(text: &Text, refusal: Refusal, style: Style) -> String {
    let refused = Refused::of(text, refusal);
    let Said { note, also, help } = refused.said(refusal.question);
    let heading = format!("{}: refused by question {}", text.address(refused.part.start), refusal.question);
    let places: String = also.into_iter().map(|(part, note)| text.excerpt(part, &note, style)).collect();
    let help: String = help.into_iter().map(|line| line + "\n").collect();
    format!("{}\n{}{places}{help}", style.strong(&heading), text.excerpt(refused.part, &note, style))
}

/// A refused token and what stands before it: blanks and tokens that no question refuses.
struct Refused<'a> {
    text: &'a Text,
    before: &'a [u8],
    token: &'a [u8],
    part: Part,
}

/// What is said of it.
#[derive(Default)]
struct Said {
    /// Behind its caret.
    note: String,
    /// At another place of the text.
    also: Option<(Part, String)>,
    /// Below, in lines.
    help: Vec<String>,
}

impl Said {
    fn note(note: impl Into<String>) -> Said {
        Said { note: note.into(), ..Said::default() }
    }

    fn also(self, place: Option<Part>, note: &str) -> Said {
        Said { also: place.map(|part| (part, note.to_string())), ..self }
    }

    fn help(mut self, lines: impl IntoIterator<Item = String>) -> Said {
        self.help.extend(lines);
        self
    }
}

impl<'a> Refused<'a> {
    /// Question 1 names the start of the text; what is refused is the first byte too many.
    fn of(text: &'a Text, Refusal { question, at }: Refusal) -> Refused<'a> {
        let bytes = text.bytes.as_slice();
        let at = if question == Question::TEXT_TOO_LONG { LONGEST_PROTOCOL } else { at }.min(bytes.len());
        let part = token_at(bytes, at);
        Refused { text, before: &bytes[..at], token: &bytes[part.clone()], part }
    }

    fn said(&self, question: Question) -> Said {
        match question {
            Question::TEXT_TOO_LONG => Said::note(format!("byte {}, the first one too many", LONGEST_PROTOCOL + 1)),
            Question::BAD_TOKEN => malformed::said(self),
            Question::MISPLACED => self.not_here(),
            Question::UNBOUND => self.unbound(),
            Question::UNGUARDED => self.bare(),
            Question::BAD_RANGE => range::said(self),
            Question::LABEL_TWICE => self.used_twice(),
            Question::TOO_MANY => limits::said(self),
            Question::BAD_SHARE => Said::note("a share is 1 to 1000, in thousandths of its choice"),
            Question::BAD_SHARES => choice::unshared(self),
            Question::BAD_EDITION => Said::note("the editions are 1 and 2"),
            _ => Said::default(),
        }
    }

    fn not_here(&self) -> Said {
        let note = match self.token {
            [] => "the text ends here".to_string(),
            [b'0'..=b'9' | b'-', ..] => "a number cannot stand here".to_string(),
            token => format!("{} cannot stand here", ticked(token)),
        };
        Said::note(note).help(trying::could_stand(self.before))
    }

    fn unbound(&self) -> Said {
        let name = ticked(self.token);
        let ended = self.binder().map(|part| self.text.line(part.start));
        let ended = ended.map(|line| format!("the rec {name} of line {line} has ended before it"));
        Said::note(format!("no rec {name} is around it")).help(ended).help(trying::scope(self.before, self.token))
    }

    fn bare(&self) -> Said {
        let note = "no message passes between this name and its rec";
        let help = "between the two a choice must stand, `+{` or `&{`".to_string();
        Said::note(note).also(self.binder(), "its rec").help([help])
    }

    /// The last name behind a `rec` that is the refused one: its binder, where no choice stands between the two.
    fn binder(&self) -> Option<Part> {
        Places::of(self.before).names.into_iter().rfind(|part| self.before[part.clone()] == *self.token)
    }

    fn used_twice(&self) -> Said {
        let first = choice::innermost(self.before).into_iter().find(|branch| self.before[branch.label.clone()] == *self.token);
        let note = format!("a second {} in this choice", ticked(self.token));
        Said::note(note).also(first.map(|branch| branch.label), "first used here")
    }
}

/// A token as it is spoken of.
fn ticked(token: &[u8]) -> String {
    let letters: String = token.iter().map(|&byte| character(byte.into())).collect();
    format!("`{letters}`")
}

/// The value of a number that is not far too long.
fn number(token: &[u8]) -> Option<i64> {
    std::str::from_utf8(token).ok()?.parse().ok()
}
