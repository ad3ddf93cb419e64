//! Names after the dot of a `rec`: what the texts that were compared have of them.

use super::Tally;
use crate::second::text::MOST_OPEN;
use crate::second::tree::{split, tree, Form, Open, Place, Type};

/// What is counted of them.
#[derive(Clone, Copy, Debug, PartialEq, Eq)]
pub enum Named {
    /// Texts with such a name that are read.
    Read,
    /// Texts that are refused by 4 at such a name.
    Unbound,
    /// Texts that are refused by 5.
    Unguarded,
    /// Texts that are read, two `rec`s or more straight before the name.
    Chain,
    /// Texts that are read, the name's own `rec` within another of that name.
    Hiding,
    /// Texts that are refused by 5, with a choice between the name and another `rec` of that name, which its own one hides.
    Hidden,
    /// Texts that are read, with as much open around the name as may be.
    Full,
    /// Texts with such a name that are refused later on.
    Later,
    /// Messages forwarded by a branch that has such a name for its type.
    Spoken,
    /// Devices that fit, where one of the two texts has such a name.
    Fits,
    /// Devices that do not.
    Fails,
}

impl Named {
    /// Each of them in a few letters, in their order.
    pub const ALL: [&str; 11] = [
        "name, read",
        "name, by 4",
        "name, by 5",
        "name, chain",
        "name, hiding",
        "name, hidden",
        "name, 16 open",
        "name, later",
        "name, spoken",
        "name, fits",
        "name, fails",
    ];
}

/// Counts what a text has of them, by the question that got a no, or 0, and its place.
pub fn count(text: &[u8], question: u8, at: usize, tally: &mut Tally) {
    let (before, rest) = text.split_at(at);
    let word = rest.iter().take_while(|byte| byte.is_ascii_alphanumeric()).count();
    let tokens = match question {
        0 => split(text),
        4 | 5 => split(&text[..at + word]),
        _ => split(before),
    };
    let Some(tree) = tree(&tokens) else {
        return;
    };
    let places = tree.places();
    let names: Vec<&Place> = places.iter().filter(|place| after_rec(place)).collect();
    let last = places.last().filter(|place| after_rec(place));
    match (question, last) {
        (0, _) => {
            let mut any = |what, such: fn(&Place) -> bool| tally.name(what, names.iter().any(|place| such(place)));
            any(Named::Read, |_| true);
            any(Named::Chain, |place| place.recs_before() > 1);
            any(Named::Hiding, |place| place.binders().len() > 1);
            any(Named::Full, |place| place.around.len() == MOST_OPEN);
        }
        (4, Some(_)) => tally.name(Named::Unbound, true),
        (5, Some(name)) => {
            tally.name(Named::Unguarded, true);
            tally.name(Named::Hidden, name.binders().contains(&true));
        }
        _ => tally.name(Named::Later, !names.is_empty()),
    }
}

fn after_rec(place: &Place) -> bool {
    place.recs_before() > 0 && matches!(place.of.form, Form::Name(_))
}

/// Has the text, which is read, such a name?
pub fn has(text: &[u8]) -> bool {
    tree(&split(text)).is_some_and(|tree| tree.places().iter().any(after_rec))
}

/// Of each branch of a text that is read: is its type such a name, with the `rec`s before it?
pub fn by_branch(text: &[u8]) -> Vec<bool> {
    let Some(tree) = tree(&split(text)) else {
        return Vec::new();
    };
    let branches = tree.places().into_iter().filter(|place| place.around.last() == Some(&Open::Choice));
    branches.map(|place| matches!(&place.of.form, Form::Rec(_, body) if is_name(body))).collect()
}

fn is_name(of: &Type) -> bool {
    match &of.form {
        Form::Rec(_, body) => is_name(body),
        form => matches!(form, Form::Name(_)),
    }
}
