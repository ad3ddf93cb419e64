//! The branches of a choice that is not closed yet, and their shares.

use super::{number, ticked, Refused, Said};
use crate::places::{tokens, Part};

/// A branch: its label, and its share if it carries one.
pub struct Branch {
    pub label: Part,
    share: Option<i64>,
}

/// The branches of the innermost choice that is open where these bytes end.
pub fn innermost(before: &[u8]) -> Vec<Branch> {
    let mut open: Vec<Vec<Branch>> = Vec::new();
    let mut last: &[u8] = b"";
    for part in tokens(before) {
        let token = &before[part.clone()];
        match (last, token, open.last_mut()) {
            (_, b"{", _) => open.push(Vec::new()),
            (_, b"}", Some(_)) => drop(open.pop()),
            (b"!" | b"?", _, Some(branches)) => branches.push(Branch { label: part, share: None }),
            (b"@", _, Some(branches)) => branches.iter_mut().last().into_iter().for_each(|branch| branch.share = number(token)),
            _ => {}
        }
        last = token;
    }
    open.pop().unwrap_or_default()
}

/// What is said at a closing brace that question 20 refuses.
pub fn unshared(refused: &Refused) -> Said {
    let branches = innermost(refused.before);
    let sum: Option<i64> = branches.iter().map(|branch| branch.share).sum();
    let note = match sum {
        Some(sum) => format!("the shares of this choice add to {sum}"),
        None => "of this choice some branches have a share, and some have none".to_string(),
    };
    let line = |branch: &Branch| {
        let label = ticked(&refused.before[branch.label.clone()]);
        let share = branch.share.map_or("none".to_string(), |share| share.to_string());
        format!("line {}: {label} has {share}", refused.text.line(branch.label.start))
    };
    Said::note(note).help(branches.iter().map(line))
}
