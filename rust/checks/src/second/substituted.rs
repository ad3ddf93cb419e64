//! What a text means once more: by substitution, without states and without looking a name up.
//!
//! A `rec` is its body, with the whole in the place of its name. So a type becomes an `end` or a choice after some `rec`s, or it
//! stays a `rec` for ever: a loop that passes no message, which source document 004 bars. Meant for small types.

use super::table::{Branch as Row, Sort, Table};
use super::text::MOST_OPEN;
use super::tree::{Branch, Form, Type};

/// How often a `rec` may have to become its body: those straight before a name are fewer than may be open, and so are those of the
/// choice that it means.
const ENOUGH: usize = 2 * MOST_OPEN;

/// The type with another, all of whose names are bound, in the place of a name.
fn put(of: &Type, name: &[u8], whole: &Type) -> Type {
    let form = match &of.form {
        Form::Name(used) if used == name => return whole.clone(),
        Form::Rec(bound, body) if bound != name => Form::Rec(bound.clone(), Box::new(put(body, name, whole))),
        Form::Choice(sort, branches) => {
            let then = |branch: &Branch| Branch { then: put(&branch.then, name, whole), ..branch.clone() };
            Form::Choice(*sort, branches.iter().map(then).collect())
        }
        other => other.clone(),
    };
    Type { form, ..of.clone() }
}

/// What the type is when it is no longer a `rec`; none where it stays one.
fn head(of: &Type) -> Option<Form> {
    let mut now = of.clone();
    for _ in 0..=ENOUGH {
        now = match &now.form {
            Form::Rec(name, body) => put(body, name, &now),
            _ => return Some(now.form),
        };
    }
    None
}

/// Goes from one thing to those that follow it, to each once, until one has a fault.
fn follow<T: PartialEq, E>(first: T, followers: impl Fn(&T) -> Result<Vec<T>, E>) -> Result<(), E> {
    let mut met = vec![first];
    let mut next = 0;
    while next < met.len() {
        for follower in followers(&met[next])? {
            if !met.contains(&follower) {
                met.push(follower);
            }
        }
        next += 1;
    }
    Ok(())
}

/// The question that a type gets a no to, if it does: 4 where a name is left that nothing takes the place of, 5 where a part stays a
/// `rec`.
pub fn refused(of: &Type) -> Option<u8> {
    let parts = |part: &Type| match head(part).ok_or(5)? {
        Form::Choice(_, branches) => Ok(branches.into_iter().map(|branch| branch.then).collect()),
        Form::Name(_) => Err(4),
        _ => Ok(Vec::new()),
    };
    follow(of.clone(), parts).err()
}

/// Does the table, from state 0 on, what the type does? Sorts are held together, labels, and how many fields a branch has.
pub fn means(table: &Table, of: &Type) -> bool {
    let label = |row: &Row| row.label.into_iter().take_while(|&byte| byte != 0).collect();
    let parts = |(state, part): &(usize, Type)| {
        let (sort, branches) = match head(part).ok_or(())? {
            Form::End => (Sort::End, Vec::new()),
            Form::Choice(sort, branches) => (sort, branches),
            _ => return Err(()),
        };
        let rows: Vec<&Row> = table.branches_of(*state).into_iter().map(|b| &table.branches[b]).collect();
        let had: Vec<(Vec<u8>, usize)> = rows.iter().map(|row| (label(row), row.fields.len())).collect();
        let wanted: Vec<(Vec<u8>, usize)> = branches.iter().map(|branch| (branch.label.clone(), branch.fields)).collect();
        if table.states[*state] != sort || had != wanted {
            return Err(());
        }
        Ok(rows.into_iter().zip(branches).map(|(row, branch)| (row.target, branch.then)).collect())
    };
    follow((0, of.clone()), parts).is_ok()
}
