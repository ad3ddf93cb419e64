//! Questions, reasons, states and branches in words.

use super::described::Described;
use super::places::Mark;
use super::said;
use super::text::shown;
use sojimu::{message, Party, Question, Reason, Table};

/// All questions and reasons, one in a line.
pub fn questions() -> String {
    let line = |number: u8, words: &str| format!("{number:4}  {words}\n");
    let questions = (1..=u8::MAX).map(|number| (number, Question(number).words())).filter(|(_, words)| !words.is_empty());
    let questions: String = questions.map(|(number, words)| line(number, words)).collect();
    let reasons = [Reason::NoLabel, Reason::OtherKinds, Reason::OutOfRange(0), Reason::Early];
    let reasons: String = reasons.iter().map(|reason| line(reason.number(), reason.words())).collect();
    format!(
        "questions, of which the first that gets a no refuses\n{questions}\nreasons, for which a sender is blamed\n{reasons}"
    )
}

/// So many of something.
pub fn counted(number: usize, one: &str, many: &str) -> String {
    match number {
        1 => format!("1 {one}"),
        _ => format!("{number} {many}"),
    }
}

/// A party's name.
pub fn party(party: Party) -> &'static str {
    match party {
        Party::Device => "device",
        Party::Host => "host",
    }
}

/// A label's letters; what is no legal label as its bytes are shown.
pub fn label(label: u64) -> String {
    let bytes = label.to_be_bytes();
    let end = bytes.iter().rposition(|&byte| byte != 0).map_or(0, |last| last + 1);
    bytes[..end].iter().map(|&byte| shown(byte.into())).collect()
}

/// A kind's name, by its code.
pub fn kind(code: u32) -> &'static str {
    match code {
        0 => "int",
        1 => "text",
        _ => "flag",
    }
}

/// The value of a number in offset form.
pub fn value(offset: u32) -> i64 {
    i64::from(offset) - (1 << 31)
}

/// A field as texts have it: `int[0..9000]`.
pub fn field(table: &Table, branch: usize, field: usize) -> String {
    let at = 4 * branch + field;
    format!("{}[{}..{}]", kind(table.kind[at]), value(table.low[at]), value(table.high[at]))
}

/// A branch's fields as texts have them.
pub fn branch_fields(table: &Table, branch: usize) -> Vec<String> {
    (0..table.fields[branch] as usize).map(|f| field(table, branch, f)).collect()
}

/// A branch's sign and label, and its share if it carries one, as texts have them.
pub fn branch_ends(table: &Table, branch: usize) -> (String, String) {
    let sign = if speaker(table, table.owner[branch] as usize) == Some(Party::Device) { '!' } else { '?' };
    let share = match table.share[branch] {
        0 => String::new(),
        share => format!(" @{share}"),
    };
    (format!("{sign}{}", label(table.label(branch))), share)
}

/// A branch as texts have it: `!Set(int[1..24], int[0..1000])`.
pub fn branch(table: &Table, branch: usize) -> String {
    let (label, share) = branch_ends(table, branch);
    format!("{label}({}){share}", branch_fields(table, branch).join(", "))
}

/// Who sends at a state; nobody at an end.
pub fn speaker(table: &Table, state: usize) -> Option<Party> {
    match table.sort[state] {
        0 => None,
        1 => Some(Party::Device),
        _ => Some(Party::Host),
    }
}

/// What a state does, in words.
pub fn sort(table: &Table, state: usize) -> &'static str {
    match speaker(table, state) {
        None => "end",
        Some(Party::Device) => "device sends",
        Some(Party::Host) => "host sends",
    }
}

/// The branches of a state.
pub fn branches_of(table: &Table, state: usize) -> impl Iterator<Item = usize> + '_ {
    (0..table.branches as usize).filter(move |&branch| table.owner[branch] as usize == state)
}

/// The branch of a state that has the label with which bytes begin.
pub fn branch_named(table: &Table, state: usize, bytes: &[u8]) -> Option<usize> {
    branches_of(table, state).find(|&branch| message::has_label(bytes, table.label(branch)))
}

/// Words one after another: `A, B or C`.
pub fn one_of(words: &[String]) -> String {
    match words {
        [] => String::new(),
        [one] => one.clone(),
        [first @ .., last] => format!("{} or {last}", first.join(", ")),
    }
}

/// Why a message is forbidden at a state, in words; `described` forbids it, and `whose` says whose description that is.
pub fn forbidden(reason: Reason, described: &Described, state: usize, bytes: &[u8], whose: &str) -> String {
    let table = &described.table;
    match (reason, branch_named(table, state, bytes)) {
        (Reason::OutOfRange(at), Some(branch)) => {
            let at = usize::from(at);
            let line = described.line(Mark::Field(branch, at));
            let given = said::fields(bytes).get(at).map_or(String::new(), said::measured);
            format!("field {at} is {given}, and {whose} has {} (line {line})", field(table, branch, at))
        }
        (Reason::OtherKinds, Some(branch)) => {
            let given: Vec<&str> = said::fields(bytes).iter().map(said::kind).collect();
            let (given, wanted) = (given.join(", "), branch_fields(table, branch).join(", "));
            format!("its fields are ({given}), and {whose} has ({wanted}) (line {})", described.line(Mark::Branch(branch)))
        }
        (Reason::Early, _) => "it is the other side's turn, and under edition 2 nobody speaks out of turn".to_string(),
        _ => {
            let labels: Vec<String> = branches_of(table, state).map(|b| label(table.label(b))).collect();
            let (said, line) = (said::label(bytes), described.line(Mark::State(state)));
            format!("{whose} has no {said} there, but {} (line {line})", one_of(&labels))
        }
    }
}

/// How large a table is, and of which edition.
pub fn size(table: &Table) -> String {
    let states = counted(table.states as usize, "state", "states");
    let branches = counted(table.branches as usize, "branch", "branches");
    format!("{states}, {branches}, edition {}", table.edition)
}
