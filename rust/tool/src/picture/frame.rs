//! What stands in the box of a state, and how large it is.

use super::layers::{Exit, Node};
use super::svg::{columns, wide};
use super::Automaton;
use crate::described::Described;
use crate::places::Mark;
use crate::words;
use std::collections::BTreeMap;

/// The columns of a branch's words at most, in each of its lines.
const WRAP: i32 = 35;
/// How far the further lines of a branch stand in.
pub const INDENT: i32 = 4;
/// From one line of a row to the next, and what a row has above and below its lines.
pub const LINE: i32 = 15;
const ROW_MARGIN: i32 = 5;
/// The height of a box's head, and the margin at its sides.
pub const HEAD: i32 = 24;
pub const SIDE: i32 = 10;
/// The columns of a state's or a branch's number, and of a target's with its sign.
pub const NUMBER: i32 = 4;
const TARGET: i32 = 4;
/// The columns between what stands beside one another.
const APART: i32 = 2;
/// Of a branch that many messages take, so many numbers are shown.
const NUMBERS: usize = 3;
/// What the ground of a message's numbers is wider than they are, and what stands between two of them.
pub const CHIP: i32 = 8;
pub const CHIPS_APART: i32 = 4;

/// Which messages take which branch, by their numbers.
pub struct Taken {
    by: BTreeMap<usize, Vec<usize>>,
    /// The branch and the number of the message that is at fault.
    failed: Option<(usize, usize)>,
}

/// A field with what stands around it; of a branch without fields all its words.
pub struct Unit {
    pub before: String,
    pub field: String,
    pub after: String,
}

/// A branch as it stands in its box.
pub struct Row {
    pub branch: usize,
    pub target: usize,
    /// Its words, field by field.
    pub lines: Vec<Vec<Unit>>,
    /// Where it stands in the text.
    pub line: String,
    /// The numbers of the messages that take it.
    pub taken: String,
    /// The number of the message that is at fault.
    pub failed: String,
    /// All of it in words.
    pub title: String,
    /// From the box's top.
    pub y: i32,
}

/// A state as it stands in its box.
pub struct Frame {
    pub state: usize,
    /// What it does, in words and by its ground.
    pub words: &'static str,
    pub ground: &'static str,
    /// Where it stands in the text.
    pub line: String,
    pub rows: Vec<Row>,
    pub width: i32,
    pub height: i32,
}

/// Where the parts of a box's rows stand, from its left side.
pub struct Stops {
    pub words: i32,
    /// The ends of the line's number and of the target's.
    pub line: i32,
    pub target: i32,
}

impl Taken {
    /// Of what is shown of an automaton. Where a branch is at fault, or has the fault, its last message does not take it.
    pub fn of(automaton: &Automaton, bad: bool) -> Taken {
        let mut by: BTreeMap<usize, Vec<usize>> = BTreeMap::new();
        for &(branch, number) in &automaton.path {
            by.entry(branch).or_default().push(number);
        }
        let at_fault = match automaton.marked {
            Some(Mark::Branch(branch) | Mark::Field(branch, _)) if bad => Some(branch),
            _ => None,
        };
        let failed = at_fault.and_then(|branch| Some((branch, by.get_mut(&branch)?.pop()?)));
        Taken { by, failed }
    }

    /// The last numbers of those that take a branch.
    fn shown(&self, branch: usize) -> String {
        let numbers = self.by.get(&branch).map_or(&[][..], Vec::as_slice);
        let earlier = numbers.len().saturating_sub(NUMBERS);
        let sign = (earlier > 0).then(|| "…".to_string());
        sign.into_iter().chain(numbers[earlier..].iter().map(usize::to_string)).collect::<Vec<String>>().join(" ")
    }

    fn failed(&self, branch: usize) -> String {
        self.failed.filter(|failed| failed.0 == branch).map_or(String::new(), |failed| format!("×{}", failed.1))
    }
}

impl Unit {
    pub fn words(&self) -> String {
        format!("{}{}{}", self.before, self.field, self.after)
    }

    /// A branch's words, a unit for each field.
    fn all(described: &Described, branch: usize) -> Vec<Unit> {
        let fields = words::branch_fields(&described.table, branch);
        let (label, share) = words::branch_ends(&described.table, branch);
        let last = fields.len().max(1) - 1;
        let unit = |index: usize| Unit {
            before: if index == 0 { format!("{label}(") } else { String::new() },
            field: fields.get(index).cloned().unwrap_or_default(),
            after: if index == last { format!("){share}") } else { ",".to_string() },
        };
        (0..=last).map(unit).collect()
    }
}

/// Units in lines that are not too wide.
fn wrapped(units: Vec<Unit>) -> Vec<Vec<Unit>> {
    let mut lines: Vec<Vec<Unit>> = Vec::new();
    let mut left = 0;
    for unit in units {
        let wide = columns(&unit.words());
        match lines.last_mut() {
            Some(last) if wide < left => {
                left -= wide + 1;
                last.push(unit);
            }
            _ => {
                left = WRAP - wide - if lines.is_empty() { 0 } else { INDENT };
                lines.push(vec![unit]);
            }
        }
    }
    lines
}

impl Row {
    fn of(described: &Described, taken: &Taken, branch: usize, y: i32) -> Row {
        let (table, target) = (&described.table, described.table.target[branch] as usize);
        let line = format!("line {}", described.line(Mark::Branch(branch)));
        Row {
            branch,
            target,
            lines: wrapped(Unit::all(described, branch)),
            taken: taken.shown(branch),
            failed: taken.failed(branch),
            title: format!("branch {branch}, {line}: {} to state {target}", words::branch(table, branch)),
            line,
            y,
        }
    }

    pub fn height(&self) -> i32 {
        LINE * self.lines.len() as i32 + ROW_MARGIN
    }

    /// The height of its middle, from the box's top.
    pub fn middle(&self) -> i32 {
        self.y + self.height() / 2
    }

    /// The columns of its words.
    fn columns(&self) -> i32 {
        let line = |(index, units): (usize, &Vec<Unit>)| {
            units.iter().map(|unit| columns(&unit.words()) + 1).sum::<i32>() - 1 + if index > 0 { INDENT } else { 0 }
        };
        self.lines.iter().enumerate().map(line).max().unwrap_or(0)
    }

    /// The width of its messages' numbers.
    fn chips(&self) -> i32 {
        let chip = |numbers: &str| if numbers.is_empty() { 0 } else { wide(columns(numbers)) + CHIP + CHIPS_APART };
        chip(&self.taken) + chip(&self.failed)
    }
}

impl Frame {
    pub fn of(described: &Described, taken: &Taken, state: usize) -> Frame {
        let mut height = HEAD;
        let mut rows: Vec<Row> = Vec::new();
        for branch in words::branches_of(&described.table, state) {
            let row = Row::of(described, taken, branch, height);
            height += row.height();
            rows.push(row);
        }
        let (words, line) = (words::sort(&described.table, state), format!("line {}", described.line(Mark::State(state))));
        let ground = words::speaker(&described.table, state).map_or("end", words::party);
        let mut frame = Frame { state, words, ground, line, rows, width: 0, height };
        let head = SIDE + wide(NUMBER + columns(words) + APART + columns(&frame.line));
        frame.width = SIDE + if frame.rows.is_empty() { head } else { head.max(frame.stops().target) };
        frame
    }

    pub fn stops(&self) -> Stops {
        let most = |of: fn(&Row) -> i32| self.rows.iter().map(of).max().unwrap_or(0);
        let words = SIDE + most(Row::chips) + wide(NUMBER);
        let line = words + wide(most(Row::columns) + APART + most(|row| columns(&row.line)));
        Stops { words, line, target: line + wide(APART + TARGET) }
    }

    /// The box, with an exit for each row.
    pub fn node(&self) -> Node {
        let exits = self.rows.iter().map(|row| Exit { y: row.middle(), target: row.target }).collect();
        Node { width: self.width, height: self.height, exits }
    }
}
