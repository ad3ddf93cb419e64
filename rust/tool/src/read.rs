//! What a text is read into: its states and branches, by number and line.

use super::described::Described;
use super::picture::{self, Automaton, Picture};
use super::places::Mark;
use super::style::Style;
use super::text::Text;
use super::{refuse, refused, words, write_picture, Ending, Status, World};
use std::ffi::OsStr;

/// Lists the states and branches of a text, or shows where it is refused; and draws its automaton, where a picture is asked for.
pub fn read(path: &OsStr, picture: Option<&OsStr>, world: &mut World) -> Ending {
    let text = Text::open(path, world.input)?;
    let described = match Described::of(text) {
        Ok(described) => described,
        Err((text, refusal)) => return refuse(&refused::shown(&text, refusal, world.style()), picture, world),
    };
    world.out.write_all(listed(&described, world.style()).as_bytes())?;
    write_picture(picture, || picture::draw(&drawn(&described)))?;
    Ok(Status::Good)
}

fn listed(described: &Described, style: Style) -> String {
    let Described { text, table, .. } = described;
    let heading = style.strong(&format!("{}: {}", text.name, words::size(table)));
    let states = (0..table.states as usize).map(|state| listed_state(described, state, style));
    format!("{heading}\n{}", states.collect::<String>())
}

/// A state and its branches.
fn listed_state(described: &Described, state: usize, style: Style) -> String {
    let table = &described.table;
    let heading =
        style.strong(&format!("state {state}, {}, line {}", words::sort(table, state), described.line(Mark::State(state))));
    let wide = described.text.line(usize::MAX).to_string().len();
    let row = |branch: usize| {
        let line = style.faint(&format!("line {:wide$}", described.line(Mark::Branch(branch))));
        format!("{branch:5}  {line}  {} to state {}\n", words::branch(table, branch), table.target[branch])
    };
    format!("\n{heading}\n{}", words::branches_of(table, state).map(row).collect::<String>())
}

fn drawn(described: &Described) -> Picture<'_> {
    let title = described.text.name.clone();
    let automaton = Automaton { name: String::new(), described, path: Vec::new(), marked: None };
    Picture { title, chart: None, automata: vec![automaton] }
}
