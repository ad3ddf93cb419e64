//! The automaton of a text: a box for each state, with a row for each branch, and the arrows between them.

use super::frame::{Frame, Row, Stops, Taken, Unit, CHIP, CHIPS_APART, HEAD, INDENT, LINE, NUMBER, SIDE};
use super::layers::{lay_out, Layout, Node, Route};
use super::net::{arrow, net};
use super::svg::{self, columns, wide, Drawn, Point};
use super::Automaton;
use crate::places::Mark;
use crate::words;

/// So many colours tell nets apart.
const COLOURS: usize = 6;
/// The least columns for the words above the boxes.
const LEAST: i32 = 48;

/// How something that may be marked is drawn.
struct Marked {
    mark: Option<Mark>,
    /// The ground of what is marked.
    class: &'static str,
}

/// Draws an automaton with layers that are no wider than `widest`; `bad` says whether what is marked in it is a fault.
pub fn drawn(automaton: &Automaton, widest: i32, bad: bool) -> Drawn {
    let (described, taken) = (automaton.described, Taken::of(automaton, bad));
    let marked = Marked { mark: automaton.marked, class: if bad { "fault" } else { "here" } };
    let states = 0..described.table.states as usize;
    let frames: Vec<Frame> = states.map(|state| Frame::of(described, &taken, state)).collect();
    let layout = lay_out(&frames.iter().map(Frame::node).collect::<Vec<Node>>(), widest);
    let width = layout.width.max(wide(LEAST));
    let (heading, high) = heading(automaton, width);
    let mut body = arrows(&frames, &layout);
    for (frame, &corner) in frames.iter().zip(&layout.corners) {
        body += &svg::moved(corner, &marked.state(frame));
    }
    Drawn { width, height: high + layout.height, body: heading + &svg::moved((0, high), &body) }
}

/// What the automaton is of, where that is not the picture's own title, and how large it is; and the height of this.
fn heading(automaton: &Automaton, width: i32) -> (String, i32) {
    let Automaton { name, described, .. } = automaton;
    let size = words::size(&described.table);
    if name.is_empty() {
        return (svg::text("faint", (0, 12), &size), 20);
    }
    let file = svg::cut_before(&described.text.name, svg::room(width) - columns(name) - 2);
    let named = svg::text("strong", (0, 14), &format!("{name}: {file}"));
    (svg::group("heading", &format!("{name}: {}", described.text.name), &named) + &svg::text("faint", (0, 32), &size), 40)
}

/// All arrows, those that messages take above the others.
fn arrows(frames: &[Frame], layout: &Layout) -> String {
    let rows = frames.iter().flat_map(|frame| &frame.rows);
    let (taken, others): (Vec<_>, Vec<_>) =
        rows.zip(layout.routes.iter().flatten()).partition(|(row, _): &(&Row, &Route)| !row.taken.is_empty());
    let to = |arrows: &[(&Row, &Route)], class: &str, state: usize| {
        net(arrows.iter().map(|(_, route)| *route).filter(|route| route.target == state), class)
    };
    let mut all = layout.corners.first().map_or(String::new(), |&corner| beginning(corner));
    all.extend((0..frames.len()).map(|state| to(&others, &format!("n{}", state % COLOURS), state)));
    all.extend((0..frames.len()).map(|state| to(&taken, "way", state)));
    all
}

/// Where a conversation begins.
fn beginning((x, y): Point) -> String {
    let from = (x + 14, y - 16);
    svg::circle("dot", from, 4) + &arrow("dark", &[from, (x + 14, y)])
}

impl Marked {
    fn has(&self, mark: Mark) -> bool {
        self.mark == Some(mark)
    }

    /// A state's box with its rows.
    fn state(&self, frame: &Frame) -> String {
        let (ground, border) = match self.has(Mark::State(frame.state)) {
            true => (self.class, format!("border {}-border", self.class)),
            false => (frame.ground, "border".to_string()),
        };
        let size = (frame.width, frame.height);
        let mut head = svg::rect("box", (0, 0), size) + &svg::rect(ground, (0, 0), (frame.width, HEAD));
        head += &svg::text("state", (SIDE, 17), &frame.state.to_string());
        head += &svg::text("strong", (SIDE + wide(NUMBER), 16), frame.words);
        head += &svg::text("faint end-of", (frame.width - SIDE, 16), &frame.line);
        let title = format!("state {}, {}: {}", frame.state, frame.line, frame.words);
        let rows: String = frame.rows.iter().map(|row| self.row(row, frame)).collect();
        svg::group("head-of", &title, &head) + &rows + &svg::rect(&border, (0, 0), size)
    }

    /// A branch's row.
    fn row(&self, row: &Row, frame: &Frame) -> String {
        let Stops { words, line, target } = frame.stops();
        let (middle, base) = (row.middle(), row.y + LINE - 1);
        let mut body = String::new();
        if self.has(Mark::Branch(row.branch)) {
            body += &svg::rect(self.class, (0, row.y), (frame.width, row.height()));
        }
        body += &svg::line("rule", &[(0, row.y), (frame.width, row.y)]);
        body += &chips(row);
        body += &svg::text("end-of", (words - wide(1), base), &row.branch.to_string());
        body += &self.words(row, (words, base));
        body += &svg::text("faint end-of", (line, base), &row.line);
        body += &svg::text("strong end-of", (target, middle + 4), &format!("→ {}", row.target));
        svg::group("row", &row.title, &body)
    }

    /// The words of a branch.
    fn words(&self, row: &Row, (x, y): Point) -> String {
        let (mut shown, mut before) = (String::new(), 0);
        for (index, units) in row.lines.iter().enumerate() {
            let at = (if index > 0 { x + wide(INDENT) } else { x }, y + LINE * index as i32);
            let mark = units.iter().zip(before..).position(|(_, field)| self.has(Mark::Field(row.branch, field)));
            shown += &mark.map_or(String::new(), |marked| self.ground(units, marked, at));
            let words: Vec<String> = units.iter().map(Unit::words).collect();
            shown += &svg::text("plain", at, &words.join(" "));
            before += units.len();
        }
        shown
    }

    /// The ground of a field in its line.
    fn ground(&self, units: &[Unit], marked: usize, (x, y): Point) -> String {
        let before: i32 = units.iter().take(marked).map(|unit| columns(&unit.words()) + 1).sum();
        let Unit { before: opening, field, .. } = &units[marked];
        let corner = (x + wide(before + columns(opening)) - 2, y - 11);
        svg::rect(self.class, corner, (wide(columns(field)) + 4, LINE))
    }
}

/// The numbers of a row's messages.
fn chips(row: &Row) -> String {
    let (mut x, middle) = (SIDE - CHIPS_APART, row.middle());
    let mut chips = String::new();
    for (class, numbers) in [("taken", &row.taken), ("failed", &row.failed)].into_iter().filter(|chip| !chip.1.is_empty()) {
        let width = wide(columns(numbers)) + CHIP;
        chips += &svg::chip(class, (x, middle - 8), (width, 16));
        chips += &svg::text("on-chip", (x + CHIP / 2, middle + 4), numbers);
        x += width + CHIPS_APART;
    }
    chips
}
