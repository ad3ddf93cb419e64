//! The messages of a conversation: device, gateway and host as upright lines, the messages between them.

use super::svg::{self, columns, wide, Drawn, Point};
use super::{Arrow, Chart, Way};
use crate::words;
use sojimu::Party;

/// From one party's line to the next.
const SPAN: i32 = 190;
/// The columns for a message's words.
const WORDS: i32 = 50;
/// The height of a message, and what a note below it adds.
const MESSAGE: i32 = 36;
const NOTE: i32 = 14;
/// From a message's top to its arrow.
const ARROW: i32 = 24;
/// The height of the parties' names, and of a line of words.
const NAMES: i32 = 34;
const LINE: i32 = 16;
/// The fewest messages that stand below one another before others stand beside them.
const FEWEST: usize = 24;
/// Between messages that stand beside one another.
const BESIDE: i32 = 40;

/// The places of a chart's lines.
struct Grid {
    device: i32,
    gateway: i32,
    host: i32,
    right: i32,
}

impl Grid {
    fn of(chart: &Chart) -> Grid {
        let most = chart.arrows.iter().map(|arrow| columns(&arrow.number.to_string())).max().unwrap_or(1);
        let device = wide(most.max(4)) + 24;
        Grid { device, gateway: device + SPAN, host: device + 2 * SPAN, right: device + 2 * SPAN + 36 }
    }
}

/// Draws a chart; where it is much higher than `height` its messages stand in several columns.
pub fn drawn(chart: &Chart, height: i32) -> Drawn {
    let grid = Grid::of(chart);
    let fit = usize::try_from((height - NAMES) / MESSAGE).unwrap_or(0).max(FEWEST);
    let parts = chart.arrows.len().div_ceil(fit).max(1);
    let each = chart.arrows.len().div_ceil(parts).max(1);
    let mut drawn = Drawn { width: 0, height: 0, body: String::new() };
    let mut next = 1;
    for part in 0..parts {
        let arrows = chart.arrows.get(part * each..).unwrap_or(&[]);
        let (arrows, is_last) = (&arrows[..arrows.len().min(each)], part + 1 == parts);
        let one = column(chart, &grid, arrows, next, is_last);
        next = arrows.last().map_or(next, |arrow| arrow.number + 1);
        drawn.body += &svg::moved((drawn.width, 0), &one.body);
        drawn.width += one.width + if is_last { 0 } else { BESIDE };
        drawn.height = drawn.height.max(one.height);
    }
    drawn
}

/// Messages below one another, of which the next in the conversation has this number; the ending below the last ones.
fn column(chart: &Chart, grid: &Grid, arrows: &[Arrow], mut next: usize, is_last: bool) -> Drawn {
    let mut y = NAMES + 6;
    let mut body = String::new();
    for arrow in arrows {
        if arrow.number > next {
            body += &left_out(arrow.number - next, y);
            y += LINE + 4;
        }
        next = arrow.number + 1;
        let ground = match chart.marked == arrow.number {
            true if chart.bad => "marked bad",
            true => "marked",
            false => "ground",
        };
        let high = MESSAGE + if arrow.way == Way::NotTaken { NOTE } else { 0 };
        body += &svg::moved((0, y), &message(arrow, grid, (ground, high)));
        y += high;
    }
    y += 10;
    let lines = lifelines(grid, y);
    if is_last {
        let (ending, high) = ending(chart, grid, y);
        body += &ending;
        y += high;
    }
    Drawn { width: grid.right, height: y, body: lines + &body }
}

/// So many messages are not shown.
fn left_out(messages: usize, y: i32) -> String {
    let words = format!("… {messages} more");
    svg::rect("ground", (0, y), (wide(columns(&words)) + 4, LINE)) + &svg::text("faint", (0, y + 12), &words)
}

/// The parties' names, and their lines down to a height.
fn lifelines(grid: &Grid, bottom: i32) -> String {
    let mut lines = uprights(grid, NAMES - 8, bottom);
    for (x, name) in [(grid.device, "device"), (grid.gateway, "gateway"), (grid.host, "host")] {
        lines += &svg::chip("party", (x - 36, 0), (72, NAMES - 8));
        lines += &svg::text("strong middle", (x, 17), name);
    }
    lines
}

fn uprights(grid: &Grid, from: i32, to: i32) -> String {
    [grid.device, grid.gateway, grid.host].iter().map(|&x| svg::line("life", &[(x, from), (x, to)])).collect()
}

/// One message: its number, its words at its sender's side, and its arrow.
fn message(arrow: &Arrow, grid: &Grid, (ground, high): (&str, i32)) -> String {
    let words = svg::cut(&arrow.words, WORDS);
    let width = wide(columns(&words)) + 8;
    let (x, from, anchor) = match arrow.side {
        Party::Device => (grid.device + 8, grid.device + 4, "plain"),
        Party::Host => (grid.host - 8, grid.host - 4 - width, "plain end-of"),
    };
    let mut body = String::new();
    if ground != "ground" {
        body += &svg::rect(ground, (0, 0), (grid.right, high));
        body += &uprights(grid, 0, high);
    }
    body += &svg::rect(ground, (from, 3), (width, 15));
    body += &svg::text(anchor, (x, 15), &words);
    body += &svg::text("faint end-of", (grid.device - 16, ARROW + 4), &arrow.number.to_string());
    body += &legs(arrow, grid);
    let title = format!("{}, by the {}: {}", arrow.number, words::party(arrow.side), arrow.words);
    svg::group("message", &title, &body)
}

/// The arrow as far as the message comes, and what became of it there.
fn legs(arrow: &Arrow, grid: &Grid) -> String {
    let (from, to) = match arrow.side {
        Party::Device => (grid.device, grid.host),
        Party::Host => (grid.host, grid.device),
    };
    let middle = grid.gateway;
    let beyond = (middle + if to > middle { 14 } else { -14 }, ARROW + 4);
    let anchor = if to > middle { "" } else { " end-of" };
    match arrow.way {
        Way::Forwarded => leg(from, middle) + &leg(middle, to),
        Way::Blamed => stopped("wrong", from, middle) + &cross(middle) + &svg::text(&format!("red{anchor}"), beyond, "blamed"),
        Way::Refused(question) => {
            let words = svg::text(&format!("strong{anchor}"), beyond, &format!("refused by {question}"));
            stopped("refused", from, middle) + &svg::circle("hollow", (middle, ARROW), 5) + &words
        }
        Way::NotTaken => {
            let (x, anchor) = if to > middle { (to - 12, " end-of") } else { (to + 12, "") };
            let words = svg::text(&format!("red{anchor}"), (x, ARROW + NOTE + 4), "not taken");
            leg(from, middle) + &stopped("wrong", middle, to) + &cross(to) + &words
        }
    }
}

/// A level arrow from one line to another.
fn leg(from: i32, to: i32) -> String {
    let (tip, from): (Point, Point) = ((to - (to - from).signum(), ARROW), (from, ARROW));
    svg::line("leg", &[from, svg::towards(tip, from, 6)]) + &svg::head("leg-head", tip, from)
}

/// One that does not arrive.
fn stopped(class: &str, from: i32, to: i32) -> String {
    svg::line(&format!("leg {class}"), &[(from, ARROW), (to, ARROW)])
}

fn cross(x: i32) -> String {
    let (left, right, top, bottom) = (x - 6, x + 6, ARROW - 6, ARROW + 6);
    svg::line("cross", &[(left, top), (right, bottom)]) + &svg::line("cross", &[(left, bottom), (right, top)])
}

/// What the conversation comes to, in a box as wide as the chart; and its height.
fn ending(chart: &Chart, grid: &Grid, y: i32) -> (String, i32) {
    let lines = wrapped(&chart.ending, svg::room(grid.right - 24));
    let high = LINE * lines.len() as i32 + 14;
    let mut body = svg::chip(if chart.bad { "ending bad" } else { "ending" }, (0, y), (grid.right, high));
    for (line, base) in lines.iter().zip((y + 19..).step_by(LINE as usize)) {
        body += &svg::text("plain", (12, base), line);
    }
    (body, high)
}

/// Words in lines of so many columns; a word that is longer is broken.
fn wrapped(words: &str, room: i32) -> Vec<String> {
    let mut lines: Vec<String> = Vec::new();
    for word in words.split(' ').flat_map(|word| pieces(word, room)) {
        match lines.last_mut() {
            Some(last) if columns(last) + 1 + columns(&word) <= room => *last += &format!(" {word}"),
            _ => lines.push(word),
        }
    }
    lines
}

/// A word in pieces of at most so many columns.
fn pieces(word: &str, room: i32) -> Vec<String> {
    let mut pieces = vec![String::new()];
    for character in word.chars() {
        match pieces.last_mut() {
            Some(last) if columns(last) + 2 <= room => last.push(character),
            _ => pieces.push(character.to_string()),
        }
    }
    pieces
}
