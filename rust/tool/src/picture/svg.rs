//! SVG in whole numbers: a few shapes, and words that are safe in it.

use crate::text;

/// A place, from the left and from the top.
pub type Point = (i32, i32);

/// Something that is drawn from its own corner at (0, 0), and its size.
pub struct Drawn {
    pub width: i32,
    pub height: i32,
    pub body: String,
}

/// How round the corners of a line are.
const RADIUS: i32 = 6;

/// The columns that words take.
pub fn columns(words: &str) -> i32 {
    text::columns(words) as i32
}

/// The width of so many columns: a letter of the font, which has 12 units, is 7.2 wide.
pub fn wide(columns: i32) -> i32 {
    (columns * 36 + 4) / 5
}

/// The columns that a width has room for.
pub fn room(width: i32) -> i32 {
    width * 5 / 36
}

/// Words that take no more than so many columns; what is cut off at their end is told by a sign.
pub fn cut(words: &str, room: i32) -> String {
    if columns(words) <= room {
        return words.to_string();
    }
    let mut left = room - 1;
    let fits = |character: &char| {
        left -= text::width_of(*character) as i32;
        left >= 0
    };
    words.chars().take_while(fits).chain(['…']).collect()
}

/// The same, cut off at their beginning: of a file's name its end tells more.
pub fn cut_before(words: &str, room: i32) -> String {
    let turned = |words: &str| words.chars().rev().collect::<String>();
    turned(&cut(&turned(words), room))
}

/// Words in which nothing is taken for markup, and without the characters that XML does not have.
pub fn escaped(words: &str) -> String {
    let mut escaped = String::new();
    for character in words.chars() {
        match character {
            '&' => escaped += "&amp;",
            '<' => escaped += "&lt;",
            '>' => escaped += "&gt;",
            '"' => escaped += "&quot;",
            '\u{FFFE}' | '\u{FFFF}' => escaped.push('\u{FFFD}'),
            _ if character.is_control() => escaped.push('\u{FFFD}'),
            _ => escaped.push(character),
        }
    }
    escaped
}

pub fn text(class: &str, (x, y): Point, words: &str) -> String {
    format!("<text class=\"{class}\" x=\"{x}\" y=\"{y}\">{}</text>\n", escaped(words))
}

pub fn rect(class: &str, (x, y): Point, (width, height): Point) -> String {
    format!("<rect class=\"{class}\" x=\"{x}\" y=\"{y}\" width=\"{width}\" height=\"{height}\"/>\n")
}

/// The same with round corners.
pub fn chip(class: &str, (x, y): Point, (width, height): Point) -> String {
    format!("<rect class=\"{class}\" x=\"{x}\" y=\"{y}\" width=\"{width}\" height=\"{height}\" rx=\"4\"/>\n")
}

pub fn circle(class: &str, (x, y): Point, radius: i32) -> String {
    format!("<circle class=\"{class}\" cx=\"{x}\" cy=\"{y}\" r=\"{radius}\"/>\n")
}

/// Straight lines from point to point, their corners round.
pub fn line(class: &str, points: &[Point]) -> String {
    let mut path = String::new();
    if let Some((x, y)) = points.first() {
        path += &format!("M{x} {y}");
    }
    for corner in points.windows(3) {
        let &[before, (x, y), after] = corner else { continue };
        let radius = RADIUS.min(length(before, (x, y)) / 2).min(length((x, y), after) / 2);
        let (from, to) = (towards((x, y), before, radius), towards((x, y), after, radius));
        path += &format!("L{} {}Q{x} {y} {} {}", from.0, from.1, to.0, to.1);
    }
    if let Some((x, y)) = points.last() {
        path += &format!("L{x} {y}");
    }
    format!("<path class=\"{class}\" d=\"{path}\"/>\n")
}

/// The head of an arrow whose tip is at a place, and which comes from another beside, above or below it.
pub fn head(class: &str, tip: Point, from: Point) -> String {
    let (x, y) = towards(tip, from, 8);
    let (across, along) = if y == tip.1 { (0, 4) } else { (4, 0) };
    let corners = [tip, (x - across, y - along), (x + across, y + along)];
    let corners: Vec<String> = corners.iter().map(|(x, y)| format!("{x},{y}")).collect();
    format!("<polygon class=\"{class}\" points=\"{}\"/>\n", corners.join(" "))
}

/// A point so far from another one, on the way to a third beside, above or below it.
pub fn towards((x, y): Point, to: Point, far: i32) -> Point {
    (x + (to.0 - x).signum() * far, y + (to.1 - y).signum() * far)
}

/// The way between two points, along both directions.
pub fn length(a: Point, b: Point) -> i32 {
    (a.0 - b.0).abs() + (a.1 - b.1).abs()
}

/// Elements that belong together, and what a pointer over them shows.
pub fn group(class: &str, title: &str, body: &str) -> String {
    format!("<g class=\"{class}\"><title>{}</title>\n{body}</g>\n", escaped(title))
}

/// Elements moved to another place.
pub fn moved((x, y): Point, body: &str) -> String {
    format!("<g transform=\"translate({x} {y})\">\n{body}</g>\n")
}

/// A whole picture of a size: its title, how its classes look, and its elements.
pub fn document((width, height): Point, title: &str, style: &str, body: &str) -> String {
    let size = format!("width=\"{width}\" height=\"{height}\" viewBox=\"0 0 {width} {height}\"");
    let opening = format!("<svg xmlns=\"http://www.w3.org/2000/svg\" {size} xml:space=\"preserve\">");
    format!("{opening}\n<title>{}</title>\n<style>\n{style}</style>\n{body}</svg>\n", escaped(title))
}
