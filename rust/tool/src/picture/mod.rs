//! Pictures: automata in layers, and the messages between device, gateway and host, as SVG that needs nothing around it.
//!
//! The same texts and the same moves give the same bytes.

mod automaton;
mod chart;
mod frame;
mod layers;
mod net;
mod svg;

use super::described::Described;
use super::places::Mark;
use sojimu::Party;
use svg::Drawn;

/// What a picture shows, from left to right.
pub struct Picture<'a> {
    /// What it is of: its `<title>` and the words above it.
    pub title: String,
    /// The messages, where there are some to show.
    pub chart: Option<Chart>,
    /// The automata.
    pub automata: Vec<Automaton<'a>>,
}

/// The messages of a conversation in their order.
pub struct Chart {
    /// Those that are shown.
    pub arrows: Vec<Arrow>,
    /// The number of the one that is marked.
    pub marked: usize,
    /// What the conversation comes to, in a sentence below the last message.
    pub ending: String,
    /// Whether that is a fault.
    pub bad: bool,
}

/// One message on its way.
pub struct Arrow {
    /// Its number in the conversation, from 1.
    pub number: usize,
    /// Its sender.
    pub side: Party,
    /// Label and values.
    pub words: String,
    pub way: Way,
}

/// How far a message comes.
#[derive(Clone, Copy, Debug, PartialEq, Eq)]
pub enum Way {
    /// To the other side.
    Forwarded,
    /// To the gateway, which blames its sender.
    Blamed,
    /// To the gateway, which refuses it by the question of this number.
    Refused(u8),
    /// To the other side, which has no place for it.
    NotTaken,
}

/// The automaton of a text: what it is called, and what is marked in it.
pub struct Automaton<'a> {
    pub name: String,
    pub described: &'a Described,
    /// The branches of the messages that are shown, each with the message's number, in their order. Where a branch is the fault, or
    /// has it, its last number is that of the message that is at fault, which does not take it.
    pub path: Vec<(usize, usize)>,
    /// What is wrong, or the place where the conversation stands.
    pub marked: Option<Mark>,
}

/// How everything looks.
const STYLE: &str = include_str!("style.css");
/// Around the picture, and between its parts.
const MARGIN: i32 = 24;
const BETWEEN: i32 = 48;
/// The height of the title, and of the words below all.
const TITLE: i32 = 44;
const KEY: i32 = 36;
/// The width of a letter of the title.
const TITLED: i32 = 11;
/// The least width, and the greatest that a title asks for.
const LEAST: i32 = 560;
const WIDEST: i32 = 1700;
/// How wide the layers of an automaton that is alone may be, and of one of several.
const ALONE: i32 = 1700;
const BESIDE: i32 = 640;

/// The picture as SVG.
pub fn draw(picture: &Picture) -> String {
    let parts = parts(picture);
    let width = parts.iter().map(|part| part.width + BETWEEN).sum::<i32>() - BETWEEN + 2 * MARGIN;
    let titled = (svg::columns(&picture.title) * TITLED + 2 * MARGIN).min(WIDEST);
    let (width, high) = (width.max(LEAST).max(titled), parts.iter().map(|part| part.height).max().unwrap_or(0));
    let height = MARGIN + TITLE + high + KEY + MARGIN;
    let mut body = svg::rect("page", (0, 0), (width, height));
    body += &svg::text("title", (MARGIN, MARGIN + 16), &svg::cut(&picture.title, (width - 2 * MARGIN) / TITLED));
    let mut x = MARGIN;
    for part in &parts {
        body += &svg::moved((x, MARGIN + TITLE), &part.body);
        x += part.width + BETWEEN;
    }
    body += &svg::text("faint", (MARGIN, height - MARGIN), &key(picture));
    svg::document((width, height), &picture.title, STYLE, &body)
}

/// Whether what is marked in the automata is a fault.
fn is_bad(picture: &Picture) -> bool {
    picture.chart.as_ref().is_some_and(|chart| chart.bad)
}

fn parts(picture: &Picture) -> Vec<Drawn> {
    let widest = if picture.automata.len() > 1 { BESIDE } else { ALONE };
    let automata = picture.automata.iter().map(|automaton| automaton::drawn(automaton, widest, is_bad(picture)));
    let automata: Vec<Drawn> = automata.collect();
    let high = automata.iter().map(|drawn| drawn.height).max().unwrap_or(0);
    let chart = picture.chart.as_ref().map(|chart| chart::drawn(chart, high));
    chart.into_iter().chain(automata).collect()
}

/// What lines and grounds mean.
fn key(picture: &Picture) -> String {
    let mut key = "dashed: leads back".to_string();
    if picture.chart.iter().flat_map(|chart| &chart.arrows).any(|arrow| arrow.way == Way::Forwarded) {
        key += " · thick, blue: the way of the messages, by their numbers";
    }
    if picture.automata.iter().any(|automaton| automaton.marked.is_some()) {
        key += if is_bad(picture) { " · red: the fault" } else { " · blue ground: where it stands" };
    }
    key
}

#[cfg(test)]
mod tests {
    use super::*;
    use crate::text::Text;

    fn arrow(number: usize, side: Party, words: &str, way: Way) -> Arrow {
        Arrow { number, side, words: words.to_string(), way }
    }

    /// Every way of a message, words that are too long, and words that are markup.
    fn chart(bad: bool) -> Chart {
        let arrows = vec![
            arrow(181, Party::Device, "Ask(100)", Way::Forwarded),
            arrow(182, Party::Host, "Ok()", Way::Forwarded),
            arrow(183, Party::Host, "Ok()", Way::Refused(12)),
            arrow(184, Party::Device, &format!("Say(\"{}\")", "<&> ".repeat(16)), Way::Forwarded),
            arrow(185, Party::Host, "Set(24, 0)", Way::NotTaken),
            arrow(186, Party::Host, "Set(24, 0)", Way::Blamed),
            arrow(187, Party::Device, "Ask(1)", Way::Refused(16)),
            arrow(188, Party::Device, "Ask(101)", Way::Blamed),
        ];
        let ending = format!("blamed: {} and so on", "long".repeat(40));
        Chart { arrows, marked: 188, ending, bad }
    }

    fn described(bytes: &[u8]) -> Described {
        let text = Text { name: "p\u{1}<q>.txt".to_string(), bytes: bytes.to_vec() };
        Described::of(text).ok().expect("a legal text")
    }

    fn drawn(bad: bool, marked: Mark) -> String {
        let described = described(b"rec X.+{!Ask(int[0..100]).&{?Ok().X},!Quit().end}");
        let path = vec![(0, 181), (1, 182), (0, 184), (1, 185), (0, 188)];
        let automaton = Automaton { name: "protocol".to_string(), described: &described, path, marked: Some(marked) };
        draw(&Picture { title: "a & b".to_string(), chart: Some(chart(bad)), automata: vec![automaton] })
    }

    fn has(picture: &str, parts: &[&str]) {
        parts.iter().for_each(|part| assert!(picture.contains(part), "{part} is not in {picture}"));
    }

    #[test]
    fn messages() {
        let picture = drawn(true, Mark::Field(0, 0));
        let cut = format!(">Say(&quot;{}", "&lt;&amp;&gt; ".repeat(11));
        has(&picture, &["… 180 more", ">refused by 12<", ">refused by 16<", ">not taken<", ">blamed<", &cut, "…</text>"]);
        has(&picture, &["188, by the device: Ask(101)", &"long".repeat(15), "a &amp; b"]);
    }

    #[test]
    fn the_message_at_fault_takes_no_branch() {
        let picture = drawn(true, Mark::Field(0, 0));
        has(&picture, &[">181 184<", ">×188<", ">182 185<", "red: the fault", "class=\"fault\""]);
    }

    #[test]
    fn where_a_conversation_stands_is_no_fault() {
        let picture = drawn(false, Mark::State(1));
        has(&picture, &[">181 184 188<", "here-border", "where it stands"]);
        assert!(!picture.contains("class=\"fault\""));
    }

    #[test]
    fn no_character_that_xml_does_not_have() {
        let picture = drawn(true, Mark::State(0));
        assert!(picture.chars().all(|character| character == '\n' || !character.is_control()));
        has(&picture, &["p\u{FFFD}&lt;q&gt;.txt"]);
    }
}
