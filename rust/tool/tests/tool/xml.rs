//! Is a picture well formed? A small check of its own, and `xmllint` where there is one.

use std::io::Write;
use std::process::{Command, Stdio};

/// Holds a picture to what every one has: it is well formed, of one root with one title, and needs nothing around it.
pub fn check(picture: &str) {
    let titles = balanced(picture).unwrap_or_else(|fault| panic!("{fault} in {picture}"));
    assert_eq!(titles, 1, "titles of the root of {picture}");
    let opening = "<svg xmlns=\"http://www.w3.org/2000/svg\" width=\"";
    assert!(picture.starts_with(opening) && picture.ends_with("</svg>\n"), "{picture}");
    for foreign in ["<script", "<image", "<use", "href", "url(", "@import", "@font-face"] {
        assert!(!picture.contains(foreign), "{foreign} in {picture}");
    }
}

/// The same, asked of `xmllint` too.
pub fn check_twice(picture: &str) {
    check(picture);
    let started = Command::new("xmllint").args(["--noout", "-"]).stdin(Stdio::piped()).spawn();
    let Ok(mut lint) = started else { return };
    lint.stdin.take().unwrap().write_all(picture.as_bytes()).unwrap();
    assert!(lint.wait().unwrap().success(), "{picture}");
}

/// Whether every element is closed, attributes are in quotes, and markup is nothing else. Gives the number of the root's titles.
fn balanced(picture: &str) -> Result<usize, String> {
    let (mut open, mut titles, mut rest) = (Vec::new(), 0, picture);
    while let Some((words, markup)) = rest.split_once('<') {
        safe(words)?;
        let (tag, after) = markup.split_once('>').ok_or("an open tag")?;
        if let Some(name) = tag.strip_prefix('/') {
            let opened = open.pop();
            (opened == Some(name)).then_some(()).ok_or(format!("{name} closes {opened:?}"))?;
        } else {
            let (inside, is_whole) = tag.strip_suffix('/').map_or((tag, false), |inside| (inside, true));
            let (name, attributes) = inside.split_once(' ').unwrap_or((inside, ""));
            attributed(attributes)?;
            titles += usize::from(name == "title" && open == ["svg"]);
            open.extend((!is_whole).then_some(name));
        }
        rest = after;
        (!open.is_empty() || rest == "\n").then_some(()).ok_or("something behind the root")?;
    }
    open.is_empty().then_some(titles).ok_or(format!("{open:?} left open"))
}

/// Attributes: names, each with a value in quotes.
fn attributed(attributes: &str) -> Result<(), String> {
    let mut rest = attributes;
    while !rest.is_empty() {
        let (name, value) = rest.split_once("=\"").ok_or(format!("{attributes} without a value"))?;
        let (value, after) = value.split_once('"').ok_or(format!("{attributes} without a quote"))?;
        let is_name = !name.is_empty() && name.chars().all(|letter| letter.is_ascii_alphanumeric() || "-:".contains(letter));
        is_name.then_some(()).ok_or(format!("{name:?} for a name"))?;
        safe(value)?;
        rest = after.trim_start();
    }
    Ok(())
}

/// Words without control characters, and with no `&` that is not one of the known names.
fn safe(words: &str) -> Result<(), String> {
    let known = |rest: &str| ["amp;", "lt;", "gt;", "quot;"].iter().any(|name| rest.starts_with(name));
    let is_safe = words.split('&').skip(1).all(known) && !words.chars().any(|letter| letter.is_control() && letter != '\n');
    is_safe.then_some(()).ok_or(format!("{words:?}"))
}

#[test]
fn what_is_not_well_formed_is_found() {
    assert_eq!(balanced("<svg a=\"1\"><title>t</title><g><title>u</title></g><b/></svg>\n"), Ok(1));
    let faulty = ["<svg>\n", "<svg></g>\n", "<svg a=1></svg>\n", "<svg>a & b</svg>\n", "<svg></svg><svg></svg>\n", "<svg"];
    faulty.iter().for_each(|text| assert!(balanced(text).is_err(), "{text}"));
}
