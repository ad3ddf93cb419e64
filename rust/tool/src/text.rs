//! A text in its file: lines and columns, and the line with a caret under what is meant.

use super::style::Style;
use super::Trouble;
use sojimu::LONGEST_PROTOCOL;
use std::ffi::OsStr;
use std::fs::File;
use std::io::{self, Read};
use std::ops::Range;

/// How wide a line is shown.
const WIDE: usize = 100;
/// How much of a line that is wider stands before the caret.
const BEFORE: usize = 40;
/// How many carets stand under a part at most.
const MARKED: usize = 40;

/// A text and the name of its file.
pub struct Text {
    pub name: String,
    pub bytes: Vec<u8>,
}

/// A place in a text as people count, from 1.
#[derive(Clone, Copy, Debug, PartialEq, Eq)]
pub struct Spot {
    pub line: usize,
    pub column: usize,
}

/// One character as it is shown, and where it stands.
struct Cell {
    part: Range<usize>,
    shown: String,
}

impl Text {
    /// Reads the file, or standard input by the name `-`, as far as a text may go and a byte more, which is enough for its refusal.
    pub fn open(path: &OsStr, input: &mut dyn Read) -> Result<Text, Trouble> {
        let name = shown_name(path);
        let mut bytes = Vec::new();
        let read = match path == "-" {
            true => bounded(input, &mut bytes),
            false => File::open(path).and_then(|mut file| bounded(&mut file, &mut bytes)),
        };
        match read {
            Ok(()) => Ok(Text { name, bytes }),
            Err(_) => Err(Trouble::Unreadable(name)),
        }
    }

    /// Line and column of a byte, or of the place past the last one.
    pub fn spot(&self, at: usize) -> Spot {
        let at = at.min(self.bytes.len());
        let line = self.bytes[..at].iter().filter(|&&byte| byte == b'\n').count() + 1;
        Spot { line, column: at - self.line_around(at).start + 1 }
    }

    /// The line of a byte.
    pub fn line(&self, at: usize) -> usize {
        self.spot(at).line
    }

    /// `FILE:LINE:COLUMN` of a byte.
    pub fn address(&self, at: usize) -> String {
        let Spot { line, column } = self.spot(at);
        format!("{}:{line}:{column}", self.name)
    }

    /// The line in which a part begins, with carets under the part and a note behind them. Where that line is blank, as past a
    /// text that ends with a line feed, the last line that is not stands above it.
    pub fn excerpt(&self, part: Range<usize>, note: &str, style: Style) -> String {
        let line = self.line(part.start);
        let gutter = line.to_string().len().max(3);
        let mut shown = String::new();
        let whole = self.line_around(part.start);
        if self.bytes[whole.clone()].iter().all(|&byte| byte == b' ') {
            if let Some(last) = self.bytes[..whole.start].iter().rposition(|byte| !b" \n".contains(byte)) {
                let (row, _) = self.row(last..last + 1);
                shown += &numbered(self.line(last), gutter, &row, style);
            }
        }
        let (row, carets) = self.row(part);
        shown += &numbered(line, gutter, &row, style);
        let bar = style.faint(&format!("{:gutter$} |", ""));
        shown + &format!("{bar} {}\n", style.fault(format!("{carets} {note}").trim_end()))
    }

    /// The bytes of the line in which a byte stands, without its line feed.
    fn line_around(&self, at: usize) -> Range<usize> {
        let at = at.min(self.bytes.len());
        let start = self.bytes[..at].iter().rposition(|&byte| byte == b'\n').map_or(0, |feed| feed + 1);
        let end = self.bytes[at..].iter().position(|&byte| byte == b'\n').map_or(self.bytes.len(), |feed| at + feed);
        start..end
    }

    /// The line in which a part begins as it is shown, cut where it is too wide, and the carets that go below it: at least one.
    fn row(&self, part: Range<usize>) -> (String, String) {
        let whole = self.line_around(part.start);
        let cells = cells(&self.bytes[whole.clone()], whole.start);
        let (before, rest) = cells.split_at(cells.partition_point(|cell| cell.part.end <= part.start));
        let marked = width(&rest[..rest.partition_point(|cell| cell.part.start < part.end)]);
        let skipped = if width(&cells) > WIDE { before.len() - fitting(before.iter().rev(), BEFORE) } else { 0 };
        let window = &cells[skipped..skipped + fitting(cells[skipped..].iter(), WIDE)];
        let row: String = window.iter().map(|cell| cell.shown.as_str()).collect();
        let left = if skipped > 0 { "... " } else { "" };
        let right = if skipped + window.len() < cells.len() { " ..." } else { "" };
        let carets = if marked > MARKED { "^".repeat(MARKED) + "..." } else { "^".repeat(marked.max(1)) };
        let blanks = " ".repeat(left.len() + width(&before[skipped..]));
        (format!("{left}{row}{right}"), blanks + &carets)
    }
}

/// How many columns cells take.
fn width(cells: &[Cell]) -> usize {
    cells.iter().map(Cell::width).sum()
}

/// How many cells go into so many columns.
fn fitting<'a>(cells: impl Iterator<Item = &'a Cell>, columns: usize) -> usize {
    let ends = cells.scan(0, |end, cell| {
        *end += cell.width();
        Some(*end)
    });
    ends.take_while(|&end| end <= columns).count()
}

impl Cell {
    fn width(&self) -> usize {
        columns(&self.shown)
    }
}

fn numbered(line: usize, gutter: usize, row: &str, style: Style) -> String {
    let number = style.faint(&format!("{line:gutter$} |"));
    format!("{}\n", format!("{number} {row}").trim_end())
}

fn bounded(from: &mut dyn Read, bytes: &mut Vec<u8>) -> io::Result<()> {
    from.take(LONGEST_PROTOCOL as u64 + 1).read_to_end(bytes).map(|_| ())
}

/// The characters of a line: a tab as blanks, what no terminal should get as its number.
fn cells(line: &[u8], start: usize) -> Vec<Cell> {
    let mut cells = Vec::new();
    let mut at = start;
    for chunk in line.utf8_chunks() {
        for character in chunk.valid().chars() {
            let part = at..at + character.len_utf8();
            at = part.end;
            cells.push(Cell { part, shown: shown(character) });
        }
        for byte in chunk.invalid() {
            cells.push(Cell { part: at..at + 1, shown: format!("\\x{byte:02X}") });
            at += 1;
        }
    }
    cells
}

/// The columns that words take in letters of equal width: two for a character that may be as wide as it is high.
pub fn columns(words: &str) -> usize {
    words.chars().map(width_of).sum()
}

/// Words filled up with blanks to so many columns.
pub fn padded(words: &str, wide: usize) -> String {
    format!("{words}{}", " ".repeat(wide.saturating_sub(columns(words))))
}

/// The columns of a character.
pub fn width_of(character: char) -> usize {
    match character {
        ..'\u{1100}' | '\u{2000}'..'\u{2E80}' => 1,
        _ => 2,
    }
}

/// A character for a terminal.
pub fn shown(character: char) -> String {
    match character {
        '\t' => "    ".to_string(),
        ' '..='~' => character.to_string(),
        _ if character.is_ascii() => format!("\\x{:02X}", character as u32),
        _ => character.escape_debug().to_string(),
    }
}

/// A file's name for a terminal.
pub fn shown_name(path: &OsStr) -> String {
    path.to_string_lossy().chars().map(shown).collect()
}
