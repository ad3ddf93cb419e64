//! A text that was read.

use super::places::{Mark, Places};
use super::style::Style;
use super::text::Text;
use sojimu::{Refusal, Table};

/// A text, its table, and where the table's states and branches stand in the text.
pub struct Described {
    pub text: Text,
    pub table: Table,
    pub places: Places,
}

impl Described {
    /// Reads the text.
    pub fn of(text: Text) -> Result<Described, (Text, Refusal)> {
        match Table::read(&text.bytes) {
            Ok(table) => Ok(Described { places: Places::of(&text.bytes), text, table }),
            Err(refusal) => Err((text, refusal)),
        }
    }

    /// The line of something.
    pub fn line(&self, mark: Mark) -> usize {
        self.text.line(self.places.part(mark).start)
    }

    /// `FILE:LINE:COLUMN` of something.
    pub fn address(&self, mark: Mark) -> String {
        self.text.address(self.places.part(mark).start)
    }

    /// The line of something, with carets under it and a note behind them.
    pub fn excerpt(&self, mark: Mark, note: &str, style: Style) -> String {
        self.text.excerpt(self.places.part(mark), note, style)
    }
}
