//! How far a long log has come, on a terminal.

use std::io::Write;
use std::time::{Duration, Instant};

/// When it is first shown, and how long it then stands.
const FIRST: Duration = Duration::from_secs(1);
const NEXT: Duration = Duration::from_millis(250);

/// A line that is written over again.
pub struct Progress<'a> {
    shown_on: Option<&'a mut dyn Write>,
    /// When it is next to be shown.
    next: Instant,
    /// How wide the line is.
    wide: usize,
}

impl<'a> Progress<'a> {
    pub fn of(err: &'a mut dyn Write, wanted: bool) -> Progress<'a> {
        Progress { shown_on: wanted.then_some(err), next: Instant::now() + FIRST, wide: 0 }
    }

    /// Shows it, where it is time to.
    pub fn show(&mut self, entries: usize, percent: Option<u64>) {
        let Some(err) = &mut self.shown_on else { return };
        let now = Instant::now();
        if now < self.next {
            return;
        }
        self.next = now + NEXT;
        let words = format!("{entries} entries{}", percent.map_or(String::new(), |percent| format!(", {percent} %")));
        self.wide = self.wide.max(words.len());
        // What cannot be shown is no loss.
        write!(err, "\r{words:0$}", self.wide).and_then(|()| err.flush()).ok();
    }

    /// Leaves the line as it was found.
    pub fn erase(&mut self) {
        if let (Some(err), 1..) = (&mut self.shown_on, self.wide) {
            write!(err, "\r{:1$}\r", "", self.wide).and_then(|()| err.flush()).ok();
        }
    }
}
