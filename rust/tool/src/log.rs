//! A recorded conversation: its entries one after another, each a side byte and a message, as long as its own bytes say. However
//! long a log is, only a small part of it is held.

use super::text::shown_name;
use super::Trouble;
use sojimu::{message, Party, Question};
use std::ffi::OsStr;
use std::fs::File;
use std::io::{ErrorKind, Read};
use std::ops::Range;

/// The side bytes of logs, by document 02.
const DEVICE: u8 = 0;
const HOST: u8 = 1;

/// How many bytes are held at most. The longest entry has 286.
const ROOM: usize = 1 << 16;

/// A log that is being read.
pub struct Log<'a> {
    pub name: String,
    from: Box<dyn Read + 'a>,
    /// How many bytes it has, where that is known.
    length: Option<u64>,
    /// Where the next entry begins.
    at: u64,
    room: Vec<u8>,
    /// The part of the room that was read and is of no entry that was taken.
    waiting: Range<usize>,
}

/// Who speaks, and what.
pub struct Entry<'a> {
    pub side: Party,
    pub message: &'a [u8],
}

/// Why what follows is no entry.
#[derive(Clone, Copy, Debug, PartialEq, Eq)]
pub enum Break {
    /// A side byte that is neither 0 nor 1.
    Side(u8),
    /// A message that this question, 13 or 14, refuses, whatever comes after it.
    Refused(Question),
    /// The log ends inside the entry, and this question, 13 or 15, refuses what is there of its message.
    Cut(Question),
}

impl<'a> Log<'a> {
    /// Opens the file, or standard input by the name `-`.
    pub fn open(path: &OsStr, input: &'a mut dyn Read) -> Result<Log<'a>, Trouble> {
        let name = shown_name(path);
        if path == "-" {
            return Ok(Log::of(name, Box::new(input), None));
        }
        let Ok(file) = File::open(path) else { return Err(Trouble::Unreadable(name)) };
        let length = file.metadata().ok().filter(|about| about.is_file()).map(|about| about.len());
        Ok(Log::of(name, Box::new(file), length))
    }

    fn of(name: String, from: Box<dyn Read + 'a>, length: Option<u64>) -> Log<'a> {
        Log { name, from, length, at: 0, room: vec![0; ROOM], waiting: 0..0 }
    }

    /// How many bytes the entries have that were taken: where the next one begins.
    pub fn at(&self) -> u64 {
        self.at
    }

    /// How much of the log that is, in hundredths.
    pub fn percent(&self) -> Option<u64> {
        let length = self.length.filter(|&length| length > 0)?;
        Some((u128::from(self.at) * 100 / u128::from(length)).min(100) as u64)
    }

    /// Takes the next entry; none where it is not all there yet.
    pub fn take(&mut self) -> Result<Option<Entry<'_>>, Break> {
        let length = match length(self.waiting())? {
            Some(length) if length <= self.waiting.len() => length,
            _ => return Ok(None),
        };
        let begin = self.waiting.start;
        self.waiting.start += length;
        self.at += length as u64;
        let side = if self.room[begin] == DEVICE { Party::Device } else { Party::Host };
        Ok(Some(Entry { side, message: &self.room[begin + 1..begin + length] }))
    }

    /// Reads on, where no whole entry waits; false at the end of the log.
    pub fn fill(&mut self) -> Result<bool, Trouble> {
        self.room.copy_within(self.waiting.clone(), 0);
        self.waiting = 0..self.waiting.len();
        loop {
            match self.from.read(&mut self.room[self.waiting.end..]) {
                Ok(read) => {
                    self.waiting.end += read;
                    return Ok(read > 0);
                }
                Err(error) if error.kind() == ErrorKind::Interrupted => {}
                Err(_) => return Err(Trouble::Unreadable(self.name.clone())),
            }
        }
    }

    /// At the end of the log: whether it stands inside an entry.
    pub fn cut(&self) -> Option<Break> {
        let (_, message) = self.waiting().split_first()?;
        message::refusal(message).map(Break::Cut)
    }

    /// What is there of the next entry's message, and what follows it.
    pub fn message(&self) -> &[u8] {
        self.waiting().get(1..).unwrap_or_default()
    }

    fn waiting(&self) -> &[u8] {
        &self.room[self.waiting.clone()]
    }
}

/// How long the entry is with which bytes begin; none while they are too few to tell.
fn length(bytes: &[u8]) -> Result<Option<usize>, Break> {
    let Some((&side, rest)) = bytes.split_first() else { return Ok(None) };
    if side != DEVICE && side != HOST {
        return Err(Break::Side(side));
    }
    match message::front(rest) {
        Ok(length) => Ok(Some(1 + length)),
        Err(question) if message::broken(rest) => Err(Break::Refused(question)),
        Err(_) => Ok(None),
    }
}
