//! A recorded conversation, put through the monitor.

use super::arguments::Replay;
use super::described::Described;
use super::log::{Break, Entry, Log};
use super::picture::{self, Arrow, Automaton, Chart, Picture, Way};
use super::places::Mark;
use super::progress::Progress;
use super::sides::Sides;
use super::style::Style;
use super::text::{padded, Text};
use super::{refuse, refused, said, words, write_picture, Ending, Status, Trouble, World};
use sojimu::message::Field;
use sojimu::{Party, Question, Reason, State, Verdict, LONGEST_MESSAGE};
use std::collections::BTreeMap;
use std::fmt::Write as _;
use std::io::Write;

/// How wide messages are set; one that is longer pushes what stands behind it.
const WIDE: usize = 32;
/// How many entries a picture shows, and one more where an older one is blamed.
const DRAWN: usize = 20;

/// Prints a line for each entry of a log, and what they come to; and draws the last ones, where a picture is asked for.
pub fn replay(asked: &Replay, world: &mut World) -> Ending {
    let style = world.style();
    let protocol = match Described::of(Text::open(&asked.protocol, world.input)?) {
        Ok(protocol) => protocol,
        Err((text, refusal)) => {
            return refuse(&refused::shown(&text, refusal, style), asked.picture.as_deref(), world);
        }
    };
    let state = match protocol.table.fresh(asked.setting) {
        Ok(state) => state,
        Err(question) => {
            let words = style.strong(&format!("setting {}: refused by question {question}", asked.setting));
            return refuse(&format!("{words}\n"), asked.picture.as_deref(), world);
        }
    };
    let mut log = Log::open(&asked.log, world.input)?;
    let mut progress = Progress::of(world.err, world.progress);
    let mut conversation = Conversation::of(&protocol, state, style, asked.picture.is_some());
    let heard = conversation.hear_all(&mut log, world.out, &mut progress);
    progress.erase();
    heard?;
    world.out.write_all(conversation.summary().as_bytes())?;
    write_picture(asked.picture.as_deref(), || picture::draw(&conversation.picture(&log.name)))?;
    Ok(conversation.status())
}

/// A conversation as far as it has gone.
struct Conversation<'a> {
    protocol: &'a Described,
    state: State,
    style: Style,
    /// How many entries there were.
    entries: usize,
    /// How many of either's were forwarded.
    forwarded: Sides<usize>,
    /// The number of the last one that was.
    last: usize,
    /// How many were refused by which question.
    refused: BTreeMap<Question, usize>,
    blame: Option<Blame>,
    /// Why there is no further entry, where the log is no longer one.
    broken: Option<String>,
    /// The last entries, where they are to be drawn.
    recent: Option<Vec<Recent>>,
}

/// Who is blamed, at which entry and why.
struct Blame {
    entry: usize,
    party: Party,
    /// The reason's number, and the reason in words.
    words: String,
    /// What the protocol has there.
    mark: Mark,
}

/// An entry to be drawn, and the branch that it took, where it was forwarded.
struct Recent {
    arrow: Arrow,
    branch: Option<usize>,
}

impl<'a> Conversation<'a> {
    fn of(protocol: &'a Described, state: State, style: Style, drawn: bool) -> Conversation<'a> {
        Conversation {
            protocol,
            state,
            style,
            entries: 0,
            forwarded: Sides::default(),
            last: 0,
            refused: BTreeMap::new(),
            blame: None,
            broken: None,
            recent: drawn.then(Vec::new),
        }
    }

    /// Puts a log through the monitor. What is known is written out before more of the log is waited for.
    fn hear_all(&mut self, log: &mut Log, out: &mut dyn Write, progress: &mut Progress) -> Result<(), Trouble> {
        let mut line = String::new();
        let stop = loop {
            match log.take() {
                Ok(Some(entry)) => {
                    self.hear(&entry, &mut line);
                    out.write_all(line.as_bytes())?;
                }
                Ok(None) => {
                    progress.show(self.entries, log.percent());
                    out.flush()?;
                    if !log.fill()? {
                        break log.cut();
                    }
                }
                Err(stop) => break Some(stop),
            }
        };
        let Some(stop) = stop else { return Ok(()) };
        let words = broken(stop, log);
        writeln!(out, "{:5}  {}", self.entries + 1, self.style.fault(&words))?;
        self.broken = Some(words);
        Ok(())
    }

    /// Puts an entry through the monitor, and makes its line.
    fn hear(&mut self, entry: &Entry, line: &mut String) {
        let (side, message) = (entry.side, said::message(entry.message));
        let position = self.state.position.into();
        let verdict = self.protocol.table.step(&mut self.state, side, entry.message, &mut [0; LONGEST_MESSAGE]);
        self.entries += 1;
        let (number, party, said) = (self.entries, words::party(side), self.count(side, verdict, entry.message));
        line.clear();
        // A string takes all that is written.
        writeln!(line, "{number:5}  {party:6}  {}  {said}", padded(&message, WIDE)).ok();
        let Some(recent) = &mut self.recent else { return };
        let (way, branch) = match verdict {
            Verdict::Forwarded => (Way::Forwarded, words::branch_named(&self.protocol.table, position, entry.message)),
            Verdict::Refused(question) => (Way::Refused(question.0), None),
            Verdict::Blamed(..) => (Way::Blamed, None),
        };
        recent.push(Recent { arrow: Arrow { number, side, words: message, way }, branch });
        recent.retain(|one| one.arrow.number + DRAWN > number || one.arrow.way == Way::Blamed);
    }

    /// Counts a verdict, and gives it in words.
    fn count(&mut self, side: Party, verdict: Verdict, message: &[u8]) -> String {
        match verdict {
            Verdict::Forwarded => {
                *self.forwarded.of_mut(side) += 1;
                self.last = self.entries;
                self.style.good("forwarded")
            }
            Verdict::Refused(question) => {
                *self.refused.entry(question).or_default() += 1;
                let words = format!("refused by question {question} {}", self.why(question, message));
                self.style.fault(words.trim_end())
            }
            Verdict::Blamed(party, reason) => {
                let blame = self.blame(party, reason, message);
                let said = self.style.fault(&format!("{} blamed, {}", words::party(party), blame.words));
                self.blame = Some(blame);
                said
            }
        }
    }

    fn blame(&self, party: Party, reason: Reason, message: &[u8]) -> Blame {
        let position = self.state.position.into();
        let why = words::forbidden(reason, self.protocol, position, message, "the protocol");
        let mark = Mark::of(reason, words::branch_named(&self.protocol.table, position, message), position);
        Blame { entry: self.entries, party, words: format!("reason {}: {why}", reason.number()), mark }
    }

    /// What helps to understand a refusal.
    fn why(&self, question: Question, message: &[u8]) -> String {
        match (question, &self.blame, self.protocol.table.turn(&self.state)) {
            (Question::NOT_RUNNING, Some(blame), _) => {
                format!("The {} was blamed at entry {}.", words::party(blame.party), blame.entry)
            }
            (Question::AT_END, ..) if self.last == 0 => "The protocol has no message at all.".to_string(),
            (Question::AT_END, ..) => format!("The conversation ended with entry {}.", self.last),
            (Question::OUT_OF_TURN, _, Ok(party)) => format!("It is the {}'s.", words::party(party)),
            (Question::NOT_UTF8, ..) => not_utf8(message).map_or(String::new(), |field| format!("Field {field} is not.")),
            _ => String::new(),
        }
    }

    fn status(&self) -> Status {
        if self.broken.is_some() {
            Status::Refused
        } else if self.forwarded.device + self.forwarded.host == self.entries {
            Status::Good
        } else {
            Status::Bad
        }
    }

    /// What the entries come to.
    fn summary(&self) -> String {
        let Sides { device, host } = self.forwarded;
        let mut rows = vec![
            ("entries", self.entries.to_string()),
            ("forwarded", format!("{}: {device} of the device, {host} of the host", device + host)),
        ];
        rows.extend(self.refused.iter().map(|(question, times)| ("refused", format!("{times} by question {question}"))));
        let blamed = |blame: &Blame| format!("the {} at entry {}, {}", words::party(blame.party), blame.entry, blame.words);
        rows.extend(self.blame.iter().map(|blame| ("blamed", blamed(blame))));
        rows.extend(self.broken.iter().map(|_| ("breaks", format!("off at entry {}", self.entries + 1))));
        rows.push(("stands", self.stands()));
        rows.extend(self.warnings());
        let blank = if self.entries > 0 || self.broken.is_some() { "\n" } else { "" };
        let row = |(name, told)| format!("{}  {told}\n", self.style.strong(&format!("{name:9}")));
        blank.to_string() + &rows.into_iter().map(row).collect::<String>()
    }

    /// Where the conversation stands.
    fn stands(&self) -> String {
        let position = self.state.position.into();
        let whose = match self.protocol.table.turn(&self.state) {
            Ok(party) => format!("the {}'s turn", words::party(party)),
            Err(Question::AT_END) => "the conversation has ended".to_string(),
            Err(_) => "stopped by the blame".to_string(),
        };
        format!("at state {position} (line {}), {whose}", self.protocol.line(Mark::State(position)))
    }

    /// The rows of the branches that warn; none of a protocol without shares.
    fn warnings(&self) -> Vec<(&'static str, String)> {
        let table = &self.protocol.table;
        let branches = 0..table.branches as usize;
        if branches.clone().all(|branch| table.share[branch] == 0) {
            return Vec::new();
        }
        let told = |branch: usize| {
            let warning = table.warning(&self.state, branch as u32).ok().filter(|warning| warning.warns)?;
            let (label, sender) = (words::label(table.label(branch)), words::party(warning.sender));
            let (estimate, share, line) = (warning.estimate?, table.share[branch], self.protocol.line(Mark::Branch(branch)));
            Some(("warns", format!("{label} by the {sender}, {estimate} of 1000 and not {share} (line {line})")))
        };
        let mut rows: Vec<(&str, String)> = branches.filter_map(told).collect();
        if rows.is_empty() {
            rows.push(("warns", "nothing".to_string()));
        }
        rows.insert(0, ("setting", self.state.setting.to_string()));
        rows
    }

    /// The last entries, and the protocol's automaton with their path; a fault in it, or the place where the conversation stands.
    fn picture(&mut self, log: &str) -> Picture<'a> {
        let recent = self.recent.take().unwrap_or_default();
        let mut path: Vec<(usize, usize)> = recent.iter().filter_map(|one| Some((one.branch?, one.arrow.number))).collect();
        let mark = self.blame.as_ref().map_or(Mark::State(self.state.position.into()), |blame| blame.mark);
        if let (Some(blame), Mark::Branch(branch) | Mark::Field(branch, _)) = (&self.blame, mark) {
            path.push((branch, blame.entry));
        }
        let arrows: Vec<Arrow> = recent.into_iter().map(|one| one.arrow).collect();
        let marked = self.blame.as_ref().map_or(self.entries, |blame| blame.entry);
        let chart = Chart { arrows, marked, ending: self.ending(), bad: self.blame.is_some() };
        let automaton = Automaton { name: "protocol".to_string(), described: self.protocol, path, marked: Some(mark) };
        let title = format!("{log} under {}", self.protocol.text.name);
        Picture { title, chart: Some(chart), automata: vec![automaton] }
    }

    /// What stands below the chart.
    fn ending(&self) -> String {
        match (&self.blame, &self.broken) {
            (Some(Blame { entry, party, words, .. }), _) => {
                format!("{} blamed at entry {entry}, {words}", words::party(*party))
            }
            (None, Some(broken)) => format!("{}; {broken}", self.stands()),
            (None, None) => self.stands(),
        }
    }
}

/// Why there is no further entry, in words.
fn broken(stop: Break, log: &Log) -> String {
    let at = log.at();
    let why = match stop {
        Break::Side(side) => format!("the side byte is {side}, and a side is 0 (device) or 1 (host)"),
        Break::Refused(question) => {
            format!("the message is refused by question {question} {}", said::amiss(log.message()))
        }
        Break::Cut(question) => format!("it ends inside the entry, and the message is refused by question {question}"),
    };
    format!("the log breaks off with the entry at byte {at}: {why}")
}

/// The first field of a message that is a text and no UTF-8.
fn not_utf8(message: &[u8]) -> Option<usize> {
    let broken = |field: &Field| matches!(field, Field::Text(text) if std::str::from_utf8(text).is_err());
    said::fields(message).iter().position(broken)
}
