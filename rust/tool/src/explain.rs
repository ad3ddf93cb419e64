//! Does a device fit? The report as it is, and the same in words.

use super::arguments::Pair;
use super::described::Described;
use super::picture::{self, Arrow, Automaton, Chart, Picture, Way};
use super::places::Mark;
use super::play::{play, Fate, Move, Played};
use super::style::Style;
use super::text::{columns, padded, Text};
use super::{not_drawn, refuse, refused, said, words, write_picture, Ending, Status, Trouble, World};
use sojimu::{Fitting, Party, Reason, LONGEST_LIST};

/// How wide the messages of the moves are set at most.
const WIDE: usize = 44;

/// The texts, by the party that each speaks for.
const TEXTS: [(Party, &str); 2] = [(Party::Host, "protocol"), (Party::Device, "device")];

/// Two texts that were read, and what the fit check says of them.
struct Checked {
    protocol: Described,
    device: Described,
    answer: Answer,
}

enum Answer {
    Fits { pairs: usize },
    Fails(Played),
}

/// The report, to the byte, and the status that its first words say; and a picture beside it, where one is asked for.
pub fn report(pair: &Pair, world: &mut World) -> Ending {
    let (protocol, device) = texts(pair, world)?;
    let report = sojimu::report(&protocol.bytes, &device.bytes);
    world.out.write_all(&report)?;
    if pair.picture.is_some() {
        match (Described::of(protocol), Described::of(device)) {
            (Ok(protocol), Ok(device)) => Checked::of(protocol, device).draw(pair)?,
            _ => not_drawn(pair.picture.as_deref(), world),
        }
    }
    Ok(match report.as_slice() {
        [b'f', ..] => Status::Good,
        [b'n', ..] => Status::Bad,
        _ => Status::Refused,
    })
}

/// The same in words, and a refused text where it fails: of two that are refused, both.
pub fn explain(pair: &Pair, world: &mut World) -> Ending {
    let (protocol, device) = texts(pair, world)?;
    let style = world.style();
    let checked = match (Described::of(protocol), Described::of(device)) {
        (Ok(protocol), Ok(device)) => Checked::of(protocol, device),
        (protocol, device) => {
            let refusals = [protocol.err(), device.err()];
            let shown: Vec<String> = refusals.iter().flatten().map(|(text, no)| refused::shown(text, *no, style)).collect();
            return refuse(&shown.join("\n"), pair.picture.as_deref(), world);
        }
    };
    world.out.write_all(checked.words(style).as_bytes())?;
    checked.draw(pair)?;
    Ok(match checked.answer {
        Answer::Fits { .. } => Status::Good,
        Answer::Fails(_) => Status::Bad,
    })
}

fn texts(pair: &Pair, world: &mut World) -> Result<(Text, Text), Trouble> {
    let protocol = Text::open(&pair.protocol, world.input)?;
    Ok((protocol, Text::open(&pair.device, world.input)?))
}

impl Checked {
    fn of(protocol: Described, device: Described) -> Checked {
        let mut list = [0; LONGEST_LIST];
        let answer = match device.table.fit(&protocol.table, &mut list) {
            Fitting::Fits { pairs } => Answer::Fits { pairs },
            Fitting::Fails { moves, high } => {
                let played = play(&device.table, &protocol.table, &list[..moves], high);
                Answer::Fails(played.expect("the list is promised to end in a blame or a jam"))
            }
            Fitting::Refused(question) => unreachable!("tables that were read, and a list that is long enough: {question}"),
        };
        Checked { protocol, device, answer }
    }

    fn words(&self, style: Style) -> String {
        let (device, protocol) = (&self.device.text.name, &self.protocol.text.name);
        match &self.answer {
            Answer::Fits { pairs } => {
                let fits = style.good(&format!("{device} fits {protocol}."));
                let met = words::counted(*pairs, "pair of states is met", "pairs of states are met");
                format!("{fits}\nAs long as it keeps to its text it is never blamed, and the two never jam, whatever the host says; {met}.\n")
            }
            Answer::Fails(played) => {
                let heading = style.strong(&format!("{device} does not fit {protocol}."));
                format!("{heading}\n{}\n{}", self.moves(played), self.fault(played, style))
            }
        }
    }

    /// The moves, one in a line, with the lines of the texts that they are of.
    fn moves(&self, played: &Played) -> String {
        let said: Vec<String> = played.moves.iter().map(sentence).collect();
        let wide = said.iter().map(|words| columns(words)).filter(|&wide| wide <= WIDE).max().unwrap_or(0);
        let line = |((one, words), number): ((&Move, &String), usize)| {
            format!("{number:3}  {}  {}\n", padded(words, wide), self.lines(one))
        };
        let lines: Vec<String> = played.moves.iter().zip(&said).zip(1..).map(line).collect();
        match lines.len() {
            0 => "It shows before any move.\n".to_string(),
            1 => format!("One move shows it:\n\n{}", lines.concat()),
            many => format!("{many} moves show it, and no fewer do:\n\n{}", lines.concat()),
        }
    }

    /// The text that speaks for a party: the device's own, and the protocol for the host.
    fn described(&self, party: Party) -> &Described {
        match party {
            Party::Device => &self.device,
            Party::Host => &self.protocol,
        }
    }

    /// Where a move stands in the texts.
    fn lines(&self, one: &Move) -> String {
        let line = |(party, whose): (Party, &str)| {
            Some(format!("{whose} line {}", self.described(party).line(Mark::Branch(one.branch(party)?))))
        };
        TEXTS.into_iter().filter_map(line).collect::<Vec<String>>().join(", ")
    }

    /// What the moves come to, whose fault it is, and the places in both texts.
    fn fault(&self, played: &Played, style: Style) -> String {
        let ending = style.fault(&format!("{}:", played.fate.word()));
        let mut all = format!("{ending} {}\nThe fault is the device's.\n", self.why(played));
        for (party, whose) in TEXTS {
            let (described, mark) = (self.described(party), mark(played, party));
            let address = style.strong(&format!("{whose}, {}", described.address(mark)));
            all += &format!("\n{address}\n");
            let before = before(played, party).filter(|&branch| described.line(branch) != described.line(mark));
            all.extend(before.map(|branch| described.excerpt(branch, "after this", style)));
            all += &described.excerpt(mark, &self.note(played, party), style);
        }
        all
    }

    fn why(&self, played: &Played) -> String {
        let forbidden = |reason: Reason, party: Party, whose: &str| {
            let message = played.moves.last().map_or(&[][..], |last| &last.message);
            words::forbidden(reason, self.described(party), played.state(party), message, whose)
        };
        match played.fate {
            Fate::Blamed(reason) => {
                format!("the device sends what the protocol forbids: {}.", forbidden(reason, Party::Host, "the protocol"))
            }
            Fate::NotTaken(reason) => {
                format!("the device does not take what the host may send: {}.", forbidden(reason, Party::Device, "the device"))
            }
            Fate::OutOfStep => format!("{}, and {}.", self.turn(played, Party::Device), self.turn(played, Party::Host)),
        }
    }

    /// Whose turn it is at the end, by the text that speaks for a party.
    fn turn(&self, played: &Played, party: Party) -> &'static str {
        match (party, words::speaker(&self.described(party).table, played.state(party))) {
            (Party::Device, Some(Party::Device)) => "the device means to send",
            (Party::Device, Some(Party::Host)) => "the device waits for the host",
            (Party::Device, None) => "the device has ended",
            (Party::Host, Some(Party::Device)) => "by the protocol it is the device's turn",
            (Party::Host, Some(Party::Host)) => "by the protocol it is the host's turn",
            (Party::Host, None) => "the protocol has ended",
        }
    }

    /// What is said at the mark in the text that speaks for a party.
    fn note(&self, played: &Played, party: Party) -> String {
        let label = played.moves.last().map_or(String::new(), |last| said::label(&last.message));
        match (played.fate, mark(played, party), party) {
            (Fate::OutOfStep, ..) => self.turn(played, party).to_string(),
            (_, Mark::State(_), _) => format!("no {label} in this choice"),
            (Fate::Blamed(_), _, Party::Device) => "the device may send this".to_string(),
            (Fate::Blamed(_), _, Party::Host) => "the protocol allows this".to_string(),
            (Fate::NotTaken(_), _, Party::Device) => "the device takes this".to_string(),
            (Fate::NotTaken(_), _, Party::Host) => "the host may send this".to_string(),
        }
    }

    fn draw(&self, pair: &Pair) -> Result<(), Trouble> {
        write_picture(pair.picture.as_deref(), || picture::draw(&self.picture()))
    }

    fn picture(&self) -> Picture<'_> {
        let (device, protocol) = (&self.device.text.name, &self.protocol.text.name);
        let (title, chart, played) = match &self.answer {
            Answer::Fits { .. } => (format!("{device} fits {protocol}"), None, None),
            Answer::Fails(played) => (format!("{device} does not fit {protocol}"), Some(self.chart(played)), Some(played)),
        };
        let automaton = |(party, name): (Party, &str)| Automaton {
            name: name.to_string(),
            described: self.described(party),
            path: played.map(|played| path(played, party)).unwrap_or_default(),
            marked: played.map(|played| mark(played, party)),
        };
        Picture { title, chart, automata: TEXTS.into_iter().rev().map(automaton).collect() }
    }

    fn chart(&self, played: &Played) -> Chart {
        let last = played.moves.len();
        let way = |number: usize| match played.fate {
            _ if number < last => Way::Forwarded,
            Fate::Blamed(_) => Way::Blamed,
            Fate::NotTaken(_) => Way::NotTaken,
            Fate::OutOfStep => Way::Forwarded,
        };
        let arrow = |(one, number): (&Move, usize)| Arrow {
            number,
            side: one.side,
            words: said::message(&one.message),
            way: way(number),
        };
        let arrows = played.moves.iter().zip(1..).map(arrow).collect();
        let ending = format!("{}: {}", played.fate.word(), self.why(played));
        Chart { arrows, marked: last, ending, bad: true }
    }
}

/// What is marked in the text that speaks for a party: the field or the branch that the last move is about, else the state.
fn mark(played: &Played, party: Party) -> Mark {
    match played.fate {
        Fate::Blamed(reason) | Fate::NotTaken(reason) => Mark::of(reason, played.last_branch(party), played.state(party)),
        Fate::OutOfStep => Mark::State(played.state(party)),
    }
}

/// The branch that leads to where the two are out of step, in the text that speaks for a party.
fn before(played: &Played, party: Party) -> Option<Mark> {
    played.last_branch(party).filter(|_| played.fate == Fate::OutOfStep).map(Mark::Branch)
}

/// The branches that the moves take in the text that speaks for a party, with the moves' numbers.
fn path(played: &Played, party: Party) -> Vec<(usize, usize)> {
    played.moves.iter().zip(1..).filter_map(|(one, number)| Some((one.branch(party)?, number))).collect()
}

/// A move in words.
fn sentence(one: &Move) -> String {
    format!("{} sends {}", words::party(one.side), said::message(&one.message))
}
