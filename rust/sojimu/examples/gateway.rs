//! A gateway in small: one device, one host, and the bytes that come from either.

use sojimu::{message, Fitting, Party, Question, Standing, State, Table, Verdict, Warning, LONGEST_LIST, LONGEST_MESSAGE};
use std::io::{self, Write};

const PROTOCOL: &[u8] = b"rec X.+{!Ask(int[0..100])@100.&{?Ok().X},!Quit()@900.end}";
const DEVICE: &[u8] = b"rec X.+{!Ask(int[0..50]).&{?Ok().X,?Busy().X}}";
const OTHER: &[u8] = b"rec X.+{!Ask(int[0..200]).&{?Ok().X}}";
const SECOND: &[u8] = b"edition 2 rec X.+{!Ask(int[0..100]).&{?Ok().X},!Quit().end}";

/// The bytes that may wait on a side: a scan's worth. Room for the longest message is enough.
pub const WAITING: usize = 24 * LONGEST_MESSAGE;
/// The bytes that are passed on together. Here too, room for the longest message is enough.
pub const TOGETHER: usize = 4 * LONGEST_MESSAGE;

/// How far from its share a branch may be before the page shows it: 2.00 standard deviations.
const SETTING: u32 = 200;

/// One conversation: its state, and the bytes that wait on either side.
pub struct Conversation {
    state: State,
    device: Vec<u8>,
    host: Vec<u8>,
}

impl Conversation {
    /// A conversation begins.
    pub fn begin(protocol: &Table) -> Conversation {
        let state = protocol.fresh(SETTING).expect("a protocol that was read, and a legal setting");
        Conversation { state, device: Vec::new(), host: Vec::new() }
    }

    fn waiting(&mut self, side: Party) -> &mut Vec<u8> {
        match side {
            Party::Device => &mut self.device,
            Party::Host => &mut self.host,
        }
    }
}

fn main() -> io::Result<()> {
    run(&mut io::stdout())
}

pub fn run(log: &mut dyn Write) -> io::Result<()> {
    assert!(sojimu::matches(), "the archive is of another version");
    // Texts are read once, when the gateway starts.
    if let Err(no) = Table::read(b"rec X.X") {
        writeln!(log, "text refused {} at {}", no.question.0, no.at)?;
    }
    let protocol = Table::read(PROTOCOL).expect("the protocol");
    let device = Table::read(DEVICE).expect("the device");
    let other = Table::read(OTHER).expect("the other device");
    fits(&other, &protocol, log)?;
    if !fits(&device, &protocol, log)? {
        return Ok(());
    }
    // The host is early, and the device's first message comes in two pieces.
    let mut talk = Conversation::begin(&protocol);
    hear(&protocol, &mut talk, Party::Host, b"Ok\0\0\0\0\0\0\0", log)?;
    hear(&protocol, &mut talk, Party::Device, b"Ask\0\0\0\0\0\x01\0", log)?;
    hear(&protocol, &mut talk, Party::Device, b"\0\0\0\x07", log)?;
    assert!(!hear(&protocol, &mut talk, Party::Device, b"Ask\0\0\0\0\0\x01\0\0\0\0\x65", log)?);
    assert_eq!(talk.state.standing, Standing::DEVICE_BLAMED);
    // A device that speaks another language.
    let mut strange = Conversation::begin(&protocol);
    assert!(!hear(&protocol, &mut strange, Party::Device, b"GET / HTTP/1.1\r\n", log)?);
    // One that names a grade in another encoding.
    let mut encoded = Conversation::begin(&protocol);
    assert!(!hear(&protocol, &mut encoded, Party::Device, b"Grade\0\0\0\x01\x01\0\0\0\x01\xE4", log)?);
    // The second edition, under which the host may not be early.
    let second = Table::read(SECOND).expect("the protocol under edition 2");
    let mut strict = Conversation::begin(&second);
    assert!(!hear(&second, &mut strict, Party::Host, b"Ok\0\0\0\0\0\0\0", log)?);
    Ok(())
}

/// Before installation: does the described device fit?
fn fits(device: &Table, protocol: &Table, log: &mut dyn Write) -> io::Result<bool> {
    let mut list = [0; LONGEST_LIST];
    match device.fit(protocol, &mut list) {
        Fitting::Fits { pairs } => writeln!(log, "fits, {pairs} pairs")?,
        Fitting::Refused(question) => {
            writeln!(log, "fit check refused {}", question.0)?;
            return Ok(false);
        }
        Fitting::Fails { moves, high } => {
            write!(log, "does not fit:")?;
            for branch in &list[..moves] {
                write!(log, " {branch}")?;
            }
            if let Some(field) = high {
                write!(log, ", field {field} high")?;
            }
            writeln!(log)?;
            return Ok(false);
        }
    }
    Ok(true)
}

/// A line has bytes: takes them and passes on what is due, until all are taken. Says whether the conversation goes on.
pub fn hear(protocol: &Table, talk: &mut Conversation, side: Party, bytes: &[u8], log: &mut dyn Write) -> io::Result<bool> {
    let mut rest = bytes;
    while !rest.is_empty() {
        let taken = receive(talk, side, rest);
        if taken == 0 {
            writeln!(log, "too much from {side:?}")?;
            return Ok(false);
        }
        if !pump(protocol, talk, log)? {
            return Ok(false);
        }
        rest = &rest[taken..];
    }
    Ok(true)
}

/// Bytes have come from a side. Takes what there is room for, and says how many that were: the others are still the caller's.
fn receive(talk: &mut Conversation, side: Party, bytes: &[u8]) -> usize {
    let waiting = talk.waiting(side);
    let taken = bytes.len().min(WAITING - waiting.len());
    waiting.extend(&bytes[..taken]);
    taken
}

/// Whenever bytes have come: passes on what is due. Says whether the conversation goes on.
fn pump(protocol: &Table, talk: &mut Conversation, log: &mut dyn Write) -> io::Result<bool> {
    let (mut to_device, mut to_host) = ([0; TOGETHER], [0; TOGETHER]);
    loop {
        let batch = protocol.batch(&mut talk.state, &talk.device, &talk.host, &mut to_device, &mut to_host);
        talk.device.drain(..batch.used_device);
        talk.host.drain(..batch.used_host);
        pass_on(Party::Device, &to_host[..batch.written_to_host], log)?;
        pass_on(Party::Host, &to_device[..batch.written_to_device], log)?;
        // An output was full. What it held is passed on, so it has room again.
        if batch.last == Some(Verdict::Refused(Question(16))) {
            continue;
        }
        match early(protocol, talk).or(batch.last) {
            Some(Verdict::Blamed(party, reason)) => {
                writeln!(log, "{party:?} blamed, reason {}", reason.number())?;
                return Ok(false);
            }
            // None is due, or 22 refuses the one that is. Of 9 and 10 `turn` tells too.
            last => {
                page(protocol, &talk.state, log)?;
                return may_go_on(protocol, talk, last, log);
            }
        }
    }
}

/// Under edition 2 who speaks out of turn is blamed: a whole message that a batch leaves on the side whose turn it is not is put to a
/// step. Gives its verdict where it blames.
fn early(protocol: &Table, talk: &mut Conversation) -> Option<Verdict> {
    if protocol.edition != 2 {
        return None;
    }
    let Conversation { state, device, host } = talk;
    let (side, waiting) = match protocol.turn(state).ok()? {
        Party::Device => (Party::Host, host),
        Party::Host => (Party::Device, device),
    };
    let message = waiting.get(..message::front(waiting).ok()?)?;
    let verdict = protocol.step(state, side, message, &mut [0; LONGEST_MESSAGE]);
    matches!(verdict, Verdict::Blamed(..)).then_some(verdict)
}

/// The tender's page, after each round: which branches are picked far too often or too seldom for their shares.
fn page(protocol: &Table, state: &State, log: &mut dyn Write) -> io::Result<()> {
    for branch in 0..protocol.branches {
        let Ok(Warning { warns: true, sender, estimate: Some(estimate) }) = protocol.warning(state, branch) else {
            continue;
        };
        writeln!(log, "branch {branch} of {sender:?}: {estimate} in 1000, not {}", protocol.share[branch as usize])?;
    }
    Ok(())
}

/// Nothing more is passed on. Can it be once more bytes have come? Not behind bytes that never are a message, or a text that is
/// no UTF-8.
fn may_go_on(protocol: &Table, talk: &mut Conversation, last: Option<Verdict>, log: &mut dyn Write) -> io::Result<bool> {
    let Ok(side) = protocol.turn(&talk.state) else {
        return Ok(false);
    };
    if last == Some(Verdict::Refused(Question(22))) || message::broken(talk.waiting(side)) {
        writeln!(log, "no message from {side:?}")?;
        return Ok(false);
    }
    Ok(true)
}

/// Messages, one behind the other, to the other side; here, to the log.
fn pass_on(from: Party, messages: &[u8], log: &mut dyn Write) -> io::Result<()> {
    if messages.is_empty() {
        return Ok(());
    }
    writeln!(log, "from {from:?}: {} bytes", messages.len())
}
