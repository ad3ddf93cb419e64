//! Monitors written by hand, each for one protocol: no table, no question 9.
//!
//! [`step`] is for `rec X.+{!Ask(int[0..100]).&{?Ok().X},!Quit().end}`, one message at a time, [`scan`] for the scanner of
//! `examples/`, all that waits at once.

use super::plain::{front, parse, Parsed};
use sojimu::{Batch, Party, Question, Reason, Verdict};

/// Where the conversation is.
#[derive(Clone, Copy, Debug, PartialEq, Eq)]
pub enum Place {
    /// The device asks or quits.
    Asking,
    /// The host answers.
    Answering,
    /// The device has quit.
    Over,
    /// One of the two was blamed.
    Stopped,
}

/// One step.
///
/// ```
/// use sojimu_checks::bench::by_hand::{step, Place};
/// use sojimu::{Party, Verdict};
///
/// let mut place = Place::Asking;
/// let quit = b"Quit\0\0\0\0\0";
/// assert_eq!(step(&mut place, Party::Device, quit, &mut [0; 9]), Verdict::Forwarded);
/// assert_eq!(place, Place::Over);
/// ```
#[inline(never)]
pub fn step(place: &mut Place, side: Party, message: &[u8], out: &mut [u8]) -> Verdict {
    match next(*place, side, message, out.len()) {
        Err(question) => Verdict::Refused(question),
        Ok(Ok(next)) => {
            out[..message.len()].copy_from_slice(message);
            *place = next;
            Verdict::Forwarded
        }
        Ok(Err(reason)) => {
            *place = Place::Stopped;
            Verdict::Blamed(side, reason)
        }
    }
}

fn next(place: Place, side: Party, message: &[u8], room: usize) -> Result<Result<Place, Reason>, Question> {
    let turn = match place {
        Place::Asking => Party::Device,
        Place::Answering => Party::Host,
        Place::Over => return Err(Question::AT_END),
        Place::Stopped => return Err(Question::NOT_RUNNING),
    };
    if side != turn {
        return Err(Question::OUT_OF_TURN);
    }
    let parsed = parse(message)?;
    if room < message.len() {
        return Err(Question::OUTPUT_TOO_SHORT);
    }
    Ok(match (place, parsed.label) {
        (Place::Asking, b"Ask\0\0\0\0\0") => match (parsed.kinds, parsed.numbers().next()) {
            ([0], Some(0..=100)) => Ok(Place::Answering),
            ([0], _) => Err(Reason::OutOfRange(0)),
            _ => Err(Reason::OtherKinds),
        },
        (Place::Asking, b"Quit\0\0\0\0") if parsed.kinds.is_empty() => Ok(Place::Over),
        (Place::Asking, b"Quit\0\0\0\0") => Err(Reason::OtherKinds),
        (Place::Answering, b"Ok\0\0\0\0\0\0") if parsed.kinds.is_empty() => Ok(Place::Asking),
        (Place::Answering, b"Ok\0\0\0\0\0\0") => Err(Reason::OtherKinds),
        _ => Err(Reason::NoLabel),
    })
}

/// Where the conversation with the scanner is.
#[derive(Clone, Copy, Debug, PartialEq, Eq)]
pub enum Pass {
    /// The host starts a pass or switches off.
    Idle,
    /// The device is ready or busy.
    Started,
    /// The device frames, reaches an edge or has a fault.
    Scanning,
    /// The host has it go on or come home.
    AtEdge,
    /// It had a fault or was switched off.
    Over,
    /// One of the two was blamed.
    Stopped,
}

impl Pass {
    fn turn(self) -> Option<Party> {
        match self {
            Pass::Idle | Pass::AtEdge => Some(Party::Host),
            Pass::Started | Pass::Scanning => Some(Party::Device),
            Pass::Over | Pass::Stopped => None,
        }
    }

    fn after(self, message: &Parsed<'_>) -> Result<Pass, Reason> {
        match (self, message.label) {
            (Pass::Idle, b"Start\0\0\0") => {
                fields(message, [0, 0, 0], [(0, 9000), (0, 9000), (50, 500)]).map(|()| Pass::Started)
            }
            (Pass::Idle, b"Off\0\0\0\0\0") => fields(message, [], []).map(|()| Pass::Over),
            (Pass::Started, b"Ready\0\0\0") => fields(message, [], []).map(|()| Pass::Scanning),
            (Pass::Started, b"Busy\0\0\0\0") => fields(message, [], []).map(|()| Pass::Idle),
            (Pass::Scanning, b"Frame\0\0\0") => {
                fields(message, [0, 0, 0], [(0, 9000), (0, 250), (30, 400)]).map(|()| Pass::Scanning)
            }
            (Pass::Scanning, b"Edge\0\0\0\0") => fields(message, [2], [(0, 1)]).map(|()| Pass::AtEdge),
            (Pass::Scanning, b"Fault\0\0\0") => fields(message, [0, 1], [(1, 99), (0, 40)]).map(|()| Pass::Over),
            (Pass::AtEdge, b"Next\0\0\0\0") => fields(message, [], []).map(|()| Pass::Scanning),
            (Pass::AtEdge, b"Home\0\0\0\0") => fields(message, [], []).map(|()| Pass::Idle),
            _ => Err(Reason::NoLabel),
        }
    }
}

/// Fields of these kinds, their numbers within these ranges.
fn fields<const N: usize>(message: &Parsed<'_>, kinds: [u8; N], ranges: [(i32, i32); N]) -> Result<(), Reason> {
    if message.kinds != kinds {
        return Err(Reason::OtherKinds);
    }
    match message.numbers().zip(ranges).position(|(number, (low, high))| number < low || high < number) {
        Some(field) => Err(Reason::OutOfRange(field as u8)),
        None => Ok(()),
    }
}

/// All that is due of the bytes that wait, as [`Table::batch`](crate::Table::batch) takes it.
///
/// ```
/// use sojimu_checks::bench::by_hand::{scan, Pass};
/// use sojimu::Verdict;
///
/// let mut pass = Pass::Started;
/// let (ready, next) = (b"Ready\0\0\0\0", b"Next\0\0\0\0\0");
/// let batch = scan(&mut pass, ready, next, &mut [0; 9], &mut [0; 9]);
/// assert_eq!((batch.used_device, batch.used_host, batch.last), (9, 0, Some(Verdict::Forwarded)));
/// assert_eq!(pass, Pass::Scanning);
/// ```
#[inline(never)]
pub fn scan(pass: &mut Pass, device: &[u8], host: &[u8], to_device: &mut [u8], to_host: &mut [u8]) -> Batch {
    let mut batch = Batch { used_device: 0, used_host: 0, written_to_device: 0, written_to_host: 0, last: None };
    if *pass == Pass::Stopped {
        batch.last = Some(Verdict::Refused(Question::NOT_RUNNING));
    }
    while let Some(side) = pass.turn() {
        let (waiting, output, used, written) = match side {
            Party::Device => (device, &mut *to_host, &mut batch.used_device, &mut batch.written_to_host),
            Party::Host => (host, &mut *to_device, &mut batch.used_host, &mut batch.written_to_device),
        };
        let (waiting, output) = (&waiting[*used..], &mut output[*written..]);
        let due = front(waiting).ok().and_then(|message| Some((waiting.get(..message.length)?, message)));
        let Some((bytes, message)) = due else {
            break;
        };
        if !message.texts_well_formed(bytes) {
            batch.last = Some(Verdict::Refused(Question::NOT_UTF8));
            break;
        }
        let Some(output) = output.get_mut(..bytes.len()) else {
            batch.last = Some(Verdict::Refused(Question::OUTPUT_TOO_SHORT));
            break;
        };
        *used += bytes.len();
        match pass.after(&message) {
            Ok(next) => {
                output.copy_from_slice(bytes);
                *written += bytes.len();
                *pass = next;
                batch.last = Some(Verdict::Forwarded);
            }
            Err(reason) => {
                *pass = Pass::Stopped;
                batch.last = Some(Verdict::Blamed(side, reason));
            }
        }
    }
    batch
}
