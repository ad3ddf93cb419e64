//! What came of the batches that were compared.

use super::batches::{Given, Left};
use super::both::Both;
use super::Tally;
use crate::second::random::Waiting;
use sojimu::message::broken;
use sojimu::{Batch, Party, Question, Reason, Verdict};

/// What is counted of them.
#[derive(Clone, Copy, Debug, PartialEq, Eq)]
pub enum Batched {
    /// Some were forwarded, then none was due.
    NoneDue,
    /// Some were forwarded, the last to an end.
    Ended,
    /// No step was tried, at no end.
    Untried,
    /// No step was tried, for it began at an end, with bytes waiting.
    AtEnd,
    /// 16 refused a message to the device.
    FullToDevice,
    /// 16 refused a message to the host.
    FullToHost,
    /// 16 refused one after others had been forwarded to the same output.
    FullLater,
    /// 22 refused a message of the device's.
    Device22,
    /// 22 refused a message of the host's.
    Host22,
    /// 22 refused one after others of its side had been forwarded, with more of its bytes behind.
    Among22,
    /// The device was blamed for reason 1.
    Device1,
    /// The device was blamed for reason 2.
    Device2,
    /// The device was blamed for reason 3.
    Device3,
    /// The host was blamed for reason 1.
    Host1,
    /// The host was blamed for reason 2.
    Host2,
    /// The host was blamed for reason 3.
    Host3,
    /// A side was blamed after others of its messages had been forwarded, with more of its bytes behind.
    BlameAmong,
    /// 9 refused it, with bytes waiting.
    By9,
    /// 10 refused it, with bytes waiting.
    By10,
    /// 10 refused it, at a standing whose code is unknown.
    Unknown,
    /// A hundred messages or more were forwarded.
    Hundred,
    /// Messages of both sides were used.
    BothSides,
    /// None was due, and bytes of the side whose turn it was not waited.
    Early,
    /// None was due, and an unfinished message of the side whose turn it was waited.
    Cut,
    /// None was due, and bytes that nothing mends waited.
    Broken,
    /// Messages of the first piece were forwarded, and then such as were whole with the second.
    Pieces,
    /// 22 refused a message of the first piece, and again with the second.
    Pieces22,
}

impl Batched {
    /// Each of them in a few letters, in their order.
    pub const ALL: [&str; 27] = [
        "batch, none",
        "batch, end",
        "batch, untried",
        "batch, at end",
        "batch, 16 dev",
        "batch, 16 host",
        "batch, 16 late",
        "batch, 22 dev",
        "batch, 22 host",
        "batch, 22 late",
        "batch, dev 1",
        "batch, dev 2",
        "batch, dev 3",
        "batch, host 1",
        "batch, host 2",
        "batch, host 3",
        "batch, among",
        "batch, by 9",
        "batch, by 10",
        "batch, unknown",
        "batch, hundred",
        "batch, both",
        "batch, early",
        "batch, cut",
        "batch, broken",
        "batch, pieces",
        "batch, 22 both",
    ];
}

/// Counts a batch by what it was given, what it left, and how many messages it forwarded.
pub fn count(given: &Given, both: &Both, left: &Left, forwarded: usize, tally: &mut Tally) {
    let Batch { used_device, used_host, written_to_device, written_to_host, last } = left.batch;
    let Waiting { device, host } = &given.waiting;
    let turn = both.proved.turn(&left.state);
    let any = !device.is_empty() || !host.is_empty();
    tally.batch(Batched::Hundred, forwarded >= 100);
    tally.batch(Batched::BothSides, used_device > 0 && used_host > 0);
    match (last, turn) {
        (None, Err(_)) => tally.batch(Batched::AtEnd, any),
        (None, Ok(_)) => tally.batch(Batched::Untried, true),
        (Some(Verdict::Forwarded), Err(_)) => tally.batch(Batched::Ended, true),
        (Some(Verdict::Forwarded), Ok(_)) => tally.batch(Batched::NoneDue, true),
        (Some(Verdict::Refused(Question::UNSOUND)), _) => tally.batch(Batched::By9, any),
        (Some(Verdict::Refused(Question::NOT_RUNNING)), _) => {
            tally.batch(Batched::By10, any);
            tally.batch(Batched::Unknown, given.state.standing.0 > 2);
        }
        (Some(Verdict::Refused(Question::NOT_UTF8)), Ok(Party::Host)) => {
            tally.batch(Batched::Host22, true);
            tally.batch(Batched::Among22, written_to_device > 0 && used_host < host.len());
        }
        (Some(Verdict::Refused(Question::NOT_UTF8)), _) => {
            tally.batch(Batched::Device22, true);
            tally.batch(Batched::Among22, written_to_host > 0 && used_device < device.len());
        }
        (Some(Verdict::Refused(_)), Ok(Party::Host)) => {
            tally.batch(Batched::FullToDevice, true);
            tally.batch(Batched::FullLater, written_to_device > 0);
        }
        (Some(Verdict::Refused(_)), _) => {
            tally.batch(Batched::FullToHost, true);
            tally.batch(Batched::FullLater, written_to_host > 0);
        }
        (Some(Verdict::Blamed(party, reason)), _) => {
            tally.batch(blamed(party, reason), true);
            let among = match party {
                Party::Device => written_to_host > 0 && used_device < device.len(),
                Party::Host => written_to_device > 0 && used_host < host.len(),
            };
            tally.batch(Batched::BlameAmong, among);
        }
    }
    if let (None | Some(Verdict::Forwarded), Ok(side)) = (last, turn) {
        wait(side, &device[used_device..], &host[used_host..], tally);
    }
}

fn blamed(party: Party, reason: Reason) -> Batched {
    match (party, reason) {
        (Party::Device, Reason::NoLabel) => Batched::Device1,
        (Party::Device, Reason::OtherKinds) => Batched::Device2,
        (Party::Device, Reason::OutOfRange(_)) => Batched::Device3,
        (Party::Host, Reason::NoLabel) => Batched::Host1,
        (Party::Host, Reason::OtherKinds) => Batched::Host2,
        (Party::Host, Reason::OutOfRange(_)) => Batched::Host3,
        // What is taken is due, and so never early.
        (_, Reason::Early) => unreachable!("a batch blames nobody for an early message"),
    }
}

/// Counts what waits on where none is due.
fn wait(turn: Party, device: &[u8], host: &[u8], tally: &mut Tally) {
    let (own, others) = match turn {
        Party::Device => (device, host),
        Party::Host => (host, device),
    };
    tally.batch(Batched::Early, !others.is_empty());
    tally.batch(Batched::Broken, broken(own));
    tally.batch(Batched::Cut, !own.is_empty() && !broken(own));
}
