//! Batches: some hundred messages that wait on both sides, right ones with early, damaged, forbidden, cut ones and such with broken
//! texts among them, from any state, with outputs of any room. Each is compared with the second implementation's, with the proved code's single steps,
//! and with itself where the bytes come in two pieces.

use super::both::{batch_codes, state, state_after, state_codes, Both};
use super::endings::{count, Batched};
use super::steps::{self, anywhere, step_of, Odds, UNTOUCHED};
use super::turns::whole;
use super::{both, show, Early, Outcome, Tally};
use crate::ffi;
use crate::second::monitor::Side;
use crate::second::random::{endless_table, ragged, sound_table, state_at, walk, with_texts, Random, Waiting};
use crate::second::table::{self, Raw};
use crate::second::{batch, text};
use sojimu::{Batch, Party, Question, Reason, State, Table, Verdict};

/// The protocols of the trade.
const EXAMPLES: [&[u8]; 4] = [
    include_bytes!("../../../../examples/scanner/protocol.txt"),
    include_bytes!("../../../../examples/steambox/protocol.txt"),
    include_bytes!("../../../../examples/spray/protocol.txt"),
    include_bytes!("../../../../examples/editions/protocol.txt"),
];

/// What a batch is given: a state, the bytes that wait, and the room of either output.
#[derive(Clone)]
pub struct Given {
    pub state: State,
    pub waiting: Waiting,
    pub device_room: usize,
    pub host_room: usize,
}

/// What a batch gives back, and what it leaves of all that it is lent.
#[derive(Clone, Debug, PartialEq, Eq)]
pub struct Left {
    pub batch: Batch,
    pub state: State,
    pub to_device: Vec<u8>,
    pub to_host: Vec<u8>,
}

impl Given {
    /// All that is lent as it is before the call.
    fn untouched(&self) -> Left {
        Left {
            batch: Batch { used_device: 0, used_host: 0, written_to_device: 0, written_to_host: 0, last: None },
            state: self.state,
            to_device: vec![UNTOUCHED; self.device_room],
            to_host: vec![UNTOUCHED; self.host_room],
        }
    }

    fn show(&self, both: &Both) -> String {
        let Given { state, waiting, device_room, host_room } = self;
        let heading = format!("room {device_room} to the device, {host_room} to the host, {}", show::state(state));
        let waiting = show::bytes("device's", &waiting.device) + &show::bytes("host's", &waiting.host);
        heading + &waiting + &show::table("table", &both.proved)
    }
}

/// One batch at any state of a table, whole and in two pieces.
pub fn case(random: &mut Random, tally: &mut Tally) -> Outcome {
    let sound = protocol(random);
    let (both, state) = anywhere(random, &sound, Odds { damaged: 24, beyond: 24, stopped: 16, counts: 16 });
    let position = usize::from(state.position).min(sound.states.len() - 1);
    let messages = *random.pick(&[1, 2, 5, 20, 60, 200, 400]);
    let faults = *random.pick(&[0, 4, 20, 200]);
    let mut waiting = walk(random, &sound, position, messages, faults);
    ragged(random, &sound, &mut waiting.device);
    ragged(random, &sound, &mut waiting.host);
    let (device_room, host_room) = (room(random, waiting.host.len()), room(random, waiting.device.len()));
    let given = Given { state, waiting, device_room, host_room };
    let whole = batch_of(&given, &both, tally)?;
    early_then(&given, &both, &whole, tally)?;
    in_two_pieces(random, &given, &both, &whole, tally)
}

/// A whole message that the batch has left on the side whose turn it is not: put to a step, it is refused by 12 under edition 1, and
/// under edition 2 its sender is blamed.
fn early_then(given: &Given, both: &Both, left: &Left, tally: &mut Tally) -> Outcome {
    let Waiting { device, host } = &given.waiting;
    let (side, rest) = match both.proved.turn(&left.state) {
        Ok(Party::Device) => (Side::Host, &host[left.batch.used_host..]),
        Ok(Party::Host) => (Side::Device, &device[left.batch.used_device..]),
        Err(_) => return Ok(()),
    };
    let Some(length) = whole(rest) else {
        return Ok(());
    };
    let early = steps::Given { state: left.state, side, message: rest[..length].to_vec(), room: length };
    let two = both.second.edition == 2;
    tally.early(Early::Left, two);
    let verdict = both.proved.step(&mut left.state.clone(), both::party(side), &early.message, &mut vec![0; length]);
    tally.early(Early::LeftBlamed, verdict == Verdict::Blamed(both::party(side), Reason::Early));
    step_of(&early, both, tally).map(drop)
}

/// A few messages, with every room of either output from none to more than enough.
pub fn every_room(random: &mut Random, tally: &mut Tally) -> Outcome {
    let sound = if random.one_in(4) { example(random) } else { endless_table(random, 4, 8) };
    let both = Both::of(&Raw::of(&sound));
    let position = random.below(sound.states.len());
    let state = state_codes(&state_at(random, &sound, position));
    let waiting = walk(random, &sound, position, 10, 30);
    let enough = Given { state, device_room: waiting.host.len(), host_room: waiting.device.len(), waiting };
    for device_room in 0..=enough.device_room + 1 {
        batch_of(&Given { device_room, ..enough.clone() }, &both, tally)?;
    }
    for host_room in 0..=enough.host_room + 1 {
        batch_of(&Given { host_room, ..enough.clone() }, &both, tally)?;
    }
    Ok(())
}

/// A sound table: mostly one that has a conversation of any length.
fn protocol(random: &mut Random) -> table::Table {
    match random.below(8) {
        0 | 1 => example(random),
        2 => sound_table(random, 6, 12),
        3 => endless_table(random, 32, 128),
        4 => {
            let table = endless_table(random, 5, 8);
            with_texts(random, &table)
        }
        _ => endless_table(random, 5, 8),
    }
}

fn example(random: &mut Random) -> table::Table {
    text::read(random.pick::<&[u8]>(&EXAMPLES)).expect("a legal text")
}

/// The room of an output to which at most so many bytes go: too little, as much as that, or more.
fn room(random: &mut Random, whole: usize) -> usize {
    match random.below(8) {
        0 => random.below(whole + 1),
        1 => whole.saturating_sub(1),
        2 => whole,
        _ => whole + random.below(4),
    }
}

/// The batch through both, and by single steps: every number, the state, and every byte of the outputs.
pub fn batch_of(given: &Given, both: &Both, tally: &mut Tally) -> Result<Left, String> {
    let Waiting { device, host } = &given.waiting;
    let (mut second, mut wanted) = (given.untouched(), state(&given.state));
    let (to_device, to_host) = (&mut second.to_device, &mut second.to_host);
    let batch = batch::batch(&both.second, &mut wanted, device, host, to_device, to_host);
    second.batch = both::batch(batch);
    second.state = state_after(&given.state, &wanted);

    let mut proved = given.untouched();
    proved.batch = taken(&both.proved, &mut proved, device, host);
    let mut again = given.untouched();
    let codes = ffi::batch(&both.proved, &mut again.state, device, host, &mut again.to_device, &mut again.to_host);
    again.batch = proved.batch;
    let show = || given.show(both);
    tally.same("batch", (&proved, codes, &again), (&second, batch_codes(batch), &second), show)?;

    let (singly, forwarded) = by_single_steps(given, &both.proved);
    tally.same("batch against single steps", &proved, &singly, show)?;
    count(given, both, &proved, forwarded, tally);
    Ok(proved)
}

/// A batch of these bytes, given what earlier ones have left of the outputs.
fn taken(table: &Table, left: &mut Left, device: &[u8], host: &[u8]) -> Batch {
    let Left { batch, state, to_device, to_host } = left;
    let (to_device, to_host) = (&mut to_device[batch.written_to_device..], &mut to_host[batch.written_to_host..]);
    table.batch(state, device, host, to_device, to_host)
}

/// What single steps of the proved code make of it, and how many messages they forward.
fn by_single_steps(given: &Given, table: &Table) -> (Left, usize) {
    let Waiting { device, host } = &given.waiting;
    let mut left = given.untouched();
    let Left { batch, state, to_device, to_host } = &mut left;
    let mut forwarded = 0;
    if let Err(question @ (Question::UNSOUND | Question::NOT_RUNNING)) = table.turn(state) {
        batch.last = Some(Verdict::Refused(question));
        return (left, forwarded);
    }
    loop {
        let due = table.due(state, &device[batch.used_device..], &host[batch.used_host..]);
        let length = due.message.len();
        if length == 0 {
            return (left, forwarded);
        }
        let (output, used, written) = match due.side {
            Party::Device => (&mut *to_host, &mut batch.used_device, &mut batch.written_to_host),
            Party::Host => (&mut *to_device, &mut batch.used_host, &mut batch.written_to_device),
        };
        let verdict = table.step(state, due.side, due.message, &mut output[*written..]);
        batch.last = Some(verdict);
        if !matches!(verdict, Verdict::Refused(_)) {
            *used += length;
        }
        if verdict != Verdict::Forwarded {
            return (left, forwarded);
        }
        *written += length;
        forwarded += 1;
    }
}

/// The first bytes of either side come first, the rest later: together they come to what they come to at once. Where the first
/// ones end in a blame, that is all; where 22 refuses one of them, it does so again.
fn in_two_pieces(random: &mut Random, given: &Given, both: &Both, whole: &Left, tally: &mut Tally) -> Outcome {
    let Waiting { device, host } = &given.waiting;
    let (cut, other) = (random.below(device.len() + 1), random.below(host.len() + 1));
    let mut left = given.untouched();
    let first = taken(&both.proved, &mut left, &device[..cut], &host[..other]);
    left.batch = first;
    // Nothing is taken after a blame: the state is not running.
    if !matches!(first.last, Some(Verdict::Blamed(..))) {
        let more = taken(&both.proved, &mut left, &device[first.used_device..], &host[first.used_host..]);
        left.batch = Batch {
            used_device: first.used_device + more.used_device,
            used_host: first.used_host + more.used_host,
            written_to_device: first.written_to_device + more.written_to_device,
            written_to_host: first.written_to_host + more.written_to_host,
            last: more.last.or(first.last),
        };
        let forwarded = |batch: &Batch| batch.written_to_device + batch.written_to_host > 0;
        tally.batch(Batched::Pieces, forwarded(&first) && forwarded(&more));
        let refused = Some(Verdict::Refused(Question::NOT_UTF8));
        tally.batch(Batched::Pieces22, first.last == refused && more.last == refused);
    }
    let show = || format!("first {cut} and {other} bytes, {}", given.show(both));
    tally.same("batch in two pieces", whole, &left, show)
}
