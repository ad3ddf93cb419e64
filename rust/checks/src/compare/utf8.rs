//! Texts as UTF-8, question 22: every short one, and a single byte at every place of every length; random and damaged ones, in one
//! field or in several; characters that a field's end cuts; then steps and batches with messages of which a text is broken.

use super::batches::{self, batch_of};
use super::both::{codes, party, state_codes, Both};
use super::encodings::{count, Encoded};
use super::steps::{due_of, step_of, Given};
use super::{show, Outcome, Tally};
use crate::ffi;
use crate::second::batch::batch;
use crate::second::message::{broken, front, read, Message, HEAD_BYTES};
use crate::second::monitor::{judge, turn, Side};
use crate::second::random::{
    character, damaged_utf8, endless_table, kind, label, label_of, number_of, out_of_range, reshaped, spoken, state_at,
    utf8_bytes, walk, with_broken_text, with_texts, Random, Waiting, ROWS,
};
use crate::second::table::{Kind, Raw, Table, LONGEST_TEXT, MOST_FIELDS};
use sojimu::message as proved;
use sojimu::{Batch, Question, Verdict};
use std::str::from_utf8;

/// The ends of the ranges that a second, third or fourth byte can be held to, and what is next to them.
const EDGES: [u8; 12] = [0x00, 0x7F, 0x80, 0x81, 0x8F, 0x90, 0x9F, 0xA0, 0xBE, 0xBF, 0xC0, 0xFF];
const LONGEST: usize = LONGEST_TEXT as usize;

/// A message of one text, which is put in again and again.
struct Said {
    bytes: Vec<u8>,
}

impl Said {
    fn of(length: usize) -> Said {
        let fields = vec![(Kind::Text, length as i64)];
        Said { bytes: Message { label: label_of(b"Say"), fields, texts: vec![0; length] }.bytes() }
    }

    /// With this text, through both.
    fn with(&mut self, text: &[u8], tally: &mut Tally) -> Outcome {
        self.bytes[HEAD_BYTES + 5..].copy_from_slice(text);
        refused(&self.bytes, tally)?;
        count(text, tally);
        Ok(())
    }
}

/// The first question that gets a no, through both.
fn refused(bytes: &[u8], tally: &mut Tally) -> Outcome {
    let question = proved::refusal(bytes);
    tally.asked(question);
    tally.same("refusal", question, read(bytes).err().map(Question), || show::bytes("message", bytes))
}

/// Every text of no, one and two bytes; of three and of four, every two with the edges behind them.
pub fn every_short(_: &mut Random, tally: &mut Tally) -> Outcome {
    let mut said = [0, 1, 2, 3, 4].map(Said::of);
    said[0].with(&[], tally)?;
    for first in 0..=255 {
        said[1].with(&[first], tally)?;
        for second in 0..=255 {
            said[2].with(&[first, second], tally)?;
            for third in EDGES {
                said[3].with(&[first, second, third], tally)?;
                for fourth in EDGES {
                    said[4].with(&[first, second, third, fourth], tally)?;
                }
            }
        }
    }
    Ok(())
}

/// In ASCII of every length, at every place: every byte, and of each row a character, whole or cut by the text's end.
pub fn every_place(random: &mut Random, tally: &mut Tally) -> Outcome {
    for length in 1..=LONGEST {
        let mut said = Said::of(length);
        let ascii: Vec<u8> = (0..length).map(|_| random.below(0x80) as u8).collect();
        for place in 0..length {
            let mut text = ascii.clone();
            for byte in 0..=255 {
                text[place] = byte;
                said.with(&text, tally)?;
            }
            for row in ROWS {
                let character = character(random, row);
                let mut text = ascii.clone();
                text[place..].iter_mut().zip(character).for_each(|(old, new)| *old = new);
                said.with(&text, tally)?;
            }
        }
    }
    Ok(())
}

/// A message with texts, and one with a text that is cut into two.
pub fn texts(random: &mut Random, tally: &mut Tally) -> Outcome {
    let message = with_any_texts(random);
    asked(&message, tally)?;
    at_a_border(random, tally)
}

/// Each call that takes bytes alone, through both. Only the refusal looks at a text's bytes.
fn asked(message: &Message, tally: &mut Tally) -> Outcome {
    let bytes = message.bytes();
    refused(&bytes, tally)?;
    let announced = front(&bytes).map(|message| message.length());
    let head = ffi::front(&bytes);
    let told = (proved::front(&bytes), (head.question, head.length), proved::broken(&bytes));
    let wanted = (announced.map_err(Question), codes(announced), broken(&bytes));
    tally.same("front and broken", told, wanted, || show::bytes("message", &bytes))?;
    for ((kind, _), text) in message.fields.iter().zip(message.each_text()) {
        if *kind == Kind::Text {
            count(text, tally);
        }
    }
    Ok(())
}

/// A message of one to four fields, texts more often than others.
fn with_any_texts(random: &mut Random) -> Message {
    let mut message = Message { label: label(random, &[]), fields: Vec::new(), texts: Vec::new() };
    for _ in 0..1 + random.below(MOST_FIELDS) {
        if random.one_in(4) {
            add_other(random, &mut message);
        } else {
            let text = any_text(random);
            add_text(&mut message, &text);
        }
    }
    message
}

/// A text of at most 64 bytes: well formed, and mostly damaged then, with ASCII before and behind it.
fn any_text(random: &mut Random) -> Vec<u8> {
    let most = if random.one_in(2) { 8 } else { LONGEST };
    let length = random.below(most + 1);
    let mut text = utf8_bytes(random, length);
    for _ in 0..random.below(3) {
        text = damaged_utf8(random, &text);
    }
    text.truncate(LONGEST);
    let before = random.below(LONGEST + 1 - text.len());
    let behind = random.below(LONGEST + 1 - text.len() - before);
    let mut ascii = |length| (0..length).map(|_| random.below(0x80) as u8).collect::<Vec<u8>>();
    [ascii(before), text, ascii(behind)].concat()
}

fn add_text(message: &mut Message, text: &[u8]) {
    message.fields.push((Kind::Text, text.len() as i64));
    message.texts.extend(text);
}

/// A field that is no text.
fn add_other(random: &mut Random, message: &mut Message) {
    let kind = *random.pick(&[Kind::Int, Kind::Flag]);
    message.fields.push((kind, number_of(random, kind)));
}

/// A well-formed text in two text fields of two to four: mostly cut within a character, so that neither is well formed though both
/// joined are.
fn at_a_border(random: &mut Random, tally: &mut Tally) -> Outcome {
    let length = 2 + random.below(LONGEST - 1);
    let whole = utf8_bytes(random, length);
    let inside: Vec<usize> = (1..length).filter(|&place| matches!(whole[place], 0x80..=0xBF)).collect();
    let cut = if inside.is_empty() || random.one_in(8) { random.below(length + 1) } else { *random.pick(&inside) };
    let (one, other) = whole.split_at(cut);
    let fields = 2 + random.below(MOST_FIELDS - 1);
    let first = random.below(fields - 1);
    let second = first + 1 + random.below(fields - 1 - first);
    let mut message = Message { label: label(random, &[]), fields: Vec::new(), texts: Vec::new() };
    for field in 0..fields {
        if field == first {
            add_text(&mut message, one);
        } else if field == second {
            add_text(&mut message, other);
        } else if (first..second).contains(&field) || kind(random) != Kind::Text {
            add_other(random, &mut message);
        } else {
            let length = random.below(LONGEST + 1);
            let text = utf8_bytes(random, length);
            add_text(&mut message, &text);
        }
    }
    asked(&message, tally)?;
    let refused = proved::refusal(&message.bytes()) == Some(Question::NOT_UTF8);
    tally.encode(Encoded::Border, refused && from_utf8(one).is_err() && from_utf8(&whole).is_ok());
    Ok(())
}

/// A table with texts and a message with a broken one, at a state where it is mostly allowed but for that.
struct Faulty {
    table: Table,
    both: Both,
    position: usize,
    branch: usize,
    side: Side,
    message: Message,
}

impl Faulty {
    /// At a state of a table that has a conversation of any length; none where the branch has no text.
    fn any(random: &mut Random) -> Option<Faulty> {
        let table = endless_table(random, 5, 8);
        let table = with_texts(random, &table);
        let position = table.branches[random.below(table.branches.len())].owner;
        Faulty::at(random, table, position)
    }

    fn at(random: &mut Random, table: Table, position: usize) -> Option<Faulty> {
        let branch = *random.pick(&table.branches_of(position));
        let message = spoken(random, &table.branches[branch]);
        let message = with_broken_text(random, &message)?;
        let side = turn(table.states[position])?;
        Some(Faulty { both: Both::of(&Raw::of(&table)), table, position, branch, side, message })
    }
}

/// A step with a broken text: with nothing else against it; with too little room; forbidden, too; too long or too short, too; and
/// out of turn.
pub fn steps(random: &mut Random, tally: &mut Tally) -> Outcome {
    let Some(faulty) = Faulty::any(random) else {
        return Ok(());
    };
    let Faulty { table, both, position, branch, side, message } = &faulty;
    let state = state_codes(&state_at(random, table, *position));
    let bytes = message.bytes();
    let given = Given { state, side: *side, room: bytes.len() + random.below(3), message: bytes };
    tally.encode(Encoded::Step, answer(&given, both) == Verdict::Refused(Question::NOT_UTF8));
    step_of(&given, both, tally)?;
    let (device, host) = waiting_of(*side, &given.message);
    tally.encode(Encoded::Due, both.proved.due(&given.state, &device, &host).message.len() == given.message.len());
    due_of(&given, both, &device, &host, tally)?;

    let short = Given { room: random.below(given.message.len()), ..given.clone() };
    tally.encode(Encoded::With16, answer(&short, both) == Verdict::Refused(Question::NOT_UTF8));
    step_of(&short, both, tally)?;

    let mut long = given.clone();
    if random.one_in(2) {
        long.message.push(random.byte());
    } else {
        long.message.pop();
    }
    tally.encode(Encoded::By15, answer(&long, both) == Verdict::Refused(Question::OTHER_LENGTH));
    step_of(&long, both, tally)?;

    let early = Given { side: side.other(), ..given.clone() };
    tally.encode(Encoded::By12, answer(&early, both) == Verdict::Refused(Question::OUT_OF_TURN));
    step_of(&early, both, tally)?;

    let other = forbidden(random, table, *branch);
    if let Some(message) = with_broken_text(random, &other) {
        let given = Given { message: message.bytes(), ..given };
        let forbidden = judge(table, *position, &message).is_err();
        tally.encode(Encoded::Forbidden, forbidden && answer(&given, both) == Verdict::Refused(Question::NOT_UTF8));
        step_of(&given, both, tally)?;
    }
    Ok(())
}

/// What the proved step says.
fn answer(given: &Given, both: &Both) -> Verdict {
    let Given { state, side, message, room } = given;
    both.proved.step(&mut state.clone(), party(*side), message, &mut vec![0; *room])
}

/// A well-formed message that is mostly forbidden where the branch is.
fn forbidden(random: &mut Random, table: &Table, branch: usize) -> Message {
    let branch = &table.branches[branch];
    match random.below(3) {
        0 => Message { label: label(random, &[branch.label]), ..spoken(random, branch) },
        1 => reshaped(random, branch),
        _ => out_of_range(random, branch),
    }
}

/// The device's bytes and the host's, where one side's are these.
fn waiting_of(side: Side, bytes: &[u8]) -> (Vec<u8>, Vec<u8>) {
    let mut waiting = Waiting::default();
    waiting.of(side).extend(bytes);
    (waiting.device, waiting.host)
}

/// A batch that stops at a message with a broken text, behind others; then one with more bytes and more room, which stops there
/// again; then one without the message.
pub fn batches(random: &mut Random, tally: &mut Tally) -> Outcome {
    let table = endless_table(random, 5, 8);
    let table = with_texts(random, &table);
    let position = table.branches[random.below(table.branches.len())].owner;
    let messages = *random.pick(&[0, 1, 3, 20]);
    let (mut waiting, end) = walked(random, &table, position, messages);
    let Some(faulty) = Faulty::at(random, table, end) else {
        return Ok(());
    };
    let Faulty { table, both, branch, side, message, .. } = &faulty;
    let bytes = message.bytes();
    let before = waiting.clone();
    waiting.of(*side).extend(&bytes);
    // What is behind it follows it, or follows as if it were not there.
    let next = *random.pick(&[end, table.branches[*branch].target]);
    let (behind, _) = walked(random, table, next, 5);

    let state = state_codes(&state_at(random, table, position));
    // At times there is room for those before it alone.
    let more = random.below(2) * bytes.len();
    let (device_room, host_room) = (before.host.len() + more, before.device.len() + more);
    let first = Waiting {
        device: with_some(random, &waiting.device, &behind.device),
        host: with_some(random, &waiting.host, &behind.host),
    };
    let left = batch_of(&batches::Given { state, waiting: first, device_room, host_room }, both, tally)?;

    let Batch { used_device, used_host, .. } = left.batch;
    let rest = |waiting: &[u8], used: usize, behind: &[u8]| [&waiting[used..], behind].concat();
    let (device, host) = (&waiting.device, &waiting.host);
    let mut rest = Waiting { device: rest(device, used_device, &behind.device), host: rest(host, used_host, &behind.host) };
    let room = rest.device.len() + rest.host.len() + random.below(100);
    let next = |state, waiting| batches::Given { state, waiting, device_room: room, host_room: room };
    let again = batch_of(&next(left.state, rest.clone()), both, tally)?;
    let stopped = |batch: &Batch| batch.last == Some(Verdict::Refused(Question::NOT_UTF8));
    let used = again.batch.used_device + again.batch.used_host;
    tally.encode(Encoded::Twice, stopped(&left.batch) && stopped(&again.batch) && used == 0);

    rest.of(*side).drain(..bytes.len());
    let without = batch_of(&next(again.state, rest), both, tally)?;
    tally.encode(Encoded::Dropped, without.batch.written_to_device + without.batch.written_to_host > 0);
    Ok(())
}

/// The bytes, and some of those behind them.
fn with_some(random: &mut Random, bytes: &[u8], behind: &[u8]) -> Vec<u8> {
    [bytes, &behind[..random.below(behind.len() + 1)]].concat()
}

/// At most so many messages that lead from a state of a table to another, and that one.
fn walked(random: &mut Random, table: &Table, from: usize, messages: usize) -> (Waiting, usize) {
    let waiting = walk(random, table, from, messages, 0);
    let mut state = state_at(random, table, from);
    let (mut to_device, mut to_host) = (vec![0; waiting.host.len()], vec![0; waiting.device.len()]);
    batch(table, &mut state, &waiting.device, &waiting.host, &mut to_device, &mut to_host);
    (waiting, state.position)
}
