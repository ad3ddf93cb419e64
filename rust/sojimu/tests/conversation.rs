//! Conversations of the examples' protocols, whole, cut at every byte and with no more room than is needed, by batches and message by
//! message: what comes out is the same to the byte, and nothing is lost. And every way to end.

#[allow(dead_code)]
mod compiled;

use compiled::file;
use sojimu::message::{encode, front, label, Field};
use sojimu::{
    Conversation, Ended, Party, Passed, Question, Reason, State, Table, Verdict, Warning, LONGEST_ENTRY, LONGEST_MESSAGE,
};

const SETTING: u32 = 200;

// ---- what is said, and what comes of it

/// Messages in the order of a log, which is the order in which they come, and what the protocol makes of them: so many are judged,
/// the last of them blamed or all forwarded, and so it ends.
struct Script {
    protocol: Table,
    said: Vec<(Party, Vec<u8>)>,
    judged: usize,
    ended: Option<Ended>,
}

impl Script {
    fn under(protocol: Table) -> Script {
        Script { protocol, said: Vec::new(), judged: 0, ended: None }
    }

    /// A message that is said, and judged.
    fn says(mut self, side: Party, name: &str, fields: &[Field]) -> Script {
        self.said.push((side, message(name, fields)));
        self.judged = self.said.len();
        self
    }

    fn device(self, name: &str, fields: &[Field]) -> Script {
        self.says(Party::Device, name, fields)
    }

    fn host(self, name: &str, fields: &[Field]) -> Script {
        self.says(Party::Host, name, fields)
    }

    fn ends(self, ended: Ended) -> Script {
        Script { ended: Some(ended), ..self }
    }

    /// The message that is blamed, and its sender.
    fn blamed(&self) -> Option<&(Party, Vec<u8>)> {
        matches!(self.ended, Some(Ended::Blamed(..))).then(|| &self.said[self.judged - 1])
    }

    /// What a side says in the first messages, so many.
    fn of(&self, side: Party, messages: usize) -> Vec<u8> {
        self.said[..messages].iter().filter(|said| said.0 == side).flat_map(|said| said.1.clone()).collect()
    }

    fn forwarded(&self, from: Party) -> Vec<u8> {
        self.of(from, self.judged - usize::from(self.blamed().is_some()))
    }

    fn log(&self) -> Vec<u8> {
        let entry = |(side, message): &(Party, Vec<u8>)| [&[u8::from(*side == Party::Host)], &message[..]].concat();
        self.said[..self.judged].iter().flat_map(entry).collect()
    }

    fn longest(&self) -> usize {
        self.said.iter().map(|said| said.1.len()).max().unwrap()
    }
}

fn message(name: &str, fields: &[Field]) -> Vec<u8> {
    let mut bytes = vec![0; LONGEST_MESSAGE];
    let length = encode(label(name).unwrap(), fields, &mut bytes).unwrap();
    bytes.truncate(length);
    bytes
}

/// The entries of a log: whose, and the message.
fn entries(log: &[u8]) -> Vec<(Party, Vec<u8>)> {
    let (mut rest, mut entries) = (log, Vec::new());
    while let [side, bytes @ ..] = rest {
        let (message, behind) = bytes.split_at(front(bytes).unwrap());
        entries.push((if *side == 0 { Party::Device } else { Party::Host }, message.to_vec()));
        rest = behind;
    }
    entries
}

fn protocol(name: &str) -> Table {
    Table::read(&std::fs::read(file(&format!("examples/{name}/protocol.txt"))).unwrap()).unwrap()
}

/// A recorded conversation of the examples, of which so many messages are judged.
fn recorded(name: &str, log: &str, judged: usize, ended: Option<Ended>) -> Script {
    let said = entries(&std::fs::read(file(&format!("examples/{name}/{log}.log"))).unwrap());
    Script { protocol: protocol(name), said, judged, ended }
}

/// One pass of the scanner, to the protocol's end.
fn one_pass() -> Script {
    recorded("scanner", "one-pass", 10, Some(Ended::Finished))
}

/// A frame at 9,600 where the protocol has 9,000, after four messages; two more come behind it.
fn off_sheet() -> Script {
    recorded("scanner", "frame-off-sheet", 5, Some(Ended::Blamed(Party::Device, Reason::OutOfRange(0))))
}

/// Of three messages at the scan one is a frame and two are edges.
fn shares() -> Script {
    let (on, off) = (Field::Flag(true), Field::Flag(false));
    Script::under(protocol("shares"))
        .host("Start", &[Field::Int(0), Field::Int(6200), Field::Int(300)])
        .device("Ready", &[])
        .device("Frame", &[Field::Int(0), Field::Int(62), Field::Int(80)])
        .device("Edge", &[on])
        .host("Next", &[])
        .device("Edge", &[off])
        .host("Home", &[])
        .host("Off", &[])
        .ends(Ended::Finished)
}

fn steambox() -> Script {
    let status = [Field::Int(310), Field::Int(128), Field::Flag(false)];
    Script::under(protocol("steambox"))
        .device("Status", &status)
        .host("Hold", &[])
        .device("Status", &status)
        .host("Set", &[Field::Int(3), Field::Int(450)])
        .device("Limit", &[Field::Int(3), Field::Int(400)])
        .device("Trip", &[Field::Int(7), Field::Text(b"low water")])
        .host("Reset", &[])
        .device("Status", &status)
        .host("Stop", &[])
        .device("Closed", &[])
        .ends(Ended::Finished)
}

/// The host asks for nozzle 0, and they are numbered from 1.
fn spray() -> Script {
    Script::under(protocol("spray"))
        .device("Hello", &[Field::Text("Düse 48".as_bytes()), Field::Int(48)])
        .host("Accept", &[])
        .host("Spray", &[Field::Int(5), Field::Int(1200), Field::Flag(true)])
        .device("Clogged", &[Field::Int(5)])
        .host("Purge", &[Field::Int(20)])
        .device("Purged", &[])
        .host("Dry", &[])
        .device("Dried", &[])
        .host("Spray", &[Field::Int(0), Field::Int(0), Field::Flag(false)])
        .ends(Ended::Blamed(Party::Host, Reason::OutOfRange(0)))
}

/// The host's second `Set` before the device's `Done`, under edition 2.
fn set_twice() -> Script {
    recorded("editions", "set-twice", 3, Some(Ended::Blamed(Party::Host, Reason::Early)))
}

fn sheet_breaks() -> Script {
    Script::under(protocol("editions"))
        .device("Status", &[Field::Int(310), Field::Int(128)])
        .host("Set", &[Field::Int(3), Field::Int(450)])
        .device("Done", &[Field::Int(3)])
        .device("Break", &[])
        .host("Shut", &[])
        .ends(Ended::Finished)
}

/// Messages of 285 bytes both ways, each of which fills all the room that a side or an output may have.
fn longest() -> Script {
    let texts = [Field::Text(&[b'x'; 64]); 4];
    let says = "Say(text[0..64],text[0..64],text[0..64],text[0..64])";
    let script = Script::under(Table::read(format!("rec X.+{{!{says}.&{{?{says}.X}}}}").as_bytes()).unwrap())
        .device("Say", &texts)
        .host("Say", &texts)
        .device("Say", &texts)
        .host("Say", &texts)
        .device("Yell", &texts)
        .ends(Ended::Blamed(Party::Device, Reason::NoLabel));
    assert_eq!(script.longest(), LONGEST_MESSAGE);
    script
}

/// Those of edition 1, of which what comes early just waits; and all.
fn of_edition_1() -> [Script; 6] {
    [one_pass(), off_sheet(), shares(), steambox(), spray(), longest()]
}

fn all() -> impl Iterator<Item = Script> {
    of_edition_1().into_iter().chain([set_twice(), sheet_breaks()])
}

// ---- a conversation that is held

/// What has come from a side, how many bytes of that are taken, and what was written to it.
#[derive(Default)]
struct Line {
    came: Vec<u8>,
    taken: usize,
    written: Vec<u8>,
}

struct Held<'t, const ROOM: usize> {
    talk: Conversation<'t, ROOM>,
    device: Line,
    host: Line,
    /// The room of an output, and that of the log where one is kept.
    output: usize,
    log_room: Option<usize>,
    log: Vec<u8>,
}

const MARK: u8 = 0xA5;

impl<'t, const ROOM: usize> Held<'t, ROOM> {
    fn begin(protocol: &'t Table, output: usize, log_room: Option<usize>) -> Self {
        let talk = Conversation::begin(protocol, SETTING).unwrap();
        Held { talk, device: Line::default(), host: Line::default(), output, log_room, log: Vec::new() }
    }

    fn line(&mut self, side: Party) -> &mut Line {
        match side {
            Party::Device => &mut self.device,
            Party::Host => &mut self.host,
        }
    }

    /// What has come and is not taken yet is heard, as far as there is room.
    fn offer(&mut self, side: Party) -> usize {
        let room = ROOM - self.talk.waiting(side).len();
        let ended = self.talk.ended().is_some();
        let line = match side {
            Party::Device => &mut self.device,
            Party::Host => &mut self.host,
        };
        let left = &line.came[line.taken..];
        let taken = self.talk.hear(side, left);
        assert_eq!(taken, if ended { 0 } else { left.len().min(room) });
        line.taken += taken;
        taken
    }

    /// Passes on once. Behind what is written nothing is changed.
    fn pass(&mut self) -> Passed {
        let (mut to_device, mut to_host) = (vec![MARK; self.output], vec![MARK; self.output]);
        let mut log = vec![MARK; self.log_room.unwrap_or(0)];
        let passed = match self.log_room {
            None => self.talk.pass(&mut to_device, &mut to_host),
            Some(_) => self.talk.pass_logged(&mut to_device, &mut to_host, &mut log),
        };
        let take = |output: &[u8], length: usize, to: &mut Vec<u8>| {
            to.extend(&output[..length]);
            assert!(output[length..].iter().all(|&byte| byte == MARK));
        };
        take(&to_device, passed.to_device, &mut self.device.written);
        take(&to_host, passed.to_host, &mut self.host.written);
        take(&log, passed.logged, &mut self.log);
        passed
    }

    /// Passes on until nothing waits for room. Each time that something does, something has gone out.
    fn pass_all(&mut self) {
        loop {
            let passed = self.pass();
            if !passed.more {
                return;
            }
            assert!(passed.to_device + passed.to_host + passed.logged > 0, "nothing goes on");
        }
    }

    /// Hears what has come, and passes on what is due, until all is taken that can be.
    fn go_on(&mut self, script: &Script) {
        loop {
            let taken = self.offer(Party::Device) + self.offer(Party::Host);
            self.pass_all();
            self.accounted(Party::Device, script);
            self.accounted(Party::Host, script);
            if let Ok(turn) = self.talk.protocol().turn(self.talk.state()) {
                let heard = self.talk.ended().is_some() || self.talk.waiting(turn).len() < ROOM;
                assert!(heard, "the side whose turn it is has room");
            }
            if taken == 0 {
                return;
            }
        }
    }

    /// Nothing of a side is lost: what was taken is what was written to the other, the blamed message, and what waits still.
    fn accounted(&mut self, side: Party, script: &Script) {
        let blamed = match (self.talk.ended(), script.blamed()) {
            (Some(Ended::Blamed(party, _)), Some((_, message))) if party == side => &message[..],
            _ => &[],
        };
        let waiting = self.talk.waiting(side).to_vec();
        let written = self.line(side.other()).written.clone();
        let line = self.line(side);
        assert_eq!(line.came[..line.taken], [&written, blamed, &waiting].concat());
        assert!(waiting.len() <= ROOM);
    }

    /// After the end nothing is taken or written, and nothing changes.
    fn stays(&mut self) {
        let (state, ended) = (*self.talk.state(), self.talk.ended());
        let waiting = [Party::Device, Party::Host].map(|side| self.talk.waiting(side).to_vec());
        for side in [Party::Device, Party::Host] {
            assert_eq!(self.talk.hear(side, b"Ok\0\0\0\0\0\0\0"), 0);
        }
        for log_room in [None, Some(LONGEST_ENTRY)] {
            self.log_room = log_room;
            assert_eq!(self.pass(), Passed::default());
        }
        assert_eq!((*self.talk.state(), self.talk.ended()), (state, ended));
        assert_eq!([Party::Device, Party::Host].map(|side| self.talk.waiting(side).to_vec()), waiting);
    }
}

/// The state that a log comes to, step by step.
fn replayed(protocol: &Table, log: &[u8]) -> State {
    let mut state = protocol.fresh(SETTING).unwrap();
    for (side, message) in entries(log) {
        let verdict = protocol.step(&mut state, side, &message, &mut [0; LONGEST_MESSAGE]);
        assert!(!matches!(verdict, Verdict::Refused(_)));
    }
    state
}

/// Bytes of the device's and of the host's that come before it is passed on.
type Round<'a> = (&'a [u8], &'a [u8]);

/// A script in these rounds, by batches and message by message: both are the same after each round, and come to what the script says.
fn hold<const ROOM: usize>(script: &Script, output: usize, log_room: usize, rounds: &[Round]) {
    let mut held = [None, Some(log_room)].map(|log_room| Held::<ROOM>::begin(&script.protocol, output, log_room));
    for (device, host) in rounds {
        for held in &mut held {
            held.device.came.extend(*device);
            held.host.came.extend(*host);
            held.go_on(script);
        }
        let [a, b] = &held;
        assert_eq!((a.talk.state(), a.talk.ended()), (b.talk.state(), b.talk.ended()));
        assert_eq!((&a.device.written, &a.host.written), (&b.device.written, &b.host.written));
    }
    for mut held in held {
        assert_eq!(held.host.written, script.forwarded(Party::Device));
        assert_eq!(held.device.written, script.forwarded(Party::Host));
        assert_eq!(held.log, if held.log_room.is_some() { script.log() } else { Vec::new() });
        assert_eq!(held.talk.ended(), script.ended);
        assert_eq!(*held.talk.state(), replayed(&script.protocol, &script.log()));
        if script.ended.is_some() {
            held.stays();
        }
    }
}

/// In no more room than every message needs, than the script's own need, and in much.
fn hold_in_rooms(script: &Script, rounds: &[Round]) {
    hold::<LONGEST_MESSAGE>(script, LONGEST_MESSAGE, LONGEST_ENTRY, rounds);
    hold::<{ LONGEST_MESSAGE + 1 }>(script, script.longest(), 1 + script.longest(), rounds);
    hold::<4096>(script, 4096, 4096, rounds);
}

fn round(side: Party, bytes: &[u8]) -> Round<'_> {
    match side {
        Party::Device => (bytes, &[]),
        Party::Host => (&[], bytes),
    }
}

// ---- whole and cut

/// Each message in its turn, and that which holds the cut in two pieces. Cuts are counted in the messages' bytes.
fn cut_at(script: &Script, cut: usize) -> Vec<Round<'_>> {
    let (mut rounds, mut before) = (Vec::new(), 0);
    for (side, message) in &script.said {
        let (first, second) = message.split_at(cut.saturating_sub(before).min(message.len()));
        rounds.extend([first, second].into_iter().filter(|piece| !piece.is_empty()).map(|piece| round(*side, piece)));
        before += message.len();
    }
    rounds
}

fn length(script: &Script) -> usize {
    script.said.iter().map(|said| said.1.len()).sum()
}

#[test]
fn cut_at_every_byte() {
    for script in all() {
        for cut in 0..=length(&script) {
            hold_in_rooms(&script, &cut_at(&script, cut));
        }
    }
}

#[test]
fn byte_by_byte() {
    for script in all() {
        let pieces = script.said.iter().flat_map(|(side, message)| message.chunks(1).map(|byte| round(*side, byte)));
        hold_in_rooms(&script, &pieces.collect::<Vec<_>>());
    }
}

/// All that either side says comes in two pieces, both sides' together. Under edition 1 it makes no difference what is early.
#[test]
fn either_side_cut_at_every_byte() {
    for script in of_edition_1() {
        let (device, host) = (script.of(Party::Device, script.said.len()), script.of(Party::Host, script.said.len()));
        let pairs = (device.len() + 1) * (host.len() + 1);
        // Every pair, or where they are many every so many.
        for pair in (0..pairs).step_by(1 + pairs / 2000) {
            let ((a, b), (c, d)) = (device.split_at(pair / (host.len() + 1)), host.split_at(pair % (host.len() + 1)));
            hold_in_rooms(&script, &[(a, c), (b, d)]);
        }
    }
}

/// Numbers that are as good as random, and the same in every run.
struct Numbers(u64);

impl Numbers {
    fn below(&mut self, end: usize) -> usize {
        self.0 = self.0.wrapping_mul(6_364_136_223_846_793_005).wrapping_add(1_442_695_040_888_963_407);
        (self.0 >> 33) as usize % end
    }
}

/// Both sides in pieces of any length, in any order, with outputs and a log of any room from the longest message on.
#[test]
fn in_any_pieces() {
    for script in of_edition_1() {
        let (device, host) = (script.of(Party::Device, script.said.len()), script.of(Party::Host, script.said.len()));
        for seed in 0..200 {
            let (mut numbers, mut rounds, mut rest) = (Numbers(seed), Vec::new(), (&device[..], &host[..]));
            let most = [3, 20, 60, 300][seed as usize % 4];
            while rest != (&[], &[]) {
                let (first, second) = (numbers.below(most).min(rest.0.len()), numbers.below(most).min(rest.1.len()));
                rounds.push((&rest.0[..first], &rest.1[..second]));
                rest = (&rest.0[first..], &rest.1[second..]);
            }
            let (output, log) = (script.longest() + numbers.below(40), 1 + script.longest() + numbers.below(40));
            hold::<{ LONGEST_MESSAGE + 3 }>(&script, output, log, &rounds);
        }
    }
}

// ---- the page

/// With a setting of 2.00, 1 and 2 of 3 are far from 950 and 45 thousandths, and of the other choices nothing is. Branches are numbered
/// as they stand in the text: `Frame` is 2, `Edge` 3.
#[test]
fn the_page() {
    let warns = |estimate| Warning { warns: true, sender: Party::Device, estimate: Some(estimate) };
    let script = shares();
    let mut held = Held::<LONGEST_MESSAGE>::begin(&script.protocol, LONGEST_MESSAGE, None);
    assert_eq!(held.talk.warnings().count(), 0);
    held.device.came = script.of(Party::Device, script.said.len());
    held.host.came = script.of(Party::Host, script.said.len());
    held.go_on(&script);
    assert!(held.talk.warnings().eq([(2, warns(333)), (3, warns(667))]));
    // examples/README.md: 81 frames and 9 edges.
    let script = recorded("shares", "edge-sensor", 100, None);
    let mut held = Held::<LONGEST_MESSAGE>::begin(&script.protocol, LONGEST_MESSAGE, Some(LONGEST_ENTRY));
    held.device.came = script.of(Party::Device, 100);
    held.host.came = script.of(Party::Host, 100);
    held.go_on(&script);
    assert_eq!((held.log, held.talk.ended()), (script.log(), None));
    assert!(held.talk.warnings().eq([(2, warns(900)), (3, warns(100))]));
}

// ---- ends

const P: &str = "rec X.+{!Ask(int[0..100]).&{?Ok().X},!Quit().end}";
const SECOND: &str = "edition 2 rec X.+{!Ask(int[0..100]).&{?Ok().X},!Quit().end}";
const ASK: &[u8] = b"Ask\0\0\0\0\0\x01\0\0\0\0\x07";
const OK: &[u8] = b"Ok\0\0\0\0\0\0\0";
const QUIT: &[u8] = b"Quit\0\0\0\0\0";
/// A text of one byte, which is to follow.
const SAY: &[u8] = b"Say\0\0\0\0\0\x01\x01\0\0\0\x01";

fn with(bytes: &[u8], more: &[u8]) -> Vec<u8> {
    [bytes, more].concat()
}

/// How a conversation ends, by either way of passing, of bytes that come before any is passed on; and how long the log is.
fn ends(protocol: &str, device: &[u8], host: &[u8]) -> (Option<Ended>, usize) {
    let protocol = Table::read(protocol.as_bytes()).unwrap();
    let [by_batch, logged] = [None, Some(LONGEST_ENTRY)].map(|log_room| {
        let mut held = Held::<LONGEST_MESSAGE>::begin(&protocol, LONGEST_MESSAGE, log_room);
        (held.device.came, held.host.came) = (device.to_vec(), host.to_vec());
        assert_eq!((held.offer(Party::Device), held.offer(Party::Host)), (device.len(), host.len()));
        held.pass_all();
        let (ended, logged) = (held.talk.ended(), held.log.len());
        if ended.is_some() {
            held.stays();
        }
        (ended, logged)
    });
    assert_eq!(by_batch, (logged.0, 0));
    logged
}

#[test]
fn it_is_finished_at_an_end() {
    let finished = Some(Ended::Finished);
    assert_eq!(ends(P, QUIT, b""), (finished, 10));
    assert_eq!(ends(P, &with(ASK, QUIT), OK), (finished, 35));
    assert_eq!(ends(P, &with(QUIT, b"junk"), b"junk and more"), (finished, 10));
    assert_eq!(ends(P, ASK, b""), (None, 15));
    let protocol = Table::read(b"end").unwrap();
    let mut held = Held::<LONGEST_MESSAGE>::begin(&protocol, LONGEST_MESSAGE, None);
    assert_eq!(held.talk.ended(), finished);
    held.stays();
}

#[test]
fn somebody_is_blamed_for_each_reason() {
    let blamed = |party, reason| Some(Ended::Blamed(party, reason));
    let (device, host) = (Party::Device, Party::Host);
    assert_eq!(ends(P, &with(b"No\0\0\0\0\0\0\0", ASK), OK), (blamed(device, Reason::NoLabel), 10));
    assert_eq!(ends(P, b"Quit\0\0\0\0\x01\x02\0\0\0\x01", b""), (blamed(device, Reason::OtherKinds), 15));
    assert_eq!(ends(P, b"Ask\0\0\0\0\0\x01\0\0\0\0\x65", b""), (blamed(device, Reason::OutOfRange(0)), 15));
    let (two, second) = ("+{!A(int[0..1],int[0..1]).end}", b"A\0\0\0\0\0\0\0\x02\0\0\0\0\0\x01\0\0\0\x02");
    assert_eq!(ends(two, second, b""), (blamed(device, Reason::OutOfRange(1)), 20));
    assert_eq!(ends(P, ASK, QUIT), (blamed(host, Reason::NoLabel), 25));
    assert_eq!(ends(P, ASK, b"Ok\0\0\0\0\0\0\x01\0\0\0\0\0"), (blamed(host, Reason::OtherKinds), 30));
    let set = b"Set\0\0\0\0\0\x01\x02\0\0\0\x01";
    assert_eq!(ends("&{?Set(flag[0..0]).end}", b"", set), (blamed(host, Reason::OutOfRange(0)), 15));
}

#[test]
fn what_is_no_message_of_the_side_whose_turn_it_is() {
    let none = |party, question| Some(Ended::NoMessage(party, question));
    let (device, host) = (Party::Device, Party::Host);
    assert_eq!(ends(P, b"GET / HTTP", b""), (none(device, Question::BAD_FRONT), 0));
    assert_eq!(ends(P, b"Ask\0\0\0\0\0\x05", b""), (none(device, Question::BAD_FRONT), 0));
    assert_eq!(ends(P, b"Ask\0\0\0\0\0\x01\x03\0\0\0\0", b""), (none(device, Question::BAD_FIELD), 0));
    assert_eq!(ends(P, b"Say\0\0\0\0\0\x01\x01\0\0\0\x41", b""), (none(device, Question::BAD_FIELD), 0));
    assert_eq!(ends(P, &with(SAY, b"\xFF"), b""), (none(device, Question::NOT_UTF8), 0));
    assert_eq!(ends(P, ASK, b"ok\0\0\0\0\0\0\0"), (none(host, Question::BAD_FRONT), 15));
    assert_eq!(ends(P, ASK, b"Ok\0\0\0\0\0\0\x01\x02\0\0\0\x02"), (none(host, Question::BAD_FIELD), 15));
    assert_eq!(ends(P, ASK, &with(SAY, b"\xFF")), (none(host, Question::NOT_UTF8), 15));
    assert_eq!(ends(P, &with(ASK, b"GET / HTTP"), OK), (none(device, Question::BAD_FRONT), 25));
    // It may still become one, or it is not their turn.
    for (device, host) in [("GET / HT", ""), ("Ask\0\0\0\0\0\x01\x03\0\0\0", ""), ("", "GET / HTTP")] {
        assert_eq!(ends(P, device.as_bytes(), host.as_bytes()), (None, 0));
    }
    assert_eq!(ends(P, SAY, &with(SAY, b"\xFF")), (None, 0));
    assert_eq!(ends(P, &with(ASK, b"GET / HTTP"), b""), (None, 15));
}

#[test]
fn under_edition_2_who_is_early_is_blamed() {
    let early = |party| Some(Ended::Blamed(party, Reason::Early));
    assert_eq!(ends(SECOND, b"", OK), (early(Party::Host), 10));
    assert_eq!(ends(SECOND, ASK, &with(OK, OK)), (early(Party::Host), 35));
    assert_eq!(ends(SECOND, &with(ASK, QUIT), b""), (early(Party::Device), 25));
    assert_eq!(ends(SECOND, &with(ASK, b"No\0\0\0\0\0\0\0"), b""), (early(Party::Device), 25));
    assert_eq!(ends(SECOND, b"", &with(SAY, b"x")), (early(Party::Host), 16));
    // What is due goes first; what is not whole, or no message, waits; and at an end nothing is early.
    assert_eq!((ends(SECOND, ASK, OK), ends(SECOND, b"", &OK[..8])), ((None, 25), (None, 0)));
    assert_eq!((ends(SECOND, b"", b"GET / HTTP"), ends(SECOND, b"", SAY)), ((None, 0), (None, 0)));
    assert_eq!(ends(SECOND, b"", &with(SAY, b"\xFF")), (None, 0));
    assert_eq!(ends(SECOND, ASK, &with(SAY, b"\xFF")), (Some(Ended::NoMessage(Party::Host, Question::NOT_UTF8)), 15));
    assert_eq!(ends(SECOND, QUIT, OK), (Some(Ended::Finished), 10));
    // What the side whose turn it is has sent comes first.
    assert_eq!(ends(SECOND, b"GET / HTTP", OK), (Some(Ended::NoMessage(Party::Device, Question::BAD_FRONT)), 0));
    assert_eq!(ends(SECOND, &with(SAY, b"\xFF"), OK), (Some(Ended::NoMessage(Party::Device, Question::NOT_UTF8)), 0));
    assert_eq!(ends(SECOND, &ASK[..4], OK), (early(Party::Host), 10));
}

// ---- room

#[test]
fn no_more_is_heard_than_there_is_room_for() {
    let protocol = Table::read(P.as_bytes()).unwrap();
    let mut talk = Conversation::<LONGEST_MESSAGE>::begin(&protocol, SETTING).unwrap();
    assert_eq!(talk.hear(Party::Device, &[b'x'; 280]), 280);
    assert_eq!((talk.hear(Party::Device, &[b'y'; 1000]), talk.hear(Party::Device, b"z")), (5, 0));
    assert_eq!(talk.waiting(Party::Device), [[b'x'; 280].as_slice(), &[b'y'; 5]].concat());
    assert_eq!((talk.hear(Party::Host, &[]), talk.hear(Party::Host, &[b'x'; 286])), (0, 285));
}

/// Twice asked and answered with every room on outputs and log: what does not fit waits, however often it is tried, and goes on once
/// there is room. An `Ask` has 14 bytes, its entry 15; an `Ok` 9 and 10.
#[test]
fn what_finds_no_room_waits() {
    let protocol = Table::read(P.as_bytes()).unwrap();
    for (output, log) in (0..=30).flat_map(|output| (0..=52).map(move |log| (output, log))) {
        let mut held = Held::<LONGEST_MESSAGE>::begin(&protocol, output, Some(log));
        (held.device.came, held.host.came) = (ASK.repeat(2), OK.repeat(2));
        assert_eq!((held.offer(Party::Device), held.offer(Party::Host)), (28, 18));
        let in_log = [15, 25, 40, 50].iter().filter(|&&length| length <= log).count();
        let judged = in_log.min([0, 2, 4][(output / 14).min(2)]);
        let first = held.pass();
        assert_eq!((first.to_host, first.to_device), (14 * judged.div_ceil(2), 9 * (judged / 2)));
        assert_eq!((first.logged, first.more), (14 * judged.div_ceil(2) + 9 * (judged / 2) + judged, judged < 4));
        if judged == 0 {
            assert_eq!(held.pass(), first);
        }
        (held.output, held.log_room) = (LONGEST_MESSAGE, Some(LONGEST_ENTRY));
        held.pass_all();
        assert_eq!((&held.host.written, &held.device.written), (&ASK.repeat(2), &OK.repeat(2)));
        assert_eq!((held.talk.ended(), held.log.len()), (None, 50));
    }
}

/// Under edition 2 nobody is early while a message waits for room; and one that is waits for its entry's. Under edition 1 it waits for
/// its turn alone.
#[test]
fn an_early_message_and_short_rooms() {
    let (first, second) = (Table::read(P.as_bytes()).unwrap(), Table::read(SECOND.as_bytes()).unwrap());
    let mut held = Held::<LONGEST_MESSAGE>::begin(&first, 0, Some(9));
    held.talk.hear(Party::Host, OK);
    assert_eq!((held.pass(), held.talk.waiting(Party::Host)), (Passed::default(), OK));
    let mut held = Held::<LONGEST_MESSAGE>::begin(&second, 0, Some(LONGEST_ENTRY));
    held.talk.hear(Party::Device, ASK);
    held.talk.hear(Party::Host, OK);
    assert_eq!((held.pass().more, held.talk.ended()), (true, None));
    held.output = LONGEST_MESSAGE;
    assert_eq!((held.pass().logged, held.talk.ended()), (25, None));
    held.talk.hear(Party::Host, OK);
    held.log_room = Some(9);
    assert_eq!((held.pass().more, held.talk.ended(), held.talk.waiting(Party::Host)), (true, None, OK));
    held.log_room = Some(10);
    assert_eq!(held.pass(), Passed { logged: 10, ..Passed::default() });
    assert_eq!(held.talk.ended(), Some(Ended::Blamed(Party::Host, Reason::Early)));
    assert_eq!((held.talk.waiting(Party::Host).len(), *held.talk.state()), (0, replayed(&second, &held.log)));
}

#[test]
fn a_conversation_that_does_not_begin() {
    let (sound, empty) = (Table::read(P.as_bytes()).unwrap(), Table::empty());
    let begun = |protocol, setting| Conversation::<LONGEST_MESSAGE>::begin(protocol, setting).map(|talk| *talk.state());
    assert_eq!(begun(&empty, 0), Err(Question::UNSOUND));
    assert_eq!((begun(&sound, 0), begun(&sound, 1001)), (Err(Question::BAD_SETTING), Err(Question::BAD_SETTING)));
    assert_eq!(begun(&sound, 1000), sound.fresh(1000));
}
