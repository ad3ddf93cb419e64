//! A conversation without input and output: the bytes that wait on either side, what becomes of them, and how it ended. This is
//! Rust over the library's calls; it is tested, not proved.

use crate::{message, Due, Party, Question, Reason, State, Table, Verdict, Warning, LONGEST_MESSAGE};

/// A log of so many bytes holds every entry: a byte for the side, and the longest message.
pub const LONGEST_ENTRY: usize = 1 + LONGEST_MESSAGE;

/// How a conversation ended. It did for good: nothing is taken or passed on any more.
#[derive(Clone, Copy, Debug, PartialEq, Eq, Hash)]
pub enum Ended {
    /// The position is an end: all that the protocol wants has been said.
    Finished,
    /// The protocol forbids the message, or it is early under edition 2: its sender is blamed, for ever.
    Blamed(Party, Reason),
    /// The bytes that wait on this side, whose turn it is, are no message and become none, by 13 or 14; or 22 refuses the one that
    /// they begin with. Nobody is blamed.
    NoMessage(Party, Question),
    /// Question 9: the table or the state is damaged. No conversation that began over a table comes to this by itself.
    Unsound,
}

/// What came of passing on.
#[derive(Clone, Copy, Debug, Default, PartialEq, Eq, Hash)]
pub struct Passed {
    /// How many bytes open the output to the device: those of the host's forwarded messages.
    pub to_device: usize,
    /// The same of the output to the host and the device's messages.
    pub to_host: usize,
    /// How many bytes open the log: the entries of the messages that were judged.
    pub logged: usize,
    /// An output or the log is too short for the next message. Send on what is written, and call again.
    pub more: bool,
}

/// One conversation over a protocol: its state, up to `ROOM` bytes that wait on either side, and how it ended. It reads and writes
/// no line, allocates nothing and knows no clock. Bytes that came in are given to [`hear`](Self::hear); what is due goes out by
/// [`pass`](Self::pass), or by [`pass_logged`](Self::pass_logged), which gives the entries of a log, too.
///
/// ```
/// use sojimu::{Conversation, Ended, Party, Passed, Reason, Table, LONGEST_ENTRY, LONGEST_MESSAGE};
///
/// let protocol = Table::read(b"rec X.+{!Ask(int[0..100]).&{?Ok().X},!Quit().end}")?;
/// let mut talk = Conversation::<LONGEST_MESSAGE>::begin(&protocol, 200)?;
/// let (mut to_device, mut to_host, mut log) = ([0; LONGEST_MESSAGE], [0; LONGEST_MESSAGE], [0; LONGEST_ENTRY]);
///
/// // What comes early waits, and so does a part of a message.
/// assert_eq!(talk.hear(Party::Host, b"Ok\0\0\0\0\0\0\0"), 9);
/// assert_eq!(talk.hear(Party::Device, b"Ask\0\0\0\0\0\x01\0\0"), 11);
/// assert_eq!(talk.pass(&mut to_device, &mut to_host), Passed::default());
///
/// assert_eq!(talk.hear(Party::Device, b"\0\0\x64Ask\0\0\0\0\0\x01\0\0\0\0\x65"), 17);
/// assert_eq!(talk.pass(&mut to_device, &mut to_host), Passed { to_device: 9, to_host: 14, ..Passed::default() });
/// assert_eq!(&to_host[..14], b"Ask\0\0\0\0\0\x01\0\0\0\0\x64");
/// assert_eq!(talk.ended(), Some(Ended::Blamed(Party::Device, Reason::OutOfRange(0))));
///
/// // It is over.
/// assert_eq!(talk.hear(Party::Device, b"Ask"), 0);
/// assert_eq!(talk.pass_logged(&mut to_device, &mut to_host, &mut log), Passed::default());
/// # Ok::<(), Box<dyn std::error::Error>>(())
/// ```
///
/// Room for the longest message is enough, and less does not compile:
///
/// ```compile_fail
/// # use sojimu::{Conversation, Table, LONGEST_MESSAGE};
/// let protocol = Table::empty();
/// let talk = Conversation::<{ LONGEST_MESSAGE - 1 }>::begin(&protocol, 200);
/// ```
#[derive(Clone, Debug)]
pub struct Conversation<'t, const ROOM: usize> {
    protocol: &'t Table,
    state: State,
    device: Waiting<ROOM>,
    host: Waiting<ROOM>,
    ended: Option<Ended>,
}

impl<'t, const ROOM: usize> Conversation<'t, ROOM> {
    /// With less room a message could be longer than all that may wait, and nothing would ever be due.
    const HOLDS_A_MESSAGE: () = assert!(ROOM >= LONGEST_MESSAGE, "a side needs room for the longest message, 285 bytes");

    /// A conversation begins: nothing waits, and nothing is counted; with the setting of its warnings, in hundredths. Asks 9 and 21.
    ///
    /// ```
    /// use sojimu::{Conversation, Ended, Question, Table};
    ///
    /// let protocol = Table::read(b"+{!A().end}")?;
    /// assert_eq!(Conversation::<285>::begin(&protocol, 200)?.ended(), None);
    /// assert_eq!(Conversation::<285>::begin(&protocol, 0).unwrap_err(), Question::BAD_SETTING);
    /// assert_eq!(Conversation::<285>::begin(&Table::read(b"end")?, 200)?.ended(), Some(Ended::Finished));
    /// # Ok::<(), Box<dyn std::error::Error>>(())
    /// ```
    pub fn begin(protocol: &'t Table, setting: u32) -> Result<Self, Question> {
        let () = Self::HOLDS_A_MESSAGE;
        let state = protocol.fresh(setting)?;
        let mut begun = Conversation { protocol, state, device: Waiting::none(), host: Waiting::none(), ended: None };
        begun.settle(None, &mut Log::unkept());
        Ok(begun)
    }

    /// Bytes have come from a side. Takes what there is room for and says how many that were: the others are still the caller's.
    /// Takes nothing once the conversation has ended.
    ///
    /// Where nothing waits to be passed on, the side whose turn it is has room. What comes early may find none: keep its bytes
    /// until the other side has spoken, or close the line.
    pub fn hear(&mut self, from: Party, bytes: &[u8]) -> usize {
        if self.ended.is_some() {
            return 0;
        }
        self.waiting_on(from).take(bytes)
    }

    /// Passes on what is due, the device's messages at the start of `to_host` and the host's at that of `to_device`, one behind the
    /// other, by a batch; and looks whether the conversation has ended. The rest of both is unchanged.
    ///
    /// It ends at an end of the protocol, with a blame, and where what the side whose turn it is has sent is no message. Under edition 2
    /// a whole message of the other side is early once none is due and none waits for room, and its sender is blamed. A message that
    /// is blamed is used, and not passed on; all else that is used is.
    ///
    /// Where an output does not hold the next message, that message waits, and [`more`](Passed::more) says so. Outputs of
    /// [`LONGEST_MESSAGE`] bytes always go on.
    pub fn pass(&mut self, to_device: &mut [u8], to_host: &mut [u8]) -> Passed {
        if self.ended.is_some() {
            return Passed::default();
        }
        let (device, host) = (self.device.bytes(), self.host.bytes());
        let batch = self.protocol.batch(&mut self.state, device, host, to_device, to_host);
        self.device.drop_first(batch.used_device);
        self.host.drop_first(batch.used_host);
        let more = self.settle(batch.last, &mut Log::unkept());
        Passed { to_device: batch.written_to_device, to_host: batch.written_to_host, logged: 0, more }
    }

    /// The same, message by message, with an entry at the start of `log` for each message that is judged, a blamed one too: a byte
    /// for its side, 0 device and 1 host, and the message. These bytes, one call's behind the other's, are a log that
    /// `sojimu replay` reads. Bytes, states and ends are those of [`pass`](Self::pass).
    ///
    /// A message whose entry the log does not hold waits, too. [`LONGEST_ENTRY`] bytes always go on.
    ///
    /// ```
    /// use sojimu::{Conversation, Party, Passed, Table};
    ///
    /// let protocol = Table::read(b"&{?Start().+{!Done().end}}")?;
    /// let mut talk = Conversation::<285>::begin(&protocol, 200)?;
    /// talk.hear(Party::Device, b"Done\0\0\0\0\0");
    /// talk.hear(Party::Host, b"Start\0\0\0\0");
    /// let (mut to_device, mut to_host, mut log) = ([0; 285], [0; 285], [0; 286]);
    /// let passed = talk.pass_logged(&mut to_device, &mut to_host, &mut log);
    /// assert_eq!(passed, Passed { to_device: 9, to_host: 9, logged: 20, more: false });
    /// assert_eq!(&log[..20], b"\x01Start\0\0\0\0\x00Done\0\0\0\0\0");
    /// # Ok::<(), Box<dyn std::error::Error>>(())
    /// ```
    pub fn pass_logged(&mut self, to_device: &mut [u8], to_host: &mut [u8], log: &mut [u8]) -> Passed {
        if self.ended.is_some() {
            return Passed::default();
        }
        let mut log = Log { entries: Some(log), length: 0 };
        let mut device = Left::of(self.device.bytes(), to_host);
        let mut host = Left::of(self.host.bytes(), to_device);
        let last = loop {
            let verdict = judge(self.protocol, &mut self.state, &mut device, &mut host, &mut log);
            if verdict != Some(Verdict::Forwarded) {
                break verdict;
            }
        };
        let (to_device, to_host) = (host.written, device.written);
        let (used_device, used_host) = (device.used, host.used);
        self.device.drop_first(used_device);
        self.host.drop_first(used_host);
        let more = self.settle(last, &mut log);
        Passed { to_device, to_host, logged: log.length, more }
    }

    /// How the conversation ended; none while it goes on.
    #[inline]
    pub fn ended(&self) -> Option<Ended> {
        self.ended
    }

    /// The page: the branches that warn now, by their numbers in the protocol's table. They can be asked for after the end, too.
    ///
    /// ```
    /// use sojimu::{Conversation, Party, Table, Warning};
    ///
    /// let protocol = Table::read(b"rec X.+{!Knot()@10.X,!Clear()@990.X}")?;
    /// let mut talk = Conversation::<285>::begin(&protocol, 200)?;
    /// talk.hear(Party::Device, b"Clear\0\0\0\0Knot\0\0\0\0\0");
    /// talk.pass(&mut [], &mut [0; 18]);
    /// let warning = Warning { warns: true, sender: Party::Device, estimate: Some(500) };
    /// assert!(talk.warnings().eq([(0, warning), (1, warning)]));
    /// # Ok::<(), Box<dyn std::error::Error>>(())
    /// ```
    pub fn warnings(&self) -> impl Iterator<Item = (u32, Warning)> + '_ {
        let (protocol, state) = (self.protocol, &self.state);
        let warning = |branch| Some((branch, protocol.warning(state, branch).ok()?));
        (0..protocol.branches).map_while(warning).filter(|(_, warning)| warning.warns)
    }

    /// The bytes of a side that are not used yet. After the end they can still be looked at.
    #[inline]
    pub fn waiting(&self, side: Party) -> &[u8] {
        match side {
            Party::Device => self.device.bytes(),
            Party::Host => self.host.bytes(),
        }
    }

    /// The state that the conversation has come to.
    #[inline]
    pub fn state(&self) -> &State {
        &self.state
    }

    /// The protocol that it is held under.
    #[inline]
    pub fn protocol(&self) -> &'t Table {
        self.protocol
    }

    fn waiting_on(&mut self, side: Party) -> &mut Waiting<ROOM> {
        match side {
            Party::Device => &mut self.device,
            Party::Host => &mut self.host,
        }
    }

    /// What is due is passed on, up to this last answer. Notes how the conversation ended, if it did, and says whether a message waits
    /// for room.
    fn settle(&mut self, last: Option<Verdict>, log: &mut Log<'_>) -> bool {
        match last {
            Some(Verdict::Blamed(party, reason)) => self.end(Ended::Blamed(party, reason)),
            Some(Verdict::Refused(Question::OUTPUT_TOO_SHORT)) => true,
            _ => match self.protocol.turn(&self.state) {
                Ok(side) => self.look(side, last, log),
                Err(Question::AT_END) => self.end(Ended::Finished),
                Err(_) => self.end(Ended::Unsound),
            },
        }
    }

    /// None is due of the side whose turn it is, or the one that is due is refused, by 22. What that side has sent comes first: the
    /// other is early only where it may still become a message.
    fn look(&mut self, side: Party, last: Option<Verdict>, log: &mut Log<'_>) -> bool {
        let bytes = self.waiting(side);
        match (last, message::front(bytes)) {
            (Some(Verdict::Refused(question)), _) => self.end(Ended::NoMessage(side, question)),
            (_, Err(question)) if message::broken(bytes) => self.end(Ended::NoMessage(side, question)),
            _ => self.protocol.edition == 2 && self.early(side.other(), log),
        }
    }

    /// Under edition 2 who speaks out of turn is blamed: a whole message of the side whose turn it is not is put to a step. Where that
    /// refuses, the message waits for its turn. Says whether the log is too short for it.
    fn early(&mut self, side: Party, log: &mut Log<'_>) -> bool {
        let Conversation { protocol, state, device, host, .. } = self;
        let waiting = match side {
            Party::Device => device,
            Party::Host => host,
        };
        let bytes = waiting.bytes();
        let Some(message) = message::front(bytes).ok().and_then(|length| bytes.get(..length)) else {
            return false;
        };
        if !log.holds(message) {
            return true;
        }
        let Verdict::Blamed(party, reason) = protocol.step(state, side, message, &mut [0; LONGEST_MESSAGE]) else {
            return false;
        };
        log.enter(side, message);
        let used = message.len();
        waiting.drop_first(used);
        self.end(Ended::Blamed(party, reason))
    }

    /// The conversation has ended, and nothing waits for room.
    fn end(&mut self, ended: Ended) -> bool {
        self.ended = Some(ended);
        false
    }
}

/// The bytes that wait on a side.
#[derive(Clone, Debug)]
struct Waiting<const ROOM: usize> {
    room: [u8; ROOM],
    length: usize,
}

impl<const ROOM: usize> Waiting<ROOM> {
    fn none() -> Self {
        Waiting { room: [0; ROOM], length: 0 }
    }

    fn bytes(&self) -> &[u8] {
        &self.room[..self.length]
    }

    /// Takes what there is room for, and says how many bytes that were.
    fn take(&mut self, bytes: &[u8]) -> usize {
        let free = &mut self.room[self.length..];
        let taken = bytes.len().min(free.len());
        free[..taken].copy_from_slice(&bytes[..taken]);
        self.length += taken;
        taken
    }

    fn drop_first(&mut self, used: usize) {
        self.room.copy_within(used..self.length, 0);
        self.length -= used;
    }
}

/// What is left of a side's bytes behind those that are used, and of the output that they go to behind what is written.
struct Left<'a> {
    bytes: &'a [u8],
    used: usize,
    output: &'a mut [u8],
    written: usize,
}

impl<'a> Left<'a> {
    fn of(bytes: &'a [u8], output: &'a mut [u8]) -> Self {
        Left { bytes, used: 0, output, written: 0 }
    }
}

/// The due message is put to a step with what is left of its output, and gets its entry where it is judged. Gives the step's verdict:
/// none where none is due, and 16 also where the log does not hold the entry.
fn judge<'a>(
    protocol: &Table,
    state: &mut State,
    device: &mut Left<'a>,
    host: &mut Left<'a>,
    log: &mut Log<'_>,
) -> Option<Verdict> {
    let Due { side, message } = protocol.due(state, &device.bytes[device.used..], &host.bytes[host.used..]);
    if message.is_empty() {
        return None;
    }
    if !log.holds(message) {
        return Some(Verdict::Refused(Question::OUTPUT_TOO_SHORT));
    }
    let left = match side {
        Party::Device => device,
        Party::Host => host,
    };
    let verdict = protocol.step(state, side, message, &mut left.output[left.written..]);
    if matches!(verdict, Verdict::Refused(_)) {
        return Some(verdict);
    }
    log.enter(side, message);
    left.used += message.len();
    if verdict == Verdict::Forwarded {
        left.written += message.len();
    }
    Some(verdict)
}

/// The log of a call; without entries, where none is kept.
struct Log<'l> {
    entries: Option<&'l mut [u8]>,
    length: usize,
}

impl Log<'_> {
    fn unkept() -> Self {
        Log { entries: None, length: 0 }
    }

    /// Whether there is room for a message's entry, which is a byte longer than the message.
    fn holds(&self, message: &[u8]) -> bool {
        self.entries.as_ref().map_or(true, |entries| entries.len() - self.length > message.len())
    }

    fn enter(&mut self, side: Party, message: &[u8]) {
        let Some(entries) = &mut self.entries else {
            return;
        };
        let (at, end) = (self.length, self.length + 1 + message.len());
        entries[at] = match side {
            Party::Device => 0,
            Party::Host => 1,
        };
        entries[at + 1..end].copy_from_slice(message);
        self.length = end;
    }
}

#[cfg(test)]
mod tests {
    use super::{Conversation, Ended, Passed};
    use crate::{Party, Table};

    /// What no caller can do: the state is written over. Nothing is passed on, and nobody is blamed.
    #[test]
    fn a_damaged_state() {
        let protocol = Table::read(b"+{!A().end}").unwrap();
        for is_logged in [false, true] {
            let mut talk = Conversation::<285>::begin(&protocol, 200).unwrap();
            talk.hear(Party::Device, b"A\0\0\0\0\0\0\0\0");
            talk.state.position = 2;
            let (mut to_device, mut to_host, mut log) = ([0; 285], [0; 285], [0; 286]);
            let passed = match is_logged {
                false => talk.pass(&mut to_device, &mut to_host),
                true => talk.pass_logged(&mut to_device, &mut to_host, &mut log),
            };
            assert_eq!((passed, talk.ended(), talk.waiting(Party::Device).len()), (Passed::default(), Some(Ended::Unsound), 9));
        }
    }
}
