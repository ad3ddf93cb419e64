//! A conversation's state, one step of the monitor, whose turn it is, and the due message.

use crate::{codes, ffi, version, Question, Table, MOST_BRANCHES, MOST_STATES};

/// A party to the conversation: the side that a message comes from.
#[repr(u8)]
#[derive(Clone, Copy, Debug, PartialEq, Eq, PartialOrd, Ord, Hash)]
pub enum Party {
    /// The device: it says what a protocol writes with `!`.
    Device = 0,
    /// The host: it says what a protocol writes with `?`.
    Host = 1,
}

impl Party {
    /// The party of a code; none of what is neither.
    ///
    /// ```
    /// use sojimu::Party;
    ///
    /// assert_eq!((Party::of(Party::Host as u32), Party::of(2)), (Some(Party::Host), None));
    /// ```
    #[inline]
    pub fn of(code: u32) -> Option<Party> {
        [Party::Device, Party::Host].into_iter().find(|&party| party as u32 == code)
    }

    /// The one that it speaks with.
    ///
    /// ```
    /// use sojimu::Party;
    ///
    /// assert_eq!(Party::Device.other(), Party::Host);
    /// ```
    #[inline]
    pub fn other(self) -> Party {
        match self {
            Party::Device => Party::Host,
            Party::Host => Party::Device,
        }
    }
}

/// The standing of a conversation, as a code: what is none of the three is not running either, and stays as it is.
#[repr(transparent)]
#[derive(Clone, Copy, Debug, PartialEq, Eq, PartialOrd, Ord, Hash)]
pub struct Standing(
    /// The code.
    pub u8,
);

impl Standing {
    /// Nobody was blamed.
    pub const RUNNING: Standing = Standing(0);
    /// The device was blamed, for ever.
    pub const DEVICE_BLAMED: Standing = Standing(1);
    /// The host was blamed, for ever.
    pub const HOST_BLAMED: Standing = Standing(2);
}

/// The state of one conversation, 324 bytes. A gateway keeps one for each, which [`Table::fresh`] makes, and lends it to each step
/// to be advanced.
///
/// Any numbers may stand in it: every call asks question 9 first, and refuses a position that is no state of the table, a setting
/// outside 1 to 1000, and counts of a choice whose k do not add up to its n or whose n is above 10,000. Counts that belong to no
/// choice of the table mean nothing, though `==` compares them too.
#[repr(C)]
#[derive(Clone, Copy, Debug, PartialEq, Eq, Hash)]
pub struct State {
    /// The state of the protocol's table that the conversation has come to.
    pub position: u8,
    /// Whether it is running.
    pub standing: Standing,
    /// The setting z of its warnings: how many standard deviations a branch may be off its share, in hundredths, 1 to 1000.
    pub setting: u16,
    /// The count n of each choice, by the number of the state: how many messages were forwarded there, until they are 10,000.
    pub n: [u16; MOST_STATES],
    /// The count k of each branch: how many of them were the branch's.
    pub k: [u16; MOST_BRANCHES],
}

/// Why a sender is blamed.
#[derive(Clone, Copy, Debug, PartialEq, Eq, PartialOrd, Ord, Hash)]
pub enum Reason {
    /// 1: the position has no branch of this label.
    NoLabel,
    /// 2: field count or kinds differ.
    OtherKinds,
    /// 3: a number is outside its range; the first such field, counted from 0.
    OutOfRange(u8),
    /// 4: it is the other side's turn. Under edition 2 only, and ahead of the other reasons.
    Early,
}

impl Reason {
    /// The reason's number in documents 01 and 02.
    ///
    /// ```
    /// assert_eq!(sojimu::Reason::OutOfRange(0).number(), 3);
    /// ```
    pub fn number(self) -> u8 {
        match self {
            Reason::NoLabel => ffi::NO_LABEL,
            Reason::OtherKinds => ffi::OTHER_KINDS,
            Reason::OutOfRange(_) => ffi::OUT_OF_RANGE,
            Reason::Early => ffi::EARLY,
        }
    }

    /// The reason in words.
    ///
    /// ```
    /// assert_eq!(sojimu::Reason::OutOfRange(0).words(), "a number is outside its range");
    /// ```
    pub fn words(self) -> &'static str {
        match self {
            Reason::NoLabel => "the protocol has no such label there",
            Reason::OtherKinds => "the count or the kinds of the fields differ",
            Reason::OutOfRange(_) => "a number is outside its range",
            Reason::Early => "it is the other side's turn, under edition 2",
        }
    }
}

/// What a step says of a message.
#[derive(Clone, Copy, Debug, PartialEq, Eq, Hash)]
pub enum Verdict {
    /// The message's bytes open the output, the position has moved on, and the counts have risen.
    Forwarded,
    /// A question got a no, and nothing has changed. 12 means that it is the other side's turn, under edition 1: the message may
    /// only be early.
    Refused(Question),
    /// The protocol forbids the message, or it is early under edition 2: its sender is blamed, for ever.
    Blamed(Party, Reason),
}

/// The due message: a part of the bytes that wait on one side.
#[derive(Clone, Copy, Debug, PartialEq, Eq, Hash)]
pub struct Due<'a> {
    /// The side whose turn it is; the device where 9, 10 or 11 would refuse.
    pub side: Party,
    /// The first message of that side's bytes, cut at their start. It is empty when none is due.
    pub message: &'a [u8],
}

impl Table {
    /// The state of a conversation that begins: position 0, running, nothing counted; with the setting of its warnings, in
    /// hundredths. Asks 9, then 21.
    ///
    /// ```
    /// use sojimu::{Question, Standing, State, Table};
    ///
    /// let protocol = Table::read(b"+{!A().end}")?;
    /// let begun = State { position: 0, standing: Standing::RUNNING, setting: 200, n: [0; 32], k: [0; 128] };
    /// assert_eq!(protocol.fresh(200)?, begun);
    /// assert_eq!(protocol.fresh(0), Err(Question::BAD_SETTING));
    /// assert_eq!(Table::empty().fresh(0), Err(Question::UNSOUND));
    /// # Ok::<(), Box<dyn std::error::Error>>(())
    /// ```
    #[inline]
    pub fn fresh(&self, setting: u32) -> Result<State, Question> {
        version::meets();
        let started = ffi::sojimu_fresh(self, setting);
        match codes::refusal(started.question) {
            None => Ok(started.state),
            Some(question) => Err(question),
        }
    }

    /// One step: a message of one side is forwarded into `out`, refused or blamed, and the state advanced. Asks 9 to 15, then 22,
    /// then 16; under edition 2 not 12. Nobody is blamed for a text that is not well-formed UTF-8, also where the protocol forbids
    /// the message or it is early.
    ///
    /// ```
    /// use sojimu::{Party, Question, Reason, Table, Verdict};
    ///
    /// let protocol = Table::read(b"rec X.+{!Ask(int[0..100]).&{?Ok().X},!Quit().end}")?;
    /// let mut state = protocol.fresh(200)?;
    /// let mut out = [0; 300];
    /// let ok = b"Ok\0\0\0\0\0\0\0";
    /// let early = protocol.step(&mut state, Party::Host, ok, &mut out);
    /// assert_eq!(early, Verdict::Refused(Question::OUT_OF_TURN));
    /// let ask = b"Ask\0\0\0\0\0\x01\0\0\0\0\x65";
    /// let blamed = protocol.step(&mut state, Party::Device, ask, &mut out);
    /// assert_eq!(blamed, Verdict::Blamed(Party::Device, Reason::OutOfRange(0)));
    /// let after = protocol.step(&mut state, Party::Device, ask, &mut out);
    /// assert_eq!(after, Verdict::Refused(Question::NOT_RUNNING));
    /// # Ok::<(), Box<dyn std::error::Error>>(())
    /// ```
    ///
    /// Under edition 2 who speaks out of turn is blamed, whatever the message says:
    ///
    /// ```
    /// # use sojimu::{Party, Reason, Table, Verdict};
    /// let protocol = Table::read(b"edition 2 rec X.+{!Ask(int[0..100]).&{?Ok().X},!Quit().end}")?;
    /// let mut state = protocol.fresh(200)?;
    /// let early = protocol.step(&mut state, Party::Host, b"Ok\0\0\0\0\0\0\0", &mut [0; 9]);
    /// assert_eq!(early, Verdict::Blamed(Party::Host, Reason::Early));
    /// # Ok::<(), Box<dyn std::error::Error>>(())
    /// ```
    #[inline]
    pub fn step(&self, state: &mut State, side: Party, message: &[u8], out: &mut [u8]) -> Verdict {
        codes::verdict(ffi::step(self, state, side as u32, message, out))
    }

    /// Whose turn it is, under either edition. Asks 9, 10 and 11.
    ///
    /// ```
    /// use sojimu::{Party, Question, Table};
    ///
    /// let protocol = Table::read(b"&{?Start().end}")?;
    /// let mut state = protocol.fresh(200)?;
    /// assert_eq!(protocol.turn(&state), Ok(Party::Host));
    /// state.position = 1;
    /// assert_eq!(protocol.turn(&state), Err(Question::AT_END));
    /// # Ok::<(), Box<dyn std::error::Error>>(())
    /// ```
    #[inline]
    pub fn turn(&self, state: &State) -> Result<Party, Question> {
        let turn = ffi::turn(self, state);
        match codes::refusal(turn.question) {
            None => Party::of(turn.side).ok_or(Question::UNSOUND),
            Some(question) => Err(question),
        }
    }

    /// The due message of the bytes that wait on either side: the first of the side whose turn it is, under either edition. It is
    /// empty, at that side's start, when 13 or 14 would refuse it or it is not all there; when 9, 10 or 11 would, at the device's
    /// start. It is cut by its length: a step may yet refuse it by 22.
    ///
    /// ```
    /// use sojimu::{Party, Table};
    ///
    /// let protocol = Table::read(b"&{?Start().+{!Done().end}}")?;
    /// let state = protocol.fresh(200)?;
    /// let (device, host) = (b"Done\0\0\0\0\0", b"Start\0\0\0\0Sto");
    /// let due = protocol.due(&state, device, host);
    /// assert_eq!((due.side, due.message), (Party::Host, &host[..9]));
    /// # Ok::<(), Box<dyn std::error::Error>>(())
    /// ```
    #[inline]
    pub fn due<'a>(&self, state: &State, device: &'a [u8], host: &'a [u8]) -> Due<'a> {
        let due = ffi::due(self, state, device, host);
        let (side, length) = Party::of(due.side).map_or((Party::Device, 0), |side| (side, due.length as usize));
        let waiting = match side {
            Party::Device => device,
            Party::Host => host,
        };
        Due { side, message: waiting.get(..length).unwrap_or_default() }
    }
}
