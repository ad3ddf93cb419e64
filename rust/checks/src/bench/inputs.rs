//! Protocols of three sizes, the scanner's and one of texts, with a conversation that goes round in each.

use sojimu::{message, Party, State, Table, LONGEST_MESSAGE};

/// The setting of every conversation, in hundredths.
pub const SETTING: u32 = 200;

/// A protocol's text, and the branches of a way that comes back to where it began.
pub struct Input {
    /// What it is called.
    pub name: &'static str,
    /// The protocol as text.
    pub text: Vec<u8>,
    /// The branches that lead from the fresh state to the round.
    pub before: Vec<u32>,
    /// The branches of one round.
    pub round: Vec<u32>,
}

/// 3 states, 3 branches: document 01's P, asked and answered.
pub fn small() -> Input {
    let text = b"rec X.+{!Ask(int[0..100]).&{?Ok().X},!Quit().end}".to_vec();
    Input { name: "small", text, before: vec![], round: vec![0, 1] }
}

/// 12 states, 20 branches: a scanner that reports profiles.
pub fn typical() -> Input {
    let text = b"rec Idle.+{!Hello(text[1..16],int[1..9]).&{
    ?Accept(int[0..65535]).rec Run.+{
        !Profile(int[0..4095],int[0..4095],int[0..4095]).&{
            ?Ack(int[0..65535]).Run,
            ?Nack(int[0..65535],text[0..32]).Run},
        !Alarm(int[1..99],text[0..64]).&{?Seen(flag[0..1]).Run},
        !Status(flag[0..1],int[-50..200]).&{
            ?Set(int[0..100]).+{!Done().Run,!Fault(int[1..99]).Run},
            ?Hold(flag[0..1]).&{?Resume().Run,?Stop().+{!Bye().end}},
            ?Go().Run},
        !Reel(int[0..999999]).&{?Mark().Run},
        !Quit().end},
    ?Reject(int[1..9]).Idle}}"
        .to_vec();
    Input { name: "typical", text, before: vec![0, 1], round: vec![2, 3] }
}

/// 32 states of 4 branches with 4 fields each, the most that a table holds.
pub fn largest() -> Input {
    let mut text = b"rec X.".to_vec();
    choice(&mut text, 31, &mut 0, true);
    Input { name: "largest", text, before: vec![], round: vec![0, 1, 2, 3] }
}

/// 6 states, 9 branches: the scanner of `examples/`, which frames after `Start` and `Ready`.
pub fn scanner() -> Input {
    let text = include_bytes!("../../../../examples/scanner/protocol.txt").to_vec();
    Input { name: "scanner", text, before: vec![0, 1], round: vec![2] }
}

/// 1 state, 1 branch: a device that says texts, as long as they may be.
pub fn texts() -> Input {
    Input { name: "texts", text: b"rec X.+{!Say(text[0..64]).X}".to_vec(), before: vec![], round: vec![0] }
}

/// The one branch's message of [`texts`] with a text of at most 64 bytes.
///
/// ```
/// use sojimu_checks::bench::inputs::said;
///
/// assert_eq!(said(b"hello").len(), 19);
/// ```
pub fn said(text: &[u8]) -> Vec<u8> {
    let mut message = vec![0; LONGEST_MESSAGE];
    let label = message::label("Say").expect("a legal label");
    let length = message::encode(label, &[message::Field::Text(text)], &mut message).expect("a text");
    message.truncate(length);
    message
}

/// A choice with so many more choices in it, of which the first is as deep as the limit of what is open lets it be.
fn choice(text: &mut Vec<u8>, inside: usize, label: &mut usize, sends: bool) {
    let (sign, mark) = if sends { ('+', '!') } else { ('&', '?') };
    text.extend(format!("{sign}{{").bytes());
    let mut left = inside;
    for branch in 0..4 {
        let within = left.div_ceil(4 - branch);
        left -= within;
        let comma = if branch > 0 { "," } else { "" };
        let fields = "int[0..9],int[0..9],int[0..9],int[0..9]";
        text.extend(format!("{comma}{mark}L{label}({fields}).").bytes());
        *label += 1;
        if within > 0 {
            choice(text, within - 1, label, !sends);
        } else {
            text.push(b'X');
        }
    }
    text.push(b'}');
}

impl Input {
    /// Every size.
    pub fn all() -> [Input; 3] {
        [small(), typical(), largest()]
    }

    /// The protocol's table.
    pub fn table(&self) -> Table {
        Table::read(&self.text).expect("a legal text")
    }

    /// The same with shares: each choice's are alike, but for what is left over, which its first branch has.
    ///
    /// ```
    /// assert!(sojimu_checks::bench::inputs::Input::all().iter().all(|input| input.shared().sound()));
    /// ```
    pub fn shared(&self) -> Table {
        let mut table = self.table();
        let owners = table.owner[..table.branches as usize].to_vec();
        for choice in 0..table.states {
            let own: Vec<usize> = (0..owners.len()).filter(|&branch| owners[branch] == choice).collect();
            let each = 1000 / own.len().max(1) as u32;
            own.iter().for_each(|&branch| table.share[branch] = each);
            if let Some(&first) = own.first() {
                table.share[first] = 1000 - each * (own.len() as u32 - 1);
            }
        }
        table
    }

    /// The state at the round's beginning, and the round's messages with their sides.
    ///
    /// ```
    /// for input in sojimu_checks::bench::inputs::Input::all() {
    ///     let (start, round) = input.conversation();
    ///     assert_eq!(u32::from(start.position), input.table().owner[input.round[0] as usize]);
    ///     assert_eq!(round.len(), input.round.len());
    /// }
    /// ```
    pub fn conversation(&self) -> (State, Vec<(Party, Vec<u8>)>) {
        let table = self.table();
        let mut state = table.fresh(SETTING).expect("a table that was read");
        let mut out = [0; 300];
        let mut say = |branch: u32, state: &mut State| {
            let mut message = vec![0; 300];
            let length = table.make(branch, None, &mut message).expect("a branch");
            message.truncate(length);
            let side = table.turn(state).expect("no end");
            table.step(state, side, &message, &mut out);
            (side, message)
        };
        for &branch in &self.before {
            say(branch, &mut state);
        }
        let start = state;
        let round = self.round.iter().map(|&branch| say(branch, &mut state)).collect();
        assert_eq!(state.position, start.position, "{}: the round comes back", self.name);
        (start, round)
    }
}
