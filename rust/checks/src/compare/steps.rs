//! Conversations that begin, single steps and due parts, from any state: every standing code, every position, any counts, and sides
//! that are neither.

use super::both::{codes, party, state, state_after, state_codes, verdict, verdict_codes, Both};
use super::shares::{count_forwarded, count_refused};
use super::turns::{count_neither, count_step, count_undue};
use super::{show, Outcome, Shared, Tally};
use crate::ffi;
use crate::second::monitor::{self, awaited, due, step, turn, Side};
use crate::second::random::{
    damaged_counts, damaged_message, damaged_table, message_for, sound_table, state_at, waiting, with_noise, Random, COLUMNS,
};
use crate::second::table::{Raw, Table};
use sojimu::{Question, Standing, State, Verdict, MOST_BRANCHES, MOST_STATES};

/// A byte of the output before the call.
pub const UNTOUCHED: u8 = 0xEE;

/// What one step is given.
#[derive(Clone)]
pub struct Given {
    pub state: State,
    pub side: Side,
    pub message: Vec<u8>,
    pub room: usize,
}

impl Given {
    fn show(&self, both: &Both) -> String {
        let Given { state, side, message, room } = self;
        let heading = format!("side {side:?}, room {room}, {}", show::state(state));
        heading + &show::bytes("message", message) + &show::table("table", &both.proved)
    }

    /// Whose turn it is.
    fn speaker(&self, both: &Both) -> Result<Side, u8> {
        awaited(&both.second, &state(&self.state))
    }
}

/// One step, the same of a side that is neither, and one due part, at any state of a table.
pub fn case(random: &mut Random, tally: &mut Tally) -> Outcome {
    let (states, branches) = *random.pick(&[(3, 4), (6, 12), (12, 20)]);
    let sound = sound_table(random, states, branches);
    let (both, state) = anywhere(random, &sound, Odds { damaged: 16, beyond: 8, stopped: 6, counts: 8 });
    let spoken = usize::from(state.position).min(sound.states.len() - 1);
    let mut side = turn(sound.states[spoken]).unwrap_or(*random.pick(&Side::BOTH));
    if random.one_in(8) {
        side = side.other();
    }
    let mut message = message_for(random, &sound, spoken);
    if random.one_in(6) {
        message = damaged_message(random, &message);
    }
    let room = if random.one_in(6) { random.below(message.len() + 1) } else { message.len() + random.below(4) };
    let given = Given { state, side, message, room };
    step_of(&given, &both, tally)?;
    nobodys_step(random, &given, &both, tally)?;
    let (device, host) = (waiting(random, &sound), waiting(random, &sound));
    due_of(&given, &both, &device, &host, tally)
}

/// How seldom something is wrong from the start: once in so many.
pub struct Odds {
    pub damaged: usize,
    pub beyond: usize,
    pub stopped: usize,
    pub counts: usize,
}

/// A sound table with noise where nothing looks, at times damaged, and any state: at times beyond the table, not running, or with
/// damaged counts.
pub fn anywhere(random: &mut Random, sound: &Table, odds: Odds) -> (Both, State) {
    let mut columns = Raw::of(sound);
    if random.one_in(2) {
        columns = with_noise(random, &columns);
    }
    if random.one_in(odds.damaged) {
        let column = random.below(COLUMNS);
        columns = damaged_table(random, &columns, column);
    }
    let beyond = usize::from(random.one_in(odds.beyond));
    let position = random.below(sound.states.len() + beyond);
    let standing = if random.one_in(odds.stopped) { *random.pick(&[1, 2, 3, 4, 127, 128, 255]) } else { 0 };
    let mut state = state_at(random, sound, position);
    if random.one_in(odds.counts) {
        state = damaged_counts(random, sound, &state);
    }
    (Both::of(&columns), State { standing: Standing(standing), ..state_codes(&state) })
}

/// A conversation begins, through both: the state or the question, and every number that is given back. A refused one has counts
/// of 0, its setting among them.
pub fn fresh_of(both: &Both, setting: u32, tally: &mut Tally) -> Result<Option<State>, String> {
    let second = monitor::State::fresh(&both.second, setting);
    let refused = State { position: 0, standing: Standing::RUNNING, setting: 0, n: [0; MOST_STATES], k: [0; MOST_BRANCHES] };
    let state = second.as_ref().map_or(refused, state_codes);
    let question = second.err().unwrap_or(0);
    let wanted = if question == 0 { Ok(state) } else { Err(Question(question)) };
    let proved = both.proved.fresh(setting);
    let given = ffi::sojimu_fresh(&both.proved, setting);
    tally.asked(proved.err());
    tally.share(Shared::Begun, proved.is_ok());
    tally.share(Shared::Begun9, proved == Err(Question::UNSOUND));
    tally.share(Shared::Begun21, proved == Err(Question::BAD_SETTING));
    let started = ffi::Started { question: question.into(), state };
    tally.same("fresh", (proved, given), (wanted, started), || {
        format!("setting {setting}\n{}", show::table("table", &both.proved))
    })?;
    Ok(proved.ok())
}

/// The step through both: verdict, all its bytes, state, and every byte of the output. Gives back the state after it.
pub fn step_of(given: &Given, both: &Both, tally: &mut Tally) -> Result<State, String> {
    let Given { state: before, side, message, room } = given;
    let untouched = || vec![UNTOUCHED; *room];
    let (mut wanted, mut output) = (state(before), untouched());
    let second = step(&both.second, &mut wanted, *side, message, &mut output);
    let left = (state_after(before, &wanted), output);
    let second = (verdict(second), verdict_codes(second), [left.clone(), left]);

    let (mut after, mut output) = (*before, untouched());
    let proved = both.proved.step(&mut after, party(*side), message, &mut output);
    let (mut again, mut same) = (*before, untouched());
    let codes = ffi::step(&both.proved, &mut again, party(*side) as u32, message, &mut same);
    tally.verdict(proved);
    count_step(given, both, proved, tally);
    match proved {
        Verdict::Forwarded => count_forwarded(before, tally),
        Verdict::Refused(question) => count_refused(both, before, question, tally),
        Verdict::Blamed(..) => {}
    }
    tally.same("step", (proved, codes, [(after, output), (again, same)]), second, || given.show(both))?;
    Ok(after)
}

/// The step of a side that is neither: 12, after 9, 10 and 11, under either edition. Nothing changes.
pub fn nobodys_step(random: &mut Random, given: &Given, both: &Both, tally: &mut Tally) -> Outcome {
    let Given { state: before, message, room, .. } = given;
    let code = *random.pick(&[2, 3, 255, 256, 257, 0x1_0000, 0x1_0001, 0x8000_0000, 0x8000_0001, u32::MAX]);
    let question = given.speaker(both).err().unwrap_or(12);
    count_neither(given, both, question, tally);
    let (mut after, mut output) = (*before, vec![UNTOUCHED; *room]);
    let codes = ffi::step(&both.proved, &mut after, code, message, &mut output);
    tally.strange += 1;
    let refused = verdict_codes(monitor::Verdict::Refused(question));
    let wanted = (refused, *before, vec![UNTOUCHED; *room]);
    tally.same("step of no side", (codes, after, output), wanted, || format!("side {code}, {}", given.show(both)))
}

/// Whose turn it is, and the due part of the bytes that wait, through both: side, place and length.
pub fn due_of(given: &Given, both: &Both, device: &[u8], host: &[u8], tally: &mut Tally) -> Outcome {
    let show = || given.show(both) + &show::bytes("device's", device) + &show::bytes("host's", host);
    let speaker = given.speaker(both).map(party);
    let told = ffi::turn(&both.proved, &given.state);
    let turn = (both.proved.turn(&given.state), (told.question, told.side));
    tally.same("turn", turn, (speaker.map_err(Question), codes(speaker.map(|side| side as usize))), show)?;
    let part = both.proved.due(&given.state, device, host);
    let told = ffi::due(&both.proved, &given.state, device, host);
    let wanted = due(&both.second, &state(&given.state), device, host);
    let waiting = if wanted.side == Side::Device { device } else { host };
    if wanted.length == 0 {
        count_undue(given, both, device, host, tally);
    }
    // The part begins where that side's bytes begin.
    let place = (part.side, part.message.as_ptr(), part.message.len(), told.side, told.length);
    let side = party(wanted.side);
    tally.same("due", place, (side, waiting.as_ptr(), wanted.length, side as u32, wanted.length as u32), show)
}
