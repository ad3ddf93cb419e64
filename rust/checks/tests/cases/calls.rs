//! The calls that the case files name, as the second implementation has them and as the proved library does.

use sojimu::{Batch, Fitting, Party, Question, State, Table, Verdict, Warning};
use sojimu_checks::compare;
use sojimu_checks::second::fit::{self, Answer};
use sojimu_checks::second::report;
use sojimu_checks::second::table::Raw;
use sojimu_checks::second::{batch, message, monitor, text, warning};

/// One implementation. A question that gets a no is its number.
pub trait Calls {
    fn sound(&self, table: &Raw) -> bool;
    fn sound_at(&self, table: &Raw, position: u32) -> bool;
    /// The question, or 0, and the table.
    fn dual(&self, table: &Raw) -> (u8, Raw);
    /// The question, or 0.
    fn refusal(&self, bytes: &[u8]) -> u8;
    fn front(&self, bytes: &[u8]) -> Result<usize, u8>;
    fn has_label(&self, bytes: &[u8], label: u64) -> bool;
    fn make(&self, table: &Raw, branch: u32, high: Option<u32>, out: &mut [u8]) -> Result<usize, u8>;
    /// The table, or the question and the place.
    fn read(&self, text: &[u8]) -> Result<Raw, (u8, usize)>;
    /// The state, or the question.
    fn fresh(&self, table: &Raw, setting: u32) -> Result<State, u8>;
    /// Whose turn it is, or the question.
    fn turn(&self, table: &Raw, state: &State) -> Result<Party, u8>;
    fn warning(&self, table: &Raw, state: &State, branch: u32) -> Result<Warning, u8>;
    fn step(&self, table: &Raw, state: &mut State, side: Party, message: &[u8], out: &mut [u8]) -> Verdict;
    fn due<'a>(&self, table: &Raw, state: &State, device: &'a [u8], host: &'a [u8]) -> &'a [u8];
    fn batch(
        &self,
        table: &Raw,
        state: &mut State,
        device: &[u8],
        host: &[u8],
        to_device: &mut [u8],
        to_host: &mut [u8],
    ) -> Batch;
    fn fit(&self, device: &Raw, protocol: &Raw, list: &mut [u16]) -> Answer;
    fn report(&self, protocol: &[u8], device: &[u8]) -> Vec<u8>;
    /// The report's length; 0 where the buffer does not hold it.
    fn report_into(&self, protocol: &[u8], device: &[u8], out: &mut [u8]) -> usize;
}

pub struct Proved;

impl Calls for Proved {
    fn sound(&self, table: &Raw) -> bool {
        Table::from(table).sound()
    }

    fn sound_at(&self, table: &Raw, position: u32) -> bool {
        Table::from(table).sound_at(position)
    }

    fn dual(&self, table: &Raw) -> (u8, Raw) {
        match Table::from(table).dual() {
            Ok(dual) => (0, Raw::from(&dual)),
            Err(Question(number)) => (number, Raw::empty()),
        }
    }

    fn refusal(&self, bytes: &[u8]) -> u8 {
        sojimu::message::refusal(bytes).map_or(0, |question| question.0)
    }

    fn front(&self, bytes: &[u8]) -> Result<usize, u8> {
        sojimu::message::front(bytes).map_err(|question| question.0)
    }

    fn has_label(&self, bytes: &[u8], label: u64) -> bool {
        sojimu::message::has_label(bytes, label)
    }

    fn make(&self, table: &Raw, branch: u32, high: Option<u32>, out: &mut [u8]) -> Result<usize, u8> {
        Table::from(table).make(branch, high, out).map_err(|question| question.0)
    }

    fn read(&self, text: &[u8]) -> Result<Raw, (u8, usize)> {
        match Table::read(text) {
            Ok(table) => Ok(Raw::from(&table)),
            Err(refusal) => Err((refusal.question.0, refusal.at)),
        }
    }

    fn fresh(&self, table: &Raw, setting: u32) -> Result<State, u8> {
        Table::from(table).fresh(setting).map_err(|question| question.0)
    }

    fn turn(&self, table: &Raw, state: &State) -> Result<Party, u8> {
        Table::from(table).turn(state).map_err(|question| question.0)
    }

    fn warning(&self, table: &Raw, state: &State, branch: u32) -> Result<Warning, u8> {
        Table::from(table).warning(state, branch).map_err(|question| question.0)
    }

    fn step(&self, table: &Raw, state: &mut State, side: Party, message: &[u8], out: &mut [u8]) -> Verdict {
        Table::from(table).step(state, side, message, out)
    }

    fn due<'a>(&self, table: &Raw, state: &State, device: &'a [u8], host: &'a [u8]) -> &'a [u8] {
        Table::from(table).due(state, device, host).message
    }

    fn batch(
        &self,
        table: &Raw,
        state: &mut State,
        device: &[u8],
        host: &[u8],
        to_device: &mut [u8],
        to_host: &mut [u8],
    ) -> Batch {
        Table::from(table).batch(state, device, host, to_device, to_host)
    }

    fn fit(&self, device: &Raw, protocol: &Raw, list: &mut [u16]) -> Answer {
        match Table::from(device).fit(&Table::from(protocol), list) {
            Fitting::Refused(Question(number)) => Answer::Refused(number),
            Fitting::Fits { pairs } => Answer::Fits(pairs),
            Fitting::Fails { moves, high } => Answer::NoFit(moves, high.map(|field| field as usize)),
        }
    }

    fn report(&self, protocol: &[u8], device: &[u8]) -> Vec<u8> {
        sojimu::report(protocol, device)
    }

    fn report_into(&self, protocol: &[u8], device: &[u8], out: &mut [u8]) -> usize {
        sojimu::report_into(protocol, device, out).unwrap_or(0)
    }
}

pub struct Second;

impl Calls for Second {
    fn sound(&self, table: &Raw) -> bool {
        table.sound()
    }

    fn sound_at(&self, table: &Raw, position: u32) -> bool {
        table.sound_at(position as usize)
    }

    fn dual(&self, table: &Raw) -> (u8, Raw) {
        table.dual()
    }

    fn refusal(&self, bytes: &[u8]) -> u8 {
        message::read(bytes).err().unwrap_or(0)
    }

    fn front(&self, bytes: &[u8]) -> Result<usize, u8> {
        message::front(bytes).map(|message| message.length())
    }

    fn has_label(&self, bytes: &[u8], label: u64) -> bool {
        message::has_label(&label.to_be_bytes(), bytes)
    }

    fn make(&self, table: &Raw, branch: u32, high: Option<u32>, out: &mut [u8]) -> Result<usize, u8> {
        message::make(&table.table(), branch as usize, high.map(|field| field as usize), out)
    }

    fn read(&self, text: &[u8]) -> Result<Raw, (u8, usize)> {
        text::read(text).map(|table| Raw::of(&table))
    }

    fn fresh(&self, table: &Raw, setting: u32) -> Result<State, u8> {
        monitor::State::fresh(&table.table(), setting).map(|state| compare::state_codes(&state))
    }

    fn turn(&self, table: &Raw, state: &State) -> Result<Party, u8> {
        monitor::awaited(&table.table(), &compare::state(state)).map(compare::party)
    }

    fn warning(&self, table: &Raw, state: &State, branch: u32) -> Result<Warning, u8> {
        let told = warning::warning(&table.table(), &compare::state(state), branch as usize)?;
        Ok(Warning { warns: told.warns, sender: compare::party(told.sender), estimate: told.estimate })
    }

    fn step(&self, table: &Raw, state: &mut State, side: Party, message: &[u8], out: &mut [u8]) -> Verdict {
        let mut own = compare::state(state);
        let side = match side {
            Party::Device => monitor::Side::Device,
            Party::Host => monitor::Side::Host,
        };
        let verdict = monitor::step(&table.table(), &mut own, side, message, out);
        *state = compare::state_after(state, &own);
        compare::verdict(verdict)
    }

    fn due<'a>(&self, table: &Raw, state: &State, device: &'a [u8], host: &'a [u8]) -> &'a [u8] {
        let part = monitor::due(&table.table(), &compare::state(state), device, host);
        match part.side {
            monitor::Side::Device => &device[..part.length],
            monitor::Side::Host => &host[..part.length],
        }
    }

    fn batch(
        &self,
        table: &Raw,
        state: &mut State,
        device: &[u8],
        host: &[u8],
        to_device: &mut [u8],
        to_host: &mut [u8],
    ) -> Batch {
        let mut own = compare::state(state);
        let batch = batch::batch(&table.table(), &mut own, device, host, to_device, to_host);
        *state = compare::state_after(state, &own);
        compare::batch(batch)
    }

    fn fit(&self, device: &Raw, protocol: &Raw, list: &mut [u16]) -> Answer {
        fit::fit(&device.table(), &protocol.table(), list)
    }

    fn report(&self, protocol: &[u8], device: &[u8]) -> Vec<u8> {
        report::report(protocol, device)
    }

    fn report_into(&self, protocol: &[u8], device: &[u8], out: &mut [u8]) -> usize {
        let report = report::report(protocol, device);
        match out.get_mut(..report.len()) {
            Some(start) => start.copy_from_slice(&report),
            None => return 0,
        }
        report.len()
    }
}
