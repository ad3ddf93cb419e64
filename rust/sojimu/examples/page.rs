//! The tender's page: the log of a conversation put through the monitor, and after each line of it which branches warn.
//!
//!     cargo run --offline --manifest-path rust/Cargo.toml --example page -- PROTOCOL SETTING LOG
//!
//! A line of a log is `in LABEL`, a message of the device's, or `out LABEL`, one of the host's, with `*N` for so many of them. A
//! message is made from its branch, every number low. The page is printed where other branches warn than before.

use sojimu::{Party, Question, State, Table, Verdict, Warning, LONGEST_MESSAGE};
use std::error::Error;
use std::io::Write;

fn main() -> Result<(), Box<dyn Error>> {
    let arguments: Vec<String> = std::env::args().skip(1).collect();
    let [protocol, setting, log] = &arguments[..] else {
        return Err("page PROTOCOL SETTING LOG".into());
    };
    run(&std::fs::read(protocol)?, setting.parse()?, &std::fs::read_to_string(log)?, &mut std::io::stdout())
}

/// The pages of a log, under a protocol's text and a setting in hundredths.
pub fn run(text: &[u8], setting: u32, log: &str, out: &mut impl Write) -> Result<(), Box<dyn Error>> {
    let protocol = Table::read(text)?;
    let mut state = protocol.fresh(setting)?;
    let mut shown = Vec::new();
    for (number, line) in log.lines().enumerate() {
        let (side, label, times) = entry(line).ok_or_else(|| format!("line {}: {line}", number + 1))?;
        for _ in 0..times {
            let message = message(&protocol, state.position, label)?;
            let verdict = protocol.step(&mut state, side, &message, &mut [0; LONGEST_MESSAGE]);
            if verdict != Verdict::Forwarded {
                return Err(format!("line {}: {verdict:?}", number + 1).into());
            }
        }
        let page = page(&protocol, &state)?;
        let warns: Vec<u32> = page.iter().map(|&(branch, _)| branch).collect();
        if warns != shown {
            writeln!(out, "line {}: {}", number + 1, written(&protocol, &page))?;
            shown = warns;
        }
    }
    Ok(())
}

/// A line's side, label and how often.
fn entry(line: &str) -> Option<(Party, &str, usize)> {
    let mut words = line.split(' ');
    let side = match words.next()? {
        "in" => Party::Device,
        "out" => Party::Host,
        _ => return None,
    };
    let label = words.next()?;
    let times = words.next().map_or(Some(1), |times| times.strip_prefix('*')?.parse().ok())?;
    words.next().is_none().then_some((side, label, times))
}

/// The message of the branch that a position has with a label.
fn message(protocol: &Table, position: u8, label: &str) -> Result<Vec<u8>, Box<dyn Error>> {
    let wanted = sojimu::message::label(label).ok_or("no label")?;
    let own = |&branch: &u32| {
        let at = branch as usize;
        protocol.owner[at] == position.into() && protocol.label(at) == wanted
    };
    let branch = (0..protocol.branches).find(own).ok_or_else(|| format!("no {label} here"))?;
    let mut message = vec![0; LONGEST_MESSAGE];
    let length = protocol.make(branch, None, &mut message)?;
    message.truncate(length);
    Ok(message)
}

/// The branches that warn, each with what is told of it.
fn page(protocol: &Table, state: &State) -> Result<Vec<(u32, Warning)>, Question> {
    let told = |branch| Ok((branch, protocol.warning(state, branch)?));
    let all: Vec<(u32, Warning)> = (0..protocol.branches).map(told).collect::<Result<_, Question>>()?;
    Ok(all.into_iter().filter(|(_, warning)| warning.warns).collect())
}

fn written(protocol: &Table, page: &[(u32, Warning)]) -> String {
    let line = |&(branch, warning): &(u32, Warning)| {
        let label = protocol.label(branch as usize).to_be_bytes();
        let label = String::from_utf8_lossy(&label).trim_end_matches('\0').to_string();
        let sender = if warning.sender == Party::Device { "device" } else { "host" };
        let estimate = warning.estimate.unwrap_or(0);
        format!("{label} by the {sender}, {estimate} of 1000 and not {}", protocol.share[branch as usize])
    };
    if page.is_empty() {
        return "nothing".to_string();
    }
    page.iter().map(line).collect::<Vec<_>>().join("; ")
}
