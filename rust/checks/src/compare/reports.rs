//! Report texts. Which of the shortest lists is shown is left free: the moves are played on the document's machine, and they are
//! those of the second implementation's rule.

use super::{show, Outcome, Tally};
use crate::second::fit::{moves, shows_no_fit};
use crate::second::machine::play_all;
use crate::second::monitor::Side;
use crate::second::random::{any_text, label_of, text_pair, two_ways_texts, Random};
use crate::second::report as second;
use crate::second::table::Table;
use crate::second::text::read;
use sojimu::{report, report_into};

/// A byte of the buffer before the call.
const UNTOUCHED: u8 = 0xEE;

/// Two texts, mostly related ones that are read.
pub fn case(random: &mut Random, tally: &mut Tally) -> Outcome {
    let (device, protocol) = match random.below(6) {
        0 => (any_text(random), any_text(random)),
        1 => (any_text(random), text_pair(random).1),
        2 => two_ways_texts(random),
        _ => text_pair(random),
    };
    let show = || show::bytes("protocol", &protocol) + &show::bytes("device", &device);
    let text = report(&protocol, &device);
    let wanted = second::report(&protocol, &device);
    let lossy = |bytes: &[u8]| String::from_utf8_lossy(bytes).into_owned();
    if !wanted.starts_with(b"no fit ") {
        tally.same("report", lossy(&text), lossy(&wanted), show)?;
    } else if let (Ok(device), Ok(protocol)) = (read(&device), read(&protocol)) {
        let shown = again(&lossy(&text), &device, &protocol);
        tally.same("report", (lossy(&text), shown), (lossy(&wanted), Some(lossy(&text))), show)?;
    }

    let room = if random.one_in(2) { random.below(text.len()) } else { text.len() + random.below(3) };
    let (mut out, mut wanted) = (vec![UNTOUCHED; room], vec![UNTOUCHED; room]);
    let held = report_into(&protocol, &device, &mut out);
    let length = (room >= text.len()).then_some(text.len());
    if let Some(length) = length {
        wanted[..length].copy_from_slice(&text);
    }
    tally.same("report in a buffer", (held, out), (length, wanted), show)
}

/// The text once more, from the moves that it shows; none where they do not show that the device does not fit.
fn again(text: &str, device: &Table, protocol: &Table) -> Option<String> {
    let lines: Vec<&str> = text.lines().collect();
    let (_, lines) = lines.split_first()?;
    let (_, lines) = lines.split_last()?;
    let mut list = Vec::new();
    let mut high = None;
    for line in lines {
        let mut words = line.split(' ');
        let side = if words.next()? == "in" { Side::Device } else { Side::Host };
        let label = label_of(words.next()?.as_bytes());
        if words.next() == Some("high") {
            high = Some(words.next()?.parse().ok()?);
        }
        let (machine, _) = play_all(device, protocol, &moves(device, protocol, &list, None)?);
        let (speaks, state) = match side {
            Side::Device => (device, machine.device),
            Side::Host => (protocol, machine.position),
        };
        let branch = speaks.branches.iter().position(|branch| branch.owner == state && branch.label == label)?;
        list.push(branch as u16);
    }
    shows_no_fit(device, protocol, &list, high).then(|| second::no_fit(device, protocol, &list, high))
}
