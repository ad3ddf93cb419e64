//! The report program's text.

use super::fit::{fit, moves, Answer};
use super::machine::{play_all, Standing};
use super::monitor::Side;
use super::table::{Label, Table};
use super::text::read;
use std::path::Path;

/// What the program prints for the bytes of `protocol.txt` and `device.txt`.
pub fn report(protocol: &[u8], device: &[u8]) -> Vec<u8> {
    let protocol = match read(protocol) {
        Ok(table) => table,
        Err((question, place)) => return format!("protocol refused {question} at {place}\n").into_bytes(),
    };
    let device = match read(device) {
        Ok(table) => table,
        Err((question, place)) => return format!("device refused {question} at {place}\n").into_bytes(),
    };
    of_tables(&device, &protocol).into_bytes()
}

/// What the program prints in a directory; "a file that can't be opened is an empty text".
pub fn report_in(directory: &Path) -> Vec<u8> {
    let text = |name| std::fs::read(directory.join(name)).unwrap_or_default();
    report(&text("protocol.txt"), &text("device.txt"))
}

fn of_tables(device: &Table, protocol: &Table) -> String {
    let mut list = vec![0; device.states.len() * protocol.states.len()];
    match fit(device, protocol, &mut list) {
        Answer::Refused(question) => unreachable!("tables that were read, and a list long enough: {question}"),
        Answer::Fits(pairs) => format!("fit {pairs}\n"),
        Answer::NoFit(count, high) => no_fit(device, protocol, &list[..count], high),
    }
}

/// The text for a list of moves after which the device is blamed or the machine jammed.
pub fn no_fit(device: &Table, protocol: &Table, list: &[u16], high: Option<usize>) -> String {
    let moves = moves(device, protocol, list, high).unwrap_or_default();
    let mut lines = format!("no fit {}\n", moves.len());
    for (i, one) in moves.iter().enumerate() {
        lines += match one.side {
            Side::Device => "in ",
            Side::Host => "out ",
        };
        lines += &letters(&one.message.label);
        if let (true, Some(field)) = (i + 1 == moves.len(), high) {
            lines += &format!(" high {field}");
        }
        lines += "\n";
    }
    lines += match play_all(device, protocol, &moves).0.standing {
        Standing::DeviceBlamed => "blamed\n",
        _ => "jammed\n",
    };
    lines
}

/// The label without its filling.
fn letters(label: &Label) -> String {
    label.iter().take_while(|&&byte| byte != 0).map(|&byte| char::from(byte)).collect()
}
