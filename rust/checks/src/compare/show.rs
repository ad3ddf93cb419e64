//! Inputs in a form that can be read.

use sojimu::{State, Table, MOST_BRANCHES, MOST_FIELDS, MOST_STATES};
use std::fmt;
use std::hash::{DefaultHasher, Hash, Hasher};

/// A table of which every entry is compared. It is shown by those that count, and a number that stands for all.
#[derive(Clone, PartialEq, Eq)]
pub struct Columns(pub Table);

impl fmt::Debug for Columns {
    fn fmt(&self, f: &mut fmt::Formatter<'_>) -> fmt::Result {
        let mut all = DefaultHasher::new();
        self.0.hash(&mut all);
        write!(f, "{:016X} {}", all.finish(), table("table", &self.0))
    }
}

/// Bytes in hexadecimal, and as text where they are one.
pub fn bytes(name: &str, bytes: &[u8]) -> String {
    let numbers: String = bytes.iter().map(|byte| format!(" {byte:02X}")).collect();
    let text = |byte: &u8| byte.is_ascii_graphic() || matches!(byte, b' ' | b'\n');
    if bytes.iter().all(text) {
        return format!("{name}, {} bytes:{numbers}\n{}\n", bytes.len(), String::from_utf8_lossy(bytes));
    }
    format!("{name}, {} bytes:{numbers}\n", bytes.len())
}

/// A state, its counts by their numbers where they are not 0.
pub fn state(state: &State) -> String {
    let State { position, standing, setting, .. } = state;
    let mut line = format!("position {position}, standing {}, setting {setting}", standing.0);
    for (name, counts) in [("n", &state.n[..]), ("k", &state.k[..])] {
        let met = counts.iter().enumerate().filter(|(_, &count)| count > 0);
        line += &met.map(|(number, count)| format!(" {name}[{number}] {count}")).collect::<String>();
    }
    line + "\n"
}

/// A table's entries that count: of each branch owner, target, label, share, and kind, low, high of its fields.
pub fn table(name: &str, table: &Table) -> String {
    let states = (table.states as usize).min(MOST_STATES);
    let branches = (table.branches as usize).min(MOST_BRANCHES);
    let mut lines = format!("{name}: {} states, {} branches, edition {}\n", table.states, table.branches, table.edition);
    lines += &format!("  sort {:?}\n", &table.sort[..states]);
    for b in 0..branches {
        let label = String::from_utf8_lossy(&table.label(b).to_be_bytes()).into_owned();
        let (owner, target, share, fields) = (table.owner[b], table.target[b], table.share[b], table.fields[b]);
        lines += &format!("  branch {b}: owner {owner} target {target} label {label:?} share {share} fields {fields}");
        for f in 0..(fields as usize).min(MOST_FIELDS) {
            let place = MOST_FIELDS * b + f;
            lines += &format!(" [{} {:08X}..{:08X}]", table.kind[place], table.low[place], table.high[place]);
        }
        lines += "\n";
    }
    lines
}
