//! What `examples/README.md` states: the reports, through the second implementation, and the pages of a log and what an edition
//! changes, through both.
//!
//! An example is an indented line `$ ./sojimu PROTOCOL DEVICE`; the indented lines below it are the report. The pages are the
//! one block of text.

#[allow(dead_code)]
#[path = "../../sojimu/examples/page.rs"]
mod page;

use sojimu::{Party, Question, Reason, Standing, Table, Verdict};
use sojimu_checks::compare;
use sojimu_checks::second::report::report;
use sojimu_checks::second::{message, monitor, text, warning};
use std::path::{Path, PathBuf};

struct Example {
    protocol: PathBuf,
    device: PathBuf,
    report: String,
}

fn root() -> PathBuf {
    Path::new(env!("CARGO_MANIFEST_DIR")).join("../..")
}

fn stated() -> Vec<Example> {
    let readme = std::fs::read_to_string(root().join("examples/README.md")).unwrap();
    let mut all: Vec<Example> = Vec::new();
    for line in readme.lines().filter_map(|line| line.strip_prefix("    ")) {
        match line.strip_prefix("$ ./sojimu ") {
            Some(files) => {
                let (protocol, device) = files.split_once(' ').unwrap();
                let (protocol, device) = (root().join(protocol), root().join(device));
                all.push(Example { protocol, device, report: String::new() });
            }
            None => all.last_mut().unwrap().report += &format!("{line}\n"),
        }
    }
    all
}

#[test]
fn reports() {
    for example in stated() {
        let protocol = std::fs::read(&example.protocol).unwrap();
        let device = std::fs::read(&example.device).unwrap();
        let given = String::from_utf8(report(&protocol, &device)).unwrap();
        assert_eq!(given, example.report, "{}", example.device.display());
    }
}

#[test]
fn every_device_is_stated() {
    let stated = stated();
    let mut devices = 0;
    for folder in ["scanner", "steambox", "spray", "shares", "editions"] {
        for file in std::fs::read_dir(root().join("examples").join(folder)).unwrap() {
            let path = file.unwrap().path();
            if path.file_name().unwrap() != "protocol.txt" && path.extension().unwrap() == "txt" {
                devices += 1;
                assert!(stated.iter().any(|example| example.device == path), "{}", path.display());
            }
        }
    }
    assert_eq!(devices, stated.len());
}

/// The pages that are stated, and the protocol and the log that they are of.
fn pages() -> (String, Vec<u8>, String) {
    let readme = std::fs::read_to_string(root().join("examples/README.md")).unwrap();
    let block = readme.split("```text\n").nth(1).unwrap().split("```").next().unwrap().to_string();
    let protocol = std::fs::read(root().join("examples/shares/protocol.txt")).unwrap();
    (block, protocol, std::fs::read_to_string(root().join("examples/shares/scans.moves")).unwrap())
}

#[test]
fn pages_of_a_log() {
    let (stated, protocol, log) = pages();
    let mut printed = Vec::new();
    page::run(&protocol, 200, &log, &mut printed).unwrap();
    assert_eq!(String::from_utf8(printed).unwrap(), stated);
}

/// The labels that warn after each line of the log, where others do than before.
#[test]
fn pages_by_the_second_implementation() {
    let (stated, protocol, log) = pages();
    let table = text::read(&protocol).unwrap();
    let mut state = monitor::State::fresh(&table, 200).unwrap();
    let (mut shown, mut lines) = (Vec::new(), Vec::new());
    for (number, line) in log.lines().enumerate() {
        let words: Vec<&str> = line.split(' ').collect();
        let times = words.get(2).map_or(1, |times| times[1..].parse().unwrap());
        for _ in 0..times {
            let side = monitor::awaited(&table, &state).unwrap();
            assert_eq!(words[0], if side == monitor::Side::Device { "in" } else { "out" });
            let own = |&b: &usize| table.branches[b].label.starts_with(words[1].as_bytes());
            let branch = table.branches_of(state.position).into_iter().find(own).unwrap();
            let mut message = vec![0; 300];
            let length = message::make(&table, branch, None, &mut message).unwrap();
            let verdict = monitor::step(&table, &mut state, side, &message[..length], &mut [0; 300]);
            assert_eq!(verdict, monitor::Verdict::Forwarded);
        }
        let told = |&b: &usize| warning::warning(&table, &state, b).unwrap().warns;
        let warns: Vec<usize> = (0..table.branches.len()).filter(told).collect();
        if warns != shown {
            lines.push((number + 1, warns.clone()));
            shown = warns;
        }
    }
    let named = |&b: &usize| String::from_utf8(table.branches[b].label.to_vec()).unwrap().trim_end_matches('\0').to_string();
    for (line, (number, warns)) in stated.lines().zip(&lines) {
        assert!(line.starts_with(&format!("line {number}: ")), "{line}");
        assert!(
            warns.iter().all(|b| line.contains(&format!("{} by the ", named(b))))
                && line.matches(" by the ").count() == warns.len()
        );
    }
    assert_eq!(stated.lines().count(), lines.len());
}

/// The messages of the branches named, one after another, each by its side: what both say of the last.
fn last_of(protocol: &[u8], says: &[(Party, &str)]) -> (Verdict, Standing) {
    let (table, second) = (Table::read(protocol).unwrap(), text::read(protocol).unwrap());
    let (mut state, mut again) = (table.fresh(200).unwrap(), monitor::State::fresh(&second, 200).unwrap());
    let mut last = None;
    for (party, label) in says {
        let branch = second.branches.iter().position(|branch| branch.label.starts_with(label.as_bytes())).unwrap();
        let mut message = vec![0; 300];
        let length = table.make(branch as u32, None, &mut message).unwrap();
        let side = if *party == Party::Device { monitor::Side::Device } else { monitor::Side::Host };
        let verdict = table.step(&mut state, *party, &message[..length], &mut [0; 300]);
        let wanted = monitor::step(&second, &mut again, side, &message[..length], &mut [0; 300]);
        assert_eq!((verdict, state), (compare::verdict(wanted), compare::state_codes(&again)));
        last = Some(verdict);
    }
    (last.unwrap(), state.standing)
}

#[test]
fn a_setpoint_out_of_turn() {
    let protocol = std::fs::read_to_string(root().join("examples/editions/protocol.txt")).unwrap();
    let first = protocol.replace("edition 2", "edition 1");
    let mut says = vec![(Party::Device, "Status"), (Party::Host, "Set"), (Party::Host, "Set")];
    let blamed = (Verdict::Blamed(Party::Host, Reason::Early), Standing::HOST_BLAMED);
    assert_eq!(last_of(protocol.as_bytes(), &says), blamed);
    assert_eq!(last_of(first.as_bytes(), &says), (Verdict::Refused(Question(12)), Standing::RUNNING));
    // In its turn it is forwarded.
    says.extend([(Party::Device, "Done"), (Party::Device, "Status"), (Party::Host, "Set")]);
    assert_eq!(last_of(first.as_bytes(), &says), (Verdict::Forwarded, Standing::RUNNING));
}
