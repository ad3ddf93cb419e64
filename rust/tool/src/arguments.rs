//! What the program is asked to do.

use super::text::shown_name;
use std::ffi::OsString;
use std::fs::canonicalize;

/// A command's name, and its help; the report has no name.
#[derive(Clone, Copy)]
pub struct Usage {
    pub name: &'static str,
    pub help: &'static str,
}

const REPORT: Usage = Usage { name: "", help: include_str!("help/sojimu.txt") };
const EXPLAIN: Usage = Usage { name: "explain", help: include_str!("help/explain.txt") };
const READ: Usage = Usage { name: "read", help: include_str!("help/read.txt") };
const REPLAY: Usage = Usage { name: "replay", help: include_str!("help/replay.txt") };
const QUESTIONS: Usage = Usage { name: "questions", help: include_str!("help/questions.txt") };

/// The setting of warnings where none is given: 3.00 standard deviations.
const SETTING: u32 = 300;

/// A protocol, a device, and where their picture goes.
pub struct Pair {
    pub protocol: OsString,
    pub device: OsString,
    pub picture: Option<OsString>,
}

/// A protocol, a log, the setting of the warnings, and where the picture goes.
pub struct Replay {
    pub protocol: OsString,
    pub log: OsString,
    pub setting: u32,
    pub picture: Option<OsString>,
}

/// What is asked for.
pub enum Command {
    Help(&'static str),
    Report(Pair),
    Explain(Pair),
    Read { text: OsString, picture: Option<OsString> },
    Replay(Replay),
    Questions,
}

/// Arguments that cannot be understood: how they are meant, and what is wrong, where that can be said.
pub struct Wrong {
    usage: Usage,
    words: Option<String>,
}

impl Wrong {
    fn plain(usage: Usage) -> Wrong {
        Wrong { usage, words: None }
    }

    fn because(usage: Usage, words: String) -> Wrong {
        Wrong { usage, words: Some(words) }
    }

    /// What is said of them: what is wrong, else the help.
    pub fn said(&self) -> String {
        match (&self.words, self.usage.name) {
            (None, _) => self.usage.help.to_string(),
            (Some(words), "") => format!("sojimu: {words}; see sojimu --help\n"),
            (Some(words), name) => format!("sojimu: {words}; see sojimu {name} --help\n"),
        }
    }
}

/// The arguments of a command, sorted: the files, and what stands behind the options.
struct Sorted {
    files: Vec<OsString>,
    picture: Option<OsString>,
    setting: Option<OsString>,
}

/// What the arguments ask for.
pub fn parse(arguments: &[OsString]) -> Result<Command, Wrong> {
    let [first, rest @ ..] = arguments else { return Err(Wrong::plain(REPORT)) };
    let usage = [EXPLAIN, READ, REPLAY, QUESTIONS].into_iter().find(|usage| first == usage.name);
    match (usage, first.to_str()) {
        (Some(usage), _) if rest.iter().any(|word| word == "--help") => Ok(Command::Help(usage.help)),
        (_, Some("explain")) => pair(rest, EXPLAIN).map(Command::Explain),
        (_, Some("read")) => read(rest),
        (_, Some("replay")) => replay(rest),
        (_, Some("questions")) if rest.is_empty() => Ok(Command::Questions),
        (Some(usage), _) => Err(Wrong::plain(usage)),
        (None, _) => report(arguments),
    }
}

/// Two arguments are files, whatever they begin with.
fn report(arguments: &[OsString]) -> Result<Command, Wrong> {
    match arguments {
        [word] if word == "--help" => Ok(Command::Help(REPORT.help)),
        [protocol, device] => Ok(Command::Report(Pair { protocol: protocol.clone(), device: device.clone(), picture: None })),
        _ => pair(arguments, REPORT).map(Command::Report),
    }
}

fn pair(arguments: &[OsString], usage: Usage) -> Result<Pair, Wrong> {
    let Sorted { files, picture, .. } = sort(arguments, usage, &["--picture"])?;
    let [protocol, device] = two(files, usage, "the device")?;
    Ok(Pair { protocol, device, picture })
}

/// The protocol and the file beside it, which cannot both be standard input.
fn two(files: Vec<OsString>, usage: Usage, other: &str) -> Result<[OsString; 2], Wrong> {
    let files = <[OsString; 2]>::try_from(files).map_err(|_| Wrong::plain(usage))?;
    if files == ["-", "-"] {
        return Err(Wrong::because(usage, format!("standard input cannot be both the protocol and {other}")));
    }
    Ok(files)
}

fn read(arguments: &[OsString]) -> Result<Command, Wrong> {
    let Sorted { files, picture, .. } = sort(arguments, READ, &["--picture"])?;
    let [text] = <[OsString; 1]>::try_from(files).map_err(|_| Wrong::plain(READ))?;
    Ok(Command::Read { text, picture })
}

fn replay(arguments: &[OsString]) -> Result<Command, Wrong> {
    let Sorted { files, picture, setting } = sort(arguments, REPLAY, &["--picture", "--setting"])?;
    let [protocol, log] = two(files, REPLAY, "the log")?;
    let setting = setting.map_or(Some(SETTING), |word| word.to_str()?.parse().ok());
    let wrong = || Wrong::because(REPLAY, "--setting wants a number from 1 to 1000".to_string());
    Ok(Command::Replay(Replay { protocol, log, setting: setting.ok_or_else(wrong)?, picture }))
}

/// Sorts arguments into files and options; an option is known where it is among `options`, and is given once.
fn sort(arguments: &[OsString], usage: Usage, options: &[&str]) -> Result<Sorted, Wrong> {
    let mut sorted = Sorted { files: Vec::new(), picture: None, setting: None };
    let mut rest = arguments.iter();
    while let Some(word) = rest.next() {
        let wrong = |words: &str| Wrong::because(usage, format!("{words} {}", shown_name(word)));
        if !word.as_encoded_bytes().starts_with(b"--") {
            sorted.files.push(word.clone());
            continue;
        }
        let place = match options.iter().find(|&option| word == option) {
            Some(&"--picture") => &mut sorted.picture,
            Some(_) => &mut sorted.setting,
            None => return Err(wrong("there is no option")),
        };
        let value = rest.next().ok_or_else(|| wrong("nothing stands behind"))?;
        if place.replace(value.clone()).is_some() {
            return Err(wrong("given twice:"));
        }
    }
    spared(sorted, usage)
}

/// A picture goes to a file of its own.
fn spared(sorted: Sorted, usage: Usage) -> Result<Sorted, Wrong> {
    let Some(picture) = &sorted.picture else { return Ok(sorted) };
    if picture == "-" {
        return Err(Wrong::because(usage, "--picture wants a file".to_string()));
    }
    let is_same =
        |file: &&OsString| matches!((canonicalize(picture), canonicalize(file)), (Ok(one), Ok(other)) if one == other);
    match sorted.files.iter().find(is_same) {
        Some(file) => Err(Wrong::because(usage, format!("the picture would take the place of {}", shown_name(file)))),
        None => Ok(sorted),
    }
}
