//! The program `sojimu`, for the installer of a device and the programmer of a gateway: it shows where a text fails, says in words
//! why a device does not fit, puts a recorded conversation through the monitor, and draws all of it.
//!
//! Every answer is the library's: a text is read, a message made, a step taken by the proved code. What is here finds places in
//! texts, and words and lines for the answers; it is tested, not proved, and no proof rests on it. Answers go to standard output,
//! what concerns the program itself to standard error.

mod arguments;
mod described;
mod explain;
mod log;
mod picture;
mod places;
mod play;
mod progress;
mod read;
mod refused;
mod replay;
mod said;
mod sides;
mod style;
mod text;
mod words;

use arguments::{parse, Command};
use std::ffi::{OsStr, OsString};
use std::io::{self, Read, Write};
use style::Style;

/// What the program has around it.
pub struct World<'a> {
    /// Standard input.
    pub input: &'a mut dyn Read,
    /// Standard output.
    pub out: &'a mut dyn Write,
    /// Standard error.
    pub err: &'a mut dyn Write,
    /// Whether answers are coloured.
    pub colours: bool,
    /// Whether the progress of a long log is shown on standard error.
    pub progress: bool,
}

impl World<'_> {
    fn style(&self) -> Style {
        Style { colours: self.colours }
    }
}

/// How a command ends: with one of the statuses, or because something around the program failed.
type Ending = Result<Status, Trouble>;

/// The statuses of answers.
#[derive(Clone, Copy, Debug, PartialEq, Eq)]
enum Status {
    /// The device fits, the text is read, every entry is forwarded.
    Good = 0,
    /// The device does not fit, some entry is not forwarded.
    Bad = 1,
    /// A text is refused, a log breaks off.
    Refused = 2,
}

/// What keeps a command from its answer.
enum Trouble {
    /// A file that cannot be read, by its name.
    Unreadable(String),
    /// A file that cannot be written, by its name.
    Unwritable(String, io::Error),
    /// Standard output takes no more.
    Output(io::Error),
}

impl From<io::Error> for Trouble {
    fn from(error: io::Error) -> Trouble {
        Trouble::Output(error)
    }
}

/// Runs the program on its arguments, without its own name, and gives its status.
pub fn run(arguments: &[OsString], world: &mut World) -> u8 {
    let ending = match parse(arguments) {
        Ok(command) => answer(&command, world),
        Err(wrong) => {
            // Where standard error takes nothing there is nowhere to say so.
            world.err.write_all(wrong.said().as_bytes()).ok();
            return 2;
        }
    };
    match ending.and_then(|status| world.out.flush().map(|()| status).map_err(Trouble::Output)) {
        Ok(status) => status as u8,
        Err(trouble) => told(&trouble, world.err),
    }
}

fn answer(command: &Command, world: &mut World) -> Ending {
    match command {
        Command::Help(help) => {
            world.out.write_all(help.as_bytes())?;
            Ok(Status::Good)
        }
        Command::Report(pair) => explain::report(pair, world),
        Command::Explain(pair) => explain::explain(pair, world),
        Command::Read { text, picture } => read::read(text, picture.as_deref(), world),
        Command::Replay(replay) => replay::replay(replay, world),
        Command::Questions => {
            world.out.write_all(words::questions().as_bytes())?;
            Ok(Status::Good)
        }
    }
}

/// Says what is in the way, and gives the status that goes with it. Who no longer listens is told nothing.
fn told(trouble: &Trouble, err: &mut dyn Write) -> u8 {
    let (status, words) = match trouble {
        Trouble::Unreadable(name) => (2, format!("cannot read {name}")),
        Trouble::Unwritable(name, error) => (3, format!("cannot write {name}: {error}")),
        Trouble::Output(error) if error.kind() == io::ErrorKind::BrokenPipe => return 3,
        Trouble::Output(error) => (3, format!("cannot write the answer: {error}")),
    };
    writeln!(err, "sojimu: {words}").ok();
    status
}

/// Writes a picture where one is asked for.
fn write_picture(path: Option<&OsStr>, draw: impl FnOnce() -> String) -> Result<(), Trouble> {
    let Some(path) = path else { return Ok(()) };
    std::fs::write(path, draw()).map_err(|error| Trouble::Unwritable(text::shown_name(path), error))
}

/// Says of a picture that was asked for that there is none.
fn not_drawn(path: Option<&OsStr>, world: &mut World) {
    if let Some(path) = path {
        writeln!(world.err, "sojimu: {} is not drawn", text::shown_name(path)).ok();
    }
}

/// Ends with a refusal, which is not drawn.
fn refuse(refusal: &str, picture: Option<&OsStr>, world: &mut World) -> Ending {
    world.out.write_all(refusal.as_bytes())?;
    not_drawn(picture, world);
    Ok(Status::Refused)
}
