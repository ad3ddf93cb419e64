//! Starts the tool: see [`sojimu_tool`].

use sojimu_tool::{run, World};
use std::env;
use std::ffi::OsString;
use std::io::{self, BufWriter, IsTerminal};
use std::os::unix::fs::FileTypeExt;
use std::process::ExitCode;

fn main() -> ExitCode {
    let arguments: Vec<OsString> = env::args_os().skip(1).collect();
    let (out, err) = (io::stdout(), io::stderr());
    let wanted =
        env::var_os("NO_COLOR").is_none_or(|set| set.is_empty()) && env::var_os("TERM").is_none_or(|term| term != "dumb");
    let colours = out.is_terminal() && wanted;
    // What reads a pipe may write on the terminal, too.
    let is_piped = std::fs::metadata("/dev/stdout").is_ok_and(|about| about.file_type().is_fifo());
    let progress = err.is_terminal() && !out.is_terminal() && !is_piped;
    let mut world =
        World { input: &mut io::stdin(), out: &mut BufWriter::new(out.lock()), err: &mut err.lock(), colours, progress };
    ExitCode::from(run(&arguments, &mut world))
}
