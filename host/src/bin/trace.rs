//! Makes a field trace of a text with a line for each call, and shows a trace as such lines.

use slotpool::trace;
use std::error::Error;
use std::ffi::OsString;
use std::io::{self, Read, Write};
use std::process::ExitCode;

const USAGE: &str = "\
usage: trace write < calls.txt > calls.trace    makes a trace of a text
       trace show < calls.trace                 shows a trace as such a text, up to what a replay prints as bad
A text has a line for each call, where resize is in place; blank lines are skipped, and what follows a #. Lines:";

type Done = Result<(), Box<dyn Error>>;

fn input() -> io::Result<Vec<u8>> {
    let mut bytes = Vec::new();
    io::stdin().read_to_end(&mut bytes)?;
    Ok(bytes)
}

/// Prints to a reader that may have seen enough and be gone.
fn print(bytes: &[u8]) -> io::Result<()> {
    let mut out = io::stdout();
    match out.write_all(bytes).and_then(|()| out.flush()) {
        Err(e) if e.kind() == io::ErrorKind::BrokenPipe => Ok(()),
        done => done,
    }
}

fn write() -> Done {
    // bytes that are no text do not matter in a comment; elsewhere the line is wrong
    let ops = trace::parse(&String::from_utf8_lossy(&input()?))?;
    Ok(print(&trace::write(&ops))?)
}

fn show() -> Done {
    let (ops, bad) = trace::replayable(&input()?);
    print(trace::text(&ops).as_bytes())?;
    bad.map_or(Ok(()), |bad| Err(bad.into()))
}

/// Says what went wrong, if anybody listens.
fn say(why: impl std::fmt::Display) {
    let _ = writeln!(io::stderr(), "{why}");
}

fn main() -> ExitCode {
    let words: Vec<OsString> = std::env::args_os().skip(1).collect();
    let done = match words.as_slice() {
        [word] if word == "write" => write(),
        [word] if word == "show" => show(),
        _ => {
            say(format_args!("{USAGE} {}", trace::forms()));
            return ExitCode::from(2);
        }
    };
    match done {
        Ok(()) => ExitCode::SUCCESS,
        Err(why) => {
            say(format_args!("trace: {why}"));
            ExitCode::FAILURE
        }
    }
}
