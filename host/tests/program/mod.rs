//! A program, run on bytes.

use std::io::Write;
use std::process::{Command, Output, Stdio};
use std::thread;
use std::time::Duration;

/// Runs a program. Its standard input comes in pieces, with a pause between two, while what it prints is read.
pub fn run(command: &mut Command, pieces: &[&[u8]]) -> Output {
    let child = command.stdin(Stdio::piped()).stdout(Stdio::piped()).stderr(Stdio::piped()).spawn();
    let mut child = child.unwrap_or_else(|e| panic!("{command:?} does not start: {e}"));
    let mut input = child.stdin.take().unwrap();
    thread::scope(|threads| {
        threads.spawn(move || {
            for (i, piece) in pieces.iter().enumerate() {
                thread::sleep(Duration::from_millis(if i == 0 { 0 } else { 20 }));
                // a program that has seen enough may be gone
                let _ = input.write_all(piece);
            }
        });
        child.wait_with_output().unwrap()
    })
}
