//! A run that went wrong, with fewer calls.

use crate::common::{Both, Call};
use crate::sample::OLD;

fn run(arena_len: usize, calls: &[Call]) -> Result<(), String> {
    let mut both = Both::new(arena_len, OLD);
    calls.iter().try_for_each(|&c| both.call(c).map(drop))
}

/// Fails with the seed and the list of calls, cut down as long as it still goes wrong.
pub fn fail(seed: u64, arena_len: usize, mut calls: Vec<Call>) -> ! {
    let mut part = calls.len() / 2;
    while part > 0 {
        let mut at = 0;
        while at + part <= calls.len() {
            let mut fewer = calls.clone();
            fewer.drain(at..at + part);
            if run(arena_len, &fewer).is_err() {
                calls = fewer;
            } else {
                at += part;
            }
        }
        part /= 2;
    }
    let why = run(arena_len, &calls).unwrap_err();
    panic!("seed {seed}, arena of {arena_len} bytes: {why}\ncalls: {calls:?}");
}
