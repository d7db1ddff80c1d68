//! Demand 3, run: one list of calls, twice, from fresh pools that were set up over different old bytes and records, with different stores of the engine
//! into requested bytes of live blocks. After every call the two runs agree in all but those bytes.

mod common;
mod random;

use common::{Answer, Both, Call};
use random::{all_seen, block, kind, next_call, Numbers, Seen, UNDAMAGED};
use slotpool::Refusal;
use slotpool_reference::start_of;

/// Some bytes of a block, by their numbers in it: where they are in the arena.
fn requested(handle: usize, from: usize, to: usize) -> (usize, usize) {
    let start = start_of(handle);
    (start + from, start + to)
}

/// One of the two runs, beside the second implementation, with the numbers that its engine stores.
struct Run {
    both: Both,
    engine: Numbers,
}

impl Run {
    fn new(arena_len: usize, old: u8, seed: u64) -> Run {
        Run { both: Both::new(arena_len, old), engine: Numbers::new(seed) }
    }

    /// Stores into a part of a live block's requested bytes, often all of them.
    fn store(&mut self) {
        let Some((start, n)) = block(&mut self.engine, &self.both) else { return };
        let from = if self.engine.one_in(2) { 0 } else { self.engine.below(n) };
        let to = if self.engine.one_in(2) { n } else { from + self.engine.below(n - from) };
        for at in start + from..start + to {
            self.both.make(Call::Store(at, self.engine.next() as u8));
        }
    }

    /// Some stores, then the call: its answer, or what is wrong with it.
    fn step(&mut self, call: Call) -> Result<Answer, String> {
        for _ in 0..self.engine.below(3) {
            self.store();
        }
        let live = self.both.second.live();
        let answer = self.both.call(call)?;
        if let Answer::Refused(Refusal::Unsound | Refusal::HeaderDamaged | Refusal::Overrun) = answer {
            return Err(format!("{call:?}: {answer:?}, which is never due here"));
        }
        for (from, to) in self.gained(&live, call, answer) {
            if self.both.first.arena[from..to].iter().any(|&b| b != 0) {
                return Err(format!("{call:?}: {answer:?}: not all gained bytes {from} to {to} are zero"));
            }
        }
        Ok(answer)
    }

    /// From where to where blocks have gained bytes by a call, before which these ones were live.
    fn gained(&self, live: &[(usize, usize)], call: Call, answer: Answer) -> Vec<(usize, usize)> {
        match (call, answer) {
            (Call::Grant(n) | Call::GrantAligned(n, _), Answer::Value(handle)) => vec![requested(handle, 0, n)],
            (Call::GrantList(list), Answer::Value(_)) => {
                list.sizes().iter().zip(self.both.lent[0]).map(|(&n, handle)| requested(handle, 0, n)).collect()
            }
            (Call::InPlace(before, n) | Call::Move(before, n), Answer::Value(handle)) => {
                let old = live.iter().find(|b| b.0 == before).map_or(0, |b| b.1);
                vec![requested(handle, old.min(n), n)]
            }
            _ => Vec::new(),
        }
    }

    /// The arena with zero for the requested bytes of live blocks.
    fn outside(&self) -> Vec<u8> {
        let mut bytes = self.both.first.arena.clone();
        for (handle, n) in self.both.second.live() {
            let (from, to) = requested(handle, 0, n);
            bytes[from..to].fill(0);
        }
        bytes
    }
}

/// The call in both runs: its answer, or where they differ.
fn step([one, other]: &mut [Run; 2], call: Call) -> Result<Answer, String> {
    let (answer, second) = (one.step(call)?, other.step(call)?);
    if answer != second {
        return Err(format!("{call:?}: {answer:?} in one run, {second:?} in the other"));
    }
    if one.both.lent != other.both.lent {
        return Err(format!("{call:?}: the lent lists of the runs differ"));
    }
    if one.both.first.room != other.both.first.room || one.both.plain.room != other.both.plain.room {
        return Err(format!("{call:?}: the tables of the runs differ"));
    }
    if one.both.first.totals != other.both.first.totals {
        return Err(format!("{call:?}: the records of the runs differ"));
    }
    if let Some(at) = one.outside().iter().zip(&other.outside()).position(|(a, b)| a != b) {
        return Err(format!("{call:?}: byte {at}, which no live block has requested, differs in the runs"));
    }
    Ok(answer)
}

/// Runs a list of calls twice. Gives after how many of them the requested bytes were different in the runs.
fn twice(seed: u64, arena_len: usize, calls: usize, seen: &mut Seen) -> usize {
    let mut numbers = Numbers::new(seed);
    let mut runs = [Run::new(arena_len, 0xA5, numbers.next()), Run::new(arena_len, 0x5A, numbers.next())];
    let mut different = 0;
    for made in 0..calls {
        let call = next_call(&mut numbers, &runs[0].both, |_, _| None);
        match step(&mut runs, call) {
            Ok(answer) => *seen.entry(kind(call, &answer, &runs[0].both)).or_default() += 1,
            Err(why) => panic!("seed {seed}, arena of {arena_len} bytes, after {made} calls: {why}"),
        }
        different += usize::from(runs[0].both.first.arena != runs[1].both.first.arena);
    }
    different
}

#[test]
fn stores_into_requested_bytes_change_nothing_else() {
    let lengths = [512, 1024, 2048, 4096, 8192, 16_384, 4096, 8192, 131_072, 262_144];
    let mut seen = Seen::new();
    let (mut made, mut different) = (0, 0);
    let mut seed = 0;
    while made < 200_000 {
        seed += 1;
        let len = lengths[seed % lengths.len()];
        let calls = if len > 16_384 { 200 } else { 2000 };
        let differed = twice(seed as u64, len, calls, &mut seen);
        assert!(differed > 0, "seed {seed}: the runs were the same in all bytes");
        made += calls;
        different += differed;
    }
    println!("{made} calls in {seed} pools, each in two runs; after {different} of them the requested bytes were different: {seen:?}");
    assert!(different > made / 2, "the runs were mostly the same in all bytes");
    all_seen(&seen, UNDAMAGED.into_iter().chain(["set up 0"]));
}
