//! Pools after random calls.

use crate::common::{Both, Call};
use crate::random::{next_call, Numbers};

/// The byte that stands in an arena before set up.
pub const OLD: u8 = 0xA5;

/// No store: blocks stay undamaged and groups live long.
pub fn no_store(_: &mut Numbers, _: &Both) -> Option<Call> {
    None
}

/// A pool after a thousand random calls, and as many more as it takes to have a live block.
pub fn sample(seed: u64, arena_len: usize) -> Both {
    let mut numbers = Numbers::new(seed);
    let mut both = Both::new(arena_len, OLD);
    let mut made = 0;
    while made < 1000 || both.second.live().is_empty() {
        both.call(next_call(&mut numbers, &both, no_store)).unwrap();
        made += 1;
    }
    both
}
