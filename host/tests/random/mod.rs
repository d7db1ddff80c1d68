//! Random calls on a pool, drawn with what the second implementation knows of it.

pub mod lists;

use crate::common::{resizes, Answer, Both, Call};
use lists::{fault, list};
use slotpool_reference::{rows_of, slot_bytes, start_of, ORDINARY, TOO_LARGE};
use std::collections::{BTreeMap, BTreeSet};

/// A small generator of numbers, the same on every machine.
pub struct Numbers(u64);

impl Numbers {
    pub fn new(seed: u64) -> Numbers {
        Numbers(seed.wrapping_mul(0x9E37_79B9_7F4A_7C15) | 1)
    }

    pub fn next(&mut self) -> u64 {
        self.0 ^= self.0 << 13;
        self.0 ^= self.0 >> 7;
        self.0 ^= self.0 << 17;
        self.0
    }

    pub fn below(&mut self, n: usize) -> usize {
        (self.next() % n as u64) as usize
    }

    pub fn one_in(&mut self, n: usize) -> bool {
        self.below(n) == 0
    }

    pub fn of<T: Copy>(&mut self, list: &[T]) -> T {
        list[self.below(list.len())]
    }
}

/// A size at or near the edge of a class, or any.
fn size(numbers: &mut Numbers, arena_len: usize) -> usize {
    match numbers.below(10) {
        0 => numbers.of(&[0, 1, 3, 4, 5, 12, 13, 131_051, 131_052, 131_053, usize::MAX, usize::MAX - 3]),
        1..=5 => {
            let most = (0..48).rev().find(|&c| 512 * rows_of(c) <= arena_len).unwrap_or(0);
            let c = numbers.below(most + 1);
            (slot_bytes(c) - 4 + numbers.below(7)).saturating_sub(3 + numbers.below(24))
        }
        6..=8 => numbers.below(300),
        _ => numbers.below(TOO_LARGE),
    }
}

/// An alignment that sets the start, more often a small one, for which the arena has room; or one that does not; or what is none.
fn alignment(numbers: &mut Numbers, arena_len: usize) -> usize {
    match numbers.below(12) {
        0 => numbers.of(&[0, 3, 24, 33, 48, 4095, 4097, 8192, 1 << (usize::BITS - 1), usize::MAX]),
        1 => numbers.of(&[1, 2, 4, 8, 16]),
        2 => 32 << numbers.below(8),
        _ => {
            let most = (1 + (arena_len / 512).ilog2() as usize).min(8);
            32 << numbers.below(most).min(numbers.below(most))
        }
    }
}

/// A size near that which is too large, at or near an edge, or any; by itself or, as often, once it is enlarged for an alignment.
fn aligned_size(numbers: &mut Numbers, arena_len: usize, align: usize) -> usize {
    let n = if numbers.one_in(6) { TOO_LARGE - 2 + numbers.below(5) } else { size(numbers, arena_len) };
    if numbers.one_in(2) {
        n
    } else {
        n.saturating_sub(align.saturating_sub(ORDINARY))
    }
}

/// A grant, of a block like a live one, which makes groups full, and refills them, or of any.
fn grant(numbers: &mut Numbers, both: &Both) -> Call {
    let (live, len) = (both.second.live(), both.first.arena.len());
    let again = (!live.is_empty() && numbers.one_in(2)).then(|| numbers.of(&live));
    let like = again.map(|(handle, _)| both.second.alignment(handle)).filter(|&align| align > ORDINARY);
    let align = if numbers.one_in(3) { Some(alignment(numbers, len)) } else { like };
    let n = match again {
        Some((_, n)) => n,
        None => aligned_size(numbers, len, align.unwrap_or(ORDINARY)),
    };
    align.map_or(Call::Grant(n), |align| Call::GrantAligned(n, align))
}

/// Old handles of blocks whose start is another block's now.
fn stale(both: &Both) -> Vec<usize> {
    let live = both.second.live();
    let other = |old: usize| live.iter().any(|&(handle, _)| handle != old && start_of(handle) == start_of(old));
    both.old.iter().copied().filter(|&old| other(old)).collect()
}

/// A live handle or one with any bits, a freed start with any bits, an old handle, more often if it is stale, a number near a live handle, or any.
fn handle(numbers: &mut Numbers, both: &Both) -> usize {
    let live = both.second.live();
    let freed = both.second.freed();
    match numbers.below(26) {
        0..=15 if !live.is_empty() => numbers.of(&live).0,
        16 if !live.is_empty() => start_of(numbers.of(&live).0) + numbers.below(16),
        17..=18 if !freed.is_empty() => numbers.of(&freed) + numbers.below(16),
        19..=20 if !stale(both).is_empty() => numbers.of(&stale(both)),
        19..=21 if !both.old.is_empty() => numbers.of(&both.old),
        22 if !live.is_empty() => (numbers.of(&live).0 + numbers.below(65)).saturating_sub(32),
        23 => 16 * numbers.below(both.first.arena.len() / 16 + 4),
        24 => numbers.below(both.first.arena.len() + 64),
        _ => numbers.of(&[0, 1, 15, 16, 17, 511, 512, usize::MAX, usize::MAX - 16, both.first.arena.len(), both.first.arena.len() - 1]),
    }
}

/// A live block that has requested bytes, if there is one: start, not handle, and size.
pub fn block(numbers: &mut Numbers, both: &Both) -> Option<(usize, usize)> {
    let blocks: Vec<_> = both.second.live().into_iter().filter(|b| b.1 > 0).map(|(handle, n)| (start_of(handle), n)).collect();
    (!blocks.is_empty()).then(|| numbers.of(&blocks))
}

/// The engine that a pool serves: its next store, if it makes one.
pub type Engine = fn(&mut Numbers, &Both) -> Option<Call>;

/// The next call on a pool, or a store of its engine.
pub fn next_call(numbers: &mut Numbers, both: &Both, engine: Engine) -> Call {
    if numbers.one_in(10) {
        return Call::GrantList(list(numbers, both));
    }
    let live = both.second.live();
    let totals = both.second.report();
    let crowded = totals.rows_free == 0 && totals.ready_slots == 0;
    match numbers.below(100) {
        0..=37 if !crowded || numbers.one_in(3) => grant(numbers, both),
        0..=62 => Call::Release(handle(numbers, both)),
        63..=80 => {
            let h = handle(numbers, both);
            let old = live.iter().find(|b| start_of(b.0) == start_of(h)).map_or(0, |b| b.1);
            let n = match numbers.below(5) {
                0 => old,
                1 => (old + numbers.below(40)).saturating_sub(20),
                2 => old / 2 + numbers.below(old + 1),
                _ => aligned_size(numbers, both.first.arena.len(), both.second.alignment(h)),
            };
            numbers.of(&resizes(h, n))
        }
        81..=87 => Call::Measure(handle(numbers, both)),
        88..=89 => Call::Report,
        90 if numbers.one_in(20) => Call::SetUp,
        _ => engine(numbers, both).unwrap_or(Call::Report),
    }
}

/// How often each kind of call had each answer.
pub type Seen = BTreeMap<String, usize>;

/// A call and its answer's number; for a list, what is wrong with it, and of a stale handle, whether it is old. The pool is as the call left it.
pub fn kind(call: Call, answer: &Answer, both: &Both) -> String {
    let told = match answer {
        Answer::Refused(r) => *r as usize,
        _ => 0,
    };
    let enlarged = |n| if told == 3 && n < TOO_LARGE { " once enlarged" } else { "" };
    let old = |h| if told == 10 && both.old.contains(&h) { " by an old handle" } else { "" };
    let resized = |name, h, n| {
        let now = if let Answer::Value(v) = answer { *v } else { h };
        format!("{}{name} {told}{}{}", aligned(both, now), enlarged(n), old(h))
    };
    match (call, answer) {
        (Call::SetUp, _) => format!("set up {told}"),
        (Call::Grant(_), _) => format!("grant {told}"),
        (Call::GrantAligned(_, 1..=ORDINARY), _) if told != 13 => format!("aligned as any {told}"),
        (Call::GrantAligned(n, _), _) => format!("aligned {told}{}", enlarged(n)),
        (Call::GrantList(list), _) => format!("list {told}{}", fault(&list).map_or(String::new(), |what| format!(" by {what}"))),
        (Call::Release(h), _) => format!("release {told}{}", old(h)),
        (Call::InPlace(h, n), _) => resized("in place", h, n),
        (Call::Move(h, n), _) => resized("move", h, n),
        (Call::Measure(h), _) => format!("measure {told}{}", old(h)),
        (Call::Report, _) => format!("report {told}"),
        (Call::Store(..), _) => "store".to_string(),
    }
}

/// Says whether the block at a handle's start is live and aligned.
fn aligned(both: &Both, handle: usize) -> &'static str {
    if both.second.alignment(handle) > ORDINARY {
        "aligned "
    } else {
        ""
    }
}

/// Every answer of every call but set up while no block is damaged, and every cause of a list's 9 and 17.
pub const UNDAMAGED: [&str; 58] = [
    "grant 0",
    "grant 3",
    "grant 8",
    "aligned as any 0",
    "aligned as any 3",
    "aligned as any 8",
    "aligned 0",
    "aligned 13",
    "aligned 3",
    "aligned 3 once enlarged",
    "aligned 8",
    "list 0",
    "list 8",
    "list 9 by few places",
    "list 9 by the cap",
    "list 9 by the length",
    "list 17 by many sizes",
    "list 17 by a size of 0",
    "list 17 by a sum that wraps",
    "list 17 by a size over the cap",
    "list 17 by another sum",
    "release 0",
    "release 4",
    "release 5",
    "release 10",
    "release 10 by an old handle",
    "in place 0",
    "in place 3",
    "in place 4",
    "in place 5",
    "in place 10",
    "in place 10 by an old handle",
    "in place 11",
    "aligned in place 0",
    "aligned in place 3",
    "aligned in place 3 once enlarged",
    "aligned in place 10",
    "aligned in place 10 by an old handle",
    "aligned in place 11",
    "move 0",
    "move 3",
    "move 4",
    "move 5",
    "move 10",
    "move 10 by an old handle",
    "move 8",
    "aligned move 0",
    "aligned move 3",
    "aligned move 3 once enlarged",
    "aligned move 10",
    "aligned move 10 by an old handle",
    "aligned move 8",
    "measure 0",
    "measure 4",
    "measure 5",
    "measure 10",
    "measure 10 by an old handle",
    "report 0",
];

/// Fails if an answer that is due was not seen, or if any other was.
pub fn all_seen<'a>(seen: &Seen, due: impl IntoIterator<Item = &'a str>) {
    let due: BTreeSet<&str> = due.into_iter().collect();
    let were: BTreeSet<&str> = seen.keys().map(String::as_str).collect();
    assert_eq!(were, due, "answers that were seen, and those due");
}
