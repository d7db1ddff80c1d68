//! One pool in both implementations, the library's by each of its two engines: answers, whole arenas, tables, records and totals are compared at every
//! call.

use slotpool::{room_len, Handle, PlainPool, Pool, Refusal, Totals};
use slotpool_reference::{Reference, Tables};
use std::fmt;

/// A gather list that is asked for: a proposal, and how many places are lent for the handles.
#[derive(Clone, Copy, PartialEq)]
pub struct List {
    pub length: usize,
    pub cap: usize,
    sizes: [usize; List::MOST],
    count: usize,
    pub places: usize,
}

impl List {
    /// The most sizes that a proposal has here.
    pub const MOST: usize = 20;

    pub fn new(length: usize, cap: usize, sizes: &[usize], places: usize) -> List {
        let mut list = List { length, cap, sizes: [0; List::MOST], count: sizes.len(), places };
        list.sizes[..sizes.len()].copy_from_slice(sizes);
        list
    }

    pub fn sizes(&self) -> &[usize] {
        &self.sizes[..self.count]
    }
}

impl fmt::Debug for List {
    fn fmt(&self, f: &mut fmt::Formatter<'_>) -> fmt::Result {
        write!(f, "List::new({}, {}, &{:?}, {})", self.length, self.cap, self.sizes(), self.places)
    }
}

/// What stands in a lent list.
pub type Lent = [usize; 40];

/// A lent list before a call: no two places are the same, and none is a handle or a size.
pub fn lent<const N: usize>() -> [usize; N] {
    std::array::from_fn(|i| 1_000_001 + i)
}

/// A call. Handles are numbers here: any number can be given for one.
#[derive(Clone, Copy, Debug, PartialEq)]
pub enum Call {
    SetUp,
    Grant(usize),
    GrantAligned(usize, usize),
    GrantList(List),
    Release(usize),
    InPlace(usize, usize),
    Move(usize, usize),
    Measure(usize),
    Report,
    /// A byte that the engine, not the pool, writes to a place in the arena.
    Store(usize, u8),
}

/// The calls that give a block another size.
pub fn resizes(handle: usize, n: usize) -> [Call; 2] {
    [Call::InPlace(handle, n), Call::Move(handle, n)]
}

#[derive(Clone, Copy, Debug, PartialEq)]
pub enum Answer {
    Done,
    Value(usize),
    Totals(Totals),
    Refused(Refusal),
}

fn value(r: Result<usize, Refusal>) -> Answer {
    r.map_or_else(Answer::Refused, Answer::Value)
}

fn handle(r: Result<Handle, Refusal>) -> Answer {
    value(r.map(Handle::raw))
}

fn unit(r: Result<(), Refusal>) -> Answer {
    r.map_or_else(Answer::Refused, |()| Answer::Done)
}

/// How many places of a lent list a call writes.
fn entries(call: Call, answer: Answer) -> usize {
    match (call, answer) {
        (Call::GrantList(_), Answer::Value(entries)) => entries,
        _ => 0,
    }
}

/// The handle that a call has made old, if it has: that of a block which was released or moved.
fn ended(call: Call, answer: Answer) -> Option<usize> {
    match (call, answer) {
        (Call::Release(old), Answer::Done) | (Call::Move(old, _), Answer::Value(_)) => Some(old),
        _ => None,
    }
}

/// What the library is lent for a pool of the first engine or, with no record, of the plain one.
#[derive(Clone, PartialEq)]
pub struct Buffers<R = Totals> {
    pub arena: Vec<u8>,
    pub room: Vec<u8>,
    pub totals: R,
}

/// The record that a pool is lent, or none: each belongs to an engine.
pub trait Record: Clone + PartialEq + fmt::Debug {
    const ENGINE: &'static str;

    /// What stands there before set up.
    fn old(old: u8) -> Self;

    /// The size of the engine's room.
    fn room_len(arena_len: usize) -> usize;

    /// The room and the record of some tables, which need not be sound.
    fn saying(tables: &Tables) -> (Vec<u8>, Self);

    /// The engine's answer to a call.
    fn call(buffers: &mut Buffers<Self>, lent: &mut Lent, call: Call) -> Answer;
}

/// The answer of a pool of either engine to a call, over what it is lent.
macro_rules! answer {
    ($pool:ident($arena:ident, $room:ident $(, $totals:ident)?), $lent:ident, $call:ident) => {{
        let mut pool = $pool::over($arena, $room $(, $totals)?);
        match $call {
            Call::SetUp => unit($pool::set_up($arena, $room $(, $totals)?).map(drop)),
            Call::Grant(n) => handle(pool.grant(n)),
            Call::GrantAligned(n, align) => handle(pool.grant_aligned(n, align)),
            Call::GrantList(l) => {
                let mut handles = $lent.map(Handle::from_raw);
                let entries = pool.grant_list(l.length, l.cap, l.sizes(), &mut handles[..l.places]);
                *$lent = handles.map(Handle::raw);
                value(entries)
            }
            Call::Release(h) => unit(pool.release(Handle::from_raw(h))),
            Call::InPlace(h, n) => handle(pool.resize_in_place(Handle::from_raw(h), n)),
            Call::Move(h, n) => handle(pool.move_block(Handle::from_raw(h), n)),
            Call::Measure(h) => value(pool.measure(Handle::from_raw(h))),
            Call::Report => pool.report().map_or_else(Answer::Refused, Answer::Totals),
            Call::Store(at, byte) => {
                $arena[at] = byte;
                Answer::Done
            }
        }
    }};
}

impl Record for Totals {
    const ENGINE: &'static str = "first";

    fn old(old: u8) -> Totals {
        let n = usize::from(old);
        Totals { live_blocks: n, requested_bytes: n + 1, rows_held: n + 2, rows_free: n + 3, ready_slots: n + 4, waiting_slots: n + 5 }
    }

    fn room_len(arena_len: usize) -> usize {
        room_len(arena_len)
    }

    fn saying(tables: &Tables) -> (Vec<u8>, Totals) {
        (tables.write(), tables.totals())
    }

    fn call(Buffers { arena, room, totals }: &mut Buffers, lent: &mut Lent, call: Call) -> Answer {
        answer!(Pool(arena, room, totals), lent, call)
    }
}

impl Record for () {
    const ENGINE: &'static str = "plain";

    fn old(_: u8) {}

    fn room_len(arena_len: usize) -> usize {
        PlainPool::room_len(arena_len)
    }

    fn saying(tables: &Tables) -> (Vec<u8>, ()) {
        (tables.write_plain(), ())
    }

    fn call(Buffers { arena, room, .. }: &mut Buffers<()>, lent: &mut Lent, call: Call) -> Answer {
        answer!(PlainPool(arena, room), lent, call)
    }
}

impl<R: Record> Buffers<R> {
    /// Buffers of a lawful length and a record, with old bytes and numbers in them.
    pub fn old(arena_len: usize, old: u8) -> Buffers<R> {
        Buffers { arena: vec![old; arena_len], room: vec![!old; R::room_len(arena_len)], totals: R::old(old) }
    }

    /// The engine's answer to a call.
    pub fn call(&mut self, lent: &mut Lent, call: Call) -> Answer {
        R::call(self, lent, call)
    }

    /// Says what is wrong after a call: an answer that is not the one due, anything that is not as the second implementation left it, or a change by
    /// a refusal.
    fn compare(&mut self, before: Buffers<R>, answer: Answer, due: Answer, second: &Reference) -> Result<(), String> {
        let engine = R::ENGINE;
        if answer != due {
            return Err(format!("the {engine} engine answers {answer:?}, the second implementation {due:?}"));
        }
        if self.arena != second.arena {
            let at = (0..self.arena.len()).find(|&i| self.arena[i] != second.arena[i]).unwrap();
            return Err(format!("byte {at} of the {engine} engine's arena is {} and should be {}", self.arena[at], second.arena[at]));
        }
        let (room, record) = R::saying(&second.tables());
        if self.room != room {
            return Err(format!("the tables of the {engine} engine differ"));
        }
        if self.totals != record {
            return Err(format!("{answer:?}: the record is {:?} and should be {record:?}", self.totals));
        }
        if matches!(answer, Answer::Refused(_)) && *self != before {
            return Err(format!("the {engine} engine refuses, and something changed"));
        }
        let (told, totals) = (self.call(&mut lent(), Call::Report), second.report());
        if told != Answer::Totals(totals) {
            return Err(format!("report of the {engine} engine gives {told:?} and should give {totals:?}"));
        }
        Ok(())
    }
}

/// The second implementation's answer to a call.
fn second(pool: &mut Reference, lent: &mut Lent, call: Call) -> Answer {
    match call {
        Call::SetUp => {
            *pool = Reference::set_up(pool.arena.len());
            Answer::Done
        }
        Call::Grant(n) => value(pool.grant(n)),
        Call::GrantAligned(n, align) => value(pool.grant_aligned(n, align)),
        Call::GrantList(l) => value(pool.grant_list(l.length, l.cap, l.sizes(), &mut lent[..l.places])),
        Call::Release(h) => unit(pool.release(h)),
        Call::InPlace(h, n) => value(pool.resize_in_place(h, n)),
        Call::Move(h, n) => value(pool.move_block(h, n)),
        Call::Measure(h) => value(pool.measure(h)),
        Call::Report => Answer::Totals(pool.report()),
        Call::Store(at, byte) => {
            pool.arena[at] = byte;
            Answer::Done
        }
    }
}

/// One pool in both implementations, the library's by each of its engines.
#[derive(Clone)]
pub struct Both {
    pub first: Buffers,
    pub plain: Buffers<()>,
    pub second: Reference,
    /// The lent list after the last call, in each.
    pub lent: [Lent; 3],
    /// Handles of blocks that were released or moved, the latest last; of a long run no more than the latest.
    pub old: Vec<usize>,
}

impl Both {
    /// How many old handles are kept.
    const MOST_OLD: usize = 64;

    /// A fresh pool, set up over old bytes and numbers, which differ between the engines.
    pub fn new(arena_len: usize, old: u8) -> Both {
        let second = Reference::set_up(arena_len);
        let (first, plain) = (Buffers::old(arena_len, old), Buffers::old(arena_len, !old));
        let mut both = Both { first, plain, second, lent: [lent(); 3], old: Vec::new() };
        both.call(Call::SetUp).expect("a lawful arena");
        both
    }

    /// Makes a call in each and gives the answers, the second implementation's last.
    pub fn make(&mut self, call: Call) -> [Answer; 3] {
        self.lent = [lent(); 3];
        let [first, plain, second_lent] = &mut self.lent;
        let answers = [self.first.call(first, call), self.plain.call(plain, call), second(&mut self.second, second_lent, call)];
        self.old.extend(ended(call, answers[2]));
        self.old.drain(..self.old.len().saturating_sub(Both::MOST_OLD));
        answers
    }

    /// Makes a call in each and gives its answer, or says where they differ or what should not have changed.
    pub fn call(&mut self, call: Call) -> Result<Answer, String> {
        let (first, plain) = (self.first.clone(), self.plain.clone());
        let answers = self.make(call);
        let due = answers[2];
        let right = self.first.compare(first, answers[0], due, &self.second);
        right.and_then(|()| self.plain.compare(plain, answers[1], due, &self.second)).map_err(|why| format!("{call:?}: {why}"))?;
        let (before, [first, plain, written]): (Lent, _) = (lent(), self.lent);
        let entries = entries(call, due);
        if [first, plain] != [written; 2] || written[entries..] != before[entries..] {
            return Err(format!("{call:?}: {due:?}: the lent lists are {first:?} and {plain:?} and should be {written:?}"));
        }
        Ok(due)
    }
}
