//! Old handles, beside the second implementation: after how many grants of a slot they are refused as stale and after how many taken again, and
//! which answers come before and after. What is due is computed here from the rule: a handle is the start plus the slot's use count before the
//! grant, modulo 16, and an ordinary block is displaced by that count, modulo 256, modulo the places that it has in its slot.

mod common;
mod due;
mod random;
mod sample;

use common::Answer::{self, Done, Refused, Value};
use common::Call::{self, Grant, GrantAligned, InPlace, Measure, Move, Release, Store};
use common::{resizes, Both, List};
use due::due;
use random::{all_seen, kind, next_call, Numbers, Seen, UNDAMAGED};
use sample::{no_store, sample, OLD};
use slotpool::Handle;
use slotpool::Refusal::{self, AlreadyFree, HeaderDamaged, NoRoom, NoSuchBlock, NotInPlace, Overrun, Stale, TooLarge};
use slotpool_reference::{class_of, rows_of, slot_bytes, slots_of, start_of, ENTRIES, TOO_LARGE};
use std::collections::BTreeSet;

/// Every call on a block, with some size where it takes one.
fn calls_on(handle: usize, n: usize) -> Vec<Call> {
    [[Measure(handle), Release(handle)], resizes(handle, n)].concat()
}

/// Each call with the same refusal.
fn all_refused(calls: Vec<Call>, why: Refusal) -> impl Iterator<Item = (Call, Answer)> {
    calls.into_iter().map(move |call| (call, Refused(why)))
}

/// A full group of blocks of one size. Its last slot is granted again and again, and the others keep the group.
struct Regranted {
    both: Both,
    n: usize,
    begin: usize,
    places: usize,
}

impl Regranted {
    fn new(n: usize) -> Regranted {
        let class = class_of(n);
        let begins = (0..slots_of(class)).map(|i| 16 + i * slot_bytes(class));
        let mut both = Both::new(512 * rows_of(class), OLD);
        due(&mut both, begins.clone().map(|begin| (Grant(n), Value(begin))));
        let begin = begins.skip(1).last().expect("another slot keeps the group");
        Regranted { both, n, begin, places: 1 + (slot_bytes(class) - 4 - n) / 16 }
    }

    /// The handle of the slot's block that so many came before.
    fn handle(&self, before: usize) -> usize {
        self.begin + 16 * (before % 256 % self.places) + before % 16
    }

    fn release(&mut self, before: usize) {
        let handle = self.handle(before);
        due(&mut self.both, [(Release(handle), Done)]);
    }

    fn grant(&mut self, before: usize) {
        let handle = self.handle(before);
        due(&mut self.both, [(Grant(self.n), Value(handle))]);
    }

    /// Makes calls with an old handle while another is live, or the same again. They leave the pool as it is; gives the answer to a measure.
    fn while_live(&mut self, old: usize, live: usize) -> Answer {
        if old == live {
            due(&mut self.both, [(Measure(old), Value(self.n)), (InPlace(old, self.n), Value(live))]);
            return Value(self.n);
        }
        let why = if start_of(old) == start_of(live) { Stale } else { NoSuchBlock };
        due(&mut self.both, all_refused(calls_on(old, self.n), why));
        Refused(why)
    }

    /// Makes calls with an old handle while the slot waits, after a block with the last one.
    fn while_waiting(&mut self, old: usize, last: usize) {
        let why = if start_of(old) == start_of(last) { AlreadyFree } else { NoSuchBlock };
        due(&mut self.both, all_refused(calls_on(old, self.n), why));
    }
}

/// How many grants lie between an old handle and the present one: all that are told apart, and some about the turns of bits and count.
fn distances(granted: usize) -> impl Iterator<Item = usize> {
    (1..=17).chain([31, 32, 33, 48, 80, 255, 256, 257, 272]).filter(move |&distance| distance <= granted)
}

/// Grants the slot again until its count has come round, and tries old handles at every step: after how many grants, how old, and the answer while
/// the new block was live.
fn regrant(slot: &mut Regranted) -> Vec<(usize, usize, Answer)> {
    let mut tried = Vec::new();
    for granted in 1..300 {
        slot.release(granted - 1);
        for distance in distances(granted) {
            slot.while_waiting(slot.handle(granted - distance), slot.handle(granted - 1));
        }
        slot.grant(granted);
        for distance in distances(granted) {
            tried.push((granted, distance, slot.while_live(slot.handle(granted - distance), slot.handle(granted))));
        }
    }
    tried
}

#[test]
fn old_handles_of_a_slot() {
    let mut seen = BTreeSet::new();
    // one place in the slot, then two, five and three; groups of 31, 21, 10 and 2 slots
    for n in [12, 188, 2028, 160, 317, 1984] {
        let mut slot = Regranted::new(n);
        for (granted, distance, answer) in regrant(&mut slot) {
            let told = format!("blocks of {n} bytes, {distance} grants before grant {granted}");
            // until the count comes round, the start comes again after as many grants as there are places, and after a whole round in any case
            if granted < 256 || distance == 256 {
                let same_start = distance % slot.places == 0 || distance == 256;
                let due = if distance % 16 == 0 { Value(n) } else { Refused(Stale) };
                assert_eq!(answer, if same_start { due } else { Refused(NoSuchBlock) }, "{told}");
            }
            assert!(distance % 16 == 0 || answer != Value(n), "{told}");
            seen.insert((n, format!("{answer:?}")));
        }
    }
    println!("{seen:?}");
    assert_eq!(seen.len(), 3 * 2 + 3 * 3, "for each size old handles are stale and taken again, and of no block where the start moves");
}

#[test]
fn the_bits_of_every_count() {
    // the tables hold the count after the grant, which comes round to 0: one of the 16 handles with the block's start is taken
    let slot = Regranted::new(2028);
    for count in 0..=255 {
        let mut both = slot.both.clone();
        both.second.groups[0].slots[1].count = count;
        let tables = both.second.tables();
        (both.first.room, both.plain.room) = (tables.write(), tables.write_plain());
        let present = slot.begin + (usize::from(count) + 15) % 16;
        for handle in (slot.begin..slot.begin + 16).filter(|&handle| handle != present) {
            due(&mut both, all_refused(calls_on(handle, 2028), Stale));
        }
        due(&mut both, [(Measure(present), Value(2028)), (InPlace(present, 2000), Value(present)), (Release(present), Done)]);
        // the next block has the next bits
        due(&mut both, [(Grant(2028), Value(slot.begin + usize::from(count) % 16))]);
    }
}

/// What calls on a handle are refused with, by the blocks that are live and those that were freed; nothing if it is a live block's.
fn refused_with(both: &Both, handle: usize) -> Option<Refusal> {
    let live = both.second.live();
    let is_live = live.iter().any(|block| block.0 / 16 == handle / 16);
    let why = match (is_live, both.second.freed().contains(&(16 * (handle / 16)))) {
        (true, _) => Stale,
        (_, true) => AlreadyFree,
        _ => NoSuchBlock,
    };
    live.iter().all(|block| block.0 != handle).then_some(why)
}

#[test]
fn every_number_as_a_handle() {
    let (mut refused, mut done) = ([0; 3], 0);
    for mut both in (1..=16).map(|seed| sample(seed, [512, 1024, 4096, 8192][seed as usize % 4])) {
        for number in (0..both.first.arena.len() + 600).chain(usize::MAX - 600..=usize::MAX) {
            if let Some(why) = refused_with(&both, number) {
                due(&mut both, all_refused(calls_on(number, 0), why));
                refused[[NoSuchBlock, AlreadyFree, Stale].iter().position(|&r| r == why).unwrap()] += 1;
            }
        }
        for (handle, n) in both.second.live() {
            due(&mut both, [(Measure(handle), Value(n)), (Release(handle), Done)]);
            done += 1;
        }
    }
    println!("no such block, already free, stale: {refused:?}; done: {done}");
    assert!(refused.iter().all(|&k| k > 0));
    assert_eq!(refused[2], 15 * done, "of the 16 handles with a live block's start, one is taken");
}

/// A call on a block with an old handle for its own, if it is one and there is an old one.
fn with_old(numbers: &mut Numbers, both: &Both, call: Call) -> Option<Call> {
    let old = both.old.get(numbers.below(both.old.len().max(1)))?;
    match call {
        Release(_) => Some(Release(*old)),
        InPlace(_, n) => Some(InPlace(*old, n)),
        Move(_, n) => Some(Move(*old, n)),
        Measure(_) => Some(Measure(*old)),
        _ => None,
    }
}

#[test]
fn random_calls_with_old_handles() {
    let (mut seen, mut made, mut again) = (Seen::new(), 0, 0);
    for seed in 1..=60 {
        let mut numbers = Numbers::new(seed);
        let mut both = Both::new([512, 1024, 2048, 4096, 8192][seed as usize % 5], OLD);
        for _ in 0..2000 {
            let call = next_call(&mut numbers, &both, no_store);
            let old = if numbers.one_in(3) { with_old(&mut numbers, &both, call) } else { None };
            let call = old.unwrap_or(call);
            let due = if let Release(handle) | Measure(handle) = call { Some(refused_with(&both, handle)) } else { None };
            let answer = both.call(call).unwrap_or_else(|why| panic!("seed {seed}: {why}"));
            if let Some(due) = due {
                assert_eq!(if let Refused(why) = answer { Some(why) } else { None }, due, "seed {seed}: {call:?}");
                again += usize::from(old.is_some() && due.is_none());
            }
            *seen.entry(kind(call, &answer, &both)).or_default() += 1;
            made += 1;
        }
    }
    println!("{made} calls, {again} times an old handle was a live one again: {seen:?}");
    assert!(again > 0);
    all_seen(&seen, UNDAMAGED.into_iter().chain(["set up 0"]));
}

#[test]
fn a_dropped_group_forgets_its_counts() {
    for times in 1..40 {
        let mut slot = Regranted::new(2028);
        for before in 1..times {
            slot.release(before - 1);
            slot.grant(before);
        }
        let (old, other) = (slot.handle(times - 1), 16);
        let both = &mut slot.both;
        due(both, [(Release(old), Done), (Release(other), Done)]);
        due(both, (0..16).flat_map(|bits| [Release(slot.begin + bits), Measure(other + bits)]).map(|call| (call, Refused(NoSuchBlock))));
        // counted anew: the old handle is that of the first block again, if its bits were 0
        due(both, [(Grant(2028), Value(other)), (Grant(2028), Value(slot.begin))]);
        let answer = if times % 16 == 1 { Value(2028) } else { Refused(Stale) };
        due(both, [(Measure(old), answer)]);
        // a block of another class with the start of an old one
        due(both, [(Release(other), Done), (Release(slot.begin), Done), (Grant(12), Value(16)), (Measure(16), Value(12))]);
        due(both, [(Measure(19), Refused(Stale)), (Measure(old), Refused(NoSuchBlock))]);
    }
}

/// Calls on a block with all but its own bits.
fn with_other_bits(handle: usize, calls: impl Fn(usize) -> Vec<(Call, Answer)>) -> Vec<(Call, Answer)> {
    (start_of(handle)..start_of(handle) + 16).filter(|&other| other != handle).flat_map(calls).collect()
}

#[test]
fn stale_is_told_before_damage() {
    // the second block of the slot, with a header from 28 on and a guard from 199 on; it has a spare byte at 192
    let both = &mut Both::new(4096, OLD);
    due(both, (0..21).map(|i| (Grant(160), Value(16 + 192 * i))));
    due(both, [(Release(16), Done), (Grant(160), Value(33))]);
    // 188 bytes do not fit it, and have no room elsewhere
    let on_block = |handle, why| all_refused(calls_on(handle, 188), why);
    for stores in [&[(29, HeaderDamaged)][..], &[(192, Overrun)], &[(199, Overrun)], &[(203, Overrun)], &[(31, HeaderDamaged), (192, Overrun)]] {
        let kept = both.first.arena.clone();
        due(both, stores.iter().map(|&(at, _)| (Store(at, kept[at] ^ 1), Done)));
        due(both, with_other_bits(33, |other| on_block(other, Stale).collect()));
        due(both, on_block(33, stores[0].1));
        due(both, stores.iter().map(|&(at, _)| (Store(at, kept[at]), Done)));
    }
    due(both, [(Measure(33), Value(160)), (Release(33), Done)]);
}

#[test]
fn stale_is_told_after_too_large_and_before_not_in_place_and_no_room() {
    // ordinary blocks and aligned ones, whose enlarged size counts whatever the bits
    for (n, align) in [(188, 16), (140, 64), (12, 128)] {
        let (both, class) = (&mut Both::new(4096, OLD), class_of(n + align - 16));
        let starts = (0..slots_of(class)).map(|i| (16 + slot_bytes(class) * i).div_ceil(align) * align);
        due(both, starts.map(|start| (GrantAligned(n, align), Value(start))));
        // the second block of the first slot, whose first multiple is the alignment itself
        let (start, present, limit) = (align, align + 1, TOO_LARGE - (align - 16));
        due(both, [(Release(start), Done), (GrantAligned(n, align), Value(present))]);
        let sizes = [(0, Stale), (n, Stale), (limit - 1, Stale), (limit, TooLarge), (TOO_LARGE, TooLarge), (usize::MAX, TooLarge)];
        let refused = |handle, size, why| all_refused(resizes(handle, size).into(), why);
        due(both, with_other_bits(present, |other| sizes.into_iter().flat_map(|(size, why)| refused(other, size, why)).collect()));
        due(both, refused(present, limit, TooLarge));
        due(both, [(InPlace(present, limit - 1), Refused(NotInPlace)), (Move(present, limit - 1), Refused(NoRoom)), (Release(present), Done)]);
        // of a slot that waits, the size itself counts
        let sizes = [(TOO_LARGE - 1, AlreadyFree), (TOO_LARGE, TooLarge)];
        due(both, (start..start + 16).flat_map(|any| sizes.into_iter().flat_map(move |(size, why)| refused(any, size, why))));
    }
}

#[test]
fn a_resize_in_place_keeps_the_handle() {
    let mut slot = Regranted::new(2028);
    for granted in 1..300 {
        slot.release(granted - 1);
        slot.grant(granted);
        let handle = slot.handle(granted);
        due(&mut slot.both, [1629, 2000, 2028].map(|n| (InPlace(handle, n), Value(handle))));
        due(&mut slot.both, [(InPlace(handle - handle % 16 + (granted + 1) % 16, 2000), Refused(Stale))]);
    }
}

#[test]
fn a_move_gives_the_handle_of_the_new_slot() {
    for times in 1..40 {
        // two slots of 2,032 bytes from 16 on, the second granted so many times and waiting; a block of 1,628 bytes from row 8 on
        let both = &mut Both::new(16_384, OLD);
        due(both, [(Grant(2028), Value(16))]);
        for before in 0..times {
            due(both, [(Grant(2028), Value(2048 + before % 16)), (Release(2048 + before % 16), Done)]);
        }
        due(both, [(Grant(1628), Value(4112)), (Grant(1628), Value(5744))]);
        let moved = 2048 + times % 16;
        due(both, [(Store(4112, 7), Done), (Move(4112, 2028), Value(moved)), (Measure(moved), Value(2028))]);
        assert_eq!((both.first.arena[2048], both.first.arena[4112]), (7, 0));
        // its old handle: the slot waits, and is then granted again at the same start
        due(both, (4112..4128).map(|old| (Release(old), Refused(AlreadyFree))));
        due(both, [(Grant(1628), Value(4113)), (Release(4112), Refused(Stale)), (Move(4112, 2028), Refused(Stale))]);
        due(both, [(Release(moved), Done), (Release(4113), Done)]);
    }
}

#[test]
fn list_entries_have_the_bits_of_their_slots() {
    // the last 14 slots of a row keep the group; a list takes the first 17, and its blocks are released, again and again
    let both = &mut Both::new(512, OLD);
    let entries = |round: usize| (0..ENTRIES).map(move |i| 16 + 16 * i + round % 16);
    let list = Call::GrantList(List::new(12 * ENTRIES, 12, &[12; ENTRIES], ENTRIES));
    for round in 0..300 {
        due(both, [(list, Value(ENTRIES))]);
        assert!(both.lent[0][..ENTRIES].iter().copied().eq(entries(round)), "round {round}: {:?}", both.lent[0]);
        if round == 0 {
            due(both, (ENTRIES..31).map(|i| (Grant(12), Value(16 + 16 * i))));
        }
        for old in (1..=17).filter(|&rounds| rounds <= round).map(|rounds| round - rounds) {
            let answer = if (round - old) % 16 == 0 { Value(12) } else { Refused(Stale) };
            due(both, entries(old).map(|handle| (Measure(handle), answer)));
        }
        due(both, entries(round).map(|handle| (Release(handle), Done)));
    }
}

#[test]
fn a_handle_is_kept_as_a_number() {
    for number in (0..5000).chain(usize::MAX - 5000..=usize::MAX) {
        let handle = Handle::from_raw(number);
        assert_eq!((handle.raw(), handle.start()), (number, 16 * (number / 16)));
        assert_eq!(handle == Handle::default(), number == 0);
    }
}
