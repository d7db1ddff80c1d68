//! The two calls that give a block another size, beside each other: which refusals they share, when a block stays where it is, and that a move
//! is a grant, a copy and a release.

mod common;
mod due;
mod random;
mod sample;

use common::Answer::{self, Done, Refused, Value};
use common::Call::{Grant, GrantAligned, InPlace, Move, Release, Store};
use common::Both;
use due::due;
use random::{all_seen, kind, next_call, Numbers, Seen, UNDAMAGED};
use sample::{no_store, sample, OLD};
use slotpool::Refusal::{NoRoom, NotInPlace};
use slotpool_reference::{class_of, rows_of, slot_bytes, slots_of, start_of, TOO_LARGE};

/// The first bytes of a block.
fn bytes(both: &Both, handle: usize, n: usize) -> &[u8] {
    &both.first.arena[start_of(handle)..start_of(handle) + n]
}

/// What a move is said to be: a grant with the block's alignment and, if it is done, a copy of the bytes that both have and a release.
fn grant_copy_release(both: &mut Both, handle: usize, n: usize) -> Answer {
    let answer = both.call(GrantAligned(n, both.second.alignment(handle))).unwrap();
    if let Value(new) = answer {
        let kept = both.second.measure(handle).unwrap().min(n);
        let copied = bytes(both, handle, kept).to_vec();
        due(both, (start_of(new)..).zip(copied).map(|(at, byte)| (Store(at, byte), Done)));
        due(both, [(Release(handle), Done)]);
    }
    answer
}

/// Makes both calls, each over a copy of a pool, and gives their answers: the same, unless each is done or refused with what the other never is.
fn both_ways(pool: &Both, handle: usize, n: usize) -> [Answer; 2] {
    let [mut stayed, mut moved] = [pool.clone(), pool.clone()];
    let answers = [stayed.call(InPlace(handle, n)).unwrap(), moved.call(Move(handle, n)).unwrap()];
    let told = format!("{handle} to {n} bytes: {answers:?}");
    let [Value(_) | Refused(NotInPlace), Value(_) | Refused(NoRoom)] = answers else {
        assert_eq!(answers[0], answers[1], "{told}");
        return answers;
    };
    let mut other = pool.clone();
    assert_eq!(answers[1], grant_copy_release(&mut other, handle, n), "{told}");
    assert!(moved.first == other.first && moved.plain == other.plain, "{told}: not what a grant, a copy and a release leave");
    if let [Value(same), Value(new)] = answers {
        assert_eq!((same, start_of(same) == start_of(new)), (handle, false), "{told}");
        assert!(bytes(&stayed, same, n) == bytes(&moved, new, n), "{told}: the block holds other bytes where it moved to");
    }
    answers
}

/// Changes a byte of a live block, from its header on, or one after it.
fn damage(numbers: &mut Numbers, both: &mut Both, handle: usize) {
    let Some((_, n)) = both.second.live().into_iter().find(|block| block.0 == handle) else { return };
    let at = (start_of(handle) - 4 + numbers.below(n + 8)).min(both.first.arena.len() - 1);
    let byte = both.first.arena[at] ^ 1;
    due(both, [(Store(at, byte), Done)]);
}

fn number(answer: Answer) -> usize {
    if let Refused(why) = answer {
        why as usize
    } else {
        0
    }
}

#[test]
fn both_ways_among_random_calls() {
    let (mut seen, mut pairs) = (Seen::new(), Seen::new());
    for seed in 1..=150 {
        let mut numbers = Numbers::new(seed);
        let mut both = sample(seed, [512, 1024, 4096, 8192, 16_384][seed as usize % 5]);
        for _ in 0..500 {
            let call = next_call(&mut numbers, &both, no_store);
            if let InPlace(handle, n) | Move(handle, n) = call {
                let mut copy = both.clone();
                if numbers.one_in(3) {
                    damage(&mut numbers, &mut copy, handle);
                }
                let [in_place, moved] = both_ways(&copy, handle, n).map(number);
                *pairs.entry(format!("in place {in_place}, move {moved}")).or_default() += 1;
            }
            let answer = both.call(call).unwrap_or_else(|why| panic!("seed {seed}: {why}"));
            *seen.entry(kind(call, &answer, &both)).or_default() += 1;
        }
    }
    println!("{pairs:?}\n{seen:?}");
    let alike = [3, 4, 5, 10, 6, 7].map(|k| (k, k));
    let due = [(0, 0), (0, 8), (11, 0), (11, 8)].into_iter().chain(alike).map(|(one, other)| format!("in place {one}, move {other}"));
    all_seen(&pairs, due.collect::<Vec<_>>().iter().map(String::as_str));
    all_seen(&seen, UNDAMAGED.into_iter().chain(["set up 0"]));
}

#[test]
fn every_class() {
    let mut met = [0; 4];
    for class in 0..48 {
        // a pool with rows for one group, and a block in its first slot with the most bytes that may be there
        let most = slot_bytes(class) - 4;
        let mut both = Both::new(512 * rows_of(class), OLD);
        due(&mut both, [(Grant(most.min(TOO_LARGE - 1)), Value(16))]);
        // the largest sizes of the class, of the three below and of the one above, and those next to them
        let largest = (class.saturating_sub(3)..=(class + 1).min(47)).map(|class| slot_bytes(class) - 4);
        for n in largest.flat_map(|n| [n - 1, n, n + 1]).filter(|&n| n < TOO_LARGE) {
            let stays = n <= most && class_of(n) + 1 >= class;
            // a move lands in the second slot, if there is one and the size is of the class
            let moves = class_of(n) == class && slots_of(class) > 1;
            let in_place = if stays { Value(16) } else { Refused(NotInPlace) };
            let moved = if moves { Value(16 + slot_bytes(class)) } else { Refused(NoRoom) };
            assert_eq!(both_ways(&both, 16, n), [in_place, moved], "class {class}, {n} bytes");
            met[2 * usize::from(stays) + usize::from(moves)] += 1;
        }
    }
    println!("sizes of a block that stays or not, and that moves or not: {met:?}");
    assert!(met[0] > 0 && met[1] == 0 && met[2] > 0 && met[3] > 0);
}
