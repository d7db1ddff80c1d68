//! The record of totals beside the tables: which flipped bits of a room it tells, and that every call but set up refuses any other numbers.

mod any;
mod common;
mod random;
mod sample;

use any::{calls_on, over_any, refused, set_up_over};
use common::{Answer, Both, Buffers, Call, List};
use random::{all_seen, block as requested, kind, next_call, Numbers, Seen, UNDAMAGED};
use sample::{sample, OLD};
use slotpool::{Pool, Refusal, Totals};
use slotpool_reference::{slot_bytes, Group, Slot, State, Tables};
use std::collections::{BTreeMap, BTreeSet};

/// A pool after calls that are all done.
fn after(arena_len: usize, calls: impl IntoIterator<Item = Call>) -> Both {
    let mut both = Both::new(arena_len, OLD);
    for call in calls {
        let answer = both.call(call).unwrap();
        assert!(!matches!(answer, Answer::Refused(_)), "{call:?}: {answer:?}");
    }
    both
}

/// The same call again and again.
fn times(count: usize, call: Call) -> impl Iterator<Item = Call> {
    std::iter::repeat_n(call, count)
}

fn list(cap: usize, sizes: &[usize]) -> Call {
    Call::GrantList(List::new(sizes.iter().sum(), cap, sizes, 17))
}

/// Pools of 512 to 4,096 bytes. The first slots of a class of s bytes start at 16, 16 + s, ...
fn pools() -> Vec<Both> {
    use Call::{Grant, GrantAligned, InPlace, Move, Release};
    let mut pools = vec![
        after(512, []),
        // class 0, sizes 0 to 12: every third block released, some of them granted again after a refill, and others released
        after(
            512,
            (0..31)
                .map(|i| Grant(i % 13))
                .chain((0..31).step_by(3).map(|i| Release(16 + 16 * i)))
                .chain([Grant(0), Grant(7), Grant(12)])
                .chain([Release(32), Release(48)]),
        ),
        // class 0: blocks of no bytes, some waiting while others were never granted
        after(1024, times(6, Grant(0)).chain([Release(32), Release(80)])),
        // class 0: the second slot granted 256 times, and ready
        after(
            512,
            times(31, Grant(0)).chain((0..255).flat_map(|k| [Release(32 + k % 16), Grant(0)])).chain([Release(16), Release(32 + 15), Grant(0)]),
        ),
        // class 1: blocks resized to no bytes, one waiting; and, of a full group, some ready again
        after(1024, times(5, Grant(20)).chain([InPlace(16, 0), InPlace(48, 0), Release(80), Grant(28)])),
        after(1024, times(31, Grant(13)).chain([Release(16), Release(48), Release(80), Grant(28), InPlace(112, 0)])),
        // mixed classes
        after(4096, [5, 20, 40, 0, 12, 28, 33, 13].map(Grant)),
        after(4096, [Grant(3200), Grant(3), Grant(0), Release(3600)]),
        // class 10: a full group, refilled; blocks displaced, and one shrunk and one grown in place
        after(
            4096,
            times(21, Grant(160)).chain([16, 592, 784].map(Release)).chain([Grant(160), Grant(157), InPlace(33, 141), InPlace(208, 188), Release(976)]),
        ),
        // moves: the first leaves its group, the second ends it, and the last stays in it
        after(4096, [Grant(40), Grant(40), Move(16, 50), Move(64, 52), Grant(60), Move(1616, 20), Move(1552, 50)]),
        // aligned blocks of classes 1, 2 and 9, some released, one resized, and one whose size allows for other alignments
        after(
            4096,
            times(4, GrantAligned(12, 32)).chain([Release(64), InPlace(96, 0), GrantAligned(28, 32), GrantAligned(28, 32), InPlace(1088, 13)]),
        ),
        after(4096, times(3, GrantAligned(100, 64)).chain([Release(192), Grant(150), GrantAligned(44, 128)])),
        after(4096, [GrantAligned(2000, 64), GrantAligned(28, 32)]),
        // lists, the last with a refill in its midst
        after(4096, [list(30, &[1, 13, 30]), list(12, &[12; 17]), Release(32), Release(64), list(12, &[5; 14])]),
    ];
    pools.extend((1..=8).map(|seed| sample(seed, [512, 1024, 2048, 4096][seed as usize % 4])));
    pools
}

/// A live block of a pool, handle and size, the next at each turn, or what the first one would be.
fn block(both: &Both, turn: usize) -> (usize, usize) {
    let live = both.second.live();
    live.get(turn % live.len().max(1)).copied().unwrap_or((16, 12))
}

/// Where a bit of a room stands, by docs/TABLES.md: the first row of a group, the field of a slot's, and the slot.
struct Place {
    row: usize,
    field: &'static str,
    slot: usize,
}

impl Place {
    /// The place of a bit, if it is of no field that a whole row has.
    fn of(at: usize, bit: usize) -> Option<Place> {
        let (row, at) = (at.checked_sub(16)? / 264, (at - 16) % 264);
        let (field, slot) = match at {
            0..8 => return None,
            8..12 => ("ready mask", 8 * (at - 8) + bit),
            12..16 => ("waiting mask", 8 * (at - 12) + bit),
            _ => (["alignment", "use count", "displacement", "displacement", "size", "size", "size", "zero"][at % 8], (at - 16) / 8),
        };
        Some(Place { row, field, slot })
    }

    /// The group and the slot there.
    fn slot<'a>(&self, tables: &'a Tables) -> Option<(&'a Group, Slot)> {
        let group = tables.groups.iter().find(|g| g.first_row == self.row)?;
        Some((group, *group.slots.get(self.slot)?))
    }

    /// What a bit there is, in words; of a mask with the group's class.
    fn kind(&self, tables: &Tables) -> Option<String> {
        let (group, slot) = self.slot(tables)?;
        let of = if self.field.ends_with("mask") { format!(" of class {}", group.class) } else { String::new() };
        let slot = match slot {
            Slot { state: State::Live, .. } => "live",
            Slot { last: Some(_), .. } => "freed",
            _ => "never granted",
        };
        Some(format!("{}{of}, {slot}", self.field))
    }

    /// The handle and the size of the slot's block there; of one that is not live, of its last block or, at the beginning, of none.
    fn block(&self, tables: &Tables) -> Option<(usize, usize)> {
        let (group, slot) = self.slot(tables)?;
        let start = 512 * group.first_row + 16 + self.slot * slot_bytes(group.class) + 16 * slot.last.unwrap_or(0);
        Some((slot.handle(start), slot.size))
    }
}

/// How many flipped bits there were of each kind.
type Flips = BTreeMap<String, usize>;

/// Fails if there were flipped bits of other kinds than these, or none of one of these.
fn all_kinds(flips: &Flips, kinds: &[&str]) {
    let were: BTreeSet<&str> = flips.keys().map(String::as_str).collect();
    assert_eq!(were, kinds.iter().copied().collect());
}

#[test]
fn every_flipped_bit_of_a_room() {
    // whether the tables with the bit flipped are unsound by themselves, sound but for the record, or sound
    let (mut unsound, mut told, mut sound) = (0, Flips::new(), Flips::new());
    for (p, both) in pools().iter().enumerate() {
        let tables = both.second.tables();
        let mut flipped = both.first.clone();
        for (at, bit) in (0..flipped.room.len()).flat_map(|at| (0..8).map(move |bit| (at, bit))) {
            flipped.room[at] ^= 1 << bit;
            let place = Place::of(at, bit);
            let alone = Tables::read_alone(flipped.arena.len(), &flipped.room);
            // a block of the pool, and the one that the bit is about, as it was and as the tables now have it
            let blocks = [Some(&tables), alone.as_ref()].map(|tables| place.as_ref()?.block(tables?));
            let calls: Vec<Call> = blocks.into_iter().flatten().chain([block(both, 8 * at + bit)]).flat_map(calls_on).collect();
            let is_sound = over_any(&flipped, &calls, format_args!("pool {p}, byte {at}, bit {bit}"));
            let kind = place.and_then(|place| place.kind(&tables)).unwrap_or("no slot's".to_string());
            match (alone, is_sound) {
                (None, _) => unsound += 1,
                (Some(_), false) => *told.entry(kind).or_default() += 1,
                (Some(_), true) => *sound.entry(kind).or_default() += 1,
            }
            flipped.room[at] ^= 1 << bit;
        }
    }
    println!("{unsound} flipped bits make the tables unsound by themselves\ntold by the record alone: {told:?}\nsound: {sound:?}");
    // a size that fits the slot; a slot that can be live with no bytes, made live or ended
    all_kinds(
        &told,
        &[
            "ready mask of class 0, freed",
            "ready mask of class 0, live",
            "ready mask of class 1, freed",
            "ready mask of class 1, live",
            "size, live",
            "waiting mask of class 0, freed",
            "waiting mask of class 0, live",
            "waiting mask of class 1, freed",
            "waiting mask of class 1, live",
        ],
    );
    // what no total counts; the alignment's byte also says of a ready slot whose use count and displacement are 0 whether it was ever granted
    all_kinds(
        &sound,
        &[
            "alignment, freed",
            "alignment, live",
            "alignment, never granted",
            "displacement, freed",
            "displacement, live",
            "use count, freed",
            "use count, live",
        ],
    );
}

/// The numbers of a record, in their order.
fn numbers_of(record: Totals) -> [usize; 6] {
    let Totals { live_blocks, requested_bytes, rows_held, rows_free, ready_slots, waiting_slots } = record;
    [live_blocks, requested_bytes, rows_held, rows_free, ready_slots, waiting_slots]
}

/// The record of some numbers.
fn record_of([live_blocks, requested_bytes, rows_held, rows_free, ready_slots, waiting_slots]: [usize; 6]) -> Totals {
    Totals { live_blocks, requested_bytes, rows_held, rows_free, ready_slots, waiting_slots }
}

/// Records that are not a pool's own get 2 from every call but set up, with nothing changed; set up writes over them.
fn all_wrong(both: &Both, records: impl IntoIterator<Item = [usize; 6]>) {
    for (turn, numbers) in records.into_iter().enumerate() {
        let right = both.first.totals;
        let changed = Buffers { totals: record_of(numbers), ..both.first.clone() };
        let name = format_args!("{numbers:?} for {right:?}");
        assert_ne!(changed.totals, right);
        assert!(!over_any(&changed, &calls_on(block(both, turn)), name), "{name}: taken for sound");
        set_up_over(&changed, name);
    }
}

/// The numbers with one of them changed, in every place.
fn one_changed(numbers: [usize; 6], change: impl Fn(usize) -> usize) -> impl Iterator<Item = [usize; 6]> {
    (0..6).map(move |i| {
        let mut changed = numbers;
        changed[i] = change(numbers[i]);
        changed
    })
}

#[test]
fn every_number_one_more_or_less() {
    for both in pools() {
        let numbers = numbers_of(both.first.totals);
        all_wrong(&both, one_changed(numbers, |n| n.wrapping_add(1)).chain(one_changed(numbers, |n| n.wrapping_sub(1))));
    }
}

#[test]
fn every_flipped_bit_of_the_record() {
    for both in pools() {
        let numbers = numbers_of(both.first.totals);
        all_wrong(&both, (0..usize::BITS).flat_map(|bit| one_changed(numbers, move |n| n ^ 1 << bit)));
    }
}

/// Places of two numbers.
fn pairs() -> impl Iterator<Item = (usize, usize)> {
    (0..6).flat_map(|i| (0..6).filter(move |&j| i != j).map(move |j| (i, j)))
}

#[test]
fn numbers_in_other_places() {
    let mut swapped = BTreeSet::new();
    for both in pools() {
        let numbers = numbers_of(both.first.totals);
        let differ: Vec<_> = pairs().filter(|&(i, j)| numbers[i] != numbers[j]).collect();
        let records = differ.iter().map(|&(i, j)| {
            let mut changed = numbers;
            changed.swap(i, j);
            changed
        });
        all_wrong(&both, records);
        swapped.extend(differ);
    }
    assert_eq!(swapped.len(), 30, "every two numbers differ in a pool");
}

#[test]
fn the_same_sums() {
    // what one number loses another gains: blocks and ready slots, say, or rows held and free
    for both in pools() {
        let numbers = numbers_of(both.first.totals);
        let moved = [1, 2, 31, 1 << 32].iter().flat_map(|&n| {
            pairs().map(move |(i, j)| {
                let mut changed = numbers;
                changed[i] = numbers[i].wrapping_sub(n);
                changed[j] = numbers[j].wrapping_add(n);
                changed
            })
        });
        all_wrong(&both, moved);
    }
}

#[test]
fn random_records() {
    let mut draw = Numbers::new(99);
    let pools = pools();
    let (tried, mut sound) = (20_000, 0);
    for i in 0..tried {
        // some numbers of a pool's record changed: a little, to those of another pool, or anyhow
        let both = &pools[draw.below(pools.len())];
        let other = numbers_of(pools[draw.below(pools.len())].first.totals);
        let changed = numbers_of(both.first.totals).map(|n| match draw.below(12) {
            0 => draw.next() as usize,
            1 => draw.below(40),
            2 => n.wrapping_add(draw.below(5)).wrapping_sub(2),
            3 => draw.of(&other),
            _ => n,
        });
        let buffers = Buffers { totals: record_of(changed), ..both.first.clone() };
        let name = format_args!("record {i}: {changed:?}");
        let is_sound = over_any(&buffers, &calls_on(block(both, i)), name);
        assert_eq!(is_sound, buffers.totals == both.first.totals, "{name}");
        set_up_over(&buffers, name);
        sound += usize::from(is_sound);
    }
    println!("{tried} records, {sound} of them the pool's own");
    assert!(sound > 0 && sound < tried);
}

/// A store into the first requested byte of a live block.
fn first_requested(numbers: &mut Numbers, both: &Both) -> Option<Call> {
    let (start, _) = requested(numbers, both)?;
    Some(Call::Store(start, numbers.next() as u8))
}

#[test]
fn wrong_records_among_random_calls() {
    let lengths = [512, 1024, 4096, 16_384];
    let (mut seen, mut wrong) = (Seen::new(), 0);
    for seed in 1..=40 {
        let mut draw = Numbers::new(seed);
        let mut both = Both::new(lengths[seed as usize % lengths.len()], OLD);
        for _ in 0..1000 {
            let call = next_call(&mut draw, &both, first_requested);
            // the call over a copy with one number changed, then with the record as it was left
            let mut changed = numbers_of(both.first.totals);
            changed[draw.below(6)] ^= 1 << draw.below(usize::BITS as usize);
            let buffers = Buffers { totals: record_of(changed), ..both.first.clone() };
            if !matches!(call, Call::SetUp | Call::Store(..)) {
                refused(&buffers, call, Refusal::Unsound, format_args!("seed {seed}, record {changed:?}"));
                wrong += 1;
            }
            let answer = both.call(call).unwrap_or_else(|why| panic!("seed {seed}: {why}"));
            *seen.entry(kind(call, &answer, &both)).or_default() += 1;
        }
    }
    println!("{wrong} calls with a wrong record, then with the right one: {seen:?}");
    all_seen(&seen, UNDAMAGED.into_iter().chain(["set up 0", "store"]));
}

#[test]
fn a_refused_set_up_keeps_the_record() {
    for both in pools() {
        for totals in [both.first.totals, record_of([usize::MAX; 6]), Totals::default()] {
            let mut arena = Buffers { totals, ..both.first.clone() };
            arena.arena.pop();
            refused(&arena, Call::SetUp, Refusal::BadArena, format_args!("a byte of the arena less"));
            let mut room = Buffers { totals, ..both.first.clone() };
            room.room.push(0);
            refused(&room, Call::SetUp, Refusal::BadArena, format_args!("a byte of the room more"));
        }
    }
}

#[test]
fn a_pool_shows_its_record() {
    let Buffers { mut arena, mut room, mut totals } = Buffers::old(4096, OLD);
    let mut pool = Pool::set_up(&mut arena, &mut room, &mut totals).unwrap();
    let block = pool.grant(160).unwrap();
    let due = record_of([1, 160, 8, 0, 20, 0]);
    assert_eq!((*pool.totals(), pool.report()), (due, Ok(due)));
    pool.grant(13).unwrap_err();
    assert_eq!(*pool.totals(), due);
    // what is lent is the record itself, and another pool over it sees what this one left
    pool.release(block).unwrap();
    assert_eq!(Pool::over(&mut arena, &mut room, &mut totals).report(), Ok(record_of([0, 0, 0, 8, 0, 0])));
    totals.rows_free = 7;
    let pool = Pool::over(&mut arena, &mut room, &mut totals);
    assert_eq!((pool.totals().rows_free, pool.report()), (7, Err(Refusal::Unsound)));
}
