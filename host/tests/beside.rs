//! The library, by each of its engines, beside the second implementation: answers, whole arenas, tables, records and totals are compared after every
//! call.

mod any;
mod changed;
mod common;
mod damaged;
mod fewer;
mod forged;
mod random;
mod sample;

use any::{calls_on, over_any, refused, set_up_over, Judged};
use changed::{any_room, every_byte};
use common::{resizes, Answer, Both, Buffers, Call, Record};
use damaged::DAMAGED;
use fewer::fail;
use forged::over_each;
use random::{all_seen, block, kind, next_call, Engine, Numbers, Seen, UNDAMAGED};
use sample::{no_store, sample, OLD};
use slotpool::{room_len, Refusal, Totals};
use slotpool_reference::{class_of, enlarged, rows_of, slot_bytes, slots_of, start_of, State, Tables, ALIGNMENTS, ORDINARY, TOO_LARGE};

/// A store into a requested byte of a live block: that damages none either.
fn into_requested(numbers: &mut Numbers, both: &Both) -> Option<Call> {
    let (start, n) = block(numbers, both)?;
    Some(Call::Store(start + numbers.below(n), numbers.next() as u8))
}

/// A store anywhere, most often into a live block or near its ends.
fn anywhere(numbers: &mut Numbers, both: &Both) -> Option<Call> {
    let live = both.second.live();
    let at = if live.is_empty() || numbers.one_in(6) {
        numbers.below(both.first.arena.len())
    } else {
        let (handle, n) = numbers.of(&live);
        let near = start_of(handle) + numbers.below(n + 24);
        near.saturating_sub(8).min(both.first.arena.len() - 1)
    };
    Some(Call::Store(at, if numbers.one_in(2) { 0 } else { numbers.next() as u8 }))
}

/// Each engine, and what is seen with it beside the answers due without damage.
const ENGINES: [(&str, Engine, &[&[&str]]); 3] = [
    ("no store", no_store, &[&["set up 0"]]),
    ("stores into requested bytes", into_requested, &[&["set up 0", "store"]]),
    ("stores anywhere", anywhere, &[&["set up 0", "store"], &DAMAGED]),
];

/// Runs a pool and gives how many calls, stores not counted, were made.
fn random(seed: u64, arena_len: usize, steps: usize, engine: Engine, seen: &mut Seen) -> usize {
    let mut numbers = Numbers::new(seed);
    let mut both = Both::new(arena_len, OLD);
    let mut calls = Vec::with_capacity(steps);
    for _ in 0..steps {
        let call = next_call(&mut numbers, &both, engine);
        calls.push(call);
        match both.call(call) {
            Ok(answer) => *seen.entry(kind(call, &answer, &both)).or_default() += 1,
            Err(_) => fail(seed, arena_len, calls),
        }
    }
    calls.iter().filter(|c| !matches!(c, Call::Store(..))).count()
}

#[test]
fn a_million_random_calls() {
    let lengths = [512, 1024, 2048, 4096, 8192, 16_384, 4096, 8192, 65_536, 131_072, 262_144];
    let mut seen = ENGINES.map(|_| Seen::new());
    let mut made = 0;
    let mut seed = 0;
    while made < 1_000_000 {
        seed += 1;
        let len = lengths[seed % lengths.len()];
        let which = seed % ENGINES.len();
        made += random(seed as u64, len, if len > 16_384 { 300 } else { 3000 }, ENGINES[which].1, &mut seen[which]);
    }
    println!("{made} calls in {seed} pools");
    for ((name, _, more), seen) in ENGINES.iter().zip(&seen) {
        println!("{name}: {seen:?}");
        all_seen(seen, UNDAMAGED.iter().chain(more.iter().copied().flatten()).copied());
    }
}

/// Every size that can be asked for, granted in a pool with rows for one group of its class: the second implementation walks the classes to
/// find it, and both write the same tables.
#[test]
fn the_class_of_every_size() {
    let mut served = [0; 48];
    let mut both = Both::new(512, OLD);
    for n in 0..TOO_LARGE {
        let class = class_of(n);
        if served[class] == 0 {
            both = Both::new(512 * rows_of(class), OLD);
        }
        assert_eq!(both.call(Call::Grant(n)), Ok(Answer::Value(16)), "grant {n}");
        assert_eq!(both.call(Call::Release(16)), Ok(Answer::Done), "release of {n}");
        served[class] += 1;
    }
    println!("sizes of each class: {served:?}");
    assert!(served.iter().all(|&sizes| sizes > 0));
}

/// Fills a group with blocks of `n` bytes, then releases and grants the block of one slot until its count has wrapped twice. Gives in how many
/// places of the slot such a block can start.
fn wrap(n: usize, slot: usize) -> usize {
    const WRAPS: usize = 2;
    let class = class_of(n);
    assert!(slots_of(class) > 1, "another slot keeps the group");
    let mut both = Both::new(512 * rows_of(class), OLD);
    let grants = (0..slots_of(class)).map(|_| both.call(Call::Grant(n)));
    let first: Vec<usize> = grants.map(|a| if let Ok(Answer::Value(handle)) = a { handle } else { panic!("grant {n}: {a:?}") }).collect();
    // the first handles are starts with no displacement, a slot apart
    let s = first[1] - first[0];
    let t = (s - 4 - n) / 16;
    let places = t + 1;
    let mut wrapped = 0;
    let mut old = first[slot];
    for granted in 1..256 * WRAPS + places {
        // the displacement is the count modulo t + 1, the bits are it modulo 16
        let start = first[slot] + 16 * (granted % 256 % places);
        let handle = start + granted % 16;
        let gone = if start_of(old) == start { Refusal::Stale } else { Refusal::NoSuchBlock };
        let count = both.second.groups[0].slots[slot].count;
        for (call, due) in [
            (Call::Release(old), Answer::Done),
            (Call::Release(old), Answer::Refused(Refusal::AlreadyFree)),
            (Call::Grant(n), Answer::Value(handle)),
            (Call::Measure(handle), Answer::Value(n)),
            (Call::Measure(old), Answer::Refused(gone)),
        ] {
            assert_eq!(both.call(call), Ok(due), "blocks of {n} bytes, slot {slot} granted {granted} times: {call:?}");
        }
        wrapped += usize::from((count, both.second.groups[0].slots[slot].count) == (255, 0));
        old = handle;
    }
    assert_eq!(wrapped, WRAPS, "blocks of {n} bytes, slot {slot}: how often its count went from 255 to 0");
    places
}

#[test]
fn use_counts_wrap() {
    let places = [13, 140, 157, 193, 317, 797, 1629].map(|n| {
        let last = slots_of(class_of(n)) - 1;
        wrap(n, 0);
        wrap(n, last)
    });
    println!("places of a block in its slot: {places:?}");
    // where the number of places does not divide 256, a start tells a count that wraps from one that does not
    assert!(places.iter().any(|p| 256 % p != 0));
}

/// Changes single bytes from the first one past a live block of `n` bytes to its end and the byte after that. Calls on the block are refused with 7
/// exactly if the byte is the first spare one, or one of the guard's five.
fn past_the_end(both: &mut Both, handle: usize, n: usize, end: usize) {
    let start = start_of(handle);
    let reserved = end - start - n;
    let guard = if reserved >= 5 { end - 5 } else { end };
    let first = start + n;
    for at in (first..=end).filter(|at| at - first < 2 || end - at < 8) {
        let compared = at < end && (at == first || at >= guard);
        let old = both.first.arena[at];
        for byte in [old ^ 1, old ^ 0x80] {
            both.call(Call::Store(at, byte)).unwrap();
            let told = format_args!("a block of {n} bytes at {start}, {reserved} spare, byte {at}");
            if compared {
                for call in [[Call::Measure(handle), Call::Release(handle)], resizes(handle, n), resizes(handle, n / 2)].concat() {
                    assert_eq!(both.call(call), Ok(Answer::Refused(Refusal::Overrun)), "{told}: {call:?}");
                }
            } else {
                assert_eq!(both.call(Call::Measure(handle)), Ok(Answer::Value(n)), "{told}");
            }
        }
        both.call(Call::Store(at, old)).unwrap();
    }
}

#[test]
fn one_byte_past_the_end() {
    // every size to 300, and those about the largest of each class; some of them aligned
    let edges = (0..48).map(|c| slot_bytes(c) - 4).flat_map(|most| most.saturating_sub(6)..=most + 1);
    let sizes = (0..=300).chain(edges).map(|n| (n, ORDINARY));
    let aligned = ALIGNMENTS.into_iter().flat_map(|align| [0, 7, 12, 13, 24, 28, 100, 1000, 5000].map(|n| (n, align)));
    let mut blocks = [0; 7];
    for (n, size, align) in sizes.chain(aligned).filter_map(|(n, align)| Some((n, enlarged(n, align)?, align))) {
        let class = class_of(size);
        let mut both = Both::new(512 * rows_of(class), OLD);
        for _ in 0..slots_of(class) {
            both.call(Call::GrantAligned(n, align)).unwrap();
        }
        // the first slot's block, then the next one there: its start is displaced if the slot has a unit to spare
        for _ in 0..2 {
            let (handle, _) = both.second.live()[0];
            let end = 16 + slot_bytes(class) - 4;
            past_the_end(&mut both, handle, n, end);
            blocks[(end - start_of(handle) - n).min(6)] += 1;
            both.call(Call::Release(handle)).unwrap();
            both.call(Call::GrantAligned(n, align)).unwrap();
        }
    }
    println!("blocks with 0 to 5 and with more spare bytes: {blocks:?}");
    assert!(blocks.iter().all(|&k| k > 0));
}

/// Buffers with the record that is due, if their tables are sound but for it.
fn righted(mut buffers: Buffers) -> Buffers {
    if let Some(tables) = Tables::read_alone(buffers.arena.len(), &buffers.room) {
        buffers.totals = tables.totals();
    }
    buffers
}

#[test]
fn every_single_byte_change() {
    // a dozen pools and every byte of their rooms, with all other values or, in the largest, with some: each changed room meets every call
    let (mut tried, mut kept, mut due) = (0, 0, 0);
    for seed in 1..=12 {
        let Both { first, second, .. } = sample(seed, [512, 1024, 1024, 2048, 4096, 8192][seed as usize % 6]);
        let live = second.live();
        every_byte(&first, first.arena.len() < 8192, |changed, told| {
            let told = format_args!("seed {seed}, {told}");
            let calls = calls_on(live[tried % live.len()]);
            kept += usize::from(over_any(changed, &calls, told));
            let other = righted(changed.clone());
            due += usize::from(other.totals != changed.totals && over_any(&other, &calls, told));
            set_up_over(changed, told);
            tried += 1;
        });
    }
    println!("{tried} rooms with one byte changed, {kept} of them sound with the record kept, {due} with another");
    assert!(kept > 0 && due > 0 && kept + due < tried);
}

#[test]
fn only_a_granted_slot_waits() {
    // two bytes change at once: a bit goes from the ready to the waiting set
    let mut moved = [0, 0];
    for both in (1..=5).map(|seed| sample(seed, 16_384)) {
        let calls = calls_on(both.second.live()[0]);
        for (g, group) in both.second.groups.iter().enumerate() {
            for i in (0..group.slots.len()).filter(|&i| group.slots[i].state == State::Ready) {
                let granted = group.slots[i].last.is_some();
                let mut tables = both.second.tables();
                tables.groups[g].slots[i].state = State::Waiting;
                let (forged, told) = (Both::over(&both.first.arena, &tables), format_args!("group {g}, slot {i}"));
                // the plain form has no slot that waits and was never granted
                let sound = if granted { over_each(&forged, &calls, told) } else { over_any(&forged.first, &calls, told) };
                assert_eq!(sound, granted, "group {g}, slot {i}");
                moved[usize::from(granted)] += 1;
            }
        }
    }
    println!("waiting instead of ready: {} slots never granted, {} granted before", moved[0], moved[1]);
    assert!(moved[0] > 0 && moved[1] > 0);
}

#[test]
fn no_live_size_is_131052() {
    // a slot of the last class has that many bytes
    let mut both = Both::new(131_072, OLD);
    both.call(Call::Grant(TOO_LARGE - 1)).unwrap();
    for n in [TOO_LARGE - 2, TOO_LARGE - 1, TOO_LARGE] {
        let mut tables = both.second.tables();
        tables.groups[0].slots[0].size = n;
        let sound = over_each(&Both::over(&both.first.arena, &tables), &calls_on((16, n)), format_args!("size {n}"));
        assert_eq!(sound, n < TOO_LARGE, "size {n}");
    }
}

fn other_lengths<R: Judged>(buffers: &Buffers<R>, calls: &[Call]) {
    let (arena_len, right) = (buffers.arena.len(), buffers.room.len());
    for len in (0..=513).flat_map(|rows| [512 * rows, 512 * rows + 1, 512 * rows + 511]) {
        let mut changed = buffers.clone();
        changed.arena.resize(len, 0);
        let sound = over_any(&changed, calls, format_args!("arena of {len} bytes"));
        assert_eq!(sound, len == arena_len, "arena of {len} bytes");
    }
    for len in 0..=2 * right {
        let mut changed = buffers.clone();
        changed.room.resize(len, 0);
        let sound = over_any(&changed, calls, format_args!("room of {len} bytes"));
        assert_eq!(sound, len == right, "room of {len} bytes");
    }
}

#[test]
fn other_lengths_are_unsound() {
    let both = sample(5, 4096);
    let calls = calls_on(both.second.live()[0]);
    other_lengths(&both.first, &calls);
    other_lengths(&both.plain, &calls);
}

#[test]
fn random_rooms() {
    let mut numbers = Numbers::new(77);
    let pools: Vec<Both> = (0..50).map(|seed| sample(seed, 4096)).collect();
    let zeros = Buffers { room: vec![0; room_len(4096)], ..pools[0].first.clone() };
    assert!(!over_any(&zeros, &calls_on((16, 20)), format_args!("a room of zeros")));
    let (tried, mut sound) = (3000, [0, 0]);
    for i in 0..tried {
        let (arena, of, record) = (numbers.below(50), &pools[numbers.below(50)], numbers.below(50));
        let mut changed = any_room(&mut numbers, &of.first, &pools[arena].first);
        let told = format_args!("room {i}");
        let calls = calls_on(numbers.of(&of.second.live()));
        sound[0] += usize::from(over_any(&righted(changed.clone()), &calls, told));
        if numbers.one_in(2) {
            changed.totals = pools[record].first.totals;
        }
        sound[1] += usize::from(over_any(&changed, &calls, told));
        set_up_over(&changed, told);
    }
    println!("{tried} rooms, {} of them sound with the record due, {} with another or the same", sound[0], sound[1]);
    assert!(0 < sound[1] && sound[1] < sound[0] && sound[0] < tried);
}

fn other_sizes<R: Record>() {
    for arena_len in [0, 1, 511, 513, 262_145, 262_656, 1_000_000] {
        assert_eq!(R::room_len(arena_len), 0);
        let buffers = Buffers::<R> { room: vec![4; 280], ..Buffers::old(arena_len, 3) };
        refused(&buffers, Call::SetUp, Refusal::BadArena, format_args!("arena of {arena_len} bytes"));
    }
    for rows in 1..=512 {
        let right = 16 + 264 * rows;
        let mut buffers = Buffers::<R>::old(512 * rows, 3);
        assert_eq!(buffers.room.len(), right);
        for other in [0, right - 1, right + 1] {
            buffers.room.resize(other, 4);
            refused(&buffers, Call::SetUp, Refusal::BadArena, format_args!("{rows} rows, room of {other} bytes"));
        }
    }
}

#[test]
fn set_up_refuses_other_sizes() {
    other_sizes::<Totals>();
    other_sizes::<()>();
}
