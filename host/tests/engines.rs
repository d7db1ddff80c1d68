//! The two engines beside each other and the second implementation: calls with any stores to the arena between them, and what the plain engine
//! makes of rooms that its own calls did not leave.

mod any;
mod changed;
mod common;
mod damaged;
mod due;
mod fewer;
mod places;
mod random;
mod sample;

use any::{calls_on, over_any, set_up_over};
use changed::{any_room, every_byte};
use common::Answer::{Done, Value};
use common::Call::{Grant, GrantAligned, Release, Store};
use common::{Both, Buffers, Call};
use damaged::DAMAGED;
use due::due;
use fewer::fail;
use places::{marked, places, with_slot};
use random::{all_seen, kind, next_call, Numbers, Seen, UNDAMAGED};
use sample::{no_store, sample, OLD};
use slotpool_reference::{rows_of, slot_bytes, slots_of, Group, Slot, State, Tables, ALIGNMENTS, ORDINARY, TOO_LARGE};
use std::collections::BTreeMap;

/// What a byte of the arena is.
fn part(groups: &[Group], at: usize) -> &'static str {
    let Some(place) = places(groups).into_iter().find(|place| (place.begin - 4..place.end()).contains(&at)) else {
        let held = groups.iter().any(|g| (g.first_row..g.first_row + rows_of(g.class)).contains(&(at / 512)));
        return if held { "no slot's" } else { "of a free row" };
    };
    let (start, end) = (place.start(), place.end());
    let past = start + place.slot.size;
    match at {
        _ if !place.is_live() => "of a slot that is not live",
        _ if at < start - 4 => "before a header",
        _ if at < start => "of a header",
        _ if at < past => "requested",
        _ if at == past => "first spare",
        _ if end - past >= 5 && at >= end - 5 => "of a guard",
        _ => "spare",
    }
}

/// The parts of an arena.
const PARTS: [&str; 9] =
    ["no slot's", "of a free row", "of a slot that is not live", "before a header", "of a header", "requested", "first spare", "of a guard", "spare"];

/// Where the device stores next: in a live block's header or guard, right past its requested bytes, in its slot, or anywhere.
fn place(numbers: &mut Numbers, both: &Both) -> usize {
    let live: Vec<_> = places(&both.second.groups).into_iter().filter(|place| place.is_live()).collect();
    let Some(place) = live.get(numbers.below(live.len().max(1))) else { return numbers.below(both.first.arena.len()) };
    let (start, end) = (place.start(), place.end());
    match numbers.below(6) {
        0 => start - 1 - numbers.below(4),
        1 => end - 1 - numbers.below(5),
        2 => start + place.slot.size,
        3 => place.begin - 4 + numbers.below(slot_bytes(place.class)),
        _ => numbers.below(both.first.arena.len()),
    }
}

/// The stores before a call: none, some bytes in a row, or the earlier ones undone, the latest first, which mends the blocks that they damaged.
fn stores(numbers: &mut Numbers, both: &Both, undo: &mut Vec<Call>) -> Vec<Call> {
    match numbers.below(4) {
        0 => undo.drain(..).rev().collect(),
        1 => {
            let (from, zeros, arena) = (place(numbers, both), numbers.one_in(3), &both.first.arena);
            let to = (from + numbers.of(&[1, 1, 2, 5, 40])).min(arena.len());
            undo.extend((from..to).map(|at| Store(at, arena[at])));
            (from..to).map(|at| Store(at, if zeros { 0 } else { numbers.next() as u8 })).collect()
        }
        _ => Vec::new(),
    }
}

#[test]
fn any_stores_between_calls() {
    let lengths = [512, 1024, 2048, 4096, 8192, 16_384, 65_536, 262_144];
    let (mut seen, mut stored, mut parts) = (Seen::new(), 0, Seen::new());
    let (mut made, mut seed) = (0, 0);
    while made < 800_000 {
        seed += 1;
        let arena_len = lengths[seed as usize % lengths.len()];
        let (mut numbers, mut both) = (Numbers::new(seed), Both::new(arena_len, OLD));
        let (mut calls, mut undo) = (Vec::new(), Vec::new());
        for _ in 0..if arena_len > 16_384 { 200 } else { 2000 } {
            let stores = stores(&mut numbers, &both, &mut undo);
            if let Some(Store(at, _)) = stores.first() {
                *parts.entry(part(&both.second.groups, *at).to_string()).or_default() += 1;
            }
            for &store in &stores {
                both.make(store);
            }
            stored += stores.len();
            calls.extend(stores);
            let call = next_call(&mut numbers, &both, no_store);
            calls.push(call);
            made += 1;
            match both.call(call) {
                Ok(answer) => *seen.entry(kind(call, &answer, &both)).or_default() += 1,
                Err(_) => fail(seed, arena_len, calls),
            }
        }
    }
    println!("{made} calls in {seed} pools: {seen:?}\n{stored} bytes stored; the first of each run was {parts:?}");
    all_seen(&seen, UNDAMAGED.into_iter().chain(DAMAGED).chain(["set up 0"]));
    all_seen(&parts, PARTS);
}

/// Where the record of a row stands in a room.
fn row(i: usize) -> usize {
    16 + 264 * i
}

/// Where that of a slot stands.
fn slot(first_row: usize, i: usize) -> usize {
    row(first_row) + 16 + 8 * i
}

/// Bytes at places of a room.
type Bytes<'a> = [(usize, &'a [u8])];

fn put(room: &mut [u8], bytes: &Bytes) {
    for (at, bytes) in bytes {
        room[*at..at + bytes.len()].copy_from_slice(bytes);
    }
}

/// Fails if the plain room of a pool is anything but zeros and these bytes.
fn says(both: &Both, bytes: &[&Bytes]) {
    let mut room = vec![0; row(both.first.arena.len() / 512)];
    put(&mut room, &bytes.concat());
    let at = room.iter().zip(&both.plain.room).position(|(due, is)| due != is);
    assert_eq!((at, both.plain.room.len()), (None, room.len()), "the first byte that should be another, and the length of the room");
}

/// A pool of 4,096 bytes. Row 0 has a group of slots of 16 bytes: two live blocks of 12, a slot that waits between them, and others never granted.
/// Rows 1 and 2 have one of slots of 32 bytes: in the first, one unit in, 12 bytes aligned to 32. The other rows are free.
fn small() -> Both {
    let mut both = Both::new(4096, OLD);
    due(&mut both, [(Grant(12), Value(16)), (Grant(12), Value(32)), (Grant(12), Value(48)), (Release(32), Done), (GrantAligned(12, 32), Value(544))]);
    both
}

#[test]
fn the_plain_form() {
    let ordinary: &[u8] = &[3, 1, 0, 0, 12];
    let rows: &Bytes = &[(0, &[0, 16]), (row(0), &[1, 0]), (row(1), &[1, 1]), (row(2), &[2, 1])];
    says(&small(), &[rows, &[(slot(0, 0), ordinary), (slot(0, 1), &[2, 1]), (slot(0, 2), ordinary), (slot(1, 0), &[4, 1, 1, 0, 12])]]);

    // all slots of a group granted: two wait, until one of them is granted again and the other is ready
    let mut both = Both::new(512, OLD);
    due(&mut both, (0..31).map(|i| (Grant(12), Value(16 + 16 * i))));
    due(&mut both, [(Release(16), Done), (Release(32), Done), (Grant(12), Value(17))]);
    let others: Vec<(usize, &[u8])> = (2..31).map(|i| (slot(0, i), ordinary)).collect();
    says(&both, &[&[(0, &[0, 2]), (row(0), &[1, 0]), (slot(0, 0), &[3, 2, 0, 0, 12]), (slot(0, 1), &[1, 1])], &others]);

    // the largest alignment, the largest displacement that a call gives, and a size of three bytes, in a group of 147 rows
    let mut both = Both::new(131_072, OLD);
    due(&mut both, [(GrantAligned(70_000, 4096), Value(4096))]);
    let later: Vec<_> = (1..147).map(|k| (row(k.into()), [2, k])).collect();
    let later: Vec<(usize, &[u8])> = later.iter().map(|(at, bytes)| (*at, &bytes[..])).collect();
    says(&both, &[&[(0, &[0, 0, 2]), (row(0), &[1, 44]), (slot(0, 0), &[11, 1, 255, 0, 0x70, 0x11, 1])], &later]);
}

#[test]
fn what_a_plain_room_may_say() {
    let both = small();
    // what stands in a free row, or in a later one, for a group of class 0 or 1 with a live block of no bytes
    let (class_0, class_1) = ([[1, 0].as_slice(), &[0; 14], &[3]].concat(), [[1, 1].as_slice(), &[0; 14], &[3]].concat());
    let cases: &[(&str, &Bytes, bool)] = &[
        ("nothing else", &[], true),
        ("another length", &[(1, &[18])], false),
        ("a byte after the length", &[(4, &[1])], false),
        ("the last byte of the head", &[(15, &[1])], false),
        // slot 1 waits, slot 3 was never granted
        ("ready again", &[(slot(0, 1), &[1])], true),
        ("granted, and never", &[(slot(0, 1), &[0])], false),
        ("waiting, one unit in", &[(slot(0, 1), &[2, 1, 1])], false),
        ("waiting, with a size", &[(slot(0, 1), &[2, 1, 0, 0, 1])], false),
        ("waiting, and a last byte", &[(slot(0, 1), &[2, 1, 0, 0, 0, 0, 0, 1])], false),
        ("never granted, with a count", &[(slot(0, 3), &[0, 1])], false),
        ("never granted, one unit in", &[(slot(0, 3), &[0, 0, 1])], false),
        ("never granted, with a size", &[(slot(0, 3), &[0, 0, 0, 0, 1])], false),
        ("never granted, and a last byte", &[(slot(0, 3), &[0, 0, 0, 0, 0, 0, 0, 1])], false),
        ("ready after 256 grants", &[(slot(0, 3), &[1])], true),
        ("waiting after 256 grants", &[(slot(0, 3), &[2])], true),
        // slots 0 and 2 are live
        ("any count", &[(slot(0, 0), &[3, 0]), (slot(0, 2), &[3, 255])], true),
        ("no bytes", &[(slot(0, 0), &[3, 1, 0, 0, 0])], true),
        ("a byte more than fits", &[(slot(0, 0), &[3, 1, 0, 0, 13])], false),
        ("65,536 bytes", &[(slot(0, 0), &[3, 1, 0, 0, 0, 0, 1])], false),
        ("one unit in", &[(slot(0, 0), &[3, 1, 1, 0, 0])], false),
        ("256 units in", &[(slot(0, 0), &[3, 1, 0, 1, 0])], false),
        ("live, and a last byte", &[(slot(0, 0), &[3, 1, 0, 0, 12, 0, 0, 1])], false),
        ("aligned to 32, at 16", &[(slot(0, 0), &[4])], false),
        ("aligned to 32 in a class too low", &[(slot(0, 1), &[4])], false),
        ("the least condition that is none", &[(slot(0, 0), &[12])], false),
        ("the largest byte", &[(slot(0, 0), &[255])], false),
        ("one live block", &[(slot(0, 0), &[2, 1, 0, 0, 0])], true),
        ("no live block", &[(slot(0, 0), &[2, 1, 0, 0, 0]), (slot(0, 2), &[2, 1, 0, 0, 0])], false),
        // the aligned block, at 544
        ("the same, ordinary", &[(slot(1, 0), &[3])], true),
        ("aligned to 64", &[(slot(1, 0), &[5])], false),
        ("off its boundary", &[(slot(1, 0), &[4, 1, 0])], false),
        ("a unit that its slot does not have", &[(slot(1, 0), &[4, 1, 2])], false),
        ("a byte more than fits there", &[(slot(1, 0), &[4, 1, 1, 0, 13])], false),
        ("no bytes there", &[(slot(1, 0), &[4, 1, 1, 0, 0])], true),
        // rows
        ("a byte after the class", &[(row(0) + 2, &[1])], false),
        ("where the other engine has its masks", &[(row(0) + 8, &[8])], false),
        ("a byte before the slots", &[(row(0) + 15, &[1])], false),
        ("a class of fewer rows", &[(row(1), &[1, 0])], false),
        ("a class of more rows", &[(row(1), &[1, 2])], false),
        ("no class", &[(row(1), &[1, 48])], false),
        ("another number of a later row", &[(row(2), &[2, 2])], false),
        ("a later row as a free one", &[(row(2), &[0, 0])], false),
        ("a later row as a first one", &[(row(2), &class_0)], false),
        ("a group on the later row of another", &[(row(2), &class_1), (row(3), &[2, 1])], false),
        ("a byte of a later row", &[(slot(2, 0), &[1])], false),
        ("another kind of row", &[(row(3), &[3])], false),
        ("a later row of no group", &[(row(3), &[2, 1])], false),
        ("a byte of a free row", &[(row(8) - 1, &[1])], false),
        ("a group with no live block", &[(row(3), &[1, 0])], false),
        ("a third group", &[(row(3), &class_0)], true),
        ("a group that ends with the arena", &[(row(6), &class_1), (row(7), &[2, 1])], true),
        ("a group past the end of the arena", &[(row(7), &class_1)], false),
    ];
    for (name, bytes, due) in cases {
        let mut changed = both.plain.clone();
        put(&mut changed.room, bytes);
        for block in both.second.live() {
            assert_eq!(over_any(&changed, &calls_on(block), format_args!("{name}")), *due, "{name}");
        }
        set_up_over(&changed, format_args!("{name}"));
    }
    // a group of 28 slots of 144 bytes, for sizes of its class and of the one below: 109 to 140
    let mut both = Both::new(4096, OLD);
    due(&mut both, [(Grant(140), Value(16))]);
    let block = |size| [3, 1, 0, 0, size];
    for (at, size, due) in [
        (slot(0, 1), 140, true),
        (slot(0, 1), 141, false),
        (slot(0, 1), 109, true),
        (slot(0, 1), 108, false),
        (slot(0, 1), 0, false),
        (slot(0, 27), 140, true),
        (slot(0, 28), 140, false),
        (slot(0, 30), 140, false),
    ] {
        let mut changed = both.plain.clone();
        put(&mut changed.room, &[(at, &block(size))]);
        assert_eq!(over_any(&changed, &calls_on((16, 140)), format_args!("{size} bytes at {at}")), due, "{size} bytes at {at}");
    }
}

#[test]
fn every_single_byte_change_of_a_plain_room() {
    let (mut tried, mut sound) = (0, 0);
    for seed in 1..=6 {
        let Both { plain, second, .. } = sample(seed, [512, 1024, 512, 2048, 4096, 1024][seed as usize % 6]);
        let live = second.live();
        every_byte(&plain, true, |changed, told| {
            let told = format_args!("seed {seed}, {told}");
            sound += usize::from(over_any(changed, &calls_on(live[tried % live.len()]), told));
            set_up_over(changed, told);
            tried += 1;
        });
    }
    println!("{tried} rooms with one byte changed, {sound} of them sound");
    assert!(0 < sound && sound < tried);
}

#[test]
fn random_plain_rooms() {
    let mut numbers = Numbers::new(78);
    let pools: Vec<Both> = (0..50).map(|seed| sample(seed, 4096)).collect();
    let (tried, mut sound) = (20_000, 0);
    for i in 0..tried {
        let of = &pools[numbers.below(50)];
        let other = &pools[numbers.below(50)];
        let changed = any_room(&mut numbers, &of.plain, &other.plain);
        let told = format_args!("room {i}");
        sound += usize::from(over_any(&changed, &calls_on(numbers.of(&of.second.live())), told));
        set_up_over(&changed, told);
    }
    println!("{tried} rooms, {sound} of them sound");
    assert!(0 < sound && sound < tried);
}

#[test]
fn rooms_of_zeros() {
    for rows in 1..=512 {
        let both = Both::new(512 * rows, OLD);
        let zeros = vec![0; both.first.room.len()];
        let (first, plain) = (Buffers { room: zeros.clone(), ..both.first }, Buffers { room: zeros, ..both.plain });
        let (calls, told) = (calls_on((16, 12)), format_args!("{rows} rows"));
        assert!(!over_any(&first, &calls, told) && !over_any(&plain, &calls, told), "{told}: sound");
    }
}

/// Changes one fact of some tables, and says which; of a slot, at a place.
fn change(numbers: &mut Numbers, tables: &mut Tables, at: (usize, usize)) -> &'static str {
    let rows = tables.rows;
    let Group { class, first_row, slots } = &mut tables.groups[at.0];
    let units = slot_bytes(*class) / 16;
    let slot = &mut slots[at.1];
    match numbers.below(8) {
        0 => {
            let state = numbers.of(&[State::Ready, State::Waiting, State::Live]);
            *slot = Slot { state, last: Some(slot.last.unwrap_or(0)), ..*slot };
            "condition"
        }
        1 => {
            *slot = Slot { state: numbers.of(&[State::Ready, State::Waiting]), size: 0, align: ORDINARY, ..*slot };
            "a block less"
        }
        2 => {
            slot.count = numbers.next() as u8;
            "use count"
        }
        3 => {
            slot.last = Some(if numbers.one_in(4) { numbers.below(65_536) } else { numbers.below(units + 1) });
            "displacement"
        }
        4 => {
            // about the largest size of the class, of the next two below, and of all; or any of three bytes
            let edge = slot_bytes(class.saturating_sub(numbers.below(3))) - 6 + numbers.below(5);
            let (limit, any) = (TOO_LARGE - 2 + numbers.below(5), numbers.below(1 << 24));
            slot.size = numbers.of(&[edge, edge, edge.saturating_sub(slot.align - ORDINARY), limit, any]);
            "size"
        }
        5 => {
            slot.align = numbers.of(&ALIGNMENTS);
            "alignment"
        }
        6 => {
            let other = (*class + numbers.below(3)).saturating_sub(1).min(47);
            if *first_row + rows_of(other) <= rows {
                *class = other;
                slots.resize(slots_of(other), Slot::NEVER_GRANTED);
            }
            "class"
        }
        _ => {
            *first_row = numbers.below(rows - rows_of(*class) + 1);
            "first row"
        }
    }
}

#[test]
fn changed_tables() {
    let mut numbers = Numbers::new(79);
    let pools: Vec<Both> = (1..=40).map(|seed| sample(seed, [1024, 4096, 8192, 16_384][seed as usize % 4])).collect();
    // how many rooms were unsound, and how many sound, by what was changed
    let mut met: BTreeMap<&str, [usize; 2]> = BTreeMap::new();
    for i in 0..30_000 {
        let both = &pools[numbers.below(pools.len())];
        let mut tables = both.second.tables();
        let at = numbers.of(&places(&tables.groups).iter().map(|place| (place.group, place.number)).collect::<Vec<_>>());
        let name = change(&mut numbers, &mut tables, at);
        let slot = places(&tables.groups).into_iter().find(|place| (place.group, place.number) == at);
        let block = slot.map_or((16, 12), |place| (place.handle(), place.slot.size));
        let changed: Buffers<()> = Buffers::saying(&marked(&both.plain.arena, &tables), &tables);
        let sound = over_any(&changed, &calls_on(block), format_args!("room {i}, changed in {name}"));
        met.entry(name).or_default()[usize::from(sound)] += 1;
    }
    println!("unsound and sound rooms, by what was changed: {met:?}");
    assert!(met.len() == 8 && met.values().flatten().all(|&k| k > 0));
}

/// The buffers of each engine with the room of the other; the record is the same.
fn crossed(both: &Both) -> (Buffers, Buffers<()>) {
    (Buffers { room: both.plain.room.clone(), ..both.first.clone() }, Buffers { room: both.first.room.clone(), ..both.plain.clone() })
}

#[test]
fn a_room_of_the_other_engine() {
    let mut tried = 0;
    for both in (1..=200).map(|seed| sample(seed, [512, 4096, 16_384, 65_536][seed as usize % 4])) {
        let (first, plain) = crossed(&both);
        let calls = calls_on(both.second.live()[0]);
        let sound = [over_any(&first, &calls, format_args!("a plain room")), over_any(&plain, &calls, format_args!("a room of the first engine"))];
        // a bit for it in a mask is none of the plain form's; and without masks it would be a live block of no bytes, which has a smaller class than
        // the live blocks beside it then have
        if places(&both.second.groups).iter().any(|place| !place.is_live()) {
            assert_eq!(sound, [false; 2]);
            tried += 1;
        }
    }
    println!("{tried} pools with a slot that is not live");
    assert!(tried > 150);
}

#[test]
fn fresh_rooms_are_the_same() {
    for rows in 1..=512 {
        let both = Both::new(512 * rows, OLD);
        assert!(both.first.room == both.plain.room, "{rows} rows");
        if rows > 20 && rows < 512 {
            continue;
        }
        let (first, plain) = crossed(&both);
        let (calls, told) = (calls_on((16, 12)), format_args!("{rows} rows"));
        assert!(over_any(&first, &calls, told) && over_any(&plain, &calls, told), "{told}: unsound");
    }
}

#[test]
fn a_full_room_can_be_taken_for_another() {
    // 5,000 bytes aligned to 64 in a group of one slot: no masks, and the code of 64 is the condition of an ordinary block
    let mut both = Both::new(8192, OLD);
    due(&mut both, [(GrantAligned(5000, 64), Value(64))]);
    let block = places(&both.second.groups).remove(0);
    let ordinary = Slot { align: ORDINARY, ..block.slot };
    assert!(crossed(&both).1 == Both::over(&both.first.arena, &with_slot(&both.second.tables(), &block, ordinary)).plain);
    assert!(over_any(&crossed(&both).1, &calls_on((64, 5000)), format_args!("a room of the first engine")));

    // 19,000 bytes aligned to 512, at a multiple of 2,048, whose code is the condition of such a block
    let mut both = Both::new(32_768, OLD);
    due(&mut both, [(Grant(44), Value(16)), (GrantAligned(19_000, 512), Value(2048)), (Release(16), Done)]);
    assert!(over_any(&crossed(&both).0, &calls_on((2048, 19_000)), format_args!("a plain room")));
}
