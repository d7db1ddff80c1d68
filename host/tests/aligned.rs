//! Aligned blocks, beside the second implementation: which numbers are alignments, where the blocks start, what they keep in place and by a move,
//! and which alignments the tables may hold.

mod any;
mod common;
mod due;
mod forged;
mod places;
mod random;
mod sample;

use any::{calls_on, over_any, refused, set_up_over, Judged};
use common::Answer::{Done, Refused, Value};
use common::Call::{self, Grant, GrantAligned, InPlace, Measure, Move, Release, Store};
use common::{resizes, Both, Buffers};
use due::due;
use forged::over_each;
use places::{marked, places, with_slot, Place};
use random::{all_seen, kind, next_call, Numbers, Seen, UNDAMAGED};
use sample::{no_store, sample, OLD};
use slotpool::Refusal::{self, AlreadyFree, BadAlignment, HeaderDamaged, NoRoom, NoSuchBlock, NotInPlace, Overrun, Stale, TooLarge, Unsound};
use slotpool_reference::{class_of, rows_of, slot_bytes, slots_of, start_of, Group, Reference, Slot, State, Tables, ALIGNMENTS, ORDINARY, TOO_LARGE};

/// Alignments that every start has.
const SMALL: [usize; 5] = [1, 2, 4, 8, 16];

/// Alignments that set the start.
fn large() -> impl Iterator<Item = usize> {
    ALIGNMENTS.into_iter().filter(|&align| align > ORDINARY)
}

/// The live block of a handle.
fn live_at(pool: &Reference, handle: usize) -> Option<Place> {
    places(&pool.groups).into_iter().find(|place| place.is_live() && place.handle() == handle)
}

/// Whether a live block of a class may have a size and an alignment.
fn serves(class: usize, n: usize, align: usize) -> bool {
    let size = n + align - 16;
    size < TOO_LARGE && (class_of(size)..=class_of(size) + 1).contains(&class)
}

#[test]
fn up_to_16_a_grant_is_an_ordinary_one() {
    let mut displaced = [0, 0];
    for both in (1..=24).map(|seed| sample(seed, [512, 4096, 8192, 65_536][seed as usize % 4])) {
        let edges = (0..48).flat_map(|class| [slot_bytes(class) - 4, slot_bytes(class) - 3]);
        let like = both.second.live().into_iter().map(|(_, n)| n);
        for n in like.chain(edges).chain([0, TOO_LARGE, usize::MAX]) {
            let mut ordinary = both.clone();
            let answer = ordinary.call(Grant(n)).unwrap();
            for align in SMALL {
                let mut aligned = both.clone();
                due(&mut aligned, [(GrantAligned(n, align), answer)]);
                let same = aligned.first == ordinary.first && aligned.plain == ordinary.plain;
                assert!(same, "{n} bytes at a multiple of {align}: not the state after a grant");
            }
            if let Value(handle) = answer {
                displaced[usize::from(start_of(handle) > live_at(&ordinary.second, handle).unwrap().begin)] += 1;
            }
        }
    }
    println!("grants at the beginning of their slots, and displaced by a count: {displaced:?}");
    assert!(displaced.iter().all(|&k| k > 0));
}

#[test]
fn what_is_no_alignment() {
    let both = &mut Both::new(2048, OLD);
    due(both, [(GrantAligned(28, 32), Value(32)), (Grant(12), Value(1552))]);
    let zeros = vec![0; both.first.room.len()];
    let unsound = (Buffers { room: zeros.clone(), ..both.first.clone() }, Buffers { room: zeros, ..both.plain.clone() });
    let near = (0..usize::BITS).map(|k| 1 << k).flat_map(|power: usize| [power - 1, power, power + 1, power | power >> 1]);
    for align in (0..=9000).chain(near).chain([usize::MAX, usize::MAX - 4095]) {
        let is_one = SMALL.contains(&align) || large().any(|large| large == align);
        for n in [0, 12, TOO_LARGE - 1, TOO_LARGE, usize::MAX] {
            let call = GrantAligned(n, align);
            if !is_one {
                due(both, [(call, Refused(BadAlignment))]);
            }
            refused(&unsound.0, call, Unsound, format_args!("unsound tables"));
            refused(&unsound.1, call, Unsound, format_args!("unsound tables"));
        }
    }
}

#[test]
fn too_large_once_enlarged() {
    for align in SMALL.into_iter().chain(large()) {
        // the largest size takes the slot of the last class, which begins at 16
        let (limit, start) = (TOO_LARGE - (align.max(16) - 16), align.max(16));
        let both = &mut Both::new(131_072, OLD);
        due(both, [(GrantAligned(limit, align), Refused(TooLarge)), (GrantAligned(limit - 1, align), Value(start))]);
        due(both, [(Measure(start), Value(limit - 1)), (GrantAligned(limit - 1, align), Refused(NoRoom))]);
        // no size wraps
        let both = &mut Both::new(512, OLD);
        due(both, [(GrantAligned(limit - 1, align), Refused(NoRoom))]);
        for n in (limit..limit + 5000).chain(usize::MAX - 5000..=usize::MAX).chain((17..usize::BITS).map(|k| 1 << k)) {
            due(both, [(GrantAligned(n, align), Refused(TooLarge))]);
        }
    }
}

#[test]
fn the_lowest_multiple() {
    let mut displaced = [0, 0];
    for align in large() {
        for n in [0, 1, 12, 13, 28, 29, 100, 160, 1000, 2000, 4000] {
            // a pool full of such blocks has one in every slot of every group
            let both = &mut Both::new(16_384, OLD);
            let class = class_of(n + align - 16);
            let groups = (0..32 / rows_of(class)).map(|k| 512 * k * rows_of(class));
            for begin in groups.flat_map(|from| (0..slots_of(class)).map(move |i| from + 16 + i * slot_bytes(class))) {
                let start = begin.div_ceil(align) * align;
                due(both, [(GrantAligned(n, align), Value(start))]);
                displaced[usize::from(start > begin)] += 1;
            }
            due(both, [(GrantAligned(n, align), Refused(NoRoom))]);
            // the next block of a slot starts where the last one did, and has the next handle
            let (first, _) = both.second.live()[0];
            for handle in first..first + if slots_of(class) > 1 { 3 } else { 0 } {
                due(both, [(Release(handle), Done), (Release(handle), Refused(AlreadyFree))]);
                due(both, [(GrantAligned(n, align), Value(handle + 1)), (Release(handle), Refused(Stale))]);
            }
        }
    }
    println!("blocks at the beginning of their slots, and after it: {displaced:?}");
    assert!(displaced.iter().all(|&k| k > 0));
}

#[test]
fn the_count_steps_and_displaces_nothing() {
    // 300 bytes at a multiple of 64 take a slot of 400, in which an ordinary block of 317 has five places
    let both = &mut Both::new(4096, OLD);
    for i in 0..slots_of(14) {
        due(both, [(GrantAligned(300, 64), Value((16 + 400 * i).div_ceil(64) * 64))]);
    }
    // the third slot begins at 816
    let (mut last, mut count) = (832, 1_u8);
    for turn in 0..600 {
        let (call, start) = match turn % 7 {
            3 => (Grant(317), 816 + 16 * (usize::from(count) % 5)),
            _ => (GrantAligned(300, 64), 832),
        };
        let handle = start + usize::from(count) % 16;
        due(both, [(Release(last), Done), (call, Value(handle))]);
        count = count.wrapping_add(1);
        assert_eq!(both.second.groups[0].slots[2].count, count, "after {turn} turns");
        last = handle;
    }
}

#[test]
fn the_tables_keep_the_alignment_of_a_live_block() {
    for (code, align) in (1..).zip(ALIGNMENTS) {
        // the first bytes of the records of the first three slots
        let first = |both: &Both| [both.first.room[32], both.first.room[40], both.first.room[48]];
        let both = &mut Both::new(16_384, OLD);
        due(both, [(GrantAligned(0, align), Value(align))]);
        assert_eq!(first(both), [code, 0, 0], "alignment {align}");
        due(both, [(InPlace(align, 1), Value(align)), (InPlace(align, 0), Value(align))]);
        assert_eq!(first(both), [code, 0, 0], "alignment {align}, after resizes in place");
        if slots_of(class_of(align - 16)) == 1 {
            continue;
        }
        both.call(GrantAligned(0, align)).unwrap();
        assert_eq!(first(both), [code, code, 0], "alignment {align}, two blocks");
        due(both, [(Release(align), Done), (Release(align), Refused(AlreadyFree))]);
        assert_eq!(first(both), [1, code, 0], "alignment {align}, after a release");
        // the second slot's block moves to the third, or to the first if there are two
        let (handle, _) = both.second.live()[0];
        both.call(Move(handle, 0)).unwrap();
        let moved = if slots_of(class_of(align - 16)) > 2 { [1, 1, code] } else { [code, 1, 0] };
        assert_eq!(first(both), moved, "alignment {align}, after a move");
    }
}

#[test]
fn an_aligned_block_in_place() {
    // a slot of 48 bytes that begins at 64: 29 bytes would fit, but with the alignment they are of the next class
    let both = &mut Both::new(4096, OLD);
    due(both, [(GrantAligned(28, 32), Value(32)), (GrantAligned(28, 32), Value(64))]);
    due(both, [13, 28, 12, 0, 28].map(|n| (InPlace(64, n), Value(64))));
    due(both, [(Store(64, 7), Done), (Store(91, 9), Done), (InPlace(64, 29), Refused(NotInPlace)), (Move(64, 29), Value(1568))]);
    assert_eq!((both.first.arena[1568], both.first.arena[1595], both.first.arena[1596]), (7, 9, 0));
    // an ordinary block stays, up to what the slot holds
    due(both, [(Grant(44), Value(112)), (InPlace(112, 13), Value(112)), (InPlace(112, 29), Value(112)), (InPlace(112, 44), Value(112))]);
    due(both, [(InPlace(112, 45), Refused(NotInPlace))]);
}

#[test]
fn a_move_keeps_the_boundary() {
    // a slot of 80 bytes, from which 29 bytes are one class down, and 28 two
    let both = &mut Both::new(8192, OLD);
    due(both, [(GrantAligned(60, 32), Value(32)), (InPlace(32, 29), Value(32)), (InPlace(32, 28), Refused(NotInPlace)), (Move(32, 28), Value(2592))]);
    due(both, [(Measure(32), Refused(NoSuchBlock)), (Measure(2592), Value(28))]);
    // it is aligned still, and so are those that it is moved to
    due(both, [(Move(2592, 29), Value(32)), (Move(32, 61), Value(2080))]);
    // to the same size it moves from slot to slot, here of 96 bytes from 2,064 on
    due(both, [(Move(2080, 61), Value(2176)), (Move(2176, 61), Value(2272))]);
    // no rows for the other class
    due(&mut Both::new(2560, OLD), [(GrantAligned(60, 32), Value(32)), (Move(32, 28), Refused(NoRoom)), (Move(32, 61), Refused(NoRoom))]);
}

#[test]
fn a_new_size_that_is_too_large() {
    // blocks in slots of 80 bytes: an aligned one at 64, which is released, and at 128, with 16 bytes to spare, and an ordinary one at 176
    let both = &mut Both::new(4096, OLD);
    due(both, [(GrantAligned(28, 64), Value(64)), (GrantAligned(28, 64), Value(128)), (Grant(61), Value(176)), (Release(64), Done)]);
    // what is due of each call below the limit
    let due_at = |both: &mut Both, handle, limit, otherwise: [Refusal; 2]| {
        for n in [TOO_LARGE - 49, TOO_LARGE - 48, TOO_LARGE - 1, TOO_LARGE, usize::MAX - 47, usize::MAX] {
            let calls = resizes(handle, n).into_iter().zip(otherwise);
            due(both, calls.map(|(call, otherwise)| (call, Refused(if n < limit { otherwise } else { TooLarge }))));
        }
    };
    // at the start of the live aligned block the enlarged size counts, whether the handle is its present one or not, and it is damaged or not
    due_at(both, 128, TOO_LARGE - 48, [NotInPlace, NoRoom]);
    for handle in 129..144 {
        due_at(both, handle, TOO_LARGE - 48, [Stale; 2]);
    }
    due(both, [(Store(124, 1), Done)]);
    due_at(both, 128, TOO_LARGE - 48, [HeaderDamaged; 2]);
    due(both, [(Store(124, 0), Done), (Store(156, 1), Done)]);
    due_at(both, 128, TOO_LARGE - 48, [Overrun; 2]);
    due_at(both, 129, TOO_LARGE - 48, [Stale; 2]);
    // at any other start the size itself does
    due_at(both, 64, TOO_LARGE, [AlreadyFree; 2]);
    due_at(both, 79, TOO_LARGE, [AlreadyFree; 2]);
    due_at(both, 176, TOO_LARGE, [NotInPlace, NoRoom]);
    due_at(both, 177, TOO_LARGE, [Stale; 2]);
    for handle in [0, 32, 127, 144, 4096, usize::MAX] {
        due_at(both, handle, TOO_LARGE, [NoSuchBlock; 2]);
    }
}

/// Calls about a block, with those new sizes that tell alignments apart.
fn calls_about((handle, n): (usize, usize)) -> Vec<Call> {
    let sizes = [n, n + 1, n + 16, TOO_LARGE - 16, TOO_LARGE - 4080];
    calls_on((handle, n)).into_iter().chain(sizes.into_iter().flat_map(|n| resizes(handle, n))).chain([GrantAligned(n, 64)]).collect()
}

/// A pool over tables that no calls have made.
fn forge(both: &Both, tables: &Tables) -> Both {
    Both::over(&marked(&both.first.arena, tables), tables)
}

/// Pools with blocks of every alignment, live and released.
fn pools() -> Vec<Both> {
    let aligned = |(n, align, start)| (GrantAligned(n, align), Value(start));
    let mut small = Both::new(16_384, OLD);
    due(&mut small, [(12, 32, 32), (0, 32, 64), (12, 32, 96), (100, 64, 1088), (44, 128, 1280), (0, 256, 5376), (28, 32, 9248)].map(aligned));
    due(&mut small, [(Grant(20), Value(112)), (Grant(150), Value(1360)), (Release(64), Done), (Release(1088), Done)]);
    // sizes so large that a block may have many alignments
    let mut large = Both::new(131_072, OLD);
    due(&mut large, [(30_000, 4096, 4096), (8000, 1024, 38_912), (12_000, 2048, 49_152), (3000, 512, 64_512)].map(aligned));
    due(&mut large, [(Grant(6000), Value(68_112))]);
    let samples = (1..=12).map(|seed| sample(seed, [1024, 2048, 4096, 8192][seed as usize % 4]));
    [small, large].into_iter().chain(samples).collect()
}

/// Whether a slot's record may begin with a byte.
fn may_begin(_: &Both, place: &Place, byte: u8) -> bool {
    let Slot { state, last, count, size, .. } = place.slot;
    let align = 8 << byte.min(10);
    match state {
        State::Live => (1..=9).contains(&byte) && place.start() % align == 0 && serves(place.class, size, align),
        // a ready slot can have been granted 256 times
        State::Ready if count == 0 && last.unwrap_or(0) == 0 => byte <= 1,
        _ => byte == 1,
    }
}

/// Whether a slot may be in the condition that a byte says of it in the plain form.
fn may_be(both: &Both, place: &Place, byte: u8) -> bool {
    let Slot { last, count, size, .. } = place.slot;
    let live = both.second.groups[place.group].slots.iter().filter(|slot| slot.state == State::Live).count();
    let may_end = size == 0 && live > usize::from(place.is_live());
    match byte {
        0 => may_end && count == 0 && last.unwrap_or(0) == 0,
        1..=2 => may_end,
        3..=11 => place.start() % (2 << byte) == 0 && serves(place.class, size, 2 << byte),
        _ => false,
    }
}

/// Tries every byte in place of the first of each slot's record. Gives how often each was sound, in slots that are not live and in live ones.
fn every_first_byte<R: Judged>(of: fn(&Both) -> &Buffers<R>, may: fn(&Both, &Place, u8) -> bool) -> [[usize; 12]; 2] {
    let mut sound = [[0; 12]; 2];
    for (p, both) in pools().iter().enumerate() {
        for place in places(&both.second.groups) {
            let mut changed = of(both).clone();
            let at = 16 + 264 * both.second.groups[place.group].first_row + 16 + 8 * place.number;
            for byte in 0..=255 {
                let told = format_args!("pool {p}, slot {} of group {}, {:?}, made {byte}", place.number, place.group, place.slot);
                changed.room[at] = byte;
                let is_sound = over_any(&changed, &calls_about((place.handle(), place.slot.size)), told);
                assert_eq!(is_sound, may(both, &place, byte), "{told}");
                if is_sound {
                    sound[usize::from(place.is_live())][usize::from(byte)] += 1;
                }
            }
            set_up_over(&changed, format_args!("pool {p}"));
        }
    }
    println!("bytes 0 to 11, how often they are sound in slots that are not live and in live ones: {sound:?}");
    sound
}

#[test]
fn every_alignment_byte() {
    let sound = every_first_byte(|both| &both.first, may_begin);
    assert!(sound[0][..2].iter().chain(&sound[1][1..10]).all(|&k| k > 0));
}

#[test]
fn every_condition_byte() {
    let sound = every_first_byte(|both| &both.plain, may_be);
    assert!(sound[0][..4].iter().chain(&sound[1][1..]).all(|&k| k > 0));
}

#[test]
fn any_multiple_is_sound() {
    // 2,000 bytes at a multiple of 64 take a slot of 2,336, which begins at 16
    let mut both = Both::new(16_384, OLD);
    due(&mut both, [(GrantAligned(2000, 64), Value(64))]);
    let place = &places(&both.second.groups)[0];
    let mut starts = Vec::new();
    for d in 0..146 {
        let start = 16 + 16 * d;
        let mut forged = forge(&both, &with_slot(&both.second.tables(), place, Slot { last: Some(d), ..place.slot }));
        if over_each(&forged, &calls_about((start, 2000)), format_args!("displacement {d}")) {
            // what fits is in place, a byte more is not, and moves to the lowest multiple of another slot
            let most = 2332 - 16 * d;
            due(&mut forged, [(Measure(start), Value(2000)), (InPlace(start, most), Value(start)), (InPlace(start, most + 1), Refused(NotInPlace))]);
            due(&mut forged, [(Move(start, most + 1), Value(2624)), (Measure(2624), Value(most + 1)), (Release(2624), Done)]);
            starts.push(start);
        }
    }
    assert_eq!(starts, [64, 128, 192, 256, 320]);
}

#[test]
fn no_live_size_is_131052_once_enlarged() {
    // a slot of the last class has that many bytes, and room for a larger block wherever the boundary is near its beginning
    for align in ALIGNMENTS {
        let limit = TOO_LARGE - (align - 16);
        for first_row in 0..8 {
            let begin: usize = 512 * first_row + 16;
            let d = (begin.div_ceil(align) * align - begin) / 16;
            let most = 131_052 - 16 * d;
            let both = Both::new(135_168, OLD);
            for n in [limit - 2, limit - 1, limit, limit + 1, most - 1, most, most + 1] {
                let slot = Slot { state: State::Live, last: Some(d), count: 1, size: n, align };
                let tables = Tables { rows: 264, groups: vec![Group { class: 47, first_row, slots: vec![slot] }] };
                let told = format_args!("{n} bytes at a multiple of {align} from row {first_row}");
                let sound = over_each(&Both::over(&both.first.arena, &tables), &calls_about((begin + 16 * d, n)), told);
                assert_eq!(sound, n < limit, "{told}");
            }
        }
    }
}

#[test]
fn every_class_with_every_alignment() {
    let mut sound = [0, 0];
    for class in 0..48 {
        let both = Both::new(512 * (rows_of(class) + 8), OLD);
        for align in ALIGNMENTS {
            // the last slot of a group, with the sizes at the ends of its class and the two below, and about the most that fits
            let (first_row, number) = (align / 16 % 9, slots_of(class) - 1);
            let begin = 512 * first_row + 16 + number * slot_bytes(class);
            let d = (begin.div_ceil(align) * align - begin) / 16;
            let most = slot_bytes(class) - 4;
            let ends = (class.saturating_sub(2)..=class).flat_map(|c| [slot_bytes(c) - 4, slot_bytes(c) - 3]);
            let sizes = ends.map(|end| end.wrapping_sub(align - 16)).chain([most, most + 1].map(|n| n.wrapping_sub(16 * d)));
            for n in sizes.filter(|&n| n <= most) {
                let mut slots = vec![Slot::NEVER_GRANTED; number];
                slots.push(Slot { state: State::Live, last: Some(d), count: 1, size: n, align });
                let tables = Tables { rows: rows_of(class) + 8, groups: vec![Group { class, first_row, slots }] };
                let told = format_args!("class {class}, {n} bytes at a multiple of {align}");
                let is_sound = over_each(&forge(&both, &tables), &calls_about((begin + 16 * d, n)), told);
                assert_eq!(is_sound, 16 * d + n <= most && serves(class, n, align), "{told}");
                sound[usize::from(is_sound)] += 1;
            }
        }
    }
    println!("unsound {}, sound {}", sound[0], sound[1]);
    assert!(sound.iter().all(|&k| k > 0));
}

/// Gives live slots other alignments, multiples, sizes and counts, as far as the tables stay sound.
fn shuffle(numbers: &mut Numbers, both: &Both) -> Both {
    let mut tables = both.second.tables();
    for place in places(&both.second.groups).iter().filter(|place| place.is_live()) {
        for _ in 0..6 {
            let align = if numbers.one_in(3) { place.slot.align } else { numbers.of(&ALIGNMENTS) };
            let start = (place.begin + 16 * numbers.below(slot_bytes(place.class) / 16)).div_ceil(align) * align;
            let size = if numbers.one_in(2) { place.slot.size } else { place.end().saturating_sub(start + numbers.below(40)) };
            let slot = Slot { last: Some((start - place.begin) / 16), count: numbers.next() as u8, size, align, ..place.slot };
            let changed = with_slot(&tables, place, slot);
            if Tables::read_alone(both.first.arena.len(), &changed.write()).is_some() {
                tables = changed;
            }
        }
    }
    forge(both, &tables)
}

/// Every live aligned block of a pool.
fn aligned(pool: &Reference) -> Vec<Place> {
    places(&pool.groups).into_iter().filter(|place| place.is_live() && place.slot.align > ORDINARY).collect()
}

/// A live aligned block resized in place or moved, to a size near one where it begins or ceases to fit.
fn at_an_edge(numbers: &mut Numbers, both: &Both) -> Option<Call> {
    let blocks = aligned(&both.second);
    let place = blocks.get(numbers.below(blocks.len().max(1)))?;
    let of_class = |class| slot_bytes(class) - 4 - (place.slot.align - 16).min(slot_bytes(class) - 4);
    let edges =
        [place.end() - place.start(), of_class(place.class), of_class(place.class.saturating_sub(1)), of_class(place.class.saturating_sub(2))];
    let n = (numbers.of(&edges) + numbers.below(4)).saturating_sub(1);
    Some(numbers.of(&resizes(place.handle(), n)))
}

#[test]
fn random_calls_on_blocks_at_any_multiple() {
    let (mut seen, mut later) = (Seen::new(), 0);
    // aligned blocks that were not resized in place: one that fits with a class too low, and one that does not with the right one
    let (mut upwards, mut beyond) = (0, 0);
    for seed in 1..=300 {
        let mut numbers = Numbers::new(seed);
        let mut both = shuffle(&mut numbers, &sample(seed, [4096, 8192, 16_384, 32_768, 65_536][seed as usize % 5]));
        later += aligned(&both.second).iter().filter(|place| place.start() >= place.begin + place.slot.align).count();
        for _ in 0..150 {
            let call = if numbers.one_in(4) { at_an_edge(&mut numbers, &both) } else { None };
            let call = call.unwrap_or_else(|| next_call(&mut numbers, &both, no_store));
            let before = if let InPlace(handle, _) = call { live_at(&both.second, handle) } else { None };
            let answer = both.call(call).unwrap_or_else(|why| panic!("seed {seed}: {why}"));
            *seen.entry(kind(call, &answer, &both)).or_default() += 1;
            if let (InPlace(handle, n), Some(place), false) = (call, before, answer == Refused(TooLarge)) {
                let (fits, serves) = (place.start() + n <= place.end(), serves(place.class, n, place.slot.align));
                assert_eq!(answer, if fits && serves { Value(handle) } else { Refused(NotInPlace) }, "seed {seed}: {call:?}");
                upwards += usize::from(fits && !serves && place.class < class_of(n + place.slot.align - 16));
                beyond += usize::from(!fits && serves && place.slot.align > ORDINARY);
            }
            if let (GrantAligned(_, align), Value(handle)) = (call, answer) {
                assert_eq!(start_of(handle) % align, 0, "seed {seed}: {call:?}");
            }
            assert!(aligned(&both.second).iter().all(|place| place.start() % place.slot.align == 0), "seed {seed}: after {call:?}");
        }
    }
    println!("{later} blocks at a later multiple; not in place: {upwards} in slots that have room, {beyond} in those of the right class: {seen:?}");
    assert!(later > 0 && upwards > 0 && beyond > 0);
    all_seen(&seen, UNDAMAGED.into_iter().chain(["set up 0"]));
}
