//! The bench sheet of document 01, with what document 02 adds, run on the library beside the second implementation; W4 and W5 with their large arenas.

mod any;
mod common;
mod due;
mod forged;

use any::{calls_on, refused, set_up_over};
use common::Answer::{self, Done, Refused, Value};
use common::Call::{self, Grant, GrantAligned, InPlace, Measure, Move, Release, Report, SetUp, Store};
use common::{lent, resizes, Both, Buffers, List, Record};
use due::due;
use forged::over_each;
use slotpool::{check_list, plan_list, room_len, PlainPool, Refusal, Totals, ENTRIES};

const OVERRUN: Answer = Refused(Refusal::Overrun);
const NOT_IN_PLACE: Answer = Refused(Refusal::NotInPlace);
const NO_ROOM: Answer = Refused(Refusal::NoRoom);

fn fresh(arena_len: usize) -> Both {
    Both::new(arena_len, 9)
}

/// Both calls that give a block another size, with the same refusal.
fn neither(handle: usize, n: usize, why: Refusal) -> [(Call, Answer); 2] {
    resizes(handle, n).map(|call| (call, Refused(why)))
}

#[test]
fn w1_and_w2() {
    let mut both = fresh(512);
    due(&mut both, [(Grant(0), Value(16))]);
    assert_eq!(both.first.arena[12..16], [0, 160, 0, 0]);
    assert_eq!(both.first.arena[24..28], [12, 0, 0, 0]);
    due(&mut both, [(Grant(12), Value(32))]);
    assert_eq!(both.first.arena[28..32], [0, 1, 1, 0]);
}

#[test]
fn w3() {
    due(&mut fresh(512), [(Grant(13), NO_ROOM)]);
}

#[test]
fn w4() {
    let mut both = fresh(131_072);
    due(&mut both, [(Grant(131_051), Value(16))]);
    assert_eq!(both.first.arena[12..16], [0, 32, 0, 0]);
}

#[test]
fn w5() {
    due(&mut fresh(130_560), [(Grant(131_051), NO_ROOM)]);
}

#[test]
fn w6() {
    for rows in 1..=512 {
        due(&mut fresh(512 * rows), [(Grant(131_052), Refused(Refusal::TooLarge))]);
    }
}

/// The pool of W7 before its release.
fn w7_granted() -> Both {
    let mut both = fresh(4096);
    due(&mut both, [(Grant(160), Value(16)), (Grant(160), Value(208))]);
    both
}

#[test]
fn w7_and_its_stores() {
    due(&mut w7_granted(), [(Release(16), Done), (Grant(160), Value(400))]);
    for at in [176, 199] {
        let mut both = w7_granted();
        due(&mut both, [(Store(at, 1), Done), (Measure(16), OVERRUN), (Release(16), OVERRUN)]);
        due(&mut both, neither(16, 188, Refusal::Overrun));
    }
    due(&mut w7_granted(), [(Store(198, 1), Done), (Release(16), Done)]);
}

#[test]
fn one_byte_past_a_block() {
    // three spare bytes, of which the first is compared; five, whose first is the guard's; one; and none
    let three = &mut fresh(4096);
    due(three, [(Grant(185), Value(16))]);
    assert_eq!(three.first.arena[12..16], [0, 96, 0, 0]);
    due(three, [(Store(201, 1), Done), (Measure(16), OVERRUN), (Release(16), OVERRUN)]);
    due(three, [(Store(201, 0), Done), (Store(202, 1), Done), (Store(203, 1), Done), (Measure(16), Value(185)), (Release(16), Done)]);
    due(&mut fresh(4096), [(Grant(183), Value(16)), (Store(199, 1), Done), (Release(16), OVERRUN)]);
    let one = &mut fresh(4096);
    due(one, [(Grant(187), Value(16))]);
    assert_eq!(one.first.arena[12..16], [0, 32, 0, 0]);
    due(one, [(Store(203, 1), Done), (Measure(16), OVERRUN), (Release(16), OVERRUN)]);
    let none = &mut fresh(4096);
    due(none, [(Grant(188), Value(16)), (Grant(188), Value(208)), (Store(204, 1), Done), (Measure(16), Value(188))]);
    due(none, [(Measure(208), Refused(Refusal::HeaderDamaged)), (Release(16), Done)]);
}

#[test]
fn the_start_is_compared_where_no_bytes_were_asked_for() {
    let mut both = fresh(512);
    due(&mut both, [(Grant(0), Value(16)), (Store(16, 1), Done), (Measure(16), OVERRUN), (Release(16), OVERRUN)]);
    due(&mut both, neither(16, 1, Refusal::Overrun));
}

#[test]
fn the_compared_byte_moves_with_the_size() {
    let mut both = fresh(4096);
    due(&mut both, [(Grant(160), Value(16)), (InPlace(16, 141), Value(16)), (Store(157, 1), Done), (Measure(16), OVERRUN)]);
    due(&mut both, [(Store(157, 0), Done), (Store(176, 1), Done), (Measure(16), Value(141))]);
}

#[test]
fn a_wrong_header_is_told_before_a_wrong_guard() {
    for at in [176, 199] {
        let mut both = w7_granted();
        due(&mut both, [(Store(12, 1), Done), (Store(at, 1), Done), (Release(16), Refused(Refusal::HeaderDamaged))]);
        due(&mut both, [(Store(12, 0), Done), (Release(16), OVERRUN)]);
    }
}

/// The pool of W8 before its release, a full group.
fn w8_granted() -> Both {
    let mut both = fresh(4096);
    for i in 0..21 {
        due(&mut both, [(Grant(160), Value(16 + 192 * i))]);
    }
    both
}

#[test]
fn w8_and_w9() {
    let mut both = w8_granted();
    due(&mut both, [(Release(16), Done), (Grant(160), Value(33))]);
    // the displaced block has nothing but zeros before its header
    assert_eq!(both.first.arena[12..28], [0; 16]);
    assert_eq!(both.first.arena[28..32], [0, 160, 1, 0]);
    assert_eq!(both.first.arena[200..204], [12, 0, 0, 0]);
    due(&mut both, [(Release(32), Refused(Refusal::Stale)), (Release(16), Refused(Refusal::NoSuchBlock))]);
    // it is displaced by one unit, so 172 bytes fit, and 173 do not; and no slot is left for a move
    due(&mut both, [(InPlace(33, 172), Value(33)), (InPlace(33, 173), NOT_IN_PLACE), (Move(33, 173), NO_ROOM), (Move(33, 172), NO_ROOM)]);
    due(&mut both, [(Measure(33), Value(172)), (Release(33), Done)]);
}

#[test]
fn a_third_grant_is_not_displaced_and_a_refill_keeps_last_starts() {
    let free = Refused(Refusal::AlreadyFree);
    let mut both = w8_granted();
    due(&mut both, [(Release(16), Done), (Release(208), Done), (Grant(160), Value(33)), (Grant(160), Value(225))]);
    // the slot that started at 224 last waits, and then is ready
    due(&mut both, [(Release(33), Done), (Release(225), Done), (Release(225), free), (Grant(160), Value(18)), (Release(225), free)]);
    due(&mut both, [(Release(208), Refused(Refusal::NoSuchBlock))]);
}

#[test]
fn the_lowest_group_serves_though_its_slot_waits() {
    let mut both = fresh(8192);
    due(&mut both, [(Grant(2028), Value(16)), (Grant(2028), Value(2048)), (Grant(2028), Value(4112)), (Release(16), Done), (Grant(2028), Value(17))]);
}

#[test]
fn w10() {
    due(&mut w7_granted(), [(Release(16), Done), (Release(16), Refused(Refusal::AlreadyFree))]);
}

#[test]
fn w11() {
    let mut both = fresh(4096);
    let gone = Totals { rows_free: 8, ..Totals::default() };
    due(&mut both, [(Grant(160), Value(16)), (Release(16), Done), (Release(16), Refused(Refusal::NoSuchBlock))]);
    due(&mut both, [(Report, Answer::Totals(gone))]);
}

#[test]
fn w12() {
    let mut both = fresh(4096);
    due(&mut both, [(Grant(160), Value(16)), (InPlace(16, 188), Value(16)), (Measure(16), Value(188))]);
    due(&mut both, [(InPlace(16, 141), Value(16)), (Measure(16), Value(141))]);
}

#[test]
fn w13() {
    due(&mut fresh(4096), [(Grant(160), Value(16)), (Move(16, 189), NO_ROOM)]);
    due(&mut fresh(8192), [(Grant(160), Value(16)), (Move(16, 189), Value(4112))]);
}

#[test]
fn size_156_is_class_9_and_157_class_10() {
    // blocks of a class of 10 units, and of 12, are that far apart
    due(&mut fresh(4096), [(Grant(156), Value(16)), (Grant(156), Value(16 + 160))]);
    due(&mut fresh(4096), [(Grant(157), Value(16)), (Grant(157), Value(16 + 192))]);
}

#[test]
fn from_160_to_140_is_a_move() {
    let mut both = fresh(8192);
    due(&mut both, [(Grant(160), Value(16)), (InPlace(16, 140), NOT_IN_PLACE), (Measure(16), Value(160)), (Move(16, 140), Value(4112))]);
    due(&mut both, [(Measure(4112), Value(140)), (Measure(16), Refused(Refusal::NoSuchBlock))]);
}

#[test]
fn in_place_to_the_same_size() {
    // a spare byte that is not compared becomes zero all the same
    let mut both = fresh(4096);
    due(&mut both, [(Grant(160), Value(16)), (Store(16, 7), Done), (Store(175, 9), Done), (Store(198, 5), Done), (InPlace(16, 160), Value(16))]);
    assert_eq!([16, 175, 198].map(|at| both.first.arena[at]), [7, 9, 0]);
    // also in a full pool
    due(&mut w8_granted(), [(InPlace(16, 160), Value(16)), (InPlace(3856, 160), Value(3856))]);
}

#[test]
fn a_move_to_the_same_size_moves() {
    let mut both = fresh(4096);
    due(&mut both, [(Grant(160), Value(16)), (Store(16, 7), Done), (Store(198, 5), Done), (Move(16, 160), Value(208))]);
    assert_eq!([16, 198, 208, 390].map(|at| both.first.arena[at]), [0, 0, 7, 0]);
    due(&mut both, [(Measure(16), Refused(Refusal::AlreadyFree)), (Measure(208), Value(160))]);
}

#[test]
fn a_move_where_in_place_would_do_moves() {
    // to the slot's most, in the same group; and to the most of the class below, whose group it makes
    let mut both = fresh(8192);
    due(&mut both, [(Grant(160), Value(16)), (Move(16, 188), Value(208)), (Move(208, 156), Value(4112)), (Measure(4112), Value(156))]);
    due(&mut fresh(8192), [(Grant(160), Value(16)), (InPlace(16, 188), Value(16)), (InPlace(16, 156), Value(16)), (Measure(16), Value(156))]);
}

#[test]
fn a_move_needs_a_second_slot() {
    let mut both = w8_granted();
    due(&mut both, [160, 141, 189].map(|n| (Move(16, n), NO_ROOM)));
    // the other slot's second block is displaced, and so is the first one's, once it has moved and back
    due(&mut both, [(Release(208), Done), (Move(16, 160), Value(225)), (Move(225, 160), Value(33)), (Move(33, 160), Value(210))]);
    // one slot in all rows
    due(&mut fresh(4096), [(Grant(3200), Value(16)), (InPlace(16, 3200), Value(16)), (Move(16, 3200), NO_ROOM)]);
}

#[test]
fn what_is_told_before_not_in_place_and_no_room() {
    // 189 bytes do not fit, 140 are two classes down, and neither has room elsewhere
    for n in [189, 140] {
        let mut both = fresh(4096);
        due(&mut both, [(Grant(160), Value(16)), (InPlace(16, n), NOT_IN_PLACE), (Move(16, n), NO_ROOM)]);
        due(&mut both, neither(17, n, Refusal::Stale));
        // the guard, then the header as well, under which a wrong handle is still told first
        due(&mut both, [(Store(199, 1), Done)]);
        due(&mut both, neither(16, n, Refusal::Overrun));
        due(&mut both, [(Store(12, 1), Done)]);
        due(&mut both, neither(16, n, Refusal::HeaderDamaged));
        due(&mut both, neither(17, n, Refusal::Stale));
    }
}

#[test]
fn a_new_size_that_is_too_large_is_told_first() {
    let mut both = w7_granted();
    due(&mut both, [(Release(208), Done), (Store(12, 1), Done)]);
    for (handle, why) in [(400, Refusal::NoSuchBlock), (208, Refusal::AlreadyFree), (17, Refusal::Stale), (16, Refusal::HeaderDamaged)] {
        due(&mut both, neither(handle, 131_052, Refusal::TooLarge));
        due(&mut both, neither(handle, 131_051, why));
    }
    due(&mut both, [(Store(12, 0), Done), (InPlace(16, 131_051), NOT_IN_PLACE), (Move(16, 131_051), NO_ROOM)]);
}

#[test]
fn place_0_is_never_a_start() {
    let absent = Refused(Refusal::NoSuchBlock);
    let mut both = fresh(512);
    due(&mut both, [(Grant(0), Value(16))]);
    for handle in 0..16 {
        due(&mut both, [(Release(handle), absent), (Measure(handle), absent)]);
        due(&mut both, neither(handle, 0, Refusal::NoSuchBlock));
    }
}

#[test]
fn a_resize_in_place_keeps_the_first_bytes() {
    let mut both = fresh(4096);
    due(&mut both, [(Grant(160), Value(16)), (Store(16, 7), Done), (Store(175, 9), Done), (InPlace(16, 188), Value(16))]);
    assert_eq!((both.first.arena[16], both.first.arena[175], both.first.arena[176]), (7, 9, 0));
    due(&mut both, [(Store(156, 5), Done), (Store(157, 6), Done), (InPlace(16, 141), Value(16))]);
    assert_eq!((both.first.arena[16], both.first.arena[156], both.first.arena[157]), (7, 5, 0));
}

#[test]
fn a_move_copies_the_first_bytes() {
    let mut both = fresh(8192);
    due(&mut both, [(Grant(160), Value(16)), (Store(16, 7), Done), (Store(175, 9), Done), (Move(16, 189), Value(4112))]);
    assert_eq!((both.first.arena[4112], both.first.arena[4271], both.first.arena[4272]), (7, 9, 0));
    assert!(both.first.arena[..4096].iter().all(|&b| b == 0), "the old group is gone");
}

#[test]
fn checks() {
    assert!(check_list(100, 40, &[40, 20, 40]));
    assert!(check_list(17, 1, &[1; 17]));
    assert!(check_list(131_051, 131_051, &[131_051]));
    assert!(check_list(0, 1, &[]));
    assert!(!check_list(18, 2, &[1; 18]));
    assert!(!check_list(40, 40, &[40, 0]));
    assert!(!check_list(41, 40, &[41]));
    assert!(!check_list(99, 40, &[40, 20, 40]));
    assert!(!check_list(0, 40, &[0]));
    assert!(!check_list(1, 40, &[]));
    assert!(!check_list(0, 0, &[]));
    assert!(!check_list(1, 131_052, &[1]));
}

#[test]
fn plans() {
    let mut sizes = [7; ENTRIES];
    for (length, cap) in [(18, 1), (2_227_868, 131_051), (0, 0), (1, 131_052)] {
        assert_eq!(plan_list(length, cap, &mut sizes), Err(Refusal::TooLong), "{length} bytes under a cap of {cap}");
        assert_eq!(sizes, [7; ENTRIES]);
    }
    assert_eq!((plan_list(0, 1, &mut sizes), sizes), (Ok(0), [7; ENTRIES]));
    assert_eq!(plan_list(100, 40, &mut sizes), Ok(3));
    assert_eq!(sizes[..4], [40, 40, 20, 7]);
    assert_eq!(plan_list(80, 40, &mut sizes), Ok(2));
    assert_eq!(sizes[..4], [40, 40, 20, 7]);
    for cap in [1, 131_051] {
        assert_eq!(plan_list(17 * cap, cap, &mut sizes), Ok(17));
        assert_eq!(sizes, [cap; ENTRIES]);
    }
}

fn list<const N: usize>(length: usize, cap: usize, sizes: [usize; N], places: usize) -> Call {
    Call::GrantList(List::new(length, cap, &sizes, places))
}

#[test]
fn a_list_of_mixed_classes() {
    let mut both = fresh(4096);
    due(&mut both, [(list(44, 30, [1, 13, 30], 20), Value(3))]);
    assert_eq!(both.lent[0][..3], [16, 528, 1552]);
    let held = Totals { live_blocks: 3, requested_bytes: 44, rows_held: 6, rows_free: 2, ready_slots: 90, waiting_slots: 0 };
    due(&mut both, [(Measure(16), Value(1)), (Measure(528), Value(13)), (Measure(1552), Value(30)), (Report, Answer::Totals(held))]);
}

#[test]
fn the_empty_list() {
    let none = Totals { rows_free: 1, ..Totals::default() };
    due(&mut fresh(512), [(list(0, 131_051, [], 17), Value(0)), (Report, Answer::Totals(none))]);
}

#[test]
fn a_list_whose_last_entry_has_no_room() {
    // its first has room after a refill, its second in a new group
    let mut both = fresh(8192);
    for i in 0..21 {
        due(&mut both, [(Grant(160), Value(16 + 192 * i))]);
    }
    due(&mut both, [(Release(16), Done), (list(373, 200, [160, 13, 200], 17), NO_ROOM)]);
    due(&mut both, [(list(173, 200, [160, 13], 17), Value(2))]);
    assert_eq!(both.lent[0][..2], [33, 4112]);
}

#[test]
fn lists_that_are_too_long() {
    let lists = [list(18, 1, [1; 17], 17), list(0, 0, [], 17), list(1, 131_052, [1], 17), list(1, 1, [1], 16), list(0, 1, [], 16)];
    due(&mut fresh(512), lists.map(|list| (list, Refused(Refusal::TooLong))));
}

#[test]
fn bad_proposals() {
    let lists = [list(18, 2, [1; 18], 17), list(1, 1, [1, 0], 17), list(13, 12, [13], 17), list(14, 14, [13], 17)];
    due(&mut fresh(512), lists.map(|list| (list, Refused(Refusal::BadProposal))));
    due(&mut fresh(512), [(list(13, 13, [13], 17), NO_ROOM)]);
}

#[test]
fn a_start_at_each_alignment() {
    let starts = [(4096, 4096), (2048, 6144), (1024, 8192), (512, 11_776)];
    due(&mut fresh(16_384), starts.map(|(align, start)| (GrantAligned(1, align), Value(start))));
    let starts = [(256, 256), (128, 4224), (64, 8256), (32, 10_272)];
    due(&mut fresh(16_384), starts.map(|(align, start)| (GrantAligned(1, align), Value(start))));
}

#[test]
fn alignments_up_to_16_and_none() {
    let mut both = fresh(512);
    due(&mut both, [(0, 1, 16), (12, 16, 32), (1, 2, 48), (1, 4, 64), (1, 8, 80)].map(|(n, align, start)| (GrantAligned(n, align), Value(start))));
    assert_eq!(both.first.arena[12..16], [0, 160, 0, 0]);
    assert_eq!(both.first.arena[28..32], [0, 1, 1, 0]);
    let none = [(1, 0), (1, 3), (1, 48), (1, 8192), (131_052, 4095)];
    due(&mut both, none.map(|(n, align)| (GrantAligned(n, align), Refused(Refusal::BadAlignment))));
    for (n, align) in [(131_052, 16), (131_036, 32), (126_972, 4096)] {
        due(&mut both, [(GrantAligned(n, align), Refused(Refusal::TooLarge)), (GrantAligned(n - 1, align), NO_ROOM)]);
    }
}

#[test]
fn a_displacement_of_0_and_the_last_start_of_a_released_block() {
    let mut both = fresh(4096);
    due(&mut both, [(GrantAligned(20, 32), Value(32)), (GrantAligned(20, 32), Value(64))]);
    assert_eq!((&both.first.arena[28..32], &both.first.arena[56..60]), (&[0, 160, 1, 0][..], &[8, 0, 0, 0][..]));
    assert_eq!((&both.first.arena[60..64], &both.first.arena[104..108]), (&[0, 161, 3, 0][..], &[24, 0, 0, 0][..]));
    due(&mut both, [(Store(84, 1), Done), (Release(64), OVERRUN), (Store(84, 0), Done), (Release(32), Done)]);
    due(&mut both, [(Release(32), Refused(Refusal::AlreadyFree)), (Measure(32), Refused(Refusal::AlreadyFree)), (Measure(64), Value(20))]);
}

#[test]
fn the_count_steps_by_aligned_grants() {
    let mut both = fresh(4096);
    due(&mut both, [(GrantAligned(392, 1024), Value(1024)), (GrantAligned(392, 1024), Value(2048)), (Release(1024), Done)]);
    due(&mut both, [(GrantAligned(392, 1024), Value(1025)), (Release(1025), Done), (Grant(1400), Value(50))]);
}

#[test]
fn an_aligned_block_in_place_and_by_a_move() {
    let mut both = fresh(8192);
    due(&mut both, [(GrantAligned(20, 32), Value(32)), (GrantAligned(20, 32), Value(64)), (Store(64, 7), Done), (Store(83, 9), Done)]);
    due(&mut both, [(InPlace(32, 0), Value(32)), (InPlace(32, 28), Value(32)), (InPlace(64, 28), Value(64))]);
    // 29 bytes would fit at 64, but the enlarged size is of a higher class
    due(&mut both, [(InPlace(64, 29), NOT_IN_PLACE), (Measure(64), Value(28)), (Move(64, 29), Value(1568))]);
    assert_eq!((both.first.arena[1568], both.first.arena[1587], both.first.arena[1588], both.first.arena[64]), (7, 9, 0, 0));
    due(&mut both, [(InPlace(1568, 28), Value(1568)), (InPlace(1568, 12), NOT_IN_PLACE), (Move(1568, 12), Value(3616)), (Measure(3616), Value(12))]);
    due(&mut fresh(1536), [(GrantAligned(20, 32), Value(32)), (InPlace(32, 29), NOT_IN_PLACE), (Move(32, 29), NO_ROOM)]);
}

#[test]
fn the_enlarged_new_size_is_tested_before_damage() {
    let mut both = fresh(4096);
    due(&mut both, [(GrantAligned(20, 32), Value(32)), (GrantAligned(20, 32), Value(64)), (Grant(20), Value(1552))]);
    due(&mut both, neither(64, 131_036, Refusal::TooLarge));
    due(&mut both, [(InPlace(64, 131_035), NOT_IN_PLACE), (Move(64, 131_035), NO_ROOM), (Store(61, 0), Done)]);
    due(&mut both, neither(64, 131_036, Refusal::TooLarge));
    due(&mut both, neither(64, 131_035, Refusal::HeaderDamaged));
    due(&mut both, [(Release(32), Done)]);
    due(&mut both, neither(32, 131_051, Refusal::AlreadyFree));
    due(&mut both, neither(48, 131_051, Refusal::NoSuchBlock));
    due(&mut both, neither(48, 131_052, Refusal::TooLarge));
    due(&mut both, [(InPlace(1552, 131_051), NOT_IN_PLACE), (Move(1552, 131_051), NO_ROOM)]);
}

/// Puts a byte into both engines' rooms. The head, and use count, displacement and size of a slot's record, stand at the same places in both.
fn spoil(both: &mut Both, at: usize, byte: u8) {
    both.first.room[at] = byte;
    both.plain.room[at] = byte;
}

/// Stores a byte into both engines' arenas.
fn store(both: &mut Both, at: usize, byte: u8) {
    both.first.arena[at] = byte;
    both.plain.arena[at] = byte;
}

/// Puts another record in the place of the first engine's: blocks, bytes, rows held and free, ready and waiting slots.
fn write_record(both: &mut Both, numbers: [usize; 6]) {
    let [live_blocks, requested_bytes, rows_held, rows_free, ready_slots, waiting_slots] = numbers;
    both.first.totals = Totals { live_blocks, requested_bytes, rows_held, rows_free, ready_slots, waiting_slots };
}

/// A call over the spoilt tables of each engine: refused as is due, with nothing changed. The second implementation says the same of the tables.
fn leaves(both: &Both, call: Call, due: Refusal) {
    refused(&both.first, call, due, format_args!("spoilt"));
    refused(&both.plain, call, due, format_args!("spoilt"));
    assert_eq!(over_each(both, &[call], format_args!("spoilt")), due != Refusal::Unsound, "{call:?}");
}

/// Spoilt tables that are unsound: 2 from the call, as from all others but set up.
fn leaves_unsound(both: &Both, call: Call) {
    leaves(both, call, Refusal::Unsound);
    assert!(!over_each(both, &calls_on((16, 160)), format_args!("spoilt")), "{call:?}");
}

#[test]
fn a_live_block_is_of_its_class_or_the_one_below() {
    let mut both = fresh(4096);
    due(&mut both, [(Grant(160), Value(16))]);
    // the requested size of slot 0
    spoil(&mut both, 36, 141);
    write_record(&mut both, [1, 141, 8, 0, 20, 0]);
    leaves(&both, Measure(16), Refusal::Overrun);
    spoil(&mut both, 36, 140);
    write_record(&mut both, [1, 140, 8, 0, 20, 0]);
    leaves_unsound(&both, Measure(16));
}

#[test]
fn a_group_has_a_live_slot() {
    let mut both = fresh(4096);
    due(&mut both, [(Grant(160), Value(16))]);
    // slot 0 waits: by the waiting mask, and by its own record
    both.first.room[28] = 1;
    both.plain.room[32] = 2;
    spoil(&mut both, 36, 0);
    write_record(&mut both, [0, 0, 8, 0, 20, 1]);
    leaves_unsound(&both, Grant(160));
}

#[test]
fn a_block_fits_its_slot_and_the_arena_has_the_recorded_length() {
    let mut both = w7_granted();
    due(&mut both, [(Release(16), Done)]);
    // the displacement of slot 1, which is live
    spoil(&mut both, 42, 1);
    leaves(&both, Measure(224), Refusal::HeaderDamaged);
    spoil(&mut both, 42, 2);
    leaves_unsound(&both, Measure(240));
    spoil(&mut both, 42, 0);
    // the displacement of slot 0, which waits
    spoil(&mut both, 34, 11);
    assert!(over_each(&both, &calls_on((208, 160)), format_args!("a last start of 192")));
    assert_eq!([both.first.clone().call(&mut lent(), Measure(208)), both.plain.clone().call(&mut lent(), Measure(208))], [Value(160); 2]);
    spoil(&mut both, 34, 12);
    leaves_unsound(&both, Measure(208));
    spoil(&mut both, 34, 0);
    // the recorded length: 3,584 for 4,096
    spoil(&mut both, 1, 14);
    leaves_unsound(&both, Measure(208));
}

#[test]
fn a_displacement_of_256_units_in_the_header() {
    let mut both = fresh(16_896);
    due(&mut both, [(Grant(13_100), Value(16)), (InPlace(16, 10_909), Value(16))]);
    spoil(&mut both, 35, 1);
    store(&mut both, 4109, 160);
    leaves(&both, Measure(4112), Refusal::HeaderDamaged);
    store(&mut both, 4111, 1);
    leaves(&both, Measure(4112), Refusal::Overrun);
}

/// Set up over an arena and a room of these lengths, with zeros in them.
fn set_up<R: Record>(arena: usize, room: usize, is_right: bool) {
    let told = format_args!("an arena of {arena} bytes and a room of {room}");
    let buffers = Buffers { arena: vec![0; arena], room: vec![0; room], totals: R::old(7) };
    if is_right {
        set_up_over(&buffers, told);
    } else {
        refused(&buffers, SetUp, Refusal::BadArena, told);
    }
}

#[test]
fn what_set_up_takes() {
    let right = [(512, 280), (1024, 544)];
    let wrong = [(0, 16), (256, 16), (511, 280), (513, 280), (768, 280), (512, 279), (512, 281)];
    for (lengths, is_right) in [(&right[..], true), (&wrong, false)] {
        for &(arena, room) in lengths {
            set_up::<Totals>(arena, room, is_right);
            set_up::<()>(arena, room, is_right);
        }
    }
    for (arena, room) in [(512, 280), (262_144, 135_184), (262_145, 0), (262_656, 0), (0, 0)] {
        assert_eq!([room_len(arena), PlainPool::room_len(arena)], [room; 2], "an arena of {arena} bytes");
    }
}

/// What stands in each engine's room from a place on: the first's, and the second's.
fn rooms_hold<const N: usize>(both: &Both, at: usize, first: [u8; N], plain: [u8; N]) {
    assert_eq!((&both.first.room[at..at + N], &both.plain.room[at..at + N]), (&first[..], &plain[..]), "from byte {at} on");
}

/// Zeros in both rooms.
fn rooms_clear(both: &Both, at: usize, len: usize) {
    assert!([&both.first.room, &both.plain.room].iter().all(|room| room[at..at + len].iter().all(|&byte| byte == 0)), "{len} bytes from {at} on");
}

#[test]
fn the_bytes_of_the_room() {
    let mut both = fresh(4096);
    rooms_hold(&both, 0, [0, 16], [0, 16]);
    rooms_clear(&both, 2, 278);
    due(&mut both, [(Grant(1000), Value(16)), (Grant(1000), Value(1024)), (Grant(1000), Value(2032))]);
    rooms_hold(&both, 16, [1, 19], [1, 19]);
    rooms_clear(&both, 18, 6);
    // the masks of the first: slot 3 is ready. The slots' records: 0 to 2 are live, 3 was never granted
    rooms_hold(&both, 24, [8, 0, 0, 0, 0, 0, 0, 0], [0; 8]);
    rooms_hold(&both, 32, [1, 1, 0, 0, 232, 3, 0, 0], [3, 1, 0, 0, 232, 3, 0, 0]);
    rooms_clear(&both, 56, 8);
    due(&mut both, [(Grant(1000), Value(3040)), (Release(16), Done), (Release(1024), Done)]);
    rooms_hold(&both, 24, [0, 0, 0, 0, 3, 0, 0, 0], [0; 8]);
    rooms_hold(&both, 32, [1, 1, 0, 0, 0, 0, 0, 0], [2, 1, 0, 0, 0, 0, 0, 0]);
    due(&mut both, [(Grant(1000), Value(17))]);
    rooms_hold(&both, 24, [2, 0, 0, 0, 0, 0, 0, 0], [0; 8]);
    rooms_hold(&both, 32, [1, 2, 0, 0, 232, 3, 0, 0], [3, 2, 0, 0, 232, 3, 0, 0]);
    rooms_hold(&both, 40, [1, 1, 0, 0, 0, 0, 0, 0], [1, 1, 0, 0, 0, 0, 0, 0]);
    rooms_hold(&both, 48, [1, 1, 0, 0, 232, 3, 0, 0], [3, 1, 0, 0, 232, 3, 0, 0]);
    rooms_clear(&both, 64, 216);
    // the later rows
    for (row, at) in [(1, 280), (7, 1864)] {
        rooms_hold(&both, at, [2, row], [2, row]);
        rooms_clear(&both, at + 2, 262);
    }
}

#[test]
fn a_mask_has_its_low_byte_first() {
    let mut both = fresh(512);
    due(&mut both, (0..5).map(|i| (Grant(0), Value(16 + 16 * i))));
    due(&mut both, [(Release(32), Done), (Release(48), Done), (Release(64), Done)]);
    rooms_hold(&both, 24, [224, 255, 255, 127, 14, 0, 0, 0], [0; 8]);
}

#[test]
fn soundness_reads_the_enlarged_size() {
    let mut both = fresh(4096);
    due(&mut both, [(GrantAligned(20, 32), Value(32)), (GrantAligned(20, 32), Value(64))]);
    // slot 1 may be ordinary; aligned to 64 its enlarged size would be two classes up. The plain record has the code plus 2
    (both.first.room[40], both.plain.room[40]) = (1, 3);
    assert!(over_each(&both, &calls_on((64, 20)), format_args!("an ordinary block")));
    (both.first.room[40], both.plain.room[40]) = (3, 5);
    leaves_unsound(&both, Measure(64));
}

#[test]
fn a_use_count_steps_and_255_becomes_0() {
    let mut both = fresh(4096);
    due(&mut both, [(Grant(2028), Value(16)), (Grant(2028), Value(2048)), (Release(16), Done)]);
    for (count, next) in [(127, 128), (255, 0)] {
        let mut spoilt = both.clone();
        spoil(&mut spoilt, 33, count);
        let answers = [spoilt.first.call(&mut lent(), Grant(2028)), spoilt.plain.call(&mut lent(), Grant(2028))];
        assert_eq!((answers, spoilt.first.room[33], spoilt.plain.room[33]), ([Value(31); 2], next, next));
    }
}
