//! Any bytes and numbers, lent to the library.

use crate::common::{lent, Answer, Both, Buffers, Call, List, Record};
use slotpool::{Refusal, Totals};
use slotpool_reference::{Reference, Tables};
use std::fmt::Arguments;

/// Every call but set up: those on a block with its handle, a release, a resize in place and a move with other bits, grants of its size, a list of
/// two of its size, and an aligned grant and a list with everything wrong.
pub fn calls_on((handle, n): (usize, usize)) -> [Call; 13] {
    let (size, other) = (n.max(1), handle ^ 1);
    let lists = [List::new(2 * size, size, &[size, size], 17), List::new(usize::MAX, 0, &[0; 18], 16)].map(Call::GrantList);
    let aligned = [Call::GrantAligned(n, 32), Call::GrantAligned(usize::MAX, 0)];
    [
        Call::Release(handle),
        Call::Release(other),
        Call::Grant(n),
        aligned[0],
        Call::InPlace(handle, n / 2),
        Call::InPlace(other, n),
        Call::Move(handle, n / 2),
        Call::Move(other, n),
        Call::Measure(handle),
        Call::Report,
        lists[0],
        aligned[1],
        lists[1],
    ]
}

/// An engine's record, with which the second implementation judges its tables.
pub trait Judged: Record {
    /// The tables that some buffers say, if they are sound.
    fn tables(buffers: &Buffers<Self>) -> Option<Tables>;
}

impl Judged for Totals {
    fn tables(Buffers { arena, room, totals }: &Buffers) -> Option<Tables> {
        Tables::read(arena.len(), room, totals)
    }
}

impl Judged for () {
    fn tables(Buffers { arena, room, .. }: &Buffers<()>) -> Option<Tables> {
        Tables::read_plain(arena.len(), room)
    }
}

impl<R: Record> Buffers<R> {
    /// An arena beside some tables, which need not be sound.
    pub fn saying(arena: &[u8], tables: &Tables) -> Buffers<R> {
        let (room, totals) = R::saying(tables);
        Buffers { arena: arena.to_vec(), room, totals }
    }
}

impl Both {
    /// A pool over an arena and tables that no calls need have made.
    pub fn over(arena: &[u8], tables: &Tables) -> Both {
        let second = Reference::over(arena.to_vec(), tables.clone());
        Both { first: Buffers::saying(arena, tables), plain: Buffers::saying(arena, tables), second, lent: [lent(); 3], old: Vec::new() }
    }
}

/// A call that the library must refuse, with nothing changed.
pub fn refused<R: Record>(buffers: &Buffers<R>, call: Call, due: Refusal, told: Arguments) {
    let (mut after, mut list) = (buffers.clone(), lent());
    assert_eq!(after.call(&mut list, call), Answer::Refused(due), "{told}: {call:?} of the {} engine", R::ENGINE);
    assert!(after == *buffers && list == lent(), "{told}: {call:?} of the {} engine changed something", R::ENGINE);
}

/// Makes each call over a copy of any buffers. Unsound ones get answer 2 from all of them, with nothing changed; sound ones the second
/// implementation's answers, from both engines. Gives whether they are sound.
pub fn over_any<R: Judged>(buffers: &Buffers<R>, calls: &[Call], told: Arguments) -> bool {
    let Some(tables) = R::tables(buffers) else {
        for &call in calls {
            refused(buffers, call, Refusal::Unsound, told);
        }
        return false;
    };
    assert!(Buffers::saying(&buffers.arena, &tables) == *buffers, "{told}: sound, and not the form of its tables");
    for &call in calls {
        if let Err(why) = Both::over(&buffers.arena, &tables).call(call) {
            panic!("{told}: {why}");
        }
    }
    true
}

/// Set up over any buffers of the right lengths: done, and a fresh pool.
pub fn set_up_over<R: Record>(buffers: &Buffers<R>, told: Arguments) {
    let mut after = buffers.clone();
    assert_eq!(after.call(&mut lent(), Call::SetUp), Answer::Done, "{told}");
    let len = after.arena.len();
    let fresh = Buffers::saying(&vec![0; len], &Tables { rows: len / 512, groups: Vec::new() });
    assert!(after == fresh, "{told}: set up of the {} engine left something", R::ENGINE);
}
