//! Rooms with changed bytes.

use crate::common::Buffers;
use crate::random::Numbers;
use std::fmt::Arguments;

/// Values for a byte other than the one it has: all, or some.
fn others(byte: u8, all: bool) -> impl Iterator<Item = u8> {
    let some = [0, 1, 2, 3, 16, 31, 48, 128, 255, byte ^ 1, byte ^ 4];
    (0..=255).filter(move |v| *v != byte && (all || some.contains(v)))
}

/// Tries buffers with each byte of the room changed to all other values, or to some.
pub fn every_byte<R: Clone>(buffers: &Buffers<R>, all: bool, mut tried: impl FnMut(&Buffers<R>, Arguments)) {
    let mut changed = buffers.clone();
    for at in 0..buffers.room.len() {
        for byte in others(buffers.room[at], all) {
            changed.room[at] = byte;
            tried(&changed, format_args!("byte {at} made {byte}"));
        }
        changed.room[at] = buffers.room[at];
    }
}

/// Random bytes for a room, or the room of a pool with up to three bytes changed; often beside the arena of another.
pub fn any_room<R: Clone>(numbers: &mut Numbers, of: &Buffers<R>, other: &Buffers<R>) -> Buffers<R> {
    let mut changed = Buffers { arena: other.arena.clone(), ..of.clone() };
    if numbers.one_in(4) {
        changed.room.fill_with(|| numbers.next() as u8);
    }
    for _ in 0..numbers.below(4) {
        let at = numbers.below(changed.room.len());
        changed.room[at] = numbers.next() as u8;
    }
    changed
}
