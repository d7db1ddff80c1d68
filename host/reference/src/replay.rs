//! What the replay of a field trace prints, by the second implementation.

use crate::Reference;
use slotpool::trace::{self, Op};

const ARENA: usize = 16_384;

/// A line for each record up to the first bad one, and a line for that.
pub fn replay(trace: &[u8]) -> Vec<u8> {
    let (ops, bad) = trace::read(trace);
    let mut pool = Reference::set_up(ARENA);
    let mut lines: Vec<String> = ops.iter().map_while(|op| answer(&mut pool, op)).collect();
    let stopped = (lines.len() < ops.len()).then_some(lines.len() + 1);
    let bad = stopped.or(bad.map(|bad| bad.record));
    lines.extend(bad.map(|record| format!("bad {record}")));
    lines.iter().flat_map(|line| [line, "\n"]).collect::<String>().into_bytes()
}

/// The answer to a record, or none for a store that ends past the arena.
fn answer(pool: &mut Reference, op: &Op) -> Option<String> {
    let value = match *op {
        Op::Grant(n) => pool.grant(n as usize),
        Op::Release(handle) => pool.release(handle as usize).map(|()| 0),
        Op::InPlace(handle, n) => pool.resize_in_place(handle as usize, n as usize),
        Op::Move(handle, n) => pool.move_block(handle as usize, n as usize),
        Op::Measure(handle) => pool.measure(handle as usize),
        Op::Store(offset, ref bytes) => {
            let from = offset as usize;
            pool.arena.get_mut(from..from + bytes.len())?.copy_from_slice(bytes);
            Ok(0)
        }
        Op::Report => return Some(totals(pool)),
    };
    Some(value.map_or_else(|refusal| format!("{} 0", refusal as usize), |value| format!("0 {value}")))
}

fn totals(pool: &Reference) -> String {
    let t = pool.report();
    format!("0 {} {} {} {} {} {}", t.live_blocks, t.requested_bytes, t.rows_held, t.rows_free, t.ready_slots, t.waiting_slots)
}
