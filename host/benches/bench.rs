//! Nanoseconds per call, of the library and of the second implementation with its own full check of the tables, over arenas of four
//! sizes, empty, half full and nearly full; of the soundness check alone, dense and sparse, with ordinary and with aligned blocks; of aligned
//! grants beside ordinary ones; of grants that do little but find a class; of the grants of a list beside its list call; of the plain engine beside
//! the first; and records per second, of the replay program and of the second implementation's replay.
//! Each figure is the median of several runs, with the least and the most.

#[path = "../tests/program/mod.rs"]
mod program;

use slotpool::trace::{self, Op};
use slotpool::{room_len, Handle, PlainPool, Pool, Refusal, Totals, ENTRIES};
use slotpool_reference::{replay, start_of, Reference, Tables, ORDINARY};
use std::hash::{BuildHasher, BuildHasherDefault, DefaultHasher};
use std::hint::black_box;
use std::path::Path;
use std::process::Command;
use std::time::{Duration, Instant};

const RUNS: usize = 15;

struct Time {
    median: f64,
    least: f64,
    most: f64,
}

/// Nanoseconds per turn of one run.
fn run(turns: usize, turn: &mut impl FnMut()) -> f64 {
    let begun = Instant::now();
    for _ in 0..turns {
        turn();
    }
    begun.elapsed().as_nanos() as f64 / turns as f64
}

fn sorted(mut runs: Vec<f64>) -> Time {
    runs.sort_by(f64::total_cmp);
    Time { median: runs[runs.len() / 2], least: runs[0], most: runs[runs.len() - 1] }
}

/// Nanoseconds per turn: median, least and most of the runs.
fn time(turns: usize, mut turn: impl FnMut()) -> Time {
    sorted((0..RUNS).map(|_| run(turns, &mut turn)).collect())
}

/// Two things timed in turn, so that the machine's speed is the same for both: each one's time, and the ratio of the two in a run.
fn time_beside(turns: usize, mut one: impl FnMut(), mut other: impl FnMut()) -> (Time, Time, Time) {
    runs_beside(|| run(turns, &mut one), || run(turns, &mut other))
}

/// Runs of two things in turn, each of which gives its nanoseconds per turn.
fn runs_beside(mut one: impl FnMut() -> f64, mut other: impl FnMut() -> f64) -> (Time, Time, Time) {
    let runs: Vec<(f64, f64)> = (0..RUNS).map(|_| (one(), other())).collect();
    let each = |f: fn(&(f64, f64)) -> f64| sorted(runs.iter().map(f).collect());
    (each(|r| r.0), each(|r| r.1), each(|r| r.0 / r.1))
}

fn show(t: &Time) -> String {
    format!("{:>9.0} ({:.0} to {:.0})", t.median, t.least, t.most)
}

fn show_ratio(t: &Time) -> String {
    format!("{:>5.1} ({:.1} to {:.1})", t.median, t.least, t.most)
}

/// What a pool is lent.
fn buffers(len: usize) -> (Vec<u8>, Vec<u8>, Totals) {
    (vec![0; len], vec![0; room_len(len)], Totals::default())
}

/// Whether the second implementation finds a room and a record sound.
fn is_sound(len: usize, (room, record): &(Vec<u8>, Totals)) -> bool {
    Tables::read(len, black_box(room), black_box(record)).is_some()
}

/// The room and the record due for a pool of the second implementation.
fn lent(second: &Reference) -> (Vec<u8>, Totals) {
    let tables = second.tables();
    (tables.write(), tables.totals())
}

/// All bytes of a room, read once.
#[inline(never)]
fn plain_read(room: &[u8]) -> u8 {
    room.iter().fold(0, |seen, &b| seen | b)
}

/// Grants blocks of 160 bytes until a share of the rows is held.
fn fill(pool: &mut Pool, second: &mut Reference, share: f64) -> Vec<Handle> {
    let mut blocks = Vec::new();
    loop {
        let t = pool.report().unwrap();
        if t.rows_held as f64 >= share * (t.rows_held + t.rows_free) as f64 && t.ready_slots < 3 {
            return blocks;
        }
        match pool.grant(160) {
            Ok(block) => {
                assert_eq!(second.grant(160), Ok(block.raw()));
                blocks.push(block);
            }
            Err(_) => return blocks,
        }
    }
}

const PROGRAM: &str = concat!(env!("CARGO_MANIFEST_DIR"), "/../target/bin/replay");

/// What the replay program prints of a trace.
fn program(trace: &[u8]) -> Vec<u8> {
    program::run(&mut Command::new(PROGRAM), &[trace]).stdout
}

/// A full trace: grants of 160 bytes, then as many rounds as there is room for. A round makes its calls on a pool, which tells the handles.
fn full(grants: usize, round: fn(&mut Reference) -> Vec<Op>) -> Vec<Op> {
    let mut pool = Reference::set_up(16_384);
    let mut ops = vec![Op::Grant(160); grants];
    for _ in &ops {
        pool.grant(160).unwrap();
    }
    let mut len = trace::write(&ops).len();
    loop {
        let more = round(&mut pool);
        len += trace::write(&more).len() - 1;
        if len > trace::MOST {
            return ops;
        }
        ops.extend(more);
    }
}

/// A round of a grant and its release.
fn granted_and_released(pool: &mut Reference) -> Vec<Op> {
    let block = pool.grant(160).unwrap();
    pool.release(block).unwrap();
    vec![Op::Grant(160), Op::Release(block as u32)]
}

/// A round of all calls on a block, and a store.
fn all_on_a_block(pool: &mut Reference) -> Vec<Op> {
    let block = pool.grant(160).unwrap();
    pool.resize_in_place(block, 150).unwrap();
    let moved = pool.move_block(block, 160).unwrap();
    pool.release(moved).unwrap();
    let (start, block, moved) = (start_of(block) as u32, block as u32, moved as u32);
    let stored = Op::Store(start, vec![7; 160]);
    vec![Op::Grant(160), stored, Op::Measure(block), Op::InPlace(block, 150), Op::Move(block, 160), Op::Release(moved)]
}

/// Times the replay program, started anew for each trace, beside the second implementation's replay in this process.
fn replays() {
    if !Path::new(PROGRAM).exists() {
        println!("\nreplay: {PROGRAM} is missing, run make replay first");
        return;
    }
    println!("\nreplay of full traces, records per second: median of {RUNS} runs (least to most)");
    println!("{:<34} {:>8} {:>34} {:>34}", "trace", "records", "program, from its start to its end", "second, in this process");
    for (name, ops) in [
        ("grants and releases of 160 bytes", full(1, granted_and_released)),
        ("reports over a half full pool", full(42, |_| vec![Op::Report])),
        ("stores of 160 bytes among calls", full(1, all_on_a_block)),
    ] {
        let trace = trace::write(&ops);
        let due = replay(&trace);
        assert!(program(&trace) == due, "{name}: the program prints something else");
        assert!(due.split(|b| *b == b'\n').all(|line| line.is_empty() || line[0] == b'0'), "{name}: a refusal");
        let (one, other, _) = time_beside(3, || drop(black_box(program(&trace))), || drop(black_box(replay(&trace))));
        let per_second = |t: Time| {
            let rate = |nanoseconds: f64| 1e9 * ops.len() as f64 / nanoseconds;
            show(&Time { median: rate(t.median), least: rate(t.most), most: rate(t.least) })
        };
        println!("{name:<34} {:>8} {:>34} {:>34}", ops.len(), per_second(one), per_second(other));
    }
    let (start, other, _) =
        time_beside(10, || drop(black_box(program(&trace::write(&[])))), || drop(black_box(program::run(&mut Command::new("true"), &[]).stdout)));
    println!("nanoseconds of a run with no record, the program's start: {}; of a run of true: {}", show(&start).trim(), show(&other).trim());
}

/// A pool that is put back to one state before every turn.
#[derive(Clone)]
struct Kept {
    arena: Vec<u8>,
    room: Vec<u8>,
    totals: Totals,
    state: (Vec<u8>, Vec<u8>, Totals),
}

impl Kept {
    /// An arena that was full of blocks of one size, of which some were released.
    fn with_room(len: usize, size: usize, released: Released) -> Kept {
        Kept::full_of(len, &[(size, ORDINARY)], released)
    }

    /// An arena that was full of blocks with these sizes and alignments, granted in turn as long as there was room for any, of which some were
    /// released.
    fn full_of(len: usize, asked: &[(usize, usize)], released: Released) -> Kept {
        let (mut arena, mut room, mut totals) = buffers(len);
        let mut pool = Pool::set_up(&mut arena, &mut room, &mut totals).unwrap();
        let mut blocks = Vec::new();
        loop {
            let before = blocks.len();
            blocks.extend(asked.iter().filter_map(|&(n, align)| pool.grant_aligned(n, align).ok()));
            if blocks.len() == before {
                break;
            }
        }
        for block in released(&blocks) {
            pool.release(block).unwrap();
        }
        Kept { state: (arena.clone(), room.clone(), totals), arena, room, totals }
    }

    /// The same with the plain engine's tables.
    fn plain(&self) -> Kept {
        let tables = Tables::read(self.arena.len(), &self.room, &self.totals).expect("sound tables");
        let room = tables.write_plain();
        Kept { state: (self.arena.clone(), room.clone(), self.totals), room, ..self.clone() }
    }

    fn pool(&mut self) -> Pool<'_> {
        Pool::over(&mut self.arena, &mut self.room, &mut self.totals)
    }

    fn plain_pool(&mut self) -> PlainPool<'_> {
        PlainPool::over(&mut self.arena, &mut self.room)
    }

    /// Nanoseconds per turn of one run. That the bytes are copied back before each turn is not timed.
    fn run<T>(&mut self, turns: usize, mut turn: impl FnMut(&mut Kept) -> T) -> f64 {
        let mut spent = Duration::ZERO;
        for _ in 0..turns {
            self.arena.copy_from_slice(&self.state.0);
            self.room.copy_from_slice(&self.state.1);
            self.totals = self.state.2;
            let begun = Instant::now();
            black_box(turn(self));
            spent += begun.elapsed();
        }
        spent.as_nanos() as f64 / turns as f64
    }
}

/// Which of all blocks are released in a state.
type Released = fn(&[Handle]) -> Vec<Handle>;

fn all(blocks: &[Handle]) -> Vec<Handle> {
    blocks.to_vec()
}

fn none(_: &[Handle]) -> Vec<Handle> {
    Vec::new()
}

/// So many, equally far apart.
fn spread(blocks: &[Handle], count: usize) -> Vec<Handle> {
    (0..count).map(|i| blocks[i * blocks.len() / count]).collect()
}

/// Half of them, in no order: those whose hash is in the lower half.
fn half_at_random(blocks: &[Handle]) -> Vec<Handle> {
    let mut mixed = blocks.to_vec();
    mixed.sort_by_cached_key(|block| BuildHasherDefault::<DefaultHasher>::new().hash_one(block));
    mixed.truncate(blocks.len() / 2);
    mixed
}

const STATES: [(&str, Released); 3] =
    [("empty", all), ("half full", |blocks| spread(blocks, blocks.len() / 2)), ("nearly full", |blocks| spread(blocks, ENTRIES))];

/// A list call under the largest cap, of either engine.
macro_rules! list_call {
    ($pool:expr, $sizes:expr) => {
        $pool.grant_list($sizes.iter().sum(), 131_051, black_box(&$sizes), black_box(&mut [Handle::default(); ENTRIES]))
    };
}

/// Times 17 grants of one size beside a list call of the same, and a list call that is refused at its last entry.
fn lists() {
    println!("\nlists of 17 entries, nanoseconds per list: 17 grants of one size beside a list call of the same; and a list refused with 8,");
    println!("whose last entry, of 131,051 bytes, has no room. The pool before each, copied back untimed, was full of blocks of that size,");
    println!("of which all, every other or 17 here and there were released: empty, half full and nearly full");
    println!("{:<36} {:>26} {:>26} {:>20} {:>26}", "arena, entries", "17 grants", "list call", "ratio of a run", "refused with 8");
    for (kib, size) in [4, 16, 64].iter().flat_map(|&kib| [(kib, 12), (kib, 160)]) {
        for (name, released) in STATES {
            let name = format!("{kib} KiB, {name}, {size} bytes");
            let sizes = [size; ENTRIES];
            let mut short = sizes;
            short[ENTRIES - 1] = 131_051;
            let mut one = Kept::with_room(1024 * kib, size, released);
            let mut other = one.clone();
            if list_call!(one.pool(), sizes).is_err() {
                println!("{name:<36} no room for 17");
                continue;
            }
            let turns = 4000 / kib + 40;
            let (grants, list, ratio) = runs_beside(
                || one.run(turns, |kept| sizes.map(|n| kept.pool().grant(black_box(n)).unwrap())),
                || other.run(turns, |kept| list_call!(kept.pool(), sizes).unwrap()),
            );
            let refused = sorted((0..RUNS).map(|_| other.run(turns, |kept| list_call!(kept.pool(), short).unwrap_err())).collect());
            println!("{name:<36} {:>26} {:>26} {:>20} {:>26}", show(&grants), show(&list), show_ratio(&ratio), show(&refused));
        }
    }
}

/// Times grants that are refused in an arena of one row, where finding the class is a good part of a call. A size of 131,052 is refused before its
/// class is looked for.
fn classes() {
    println!("\nfinding a class: grants in an arena of one row, refused with 8, and of 131,052 bytes, refused with 3 before a class is looked for");
    println!("{:<36} {:>26}", "sizes", "grant");
    for (name, sizes) in [("131,052", 131_052..131_053), ("13 to 156", 13..157), ("157 to 2,000", 157..2_001), ("13 to 131,051", 13..131_052)] {
        let (mut arena, mut room, mut totals) = buffers(512);
        let mut pool = Pool::set_up(&mut arena, &mut room, &mut totals).unwrap();
        let due = if sizes.start < 131_052 { Refusal::NoRoom } else { Refusal::TooLarge };
        assert!(sizes.clone().all(|n| pool.grant(n) == Err(due)), "{name}: another answer");
        let all = time(131_052 / sizes.len(), || {
            for n in sizes.clone() {
                black_box(pool.grant(black_box(n)).is_err());
            }
        });
        let count = sizes.len() as f64;
        println!("{name:<36} {:>26}", show(&Time { median: all.median / count, least: all.least / count, most: all.most / count }));
    }
}

/// Sizes and alignments of mixed blocks.
const MIXED: [(usize, usize); 3] = [(12, 32), (100, 64), (2000, 4096)];

/// Two alignments of one class, which share its groups.
const SHARING: [(usize, usize); 2] = [(44, 32), (12, 64)];

/// Pools with tables that are sparse and dense: the sizes and alignments of their blocks, and which were released.
const CHECKED: [(&str, &[(usize, usize)], Released); 13] = [
    ("all rows free", &[(160, ORDINARY)], all),
    ("full of 1,500-byte blocks", &[(1500, ORDINARY)], none),
    ("full of 160-byte blocks", &[(160, ORDINARY)], none),
    ("half full of 160-byte blocks", &[(160, ORDINARY)], half_at_random),
    ("full of 12-byte blocks", &[(12, ORDINARY)], none),
    ("half full of 12-byte blocks", &[(12, ORDINARY)], half_at_random),
    ("full of 28-byte blocks", &[(28, ORDINARY)], none),
    ("full of 12 bytes aligned to 32", &[(12, 32)], none),
    ("half full of 12 bytes aligned to 32", &[(12, 32)], half_at_random),
    ("full of 100 bytes aligned to 64", &[(100, 64)], none),
    ("full of mixed aligned blocks", &MIXED, none),
    ("full of 44 aligned to 32 and 12 to 64", &SHARING, none),
    ("half full of 44 aligned to 32 and 12 to 64", &SHARING, half_at_random),
];

/// Times the soundness check alone, as a measure of handle 1 (answer 4), beside a plain read of the room.
fn checks() {
    println!("\nthe soundness check alone (a measure of handle 1, answer 4) beside a plain read of the room. Half full: half of the blocks were");
    println!("released, drawn at random. Mixed: 12 bytes aligned to 32, 100 to 64 and 2,000 to 4,096, in turn. Ordinary blocks of 28 bytes have the");
    println!("class of 12 aligned to 32; 44 aligned to 32 and 12 to 64 have one class, and share its groups");
    println!("{:<52} {:>26} {:>26} {:>20}", "arena", "check", "plain read", "ratio of a run");
    for kib in [4, 16, 64, 256] {
        for (name, asked, released) in CHECKED {
            let mut kept = Kept::full_of(1024 * kib, asked, released);
            let bytes = kept.room.clone();
            let pool = kept.pool();
            let turns = 60_000 / kib + 100;
            let (check, read, ratio) = time_beside(
                turns,
                || {
                    black_box(pool.measure(black_box(Handle::from_raw(1))).is_err());
                },
                || {
                    black_box(plain_read(black_box(&bytes)));
                },
            );
            println!("{:<52} {:>26} {:>26} {:>20}", format!("{kib} KiB, {name}"), show(&check), show(&read), show_ratio(&ratio));
        }
    }
}

/// Times an aligned grant with its release beside those of an ordinary block of the enlarged size.
fn aligned() {
    println!(
        "\naligned grant and release beside grant and release of the enlarged size, which has the same class. The pool was full of such aligned"
    );
    println!("blocks, of which all, or half, drawn at random, were released: empty and half full");
    println!("{:<48} {:>26} {:>26} {:>20}", "arena, block", "aligned", "ordinary", "ratio of a run");
    for kib in [4, 16, 64, 256] {
        for (state, released) in [("empty", all as Released), ("half full", half_at_random)] {
            for (n, align) in MIXED {
                let name = format!("{kib} KiB, {state}, {n} bytes aligned to {align}");
                let mut one = Kept::full_of(1024 * kib, &[(n, align)], released);
                let mut other = one.clone();
                let (mut one, mut other) = (one.pool(), other.pool());
                if one.grant_aligned(n, align).map(|block| one.release(block).unwrap()).is_err() {
                    println!("{name:<48} no room");
                    continue;
                }
                let (aligned, ordinary, ratio) = time_beside(
                    40_000 / kib + 200,
                    || {
                        let block = one.grant_aligned(black_box(n), black_box(align)).unwrap();
                        one.release(black_box(block)).unwrap();
                    },
                    || {
                        let block = other.grant(black_box(n + align - ORDINARY)).unwrap();
                        other.release(black_box(block)).unwrap();
                    },
                );
                println!("{name:<48} {:>26} {:>26} {:>20}", show(&aligned), show(&ordinary), show_ratio(&ratio));
            }
        }
    }
}

/// A grant of 160 bytes with its release, of either engine.
macro_rules! grant_and_release {
    ($pool:expr) => {{
        let block = $pool.grant(black_box(160)).unwrap();
        $pool.release(black_box(block)).unwrap();
    }};
}

/// Times the plain engine beside the first, over the same pools in each one's tables.
fn plain() {
    println!("\nthe plain engine beside the first: grant and release of 160 bytes, the soundness check alone (a measure of handle 1, answer 4), a");
    println!("report, which the plain engine counts, and a list call of 17 blocks of 160 bytes. The pools are those of the lists, of that size");
    println!("{:<44} {:>26} {:>26} {:>20}", "arena, call", "plain", "first", "ratio of a run");
    for kib in [4, 16, 64, 256] {
        for (state, released) in STATES {
            let name = |call: &str| format!("{kib} KiB, {state}, {call}");
            let line = |call: &str, (plain, first, ratio): (Time, Time, Time)| {
                println!("{:<44} {:>26} {:>26} {:>20}", name(call), show(&plain), show(&first), show_ratio(&ratio));
            };
            let mut first = Kept::with_room(1024 * kib, 160, released);
            let mut plain = first.plain();
            let mut copies = (plain.clone(), first.clone());
            let (mut one, mut other) = (copies.0.plain_pool(), copies.1.pool());
            let turns = 40_000 / kib + 200;
            line("grant and release", time_beside(turns, || grant_and_release!(one), || grant_and_release!(other)));
            let none = black_box(Handle::from_raw(1));
            line("check", time_beside(turns, || assert!(one.measure(none).is_err()), || assert!(other.measure(none).is_err())));
            line("report", time_beside(turns, || assert!(one.report().is_ok()), || assert!(other.report().is_ok())));
            let (sizes, turns) = ([160; ENTRIES], 4000 / kib + 40);
            if list_call!(one, sizes).is_err() {
                println!("{:<44} no room", name("list of 17"));
                continue;
            }
            let list = runs_beside(
                || plain.run(turns, |kept| list_call!(kept.plain_pool(), sizes).unwrap()),
                || first.run(turns, |kept| list_call!(kept.pool(), sizes).unwrap()),
            );
            line("list of 17", list);
        }
    }
}

fn main() {
    println!("nanoseconds per call: median of {RUNS} runs (least to most)");
    println!("{:<22} {:>26} {:>26} {:>26} {:>26}", "arena", "grant and release", "second, with full check", "measure", "second, with full check");
    for kib in [4, 16, 64, 256] {
        let len = 1024 * kib;
        for (name, share) in [("empty", 0.0), ("half full", 0.5), ("nearly full", 0.97)] {
            let (mut arena, mut room, mut totals) = buffers(len);
            let mut pool = Pool::set_up(&mut arena, &mut room, &mut totals).unwrap();
            let mut second = Reference::set_up(len);
            let mut blocks = if share > 0.0 { fill(&mut pool, &mut second, share) } else { Vec::new() };
            // one block more than is measured, and room for the one that is granted and released
            let turns = 40_000 / kib + 200;
            while share > 0.9 && pool.grant(160).is_err() {
                let h = blocks.pop().unwrap();
                pool.release(h).unwrap();
                second.release(h.raw()).unwrap();
            }
            if share > 0.9 {
                let h = second.grant(160).unwrap();
                pool.release(Handle::from_raw(h)).unwrap();
                second.release(h).unwrap();
            }
            let first = time(turns, || grant_and_release!(pool));
            // the second implementation checks the tables as they are before each call
            let before = lent(&second);
            let h = second.grant(160).unwrap();
            let between = lent(&second);
            second.release(h).unwrap();
            let other = time(turns / 10 + 1, || {
                assert!(is_sound(len, &before));
                let h = second.grant(black_box(160)).unwrap();
                assert!(is_sound(len, &between));
                second.release(black_box(h)).unwrap();
            });
            let block = match blocks.last() {
                Some(&h) => h,
                None => {
                    let h = pool.grant(160).unwrap();
                    assert_eq!(second.grant(160), Ok(h.raw()));
                    h
                }
            };
            let now = lent(&second);
            let measured = time(turns, || {
                black_box(pool.measure(black_box(block)).unwrap());
            });
            let measured_other = time(turns / 10 + 1, || {
                assert!(is_sound(len, &now));
                black_box(second.measure(black_box(block.raw())).unwrap());
            });
            println!(
                "{:<22} {:>26} {:>26} {:>26} {:>26}",
                format!("{kib} KiB, {name}"),
                show(&first),
                show(&other),
                show(&measured),
                show(&measured_other)
            );
        }
    }

    checks();
    aligned();
    classes();
    lists();
    plain();
    replays();
}
