//! The replay program beside the second implementation's replay: what they print of a trace is compared byte for byte.

mod common;
mod damaged;
mod program;
mod random;

use common::{Answer, Both, Call};
use damaged::DAMAGED;
use program::run;
use random::{all_seen, block, kind, next_call, Numbers, Seen, UNDAMAGED};
use slotpool::trace::{parse, read, replayable, text, write, Op, ARENA, MOST};
use slotpool_reference::{replay, start_of};
use std::ops::Range;
use std::path::Path;
use std::process::Command;

const PROGRAM: &str = concat!(env!("CARGO_MANIFEST_DIR"), "/../target/bin/replay");

/// What both print of a trace; fails if that is not the same, or if the trace is shown with other records or another bad one.
fn prints(trace: &[u8]) -> String {
    prints_in_pieces(&[trace])
}

/// What both print of a trace that comes in pieces.
fn prints_in_pieces(pieces: &[&[u8]]) -> String {
    assert!(Path::new(PROGRAM).exists(), "{PROGRAM} is missing: run make replay first");
    let trace = pieces.concat();
    let output = run(&mut Command::new(PROGRAM), pieces);
    let (printed, due) = (String::from_utf8_lossy(&output.stdout), String::from_utf8(replay(&trace)).unwrap());
    if printed != due {
        fail(&trace, &printed, &due);
    }
    assert!(output.status.code().is_some(), "{} after all was printed of\n{}", output.status, text(&read(&trace).0));
    let (shown, bad) = replayable(&trace);
    let bad = bad.map(|bad| format!("bad {}", bad.record));
    assert_eq!(due.lines().count(), shown.len() + bad.iter().len(), "records that are shown of\n{}", text(&read(&trace).0));
    assert_eq!(due.lines().last().filter(|line| line.starts_with("bad")), bad.as_deref(), "{}", text(&read(&trace).0));
    due
}

/// Fails with both outputs where they first differ, and with the trace up to there.
fn fail(trace: &[u8], printed: &str, due: &str) -> ! {
    let same = printed.split_inclusive('\n').zip(due.split_inclusive('\n')).take_while(|(p, d)| p == d).count();
    let line = |output: &str| output.split_inclusive('\n').nth(same).unwrap_or("").to_string();
    let (ops, bad) = read(trace);
    let records: Vec<String> = ops.iter().map(Op::to_string).chain(bad.map(|bad| bad.to_string())).take(same + 1).collect();
    panic!(
        "line {}: the program prints {:?} and should print {:?}, of a trace of {} bytes:\n{}",
        same + 1,
        line(printed),
        line(due),
        trace.len(),
        records.join("\n")
    );
}

/// A part of a live block's requested bytes, if there is a block.
fn in_requested(numbers: &mut Numbers, both: &Both) -> Range<usize> {
    let (start, n) = block(numbers, both).unwrap_or((0, 0));
    let from = numbers.below(n + 1);
    start + from..start + from + numbers.below(n - from + 1)
}

/// Some bytes anywhere, most often a few in a live block or near its ends.
fn anywhere(numbers: &mut Numbers, both: &Both) -> Range<usize> {
    let live = both.second.live();
    let from = if live.is_empty() || numbers.one_in(6) {
        numbers.below(ARENA + 1)
    } else {
        let (handle, n) = numbers.of(&live);
        (start_of(handle) + numbers.below(n + 24)).saturating_sub(8).min(ARENA)
    };
    let most = numbers.of(&[9, 9, 9, 9, 300]);
    from..(from + numbers.below(most)).min(ARENA)
}

/// The bytes that an engine stores into next.
type Engine = fn(&mut Numbers, &Both) -> Range<usize>;

/// How an engine stores: not at all, so as to damage no block, or anyhow.
const ENGINES: [Option<Engine>; 3] = [None, Some(in_requested), Some(anywhere)];

/// The records of an answered call, as far as traces have it: a list that was granted is its grants. The largest sizes and handles
/// become the largest of four bytes.
fn records(call: Call, answer: Answer) -> Vec<Op> {
    match (call, answer) {
        (Call::Grant(n), _) => vec![Op::Grant(n as u32)],
        (Call::GrantList(list), Answer::Value(_)) => list.sizes().iter().map(|&n| Op::Grant(n as u32)).collect(),
        (Call::Release(handle), _) => vec![Op::Release(handle as u32)],
        (Call::InPlace(handle, n), _) => vec![Op::InPlace(handle as u32, n as u32)],
        (Call::Move(handle, n), _) => vec![Op::Move(handle as u32, n as u32)],
        (Call::Measure(handle), _) => vec![Op::Measure(handle as u32)],
        (Call::Report, _) => vec![Op::Report],
        (Call::SetUp | Call::GrantAligned(..) | Call::GrantList(_) | Call::Store(..), _) => Vec::new(),
    }
}

/// A random trace, drawn with what the pool holds at each record.
fn draw(seed: usize, seen: &mut Seen) -> Vec<Op> {
    let mut numbers = Numbers::new(seed as u64);
    let mut both = Both::new(ARENA, 0);
    let mut count = |kind: String| *seen.entry(kind).or_default() += 1;
    let mut ops = Vec::new();
    for _ in 0..numbers.below(400) {
        match ENGINES[seed % ENGINES.len()] {
            Some(engine) if numbers.one_in(6) => {
                let place = engine(&mut numbers, &both);
                let zeros = numbers.one_in(2);
                let bytes: Vec<u8> = place.clone().map(|_| if zeros { 0 } else { numbers.next() as u8 }).collect();
                for (at, &byte) in place.clone().zip(&bytes) {
                    both.make(Call::Store(at, byte));
                }
                count("store".to_string());
                ops.push(Op::Store(place.start as u32, bytes));
            }
            _ => {
                // traces have no aligned grants
                let call = match next_call(&mut numbers, &both, |_, _| None) {
                    Call::SetUp => continue,
                    Call::GrantAligned(n, _) => Call::Grant(n),
                    call => call,
                };
                let answer = both.make(call)[0];
                count(kind(call, &answer, &both));
                ops.extend(records(call, answer));
            }
        }
    }
    ops
}

#[test]
fn two_thousand_random_traces() {
    let mut seen = Seen::new();
    let mut records = 0;
    for seed in 1..=2000 {
        let ops = draw(seed, &mut seen);
        let trace = write(&ops);
        assert_eq!(prints(&trace).lines().count(), ops.len(), "seed {seed}");
        records += ops.len();
        assert_eq!(parse(&text(&ops)).as_ref(), Ok(&ops), "seed {seed}");
        assert_eq!(read(&trace), (ops, None), "seed {seed}");
    }
    println!("{records} records: {seen:?}");
    all_seen(&seen, UNDAMAGED.into_iter().chain(DAMAGED).filter(|kind| !kind.contains("aligned")).chain(["store"]));
}

#[test]
fn random_traces_with_bytes_changed() {
    let (tried, mut bad) = (500, 0);
    for seed in 1..=tried {
        let mut numbers = Numbers::new(seed as u64);
        let mut trace = write(&draw(seed, &mut Seen::new()));
        for _ in 0..=numbers.below(3) {
            let at = numbers.below(trace.len());
            trace[at] = if numbers.one_in(2) { numbers.next() as u8 } else { numbers.below(10) as u8 };
        }
        bad += usize::from(prints(&trace).contains("bad"));
    }
    println!("{tried} traces, {bad} of them bad");
    assert!(bad > tried / 10 && bad < tried);
}

/// Records with every operation and every answer, and what is printed of each.
const EVERY: [(&str, &str); 29] = [
    ("grant 160", "0 16"),
    ("grant 160", "0 208"),
    ("store 16 00ff07", "0 0"),
    ("measure 16", "0 160"),
    ("resize 16 188", "0 16"),
    ("report", "0 2 348 8 24 19 0"),
    ("measure 17", "10 0"),
    ("store 12 01", "0 0"),
    ("release 16", "6 0"),
    ("release 31", "10 0"),
    ("store 12 00", "0 0"),
    ("store 368 01", "0 0"),
    ("measure 208", "7 0"),
    ("store 368 00", "0 0"),
    ("resize 209 189", "10 0"),
    ("move 209 189", "10 0"),
    ("release 16", "0 0"),
    ("release 16", "5 0"),
    ("resize 17 0", "5 0"),
    ("move 17 0", "5 0"),
    ("resize 15 0", "4 0"),
    ("move 15 131052", "3 0"),
    ("grant 131052", "3 0"),
    ("grant 20000", "8 0"),
    ("move 208 20000", "8 0"),
    ("resize 208 189", "11 0"),
    ("measure 208", "0 160"),
    ("move 208 189", "0 4112"),
    ("report", "0 1 189 8 24 16 0"),
];

/// The trace of `EVERY`, and where its version byte and each of its records end.
fn every() -> (Vec<u8>, Vec<usize>) {
    let ops = parse(&EVERY.map(|(line, _)| line).join("\n")).unwrap();
    let ends = (0..=ops.len()).map(|k| write(&ops[..k]).len()).collect();
    (write(&ops), ends)
}

#[test]
fn every_operation_and_every_cut() {
    let (trace, ends) = every();
    for cut in 1..=trace.len() {
        let whole = ends.iter().filter(|&&end| end <= cut).count() - 1;
        let mut due: String = EVERY[..whole].iter().map(|(_, line)| format!("{line}\n")).collect();
        if cut > ends[whole] {
            due += &format!("bad {}\n", whole + 1);
        }
        assert_eq!(prints(&trace[..cut]), due, "cut after {cut} bytes");
    }
}

#[test]
fn pieces_make_a_trace() {
    let (trace, _) = every();
    let whole = prints(&trace);
    assert_eq!(prints_in_pieces(&trace.chunks(9).collect::<Vec<_>>()), whole);
    let most = of_length(MOST);
    assert_eq!(prints_in_pieces(&[&[], &most[..1], &most[1..40_000], &most[40_000..]]), prints(&most));
    let more = of_length(MOST + 1);
    assert_eq!(prints_in_pieces(&[&more[..MOST], &more[MOST..]]), "bad 0\n");
}

#[test]
fn every_version() {
    assert_eq!(prints(&[]), "bad 0\n");
    for version in 0..=255 {
        let is_right = version == 2;
        assert_eq!(prints(&[version]), if is_right { "" } else { "bad 0\n" }, "version {version}");
        assert_eq!(prints(&[version, 0, 5, 1, 0, 0, 0, 0]), if is_right { "0 16\n" } else { "bad 0\n" }, "version {version}");
    }
}

#[test]
fn every_operation_in_bytes() {
    let grant = [0, 5, 1, 0, 0, 0, 160];
    let report = [0, 1, 6];
    let store = [0, 7, 5, 0, 0, 0, 16, 7, 9];
    let in_place = [0, 9, 3, 0, 0, 0, 16, 0, 0, 0, 188];
    let not_in_place = [0, 9, 3, 0, 0, 0, 16, 0, 0, 0, 189];
    let moves = [0, 9, 7, 0, 0, 0, 16, 0, 0, 0, 189];
    let measure = [0, 5, 4, 0, 0, 0, 16];
    let release = [0, 5, 2, 0, 0, 0, 16];
    let (no_room, too_large) = ([0, 5, 1, 0, 1, 255, 235], [0, 5, 1, 0, 1, 255, 236]);
    let trace = [&[2][..], &grant, &report, &store, &in_place, &not_in_place, &measure, &release, &no_room, &too_large].concat();
    assert_eq!(prints(&trace), "0 16\n0 1 160 8 24 20 0\n0 0\n0 16\n11 0\n0 188\n0 0\n8 0\n3 0\n");
    let trace = [&[2][..], &grant, &moves, &measure].concat();
    assert_eq!(prints(&trace), "0 16\n0 4112\n4 0\n");
    // a store over a header, and then back as it was
    let (spoils, mends) = ([0, 7, 5, 0, 0, 0, 12, 0, 1], [0, 7, 5, 0, 0, 0, 12, 0, 160]);
    let trace = [&[2][..], &grant, &spoils, &measure, &mends, &measure].concat();
    assert_eq!(prints(&trace), "0 16\n0 0\n6 0\n0 0\n0 160\n");
}

#[test]
fn every_operation_with_every_length() {
    // some long ones have a right length as their first byte or their last
    let long = [13, 255, 256, 257, 261, 265, 1280, 2304, 65_000];
    let tried = (0..=255).flat_map(|operation| (0..=12).map(move |length| (operation, length)));
    for (operation, length) in tried.chain((0..=8).flat_map(|operation| long.map(|length| (operation, length)))) {
        let record: Vec<u8> = [operation, 0, 0, 0, 16, 0, 0, 0, 20].into_iter().chain([7; MOST]).take(length).collect();
        let trace = [&write(&[Op::Grant(160)])[..], &(length as u16).to_be_bytes(), &record, &[0, 1, 6]].concat();
        let right = match operation {
            1 | 2 | 4 => length == 5,
            3 | 7 => length == 9,
            5 => length >= 5 && 16 + length - 5 <= ARENA,
            6 => length == 1,
            _ => false,
        };
        let printed = prints(&trace);
        assert_eq!(!printed.ends_with("\nbad 2\n"), right, "operation {operation}, length {length}: {printed}");
        assert_eq!(printed.lines().count(), if right { 3 } else { 2 }, "operation {operation}, length {length}: {printed}");
    }
}

#[test]
fn stores_at_the_edges_of_the_arena() {
    let mut right = 0;
    // the last three: the most that the trace has room for, one byte more, and the most of a record
    let counts = [0, 1, 2, 16_383, 16_384, 16_385, MOST - 15, MOST - 14, MOST - 5];
    for offset in [0, 1, 16_383, 16_384, 16_385, 65_535, 65_536, 1 << 31, u32::MAX - 16_383, u32::MAX] {
        for count in counts {
            let trace = write(&[Op::Store(offset, vec![1; count]), Op::Grant(0)]);
            let due = match (trace.len() <= MOST, offset as usize + count <= ARENA) {
                (false, _) => "bad 0\n",
                (true, false) => "bad 1\n",
                (true, true) => "0 0\n0 16\n",
            };
            assert_eq!(prints(&trace), due, "{count} bytes at {offset}");
            right += usize::from(due.starts_with('0'));
        }
    }
    assert_eq!(right, 12);
}

#[test]
fn a_store_reaches_the_last_block() {
    // blocks of 11 bytes in every slot of every row; the last one's spare byte is compared, and no block has the four bytes after it
    let mut ops = vec![Op::Grant(11); 31 * 32];
    for (offset, byte) in [(16_380, 1), (16_379, 1), (16_379, 0)] {
        ops.extend([Op::Store(offset, vec![byte; ARENA - offset as usize]), Op::Measure(16_368)]);
    }
    let printed = prints(&write(&ops));
    let last: Vec<&str> = printed.lines().skip(31 * 32 - 1).collect();
    assert_eq!(last, ["0 16368", "0 0", "0 11", "0 0", "7 0", "0 0", "0 11"]);
}

/// A trace of some length: at most two grants, then reports.
fn of_length(len: usize) -> Vec<u8> {
    let grants = (len - 1) % 3;
    let reports = (len - 1 - 7 * grants) / 3;
    let trace = write(&[vec![Op::Grant(160); grants], vec![Op::Report; reports]].concat());
    assert_eq!(trace.len(), len);
    trace
}

#[test]
fn every_record_of_a_long_trace_is_replayed() {
    let lines = |trace: Vec<u8>| prints(&trace).lines().map(str::to_string).collect::<Vec<_>>();
    assert_eq!(lines(of_length(65_533)), vec!["0 0 0 0 32 0 0"; 21_844]);
    assert_eq!(lines(of_length(MOST)).len(), 2 + 21_840);
    // 9,362 records of 7 bytes
    let pairs: Vec<Op> = (0..4681).flat_map(|_| [Op::Grant(160), Op::Release(16)]).collect();
    assert_eq!(write(&pairs).len(), MOST);
    assert_eq!(lines(write(&pairs)), ["0 16", "0 0"].repeat(4681));
    // the whole arena three times, and a part of it
    let stores: Vec<Op> = [ARENA, ARENA, ARENA, MOST - 1 - 7 - 3 * (7 + ARENA)].map(|n| Op::Store(0, vec![0xa5; n])).into();
    assert_eq!(write(&stores).len(), MOST);
    assert_eq!(lines(write(&stores)), ["0 0"; 4]);
    // the longest record that a trace has room for, of an operation that takes it and of one that does not
    let mut store = write(&[Op::Store(0, vec![0; MOST - 8])]);
    assert_eq!(lines(store.clone()), ["bad 1"]);
    store[3] = 1;
    assert_eq!(lines(store), ["bad 1"]);
}

#[test]
fn longer_traces_are_not_replayed() {
    // among them those whose length in two bytes would be that of a short trace
    for len in [65_536, 65_537, 65_544, 131_072, 131_080, 200_000] {
        assert_eq!(prints(&of_length(len)), "bad 0\n", "a trace of {len} bytes");
    }
}
