//! Field traces: calls on a pool and stores into its arena, as the bytes that the replay program reads and as lines for people.
//!
//! Bytes: a version, 2, then records. A record has its length first, two bytes that count what follows: the operation's number, its
//! four-byte numbers and, in a store, the bytes to be stored. All numbers are big-endian.
//!
//! Lines: the operation's word, its numbers in decimal and, in a store, the bytes as pairs of hex digits. The word of a resize in place is
//! `resize`. Blank lines are skipped, and so is what follows a `#`.
//!
//! ```
//! use slotpool::trace::{parse, read, text, write, Op};
//!
//! let ops = parse("grant 160  # a packet\nstore 16 00ff07\n").unwrap();
//! assert_eq!(ops, [Op::Grant(160), Op::Store(16, vec![0, 255, 7])]);
//! let trace = write(&ops);
//! assert_eq!(trace, [2, 0, 5, 1, 0, 0, 0, 160, 0, 8, 5, 0, 0, 0, 16, 0, 255, 7]);
//! assert_eq!(read(&trace), (ops.clone(), None));
//! assert_eq!(text(&ops), "grant 160\nstore 16 00ff07\n");
//! ```

use std::{error, fmt};

const VERSION: u8 = 2;

/// The most bytes of a trace. A record's two bytes of length count as far.
pub const MOST: usize = 65_535;

/// The bytes of the arena that a trace is replayed over.
pub const ARENA: usize = 16_384;

/// What a record asks for: a call on the pool, or a store into its arena.
#[derive(Clone, Debug, PartialEq, Eq)]
pub enum Op {
    /// A size.
    Grant(u32),
    /// A handle.
    Release(u32),
    /// A handle and the new size, which the block is to have where it is.
    InPlace(u32, u32),
    /// A handle.
    Measure(u32),
    /// A place in the arena and the bytes that go there.
    Store(u32, Vec<u8>),
    Report,
    /// A handle and the new size, which the block is to have elsewhere.
    Move(u32, u32),
}

/// How an operation is written.
struct Kind {
    word: &'static str,
    /// What its numbers are.
    numbers: &'static [&'static str],
    /// Whether bytes follow them.
    bytes: bool,
}

/// The operations in the order of their numbers, from 1.
const KINDS: [Kind; 7] = [
    Kind { word: "grant", numbers: &["SIZE"], bytes: false },
    Kind { word: "release", numbers: &["HANDLE"], bytes: false },
    Kind { word: "resize", numbers: &["HANDLE", "SIZE"], bytes: false },
    Kind { word: "measure", numbers: &["HANDLE"], bytes: false },
    Kind { word: "store", numbers: &["OFFSET"], bytes: true },
    Kind { word: "report", numbers: &[], bytes: false },
    Kind { word: "move", numbers: &["HANDLE", "SIZE"], bytes: false },
];

impl Kind {
    /// The kind of an operation's number.
    fn of(operation: u8) -> Option<&'static Kind> {
        KINDS.get(usize::from(operation).checked_sub(1)?)
    }

    /// The bytes of its record up to those stored, the length not counted.
    fn least(&self) -> usize {
        1 + 4 * self.numbers.len()
    }

    /// Its line, in general.
    fn form(&self) -> String {
        let bytes: &[&str] = if self.bytes { &["HEX"] } else { &[] };
        [&[self.word], self.numbers, bytes].concat().join(" ")
    }
}

/// The line of each operation, in general.
pub fn forms() -> String {
    KINDS.each_ref().map(Kind::form).join(", ")
}

impl Op {
    /// Its operation's number, its own numbers and its bytes.
    fn parts(&self) -> (u8, Vec<u32>, &[u8]) {
        match *self {
            Op::Grant(n) => (1, vec![n], &[]),
            Op::Release(handle) => (2, vec![handle], &[]),
            Op::InPlace(handle, n) => (3, vec![handle, n], &[]),
            Op::Measure(handle) => (4, vec![handle], &[]),
            Op::Store(offset, ref bytes) => (5, vec![offset], bytes),
            Op::Report => (6, vec![], &[]),
            Op::Move(handle, n) => (7, vec![handle, n], &[]),
        }
    }

    /// The operation of these parts, if they are as many as it has.
    fn of(operation: u8, numbers: &[u32], bytes: &[u8]) -> Option<Op> {
        match (operation, numbers, bytes) {
            (1, &[n], []) => Some(Op::Grant(n)),
            (2, &[handle], []) => Some(Op::Release(handle)),
            (3, &[handle, n], []) => Some(Op::InPlace(handle, n)),
            (4, &[handle], []) => Some(Op::Measure(handle)),
            (5, &[offset], bytes) => Some(Op::Store(offset, bytes.to_vec())),
            (6, [], []) => Some(Op::Report),
            (7, &[handle, n], []) => Some(Op::Move(handle, n)),
            _ => None,
        }
    }

    /// Its record, without the length.
    fn record(&self) -> Vec<u8> {
        let (operation, numbers, bytes) = self.parts();
        let mut record = vec![operation];
        record.extend(numbers.iter().flat_map(|n| n.to_be_bytes()));
        record.extend(bytes);
        record
    }
}

impl fmt::Display for Op {
    /// Its line.
    fn fmt(&self, f: &mut fmt::Formatter<'_>) -> fmt::Result {
        let (operation, numbers, bytes) = self.parts();
        f.write_str(KINDS[operation as usize - 1].word)?;
        numbers.iter().try_for_each(|n| write!(f, " {n}"))?;
        f.write_str(if bytes.is_empty() { "" } else { " " })?;
        bytes.iter().try_for_each(|b| write!(f, "{b:02x}"))
    }
}

/// The trace of some operations. A store of more than 65,530 bytes does not fit in a record and panics.
pub fn write(ops: &[Op]) -> Vec<u8> {
    let mut trace = vec![VERSION];
    for op in ops {
        let record = op.record();
        let length = u16::try_from(record.len()).expect("a record of at most 65,535 bytes");
        trace.extend(length.to_be_bytes());
        trace.extend(record);
    }
    trace
}

/// Why a trace is bad from some record on.
#[derive(Clone, Debug, PartialEq, Eq)]
pub struct Bad {
    /// The record's number, from 1; 0 for the version or the whole trace.
    pub record: usize,
    pub why: String,
}

impl fmt::Display for Bad {
    fn fmt(&self, f: &mut fmt::Formatter<'_>) -> fmt::Result {
        match self.record {
            0 => f.write_str(&self.why),
            k => write!(f, "record {k}: {}", self.why),
        }
    }
}

impl error::Error for Bad {}

/// The operations of a trace, up to its end or to what is no record of one.
pub fn read(trace: &[u8]) -> (Vec<Op>, Option<Bad>) {
    let mut ops = Vec::new();
    let bad = read_to(&mut ops, trace).err();
    (ops, bad)
}

fn read_to(ops: &mut Vec<Op>, trace: &[u8]) -> Result<(), Bad> {
    let mut rest = after_version(trace).map_err(|why| Bad { record: 0, why })?;
    while !rest.is_empty() {
        let (op, after) = read_record(rest).map_err(|why| Bad { record: ops.len() + 1, why })?;
        ops.push(op);
        rest = after;
    }
    Ok(())
}

fn after_version(trace: &[u8]) -> Result<&[u8], String> {
    match trace {
        [] => Err("the trace is empty".to_string()),
        _ if trace.len() > MOST => Err("longer than 65,535 bytes".to_string()),
        [VERSION, records @ ..] => Ok(records),
        [other, ..] => Err(format!("version {other}, not {VERSION}")),
    }
}

/// The first record of some bytes, and what follows it.
fn read_record(bytes: &[u8]) -> Result<(Op, &[u8]), String> {
    let (length, rest) = bytes.split_first_chunk().ok_or("cut short")?;
    let (record, after) = rest.split_at_checked(u16::from_be_bytes(*length).into()).ok_or("cut short")?;
    Ok((read_op(record)?, after))
}

fn read_op(record: &[u8]) -> Result<Op, String> {
    let (&operation, rest) = record.split_first().ok_or("no bytes, so no operation")?;
    let kind = Kind::of(operation).ok_or_else(|| format!("no operation {operation}"))?;
    let (numbers, bytes) = rest.split_at(rest.len().min(kind.least() - 1));
    let numbers: Vec<u32> = numbers.as_chunks().0.iter().map(|&n| u32::from_be_bytes(n)).collect();
    Op::of(operation, &numbers, bytes).ok_or_else(|| {
        let more = if kind.bytes { " or more" } else { "" };
        format!("operation {operation} has {} bytes, not {}{more}", record.len(), kind.least())
    })
}

/// The operations of a trace that its replay makes, up to its end or to what the replay prints as bad: besides what cannot be read, a store
/// that ends past the arena.
pub fn replayable(trace: &[u8]) -> (Vec<Op>, Option<Bad>) {
    let (mut ops, bad) = read(trace);
    let Some((at, why)) = ops.iter().enumerate().find_map(|(at, op)| Some((at, past_arena(op)?))) else { return (ops, bad) };
    ops.truncate(at);
    (ops, Some(Bad { record: at + 1, why }))
}

/// What is wrong with a store that ends past the arena.
fn past_arena(op: &Op) -> Option<String> {
    let Op::Store(offset, bytes) = op else { return None };
    let end = *offset as usize + bytes.len();
    (end > ARENA).then(|| format!("the store at {offset} ends at {end}, past the arena of 16,384 bytes"))
}

/// A line for each operation.
pub fn text(ops: &[Op]) -> String {
    ops.iter().map(|op| format!("{op}\n")).collect()
}

/// What is wrong with a text.
#[derive(Clone, Debug, PartialEq, Eq)]
pub struct Wrong {
    /// The line's number, from 1.
    pub line: usize,
    pub why: String,
}

impl fmt::Display for Wrong {
    fn fmt(&self, f: &mut fmt::Formatter<'_>) -> fmt::Result {
        write!(f, "line {}: {}", self.line, self.why)
    }
}

impl error::Error for Wrong {}

/// The operations of a text, if their trace can be read.
pub fn parse(text: &str) -> Result<Vec<Op>, Wrong> {
    let mut ops = Vec::new();
    let mut len = 1;
    for (i, line) in text.lines().enumerate() {
        let wrong = |why| Wrong { line: i + 1, why };
        let Some(op) = parse_line(line).map_err(wrong)? else { continue };
        let record = op.record().len();
        len += 2 + record;
        if record > MOST {
            return Err(wrong(format!("a record of {record} bytes, expected at most 65,535")));
        }
        if len > MOST {
            return Err(wrong("the trace becomes longer than 65,535 bytes".to_string()));
        }
        ops.push(op);
    }
    Ok(ops)
}

/// The operation of a line, if it has one.
fn parse_line(line: &str) -> Result<Option<Op>, String> {
    let said = line.split('#').next().unwrap_or("");
    let mut words = said.split_whitespace();
    words.next().map(|first| parse_op(first, words)).transpose()
}

fn parse_op<'a>(word: &str, mut rest: impl Iterator<Item = &'a str>) -> Result<Op, String> {
    let operation = (1..).zip(&KINDS).find(|(_, kind)| kind.word == word);
    let (operation, kind) = operation.ok_or_else(|| format!("{word:?} is no operation, expected one of: {}", forms()))?;
    let mut numbers = Vec::new();
    for name in kind.numbers {
        let number = rest.next().ok_or_else(|| format!("{name} is missing, expected {}", kind.form()))?;
        numbers.push(parse_number(number)?);
    }
    let bytes = if kind.bytes { parse_bytes(rest.next().unwrap_or(""))? } else { Vec::new() };
    match rest.next() {
        Some(surplus) => Err(format!("{surplus:?} is too much, expected {}", kind.form())),
        None => Ok(Op::of(operation, &numbers, &bytes).expect("as many parts as its kind has")),
    }
}

fn parse_number(word: &str) -> Result<u32, String> {
    match word.parse() {
        Ok(number) if !word.starts_with('+') => Ok(number),
        _ => Err(format!("{word:?} is no number from 0 to 4,294,967,295")),
    }
}

/// The bytes of pairs of hex digits.
fn parse_bytes(hex: &str) -> Result<Vec<u8>, String> {
    let digit = |c: char| c.to_digit(16).ok_or_else(|| format!("{c:?} is no hex digit, expected 0 to 9 or a to f"));
    let digits = hex.chars().map(digit).collect::<Result<Vec<u32>, String>>()?;
    match digits.as_chunks() {
        (pairs, []) => Ok(pairs.iter().map(|[high, low]| (16 * high + low) as u8).collect()),
        _ => Err(format!("an odd number of hex digits, {}, expected two for each byte", digits.len())),
    }
}
