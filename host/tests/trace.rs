//! Traces as bytes and as text, and the program that turns one into the other.

mod program;

use program::run;
use slotpool::trace::{forms, parse, read, replayable, text, write, Op, ARENA, MOST};
use std::ffi::OsStr;
use std::fs::File;
use std::io::{self, Write};
use std::os::unix::ffi::OsStrExt;
use std::process::{Command, Stdio};

/// Each operation with its line and its record.
fn samples() -> [(Op, &'static str, &'static [u8]); 10] {
    [
        (Op::Grant(160), "grant 160", &[0, 5, 1, 0, 0, 0, 160]),
        (Op::Grant(u32::MAX), "grant 4294967295", &[0, 5, 1, 255, 255, 255, 255]),
        (Op::Release(0x01020304), "release 16909060", &[0, 5, 2, 1, 2, 3, 4]),
        (Op::InPlace(16, 188), "resize 16 188", &[0, 9, 3, 0, 0, 0, 16, 0, 0, 0, 188]),
        (Op::Measure(256), "measure 256", &[0, 5, 4, 0, 0, 1, 0]),
        (Op::Store(16, vec![0, 255, 7]), "store 16 00ff07", &[0, 8, 5, 0, 0, 0, 16, 0, 255, 7]),
        (Op::Store(16_384, vec![]), "store 16384", &[0, 5, 5, 0, 0, 64, 0]),
        (Op::Store(0, vec![10, 13, 35]), "store 0 0a0d23", &[0, 8, 5, 0, 0, 0, 0, 10, 13, 35]),
        (Op::Report, "report", &[0, 1, 6]),
        (Op::Move(16, 189), "move 16 189", &[0, 9, 7, 0, 0, 0, 16, 0, 0, 0, 189]),
    ]
}

#[test]
fn each_operation_has_its_line_and_its_record() {
    for (op, line, record) in samples() {
        let ops = vec![op];
        let trace = [&[2], record].concat();
        assert_eq!(write(&ops), trace, "{line}");
        assert_eq!(read(&trace), (ops.clone(), None), "{line}");
        assert_eq!(text(&ops), format!("{line}\n"));
        assert_eq!(parse(line), Ok(ops), "{line}");
    }
}

#[test]
fn stored_bytes_of_any_kind_come_back() {
    let ops = vec![Op::Store(16, (0..=255).collect()), Op::Store(0, (0..=255).rev().cycle().take(20_000).collect())];
    assert_eq!(read(&write(&ops)), (ops.clone(), None));
    assert_eq!(parse(&text(&ops)), Ok(ops));
}

#[test]
fn what_is_not_an_operation_is_skipped() {
    let skipped = "# a comment\n\n  \t\n\tgrant   160  # 16 is due\r\nreport# 1\n#report\nstore 1 AbCd";
    assert_eq!(parse(skipped), Ok(vec![Op::Grant(160), Op::Report, Op::Store(1, vec![0xab, 0xcd])]));
    assert_eq!(parse(""), Ok(vec![]));
}

#[test]
fn a_wrong_text_is_told_with_its_line() {
    let unknown = |word| format!("{word:?} is no operation, expected one of: {}", forms());
    let no_number = |word| format!("{word:?} is no number from 0 to 4,294,967,295");
    let odd = |n| format!("an odd number of hex digits, {n}, expected two for each byte");
    for (line, wrong) in [
        ("grnat 160", unknown("grnat")),
        ("Grant 160", unknown("Grant")),
        ("160", unknown("160")),
        ("gr\u{fffd}nt 160", unknown("gr\u{fffd}nt")),
        ("grant", "SIZE is missing, expected grant SIZE".to_string()),
        ("release # 16", "HANDLE is missing, expected release HANDLE".to_string()),
        ("resize 16", "SIZE is missing, expected resize HANDLE SIZE".to_string()),
        ("move", "HANDLE is missing, expected move HANDLE SIZE".to_string()),
        ("store", "OFFSET is missing, expected store OFFSET HEX".to_string()),
        ("grant 160 16", "\"16\" is too much, expected grant SIZE".to_string()),
        ("resize 16 188 1", "\"1\" is too much, expected resize HANDLE SIZE".to_string()),
        ("measure 16 report", "\"report\" is too much, expected measure HANDLE".to_string()),
        ("report 0", "\"0\" is too much, expected report".to_string()),
        ("store 16 00 ff", "\"ff\" is too much, expected store OFFSET HEX".to_string()),
        ("grant 4294967296", no_number("4294967296")),
        ("release 99999999999999999999999", no_number("99999999999999999999999")),
        ("grant -1", no_number("-1")),
        ("grant +1", no_number("+1")),
        ("grant 0x10", no_number("0x10")),
        ("resize 16 1,000", no_number("1,000")),
        ("store 00ff 00", no_number("00ff")),
        ("store 16 0", odd(1)),
        ("store 16 00ff0", odd(5)),
        ("store 16 0g", "'g' is no hex digit, expected 0 to 9 or a to f".to_string()),
        ("store 16 +1", "'+' is no hex digit, expected 0 to 9 or a to f".to_string()),
        ("store 16 \u{e9}0", "'\u{e9}' is no hex digit, expected 0 to 9 or a to f".to_string()),
    ] {
        assert_eq!(told(line), format!("line 1: {wrong}"));
        assert_eq!(told(&format!("report\n\n# grant\n{line}\nno line\n")), format!("line 4: {wrong}"));
    }
}

/// What is wrong with a text.
fn told(text: &str) -> String {
    parse(text).map_or_else(|wrong| wrong.to_string(), |ops| panic!("{text:?} is taken: {ops:?}"))
}

#[test]
fn a_text_is_as_long_as_a_trace_can_be() {
    let store = |n: usize| format!("\nstore 16 {}\n", "5a".repeat(n));
    let fits = parse(&store(MOST - 8)).unwrap();
    assert_eq!(write(&fits).len(), MOST);
    assert_eq!(told(&store(MOST - 7)), "line 2: the trace becomes longer than 65,535 bytes");
    assert_eq!(told(&store(MOST - 5)), "line 2: the trace becomes longer than 65,535 bytes");
    assert_eq!(told(&store(MOST - 4)), "line 2: a record of 65536 bytes, expected at most 65,535");
    let reports = "report\n".repeat(21_844);
    assert_eq!(parse(&reports).unwrap().len(), 21_844);
    assert_eq!(told(&(reports + "report\n")), "line 21845: the trace becomes longer than 65,535 bytes");
}

#[test]
fn a_bad_trace_is_told_with_its_record() {
    for (trace, records, told) in [
        (&[][..], 0, "the trace is empty"),
        (&[7], 0, "version 7, not 2"),
        (&[0, 0, 1, 6], 0, "version 0, not 2"),
        (&[1, 0, 1, 6], 0, "version 1, not 2"),
        (&[2, 0], 0, "record 1: cut short"),
        (&[2, 0, 1], 0, "record 1: cut short"),
        (&[2, 0, 1, 6, 0, 5, 1, 0, 0, 0], 1, "record 2: cut short"),
        (&[2, 0, 1, 6, 5, 0, 1, 0, 0, 0, 0], 1, "record 2: cut short"),
        (&[2, 0, 0], 0, "record 1: no bytes, so no operation"),
        (&[2, 0, 1, 6, 0, 1, 6, 0, 1, 0], 2, "record 3: no operation 0"),
        (&[2, 0, 1, 6, 0, 1, 6, 0, 1, 6, 0, 1, 9], 3, "record 4: no operation 9"),
        (&[2, 0, 1, 8], 0, "record 1: no operation 8"),
        (&[2, 0, 4, 1, 0, 0, 0], 0, "record 1: operation 1 has 4 bytes, not 5"),
        (&[2, 0, 6, 2, 0, 0, 0, 0, 0], 0, "record 1: operation 2 has 6 bytes, not 5"),
        (&[2, 0, 5, 3, 0, 0, 0, 16], 0, "record 1: operation 3 has 5 bytes, not 9"),
        (&[2, 0, 1, 4], 0, "record 1: operation 4 has 1 bytes, not 5"),
        (&[2, 0, 4, 5, 0, 0, 0], 0, "record 1: operation 5 has 4 bytes, not 5 or more"),
        (&[2, 0, 2, 6, 0], 0, "record 1: operation 6 has 2 bytes, not 1"),
        (&[2, 0, 5, 7, 0, 0, 0, 16], 0, "record 1: operation 7 has 5 bytes, not 9"),
        (&[2; MOST + 1], 0, "longer than 65,535 bytes"),
    ] {
        let (ops, bad) = read(trace);
        assert_eq!(ops.len(), records, "{told}");
        assert_eq!(bad.expect(told).to_string(), told);
    }
    assert_eq!(read(&[2]), (vec![], None));
}

#[test]
fn a_store_past_the_arena_ends_a_trace() {
    let told = |offset, count: usize| format!("record 2: the store at {offset} ends at {}, past the arena of 16,384 bytes", offset as usize + count);
    for (offset, count) in [(0, ARENA + 1), (1, ARENA), (16_380, 5), (16_384, 1), (16_385, 0), (u32::MAX, 0), (u32::MAX, 40_000)] {
        let ops = [Op::Report, Op::Store(offset, vec![7; count]), Op::Store(16_384, vec![1]), Op::Report];
        // it can be read, and a replay ends before it, whether or not the trace goes on or is cut short
        for trace in [write(&ops), write(&ops[..2]), [&write(&ops[..2])[..], &[0]].concat()] {
            let (replayed, bad) = replayable(&trace);
            assert_eq!((&replayed[..], bad.map(|bad| bad.to_string())), (&ops[..1], Some(told(offset, count))), "{count} bytes at {offset}");
        }
        assert_eq!(read(&write(&ops)), (ops.to_vec(), None), "{count} bytes at {offset}");
    }
    for (offset, count) in [(0, ARENA), (1, ARENA - 1), (16_380, 4), (16_384, 0)] {
        let ops = vec![Op::Store(offset, vec![7; count]), Op::Report];
        assert_eq!(replayable(&write(&ops)), (ops, None), "{count} bytes at {offset}");
    }
    // what cannot be read is told as it is, if no such store comes before it
    let cut = [2, 0, 1, 6, 0];
    assert_eq!(replayable(&cut), read(&cut));
}

/// The program `trace` with an argument: what it printed, what it said, and its exit status.
fn trace(argument: &str, input: &[u8]) -> (Vec<u8>, String, Option<i32>) {
    let output = run(Command::new(env!("CARGO_BIN_EXE_trace")).arg(argument), &[input]);
    (output.stdout, String::from_utf8(output.stderr).unwrap(), output.status.code())
}

#[test]
fn the_program_writes_and_shows() {
    let (ops, lines): (Vec<Op>, Vec<&str>) = samples().map(|(op, line, _)| (op, line)).into_iter().unzip();
    let (text, bytes) = (lines.join("\n") + "\n", write(&ops));
    let nothing = String::new();
    assert_eq!(trace("write", text.as_bytes()), (bytes.clone(), nothing.clone(), Some(0)));
    assert_eq!(trace("write", b"grant 0 # \xff\xfe"), (write(&[Op::Grant(0)]), nothing.clone(), Some(0)));
    assert_eq!(trace("write", b""), (vec![2], nothing.clone(), Some(0)));
    assert_eq!(trace("show", &bytes), (text.into_bytes(), nothing.clone(), Some(0)));
    assert_eq!(trace("show", &[2]), (vec![], nothing, Some(0)));
}

#[test]
fn the_program_says_what_is_wrong() {
    let unknown = format!("line 2: \"rep\u{fffd}rt\" is no operation, expected one of: {}", forms());
    for (argument, input, printed, why) in [
        ("write", &b"report\ngrant"[..], "", "line 2: SIZE is missing, expected grant SIZE"),
        ("write", b"report\nrep\xffrt\n", "", &unknown),
        ("show", &[2, 0, 1, 6, 0, 5, 1, 0, 0, 0, 0, 0, 1, 9], "report\ngrant 0\n", "record 3: no operation 9"),
        ("show", b"", "", "the trace is empty"),
        (
            "show",
            &[2, 0, 1, 6, 0, 7, 5, 0, 0, 63, 255, 1, 2, 0, 1, 6],
            "report\n",
            "record 2: the store at 16383 ends at 16385, past the arena of 16,384 bytes",
        ),
    ] {
        assert_eq!(trace(argument, input), (printed.as_bytes().to_vec(), format!("trace: {why}\n"), Some(1)));
    }
}

#[test]
fn the_program_tells_its_use() {
    for words in [&b""[..], b"help", b"write calls.txt", b"show show", b"\xff"] {
        let words = words.split(|b| *b == b' ').filter(|word| !word.is_empty());
        let mut command = Command::new(env!("CARGO_BIN_EXE_trace"));
        let output = run(command.args(words.map(OsStr::from_bytes)), &[b"grant 0"]);
        let said = String::from_utf8(output.stderr).unwrap();
        assert!(said.starts_with("usage: trace write ") && said.contains(&forms()), "{command:?}: {said}");
        assert_eq!((output.stdout, output.status.code()), (vec![], Some(2)), "{command:?}");
    }
}

/// Writes a trace to some place: what the program says, and its exit status.
fn written_to(place: impl Into<Stdio>) -> (String, Option<i32>) {
    let mut command = Command::new(env!("CARGO_BIN_EXE_trace"));
    let mut child = command.arg("write").stdin(Stdio::piped()).stdout(place).stderr(Stdio::piped()).spawn().unwrap();
    child.stdin.take().unwrap().write_all(b"report").unwrap();
    let output = child.wait_with_output().unwrap();
    (String::from_utf8(output.stderr).unwrap(), output.status.code())
}

#[test]
fn a_reader_may_go_but_a_full_disk_is_told() {
    let (reader, writer) = io::pipe().unwrap();
    drop(reader);
    assert_eq!(written_to(writer), (String::new(), Some(0)));
    let full = File::options().write(true).open("/dev/full").unwrap();
    assert_eq!(written_to(full), ("trace: No space left on device (os error 28)\n".to_string(), Some(1)));
}
