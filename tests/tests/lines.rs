//! Document 01, The program's lines, by the second program, by the desk under test and by the program
//! `desk` itself, crates/desk/out/desk, which `rt ci` and `make run` write.

use std::fs::File;
use std::io::Write;
use std::path::{Path, PathBuf};
use std::process::{Child, Command, Stdio};
use std::thread;

use yordzepa_tests::desk::under_test;
use yordzepa_tests::lists::{list, Call, Theme};
use yordzepa_tests::random::Random;
use yordzepa_tests::second::lines::{self, run_on};
use yordzepa_tests::second::records::{fields_of, length_of, write};

/// A record of fields in order.
fn record(kind: u64, fields: &[u64]) -> Vec<u8> {
    let length = length_of(&fields_of(kind).expect("a known kind"));
    write(kind, fields, length).expect("a legal record")
}

/// The lines of the second program and of the desk under test, which have to be the same.
fn run(input: &[u8]) -> Vec<String> {
    let found = lines::run(input);
    let mut desk = under_test();
    assert_eq!(run_on(input, |record| desk.call(record)), found);
    found
}

/// The program, with its three streams.
fn program() -> (Command, PathBuf) {
    let path = Path::new(env!("CARGO_MANIFEST_DIR")).join("../crates/desk/out/desk");
    let mut command = Command::new(&path);
    command.stdin(Stdio::piped()).stdout(Stdio::piped()).stderr(Stdio::piped());
    (command, path)
}

fn start((mut command, path): (Command, PathBuf)) -> Child {
    command
        .spawn()
        .unwrap_or_else(|error| panic!("{}: {error}: run `make run` in the root", path.display()))
}

/// What the program writes. The input is handed over in parts of a size, so that reads end within records.
fn output_of_program(input: &[u8], part: usize) -> Vec<u8> {
    let mut program = start(program());
    let mut stdin = program.stdin.take().expect("a pipe");
    let input = input.to_vec();
    let writer = thread::spawn(move || {
        // The program ends at an unknown record, and what comes behind it may find no reader.
        for bytes in input.chunks(part) {
            if stdin.write_all(bytes).is_err() {
                return;
            }
        }
    });
    let output = program.wait_with_output().expect("the program's output");
    writer.join().expect("the writer");
    assert!(output.status.success(), "{}", output.status);
    assert_eq!(String::from_utf8_lossy(&output.stderr), "");
    output.stdout
}

/// The program's whole output against the second program's lines; gives how many there are.
fn run_program(input: &[u8], part: usize) -> usize {
    let lines = lines::run(input);
    let expected: String = lines.iter().map(|line| format!("{line}\n")).collect();
    let found = output_of_program(input, part);
    if found != expected.as_bytes() {
        let found = String::from_utf8_lossy(&found);
        let place = expected.lines().zip(found.lines()).position(|(e, f)| e != f);
        let at = place.unwrap_or(expected.lines().count().min(found.lines().count()));
        panic!(
            "line {} of {}: {:?}, expected {:?}",
            at + 1,
            lines.len(),
            found.lines().nth(at),
            expected.lines().nth(at)
        );
    }
    lines.len()
}

/// An opening, a security, a participant, and many deposits.
fn deposits(count: usize) -> Vec<u8> {
    let mut input = record(0, &[1, 10000]);
    input.extend(record(1, &[0, 1000, 1000000, 500, 1]));
    input.extend(record(2, &[1, 2, 0, 1]));
    for nominal in 0..count as u64 {
        input.extend(record(4, &[1, 0, nominal % 5_000 + 1]));
    }
    input
}

/// "Input, fields in order".
fn document_input() -> Vec<u8> {
    let records: [(u64, &[u64]); 12] = [
        (0, &[1, 10000]),
        (1, &[0, 1000, 1000000, 500, 1]),
        (2, &[1, 2, 0, 1]),
        (2, &[2, 0, 0, 1]),
        (3, &[0, 1, 5]),
        (4, &[1, 0, 100000]),
        (6, &[0, 1, 2, 0, 1000000, 1, 0, 7]),
        (9, &[]),
        (5, &[1, 0, 90001]),
        (12, &[]),
        (1, &[0, 1000, 900000, 500, 2]),
        (10, &[]),
    ];
    records.iter().flat_map(|(kind, fields)| record(*kind, fields)).collect()
}

const DOCUMENT_OUTPUT: [&str; 12] = [
    "1 0 0 0 0 0",
    "2 1 0 0 0 0",
    "3 2 0 0 0 0",
    "4 2 0 0 0 0",
    "5 3 0 0 0 0",
    "6 4 0 0 0 0",
    "7 6 0 1 2 0",
    "8 9 0 1 0 950000",
    "9 5 10 0 0 0",
    "10 12 0 2 0 0",
    "11 1 0 0 0 0",
    "12 10 0 0 1 9500",
];

#[test]
fn the_documents_input_gives_its_output() {
    assert_eq!(run(&document_input()), DOCUMENT_OUTPUT);
}

#[test]
fn a_cut_record_prints_3_and_ends() {
    let whole = document_input();
    for length in 0..whole.len() {
        let lines = run(&whole[..length]);
        let (last, before) = match lines.split_last() {
            None => {
                assert_eq!(length, 0);
                continue;
            }
            Some(split) => split,
        };
        assert_eq!(before, &DOCUMENT_OUTPUT[..before.len()], "cut at {length}");
        let kind = DOCUMENT_OUTPUT[before.len()].split(' ').nth(1).expect("a kind");
        let cut = format!("{} {kind} 3 0 0 0", before.len() + 1);
        assert!(last == &cut || last == DOCUMENT_OUTPUT[before.len()], "cut at {length}: {last}");
    }
}

#[test]
fn an_unknown_record_prints_3_and_ends() {
    for kind in 13..=255 {
        let mut input = document_input();
        input.push(kind);
        input.extend(document_input());
        let mut lines: Vec<String> = DOCUMENT_OUTPUT.iter().map(|line| line.to_string()).collect();
        lines.push(format!("13 {kind} 3 0 0 0"));
        assert_eq!(run(&input), lines);
    }
}

#[test]
fn before_an_opening_every_known_record_gives_2() {
    let mut input = record(9, &[]);
    input.extend(record(4, &[1, 0, 0].map(|n| n + 1)));
    input.extend(record(0, &[0, 10000]));
    input.extend(record(10, &[]));
    input.extend(record(0, &[1, 10000]));
    input.extend(record(10, &[]));
    assert_eq!(
        run(&input),
        [
            "1 9 2 0 0 0",
            "2 4 2 0 0 0",
            "3 0 7 0 0 0",
            "4 10 2 0 0 0",
            "5 0 0 0 0 0",
            "6 10 0 0 0 0"
        ]
    );
}

#[test]
fn no_input_prints_nothing() {
    assert!(run(&[]).is_empty());
}

/// The records of a list one after the other, cut at any byte.
#[test]
fn longer_inputs_are_answered_alike() {
    let mut random = Random::new(0x11e5);
    let mut count = 0;
    for seed in 201..=206 {
        for theme in Theme::ALL {
            let calls = list(theme, seed, 300).calls.into_iter();
            let records = calls.filter_map(|call| match call {
                Call::Record(bytes) => Some(bytes),
                Call::Read(_) => None,
            });
            let input: Vec<u8> = records.flatten().collect();
            let cut = random.below(input.len() as u64 + 1) as usize;
            count += run(&input).len() + run(&input[cut..]).len() + run(&input[..cut]).len();
        }
    }
    assert!(count > 10_000, "{count} lines");
}

#[test]
fn the_program_writes_the_documents_output() {
    let expected: String = DOCUMENT_OUTPUT.iter().map(|line| format!("{line}\n")).collect();
    assert_eq!(output_of_program(&document_input(), 1 << 20), expected.as_bytes());
}

#[test]
fn the_program_ends_at_cuts_and_unknown_kinds() {
    let whole = document_input();
    for length in 0..=whole.len() {
        run_program(&whole[..length], 1 << 20);
    }
    for kind in 13..=255 {
        let input = [&whole[..], &[kind], &whole[..]].concat();
        assert_eq!(run_program(&input, 1 << 20), 13);
    }
}

/// Inputs of many of the program's reads, which hold 512 bytes, handed over in parts of many sizes.
#[test]
fn the_program_reads_on_across_pieces() {
    let whole = deposits(30_000);
    for part in [1 << 20, 65_536, 4_095, 1_001, 512, 511, 13] {
        assert_eq!(run_program(&whole, part), 30_003);
    }
    for length in (506..=518).chain(1_018..=1_030).chain([131_072, whole.len() - 1]) {
        run_program(&whole[..length], 1 << 20);
    }
    for place in [512, 1_024, 65_536, 100_000, 131_072] {
        let place = place - (place - 33) % 7;
        let input = [&whole[..place], &[200], &whole[place..]].concat();
        let count = run_program(&input, 1 << 20);
        assert_eq!(count, 3 + (place - 33) / 7 + 1);
    }
}

/// One byte a record: the lines of a piece are many times as long as it is.
#[test]
fn the_program_writes_long_lines_for_short_records() {
    let mut refused = vec![9; 70_000];
    assert_eq!(run_program(&refused, 1 << 20), 70_000);
    refused.push(77);
    assert_eq!(run_program(&refused, 1 << 20), 70_001);
    let mut input = document_input();
    input.extend(vec![9; 5_000]);
    input.extend(vec![12; 3_000]);
    input.extend(vec![10; 3_000]);
    assert_eq!(run_program(&input, 1 << 20), 11_012);
}

/// A read that fails is not the end of the input: a directory cannot be read.
#[test]
fn the_program_reports_a_failed_read() {
    let (mut command, path) = program();
    command.stdin(File::open("/").expect("the root"));
    let output = start((command, path)).wait_with_output().expect("the program's output");
    assert_eq!(output.stdout, b"");
    assert_eq!(output.stderr, b"desk: standard input cannot be read\n");
    assert_eq!(output.status.code(), Some(1));
}

/// Nothing can be written to a device that is always full: neither the lines of a piece nor the last line.
#[test]
fn the_program_reports_a_failed_write() {
    for input in [&document_input()[..], &[77]] {
        let (mut command, path) = program();
        command.stdout(File::create("/dev/full").expect("the full device"));
        let mut child = start((command, path));
        child.stdin.take().expect("a pipe").write_all(input).expect("a reader");
        let output = child.wait_with_output().expect("the program's output");
        assert_eq!(output.stderr, b"desk: standard output cannot be written\n");
        assert_eq!(output.status.code(), Some(1));
    }
}

#[test]
fn the_program_answers_longer_inputs_alike() {
    let mut random = Random::new(0x22e5);
    let mut count = 0;
    for theme in Theme::ALL {
        let mut input = Vec::new();
        for seed in 301..=302 {
            for call in list(theme, seed, 300).calls {
                if let Call::Record(bytes) = call {
                    input.extend(bytes);
                }
            }
        }
        let cut = random.below(input.len() as u64 + 1) as usize;
        count += run_program(&input, 1 << 20)
            + run_program(&input[cut..], 999)
            + run_program(&input[..cut], 1 << 20);
    }
    assert!(count > 3_000, "{count} lines");
}
