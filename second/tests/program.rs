//! The program's subcommands, through its standard input and output.

mod common;

use std::fs;
use std::io::Write;
use std::path::PathBuf;
use std::process::{Command, Stdio};

use common::*;

fn program(arguments: &[&str], input: &[u8]) -> String {
    let mut child = Command::new(env!("CARGO_BIN_EXE_second"))
        .args(arguments)
        .stdin(Stdio::piped())
        .stdout(Stdio::piped())
        .spawn()
        .unwrap();
    // The program may stop reading early, so a closed pipe is no failure.
    let _ = child.stdin.take().unwrap().write_all(input);
    let output = child.wait_with_output().unwrap();
    assert!(output.status.success());
    String::from_utf8(output.stdout).unwrap()
}

fn hex(bytes: &[u8]) -> String {
    bytes.iter().map(|byte| format!("{byte:02x}")).collect()
}

/// The bytes of a lent buffer that `check-batch` left as they were.
fn untouched(length: usize) -> Vec<u8> {
    (0..length).map(|at| ((165 + 7 * at) % 256) as u8).collect()
}

/// A file of this test run with the given bytes.
fn file(name: &str, bytes: &[u8]) -> PathBuf {
    let path = PathBuf::from(env!("CARGO_TARGET_TMPDIR")).join(name);
    fs::write(&path, bytes).unwrap();
    path
}

#[test]
fn check_prints_table_5() {
    let printed = program(&["check"], &table_5());
    assert!(printed.starts_with("verdict stuck settled 1 stuck 2 stages 1 longest 2\n"));
    assert!(printed.ends_with("3 stuck rank 1 path 3 2 0\nring 2 3\n"));
}

#[test]
fn check_and_reader_notice_the_byte_after_16_128() {
    let full = fullest_table();
    let longer = [&full[..], &[0]].concat();
    assert_eq!(program(&["reader"], &full), "accepted\n");
    assert_eq!(program(&["reader"], &longer), "refused 2\n");
    assert_eq!(program(&["check"], &longer), "refused 2\n");
    assert_eq!(program(&["check"], &[0; 100_000]), "refused 2\n");
}

#[test]
fn reader_prints_refusals() {
    let owners_1_2_1 = table(&[&[1, 0], &[2, 0], &[1, 2, 0]]);
    assert_eq!(program(&["reader"], &owners_1_2_1), "refused 9 record 2\n");
    assert_eq!(program(&["reader"], &[0; 17]), "refused 3\n");
    assert_eq!(program(&["reader"], &[]), "accepted\n");
}

#[test]
fn batch_answers_one_line_for_each_case() {
    let cases = format!("\n{}\n{}\n", hex(&[0; 17]), hex(&record(1, &[1, 0])));
    let printed = program(&["batch"], cases.as_bytes());
    let lines: Vec<&str> = printed.lines().collect();
    let none = vec!["65535"; 1024].join(",");
    let empty = format!("0 0 0 1{} {none} {}", "0".repeat(63), "0".repeat(4096));
    let slots = none.replacen(&"65535,".repeat(17), &("65535,".repeat(16) + "0,"), 1);
    let listens = format!("{}1{}", "0".repeat(64), "0".repeat(4031));
    let one = format!("0 0 1 11{} {slots} {listens}", "0".repeat(62));
    assert_eq!(lines, [&empty, "3 0", &one]);
}

#[test]
fn check_batch_answers_one_line_for_each_case() {
    let owners_1_2_1 = table(&[&[1, 0], &[2, 0], &[1, 2, 0]]);
    let cases = format!("\n{}\n{}\n", hex(&owners_1_2_1), hex(&table_5()));
    let printed = program(&["check-batch"], cases.as_bytes());
    let fields: Vec<Vec<&str>> = printed.lines().map(|l| l.split(' ').collect()).collect();
    assert_eq!(fields.len(), 3);
    assert_eq!(fields[0][..6], ["0", "0", "0", "0", "0", "0"]);
    assert_eq!(fields[1][..6], ["521", "0", "0", "0", "0", "0"]);
    assert_eq!(fields[2][..6], ["0", "2", "1", "2", "1", "2"]);
    let texts = [&[], &owners_1_2_1[..], &table_5()].map(|table| program(&["check"], table));
    for (line, text) in fields.iter().zip(texts) {
        assert_eq!(line[8], hex(text.as_bytes()));
    }
}

#[test]
fn check_batch_shows_the_buffers() {
    let five = checked(&table_5());
    let printed = program(&["check-batch"], hex(&table_5()).as_bytes());
    let fields: Vec<&str> = printed.trim_end().split(' ').collect();
    assert_eq!(fields[6..8], [hex(&five.rows), hex(&five.ring)]);
    let refused = program(&["check-batch"], hex(&[0; 17]).as_bytes());
    let fields: Vec<&str> = refused.trim_end().split(' ').collect();
    assert_eq!(fields[..6], ["3", "0", "0", "0", "0", "0"]);
    assert_eq!(fields[6..8], [hex(&untouched(1024)), hex(&untouched(64))]);
}

#[test]
fn check_batch_refuses_other_lengths_first() {
    for (rows, ring) in [(1023, 64), (1024, 65), (64, 1024), (0, 0)] {
        let lengths = [rows, ring].map(|length: usize| length.to_string());
        let arguments = ["check-batch", &lengths[0], &lengths[1]];
        let printed = program(&arguments, format!("{}\n00", hex(&table_5())).as_bytes());
        let lines: Vec<&str> = printed.lines().collect();
        let buffers = [rows, ring].map(|length| match length {
            0 => "-".to_string(),
            _ => hex(&untouched(length)),
        });
        let refused = format!("1 0 0 0 0 0 {} {} ", buffers[0], buffers[1]);
        assert!(lines[0].starts_with(&refused) && lines[1].starts_with(&refused));
        assert!(lines[1].ends_with(&hex(b"refused 3\n")));
    }
}

const CASE_9: [(u8, u8); 5] = [(2, 0), (3, 2), (1, 0), (2, 1), (3, 2)];

const CASE_9_TEXT: &str = "run steps 5 ups 4 downs 1 last 5 rounds 1
1 sum 16 rank 1 path 1 0
2 sum 16 rank 1 path 2 1 0
3 sum 0 none
";

/// The numbers of a lent buffer of sums, each 7, as `run-batch` reads them.
fn sevens(count: usize) -> String {
    "07000000".repeat(count)
}

#[test]
fn step_batch_answers_one_line_for_each_case() {
    let [table, zeros] = [&table_7(), &zeros()].map(|bytes| hex(bytes));
    let cases = format!("{table} {zeros} 0200\n{table} {zeros} 0002\n{table}  0200\n");
    let printed = program(&["step-batch"], cases.as_bytes());
    let mut stored = common::zeros();
    stored[64 * 2] = 1;
    let expected = [
        format!("0 15 {}", hex(&stored)),
        format!("14 0 {zeros}"),
        "1 0 -".to_string(),
    ];
    assert_eq!(printed.lines().collect::<Vec<_>>(), expected);
}

#[test]
fn run_batch_answers_one_line_for_each_case() {
    let [table, zeros, pairs] = [&table_7(), &zeros(), &schedule(&CASE_9)].map(|bytes| hex(bytes));
    let start = format!("{table} {zeros}");
    let cases = [
        format!("{start} {pairs} {}", sevens(64)),
        format!("{start} 0001 {}", sevens(64)),
        format!("{start}  "),
    ];
    let printed = program(&["run-batch"], cases.join("\n").as_bytes());
    let mut heard = common::zeros();
    (
        heard[64],
        heard[64 * 2],
        heard[64 * 2 + 1],
        heard[64 * 3 + 2],
    ) = (1, 1, 1, 1);
    let (sums, text) = (
        ["0,16,16", &",0".repeat(61)].concat(),
        hex(CASE_9_TEXT.as_bytes()),
    );
    let refused = hex(b"refused 14 pair 0\n");
    let unmoved = "1 sum 0 none\n2 sum 0 none\n3 sum 0 none\n";
    let unmoved = format!("run steps 0 ups 0 downs 0 last 0 rounds 0\n{unmoved}");
    let expected = [
        format!("0 5 4 1 5 1 {} {sums} {text}", hex(&heard)),
        format!("14 0 0 0 0 0 {zeros} {}7 {refused}", "7,".repeat(63)),
        format!("1 0 0 0 0 0 {zeros} - {}", hex(unmoved.as_bytes())),
    ];
    assert_eq!(printed.lines().collect::<Vec<_>>(), expected);
}

#[test]
fn run_prints_case_9() {
    let table = file("case_9_table", &table_7());
    let pairs = file("case_9_schedule", &schedule(&CASE_9));
    let arguments = ["run", table.to_str().unwrap(), pairs.to_str().unwrap()];
    assert_eq!(program(&arguments, &[]), CASE_9_TEXT);
}

#[test]
fn run_prints_refusals() {
    let table = file("refused_table", &table_7());
    let odd = file("odd_schedule", &[2]);
    let stray = file("stray_schedule", &[2, 0, 0, 2]);
    let printed = |schedule: &PathBuf| {
        let arguments = ["run", table.to_str().unwrap(), schedule.to_str().unwrap()];
        program(&arguments, &[])
    };
    assert_eq!(printed(&odd), "refused 13\n");
    assert_eq!(printed(&stray), "refused 14 pair 1\n");
}
