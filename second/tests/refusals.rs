//! Refusals of the check, the step and the run: their order, their place,
//! and that no lent byte changes ("Refusal numbers, in order of checking").

mod common;

use common::*;
use second::limits::{HEARD_BYTES, RING_BYTES, ROWS_BYTES};
use second::{check, run, step, Answer, Refusal, Verdict};

/// One table for each of refusals 2 to 11, with its number and place.
fn refused_tables() -> Vec<(Vec<u8>, u8, u32)> {
    let start = table(&[&[1, 0], &[2, 0]]);
    let after = |record: [u8; 16]| [&start[..], &record[..]].concat();
    let mut hops = record(1, &[3, 0]);
    hops[1] = 13;
    let mut unused = record(1, &[3, 0]);
    unused[14] = 0;
    vec![
        (vec![0; 16_144], 2, 0),
        (vec![0; 17], 3, 0),
        (after(hops), 4, 2),
        (after(record(1, &[64, 0])), 5, 2),
        (after(unused), 6, 2),
        (after(record(1, &[3, 4, 3, 0])), 7, 2),
        (after(record(1, &[3, 4])), 8, 2),
        (after(record(1, &[1, 2, 0])), 9, 2),
        (after(record(3, &[2, 1, 0])), 10, 2),
        (after(record(2, &[2, 0])), 11, 2),
    ]
}

/// Checks with marked buffers and demands a refusal that changes nothing.
fn check_refused(table: &[u8], rows_length: usize, ring_length: usize) -> (u8, u32) {
    let mut rows = vec![MARK; rows_length];
    let mut ring = vec![MARK; ring_length];
    let answer = check(table, &mut rows, &mut ring);
    assert!(rows.iter().chain(&ring).all(|&byte| byte == MARK));
    let Answer {
        verdict: Verdict::Refused(number, place),
        settled: 0,
        stuck: 0,
        stages: 0,
        longest: 0,
    } = answer
    else {
        panic!("expected a refusal with counts 0, got {answer:?}");
    };
    (number, place)
}

/// Steps and demands a refusal that changes nothing.
fn step_refused(table: &[u8], state: &[u8], v: u32, u: u32) -> (u8, u32) {
    let mut lent = state.to_vec();
    let Refusal { number, place } = step(table, &mut lent, v, u).unwrap_err();
    assert_eq!(lent, state);
    (number, place)
}

/// Runs and demands a refusal that changes nothing.
fn run_refused(table: &[u8], state: &[u8], schedule: &[u8], sums_length: usize) -> (u8, u32) {
    let mut lent = state.to_vec();
    let mut sums = vec![-7; sums_length];
    let Refusal { number, place } = run(table, &mut lent, schedule, &mut sums).unwrap_err();
    assert_eq!(lent, state);
    assert!(sums.iter().all(|&sum| sum == -7));
    (number, place)
}

/// A state for table 7 that is bad at 64*3 and at 64*3+2.
fn bad_state() -> Vec<u8> {
    let mut state = zeros();
    state[64 * 3] = 1;
    state[64 * 3 + 2] = 3;
    state
}

#[test]
fn refusal_1_of_the_check() {
    let too_long = vec![0; 16_129];
    for table in [table_5(), too_long] {
        for (rows, ring) in [(0, 64), (1_023, 64), (1_025, 64), (1_024, 63), (0, 0)] {
            assert_eq!(check_refused(&table, rows, ring), (1, 0));
        }
    }
}

#[test]
fn refusal_1_of_the_step() {
    for length in [0, 4_095, 4_097] {
        assert_eq!(step_refused(&[0; 17], &vec![0; length], 99, 99), (1, 0));
    }
}

#[test]
fn refusal_1_of_the_run() {
    for (state, sums) in [(4_095, 64), (4_097, 64), (4_096, 63), (4_096, 65), (0, 0)] {
        let state = vec![9; state];
        assert_eq!(run_refused(&[0; 17], &state, &[1], sums), (1, 0));
    }
}

#[test]
fn refusals_2_to_11_of_the_check() {
    for (table, number, place) in refused_tables() {
        let found = check_refused(&table, ROWS_BYTES, RING_BYTES);
        assert_eq!(found, (number, place));
    }
}

#[test]
fn refusals_2_to_11_come_before_12_and_14_in_the_step() {
    let state = vec![9; HEARD_BYTES];
    for (table, number, place) in refused_tables() {
        assert_eq!(step_refused(&table, &state, 9, 9), (number, place));
    }
}

#[test]
fn refusals_2_to_11_come_before_12_to_14_in_the_run() {
    let state = vec![9; HEARD_BYTES];
    for (table, number, place) in refused_tables() {
        let found = run_refused(&table, &state, &[9, 9, 9], 64);
        assert_eq!(found, (number, place));
    }
}

#[test]
fn refusal_12_names_the_lowest_bad_offset() {
    let place = 64 * 3;
    assert_eq!(step_refused(&table_7(), &bad_state(), 9, 9), (12, place));
    let found = run_refused(&table_7(), &bad_state(), &[9], 64);
    assert_eq!(found, (12, place));
}

#[test]
fn refusal_13_for_an_odd_or_too_long_schedule() {
    let table = table_7();
    let too_long = schedule(&[(9, 9); 16_385]);
    assert_eq!(run_refused(&table, &zeros(), &[2, 0, 9], 64), (13, 0));
    assert_eq!(run_refused(&table, &zeros(), &too_long, 64), (13, 0));
}

#[test]
fn refusal_14_of_the_step_has_place_0() {
    let table = table_7();
    for (v, u) in [(0, 1), (1, 2), (64, 0), (2, 64), (258, 0), (u32::MAX, 0)] {
        assert_eq!(step_refused(&table, &zeros(), v, u), (14, 0));
    }
    // 64*1+64 would be the offset of (2, 0) if numbers were wrapped.
    assert_eq!(step_refused(&table, &zeros(), 1, 64), (14, 0));
}

#[test]
fn refusal_14_of_the_run_names_the_first_bad_pair() {
    let pairs = schedule(&[(2, 0), (3, 2), (3, 0), (9, 9)]);
    assert_eq!(run_refused(&table_7(), &zeros(), &pairs, 64), (14, 2));
    let wrapped = schedule(&[(2, 0), (1, 64)]);
    assert_eq!(run_refused(&table_7(), &zeros(), &wrapped, 64), (14, 1));
}

#[test]
fn the_empty_table_has_no_pair_to_step_at() {
    assert_eq!(step_refused(&[], &zeros(), 0, 0), (14, 0));
    assert_eq!(run_refused(&[], &zeros(), &[0, 0], 64), (14, 0));
}
