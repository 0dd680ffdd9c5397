//! Cases 8 and 9 of "Tables tried by hand", and the machine's own rules.

mod common;

use common::*;
use second::{choice, first_bad_offset, run, standing, step, RunNumbers, Table};

const CASE_9: [(u8, u8); 5] = [(2, 0), (3, 2), (1, 0), (2, 1), (3, 2)];

fn movements(table: &[u8], pairs: &[(u8, u8)]) -> Vec<i32> {
    let mut state = zeros();
    pairs
        .iter()
        .map(|&(v, u)| step(table, &mut state, u32::from(v), u32::from(u)).unwrap())
        .collect()
}

fn run_from_zeros(table: &[u8], pairs: &[(u8, u8)]) -> (RunNumbers, [i32; 64], Vec<u8>) {
    let mut state = zeros();
    let mut sums = [77; 64];
    let numbers = run(table, &mut state, &schedule(pairs), &mut sums).unwrap();
    (numbers, sums, state)
}

#[test]
fn case_8_steps() {
    assert_eq!(movements(&table_3(), &[(1, 0), (2, 1)]), [15, 16]);
}

#[test]
fn case_8_as_a_run() {
    let (numbers, sums, state) = run_from_zeros(&table_3(), &[(1, 0), (2, 1)]);
    let expected = RunNumbers {
        steps: 2,
        ups: 2,
        downs: 0,
        last_change: 2,
        rounds: 0,
    };
    assert_eq!(numbers, expected);
    assert_eq!(sums[..4], [0, 15, 16, 0]);
    // Vertex 1 heard (0) and vertex 2 heard the second path of vertex 1.
    assert_eq!((state[64], state[64 * 2 + 1]), (1, 2));
}

#[test]
fn case_9_steps() {
    assert_eq!(movements(&table_7(), &CASE_9), [15, 16, 16, 1, -16]);
}

#[test]
fn case_9_as_a_run() {
    let (numbers, sums, _) = run_from_zeros(&table_7(), &CASE_9);
    let expected = RunNumbers {
        steps: 5,
        ups: 4,
        downs: 1,
        last_change: 5,
        rounds: 1,
    };
    assert_eq!(numbers, expected);
    assert_eq!(sums[..4], [0, 16, 16, 0]);
    assert!(sums[4..].iter().all(|&sum| sum == 0));
}

#[test]
fn a_step_stores_one_byte_and_nothing_else() {
    let bytes = table_7();
    let mut state = zeros();
    step(&bytes, &mut state, 2, 0).unwrap();
    let before = state.clone();
    step(&bytes, &mut state, 3, 2).unwrap();
    let changed: Vec<usize> = (0..4096).filter(|&at| state[at] != before[at]).collect();
    assert_eq!(changed, [64 * 3 + 2]);
    assert_eq!(state[64 * 3 + 2], 2);
}

#[test]
fn a_withdrawn_choice_is_heard_as_nothing() {
    // Table 7 with a vertex 4 behind vertex 3, which loses its only path.
    let bytes = [table_7(), table(&[&[4, 3, 2, 0]])].concat();
    let pairs = [(2, 0), (3, 2), (4, 3), (1, 0), (2, 1), (3, 2), (4, 3)];
    let expected = [15, 16, 16, 16, 1, -16, -16];
    assert_eq!(movements(&bytes, &pairs), expected);
    let (numbers, sums, state) = run_from_zeros(&bytes, &pairs);
    assert_eq!((numbers.downs, numbers.last_change), (2, 7));
    assert_eq!((state[64 * 4 + 3], sums[4]), (0, 0));
}

#[test]
fn choices_and_standings() {
    let bytes = table_3();
    let table = Table::read(&bytes).unwrap();
    let mut state = zeros();
    assert_eq!(choice(&table, &state, 0), Some(1));
    assert_eq!(choice(&table, &state, 1), None);
    state[64] = 1;
    assert_eq!(choice(&table, &state, 1), Some(2));
    state[64 + 2] = 1;
    assert_eq!(choice(&table, &state, 1), Some(2));
    state[64 + 2] = 2;
    assert_eq!(choice(&table, &state, 1), Some(1));
    assert_eq!(
        [None, Some(16), Some(2), Some(1)].map(standing),
        [0, 1, 15, 16]
    );
}

#[test]
fn validity_of_the_heard_state() {
    let bytes = table(&[&[1, 2, 0], &[1, 0], &[2, 3, 0], &[2, 0]]);
    let table = Table::read(&bytes).unwrap();
    let bad = |at: usize, byte: u8| {
        let mut state = zeros();
        state[at] = byte;
        first_bad_offset(&table, &state)
    };
    assert_eq!(first_bad_offset(&table, &zeros()), None);
    // What is heard from 0 is at most 1, from 2 at most its two records.
    assert_eq!((bad(64, 1), bad(64, 2)), (None, Some(64)));
    assert_eq!((bad(66, 2), bad(66, 3)), (None, Some(66)));
    // Vertex 3 owns no record, so nothing can be heard from it.
    assert_eq!(bad(64 * 2 + 3, 1), Some(64 * 2 + 3));
    // No listening pair.
    assert_eq!((bad(0, 1), bad(4095, 1)), (Some(0), Some(4095)));
}

#[test]
fn a_step_that_changes_no_choice_is_no_change() {
    // Vertex 1 hears (2 3 0) and then (2 0), of which it permits neither.
    let bytes = table(&[&[1, 2, 4, 0], &[1, 0], &[2, 3, 0], &[2, 0], &[3, 0]]);
    let pairs = [(1, 0), (2, 0), (1, 2), (3, 0), (2, 3), (1, 2)];
    let (numbers, _, state) = run_from_zeros(&bytes, &pairs);
    assert_eq!(state[64 + 2], 1);
    assert_eq!((numbers.steps, numbers.last_change), (6, 5));
    assert_eq!((numbers.ups, numbers.downs), (4, 0));
}

#[test]
fn an_empty_schedule_clears_the_sums_only() {
    let (numbers, sums, state) = run_from_zeros(&table_7(), &[]);
    assert_eq!(numbers, RunNumbers::default());
    assert_eq!(sums, [0; 64]);
    assert_eq!(state, zeros());
    assert_eq!(run_from_zeros(&[], &[]).0, RunNumbers::default());
}

#[test]
fn a_round_closes_with_its_last_missing_pair() {
    let bytes = table_3();
    let all = [(1, 2), (1, 0), (2, 1), (2, 0)];
    let rounds = |pairs: &[(u8, u8)]| run_from_zeros(&bytes, pairs).0.rounds;
    assert_eq!(rounds(&all[..3]), 0);
    assert_eq!(rounds(&all), 1);
    // What was activated before a closing doesn't count after it.
    assert_eq!(rounds(&[&all[..], &all[..3], &all[..3]].concat()), 1);
    assert_eq!(rounds(&[&all[..], &all[..3], &all[3..]].concat()), 2);
    let one_pair = table(&[&[1, 0]]);
    assert_eq!(run_from_zeros(&one_pair, &[(1, 0); 7]).0.rounds, 7);
}

#[test]
fn the_longest_schedule_runs() {
    let bytes = table(&[&[1, 0]]);
    let (numbers, sums, _) = run_from_zeros(&bytes, &[(1, 0); 16_384]);
    assert_eq!((numbers.steps, numbers.rounds), (16_384, 16_384));
    assert_eq!((numbers.last_change, sums[1]), (1, 16));
}
