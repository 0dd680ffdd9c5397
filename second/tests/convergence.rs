//! The check against the machine: on many small tables a complete answer is
//! a stable assignment, and rounds lead the machine to it.

mod common;

use common::*;
use second::{choice, run, Table, Verdict};

/// A plain generator, so that the tables are the same in every run.
struct Dice(u64);

impl Dice {
    fn below(&mut self, limit: u64) -> u64 {
        self.0 ^= self.0 << 13;
        self.0 ^= self.0 >> 7;
        self.0 ^= self.0 << 17;
        (self.0 >> 11) % limit
    }
}

/// A path of an owner through different vertices of 1 to `highest` to 0.
fn random_path(dice: &mut Dice, owner: u8, highest: u8) -> Vec<u8> {
    let mut path = vec![owner];
    for _ in 0..dice.below(4) {
        let vertex = 1 + dice.below(u64::from(highest)) as u8;
        if !path.contains(&vertex) {
            path.push(vertex);
        }
    }
    path.push(0);
    path
}

fn random_table(dice: &mut Dice) -> Vec<u8> {
    let highest = 2 + dice.below(6) as u8;
    let mut paths: Vec<Vec<u8>> = Vec::new();
    for owner in 1..=highest {
        for _ in 0..dice.below(4) {
            let path = random_path(dice, owner, highest);
            if !paths.contains(&path) {
                paths.push(path);
            }
        }
    }
    let paths: Vec<&[u8]> = paths.iter().map(Vec::as_slice).collect();
    table(&paths)
}

/// All listening pairs, as often as asked for.
fn rounds_of(table: &Table, count: u32) -> Vec<u8> {
    let mut pairs = Vec::new();
    for v in 0..64 {
        for u in (0..64).rev().filter(|&u| table.listens(v, u)) {
            pairs.extend([v as u8, u as u8]);
        }
    }
    pairs.repeat(count as usize)
}

/// "A stable assignment" of "Greedy stages", judged for one vertex.
fn is_stable_at(table: &Table, checked: &Checked, vertex: usize) -> bool {
    let best = table
        .paths_of(vertex)
        .find(|path| checked.path(path.next_hop()).1 == path.rest());
    let (rank, vertices) = checked.path(vertex);
    match best {
        Some(path) => rank == path.rank && vertices == path.vertices,
        None => rank == 0 && vertices.is_empty(),
    }
}

fn compare(bytes: &[u8]) -> bool {
    let checked = checked(bytes);
    if checked.answer.verdict != Verdict::Complete {
        return false;
    }
    let table = Table::read(bytes).unwrap();
    let rounds = checked.answer.stages * checked.answer.longest;
    let mut state = zeros();
    let mut sums = [0; 64];
    let numbers = run(bytes, &mut state, &rounds_of(&table, rounds), &mut sums).unwrap();
    assert_eq!(numbers.rounds, rounds);
    for (vertex, &sum) in sums.iter().enumerate().skip(1) {
        assert!(is_stable_at(&table, &checked, vertex));
        let rank = checked.path(vertex).0;
        assert_eq!(choice(&table, &state, vertex).unwrap_or(0), rank);
        assert_eq!(sum, if rank == 0 { 0 } else { 17 - i32::from(rank) });
    }
    true
}

#[test]
fn a_complete_answer_is_where_the_machine_arrives() {
    let mut dice = Dice(20_011);
    let complete = (0..2_000)
        .filter(|_| compare(&random_table(&mut dice)))
        .count();
    assert!(complete > 500 && complete < 2_000, "{complete} complete");
}

#[test]
fn the_chain_of_63_arrives_as_well() {
    assert!(compare(&chain_of_63()));
}
