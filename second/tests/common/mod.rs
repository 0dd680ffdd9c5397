//! Tables and buffers that several tests share.
#![allow(dead_code)]

use second::limits::{HEARD_BYTES, RING_BYTES, ROWS_BYTES};
use second::{check, Answer};

/// A byte that no call writes by itself, to see whether a buffer changed.
pub const MARK: u8 = 0xA5;

/// The record of a path with a rank ("The table").
pub fn record(rank: u8, path: &[u8]) -> [u8; 16] {
    let mut bytes = [255; 16];
    bytes[0] = rank;
    bytes[1] = (path.len() - 1) as u8;
    bytes[2..2 + path.len()].copy_from_slice(path);
    bytes[15] = 0;
    bytes
}

/// The table of these paths, ranked within each owner in the given order.
pub fn table(paths: &[&[u8]]) -> Vec<u8> {
    let mut bytes = Vec::new();
    let mut rank = 0;
    let mut previous_owner = None;
    for path in paths {
        rank = if previous_owner == Some(path[0]) {
            rank + 1
        } else {
            1
        };
        previous_owner = Some(path[0]);
        bytes.extend(record(rank, path));
    }
    bytes
}

pub fn table_3() -> Vec<u8> {
    table(&[&[1, 2, 0], &[1, 0], &[2, 1, 0], &[2, 0]])
}

pub fn table_4() -> Vec<u8> {
    table(&[
        &[1, 2, 0],
        &[1, 0],
        &[2, 3, 0],
        &[2, 0],
        &[3, 1, 0],
        &[3, 0],
    ])
}

pub fn table_5() -> Vec<u8> {
    table(&[
        &[1, 0],
        &[2, 3, 0],
        &[2, 1, 0],
        &[2, 0],
        &[3, 2, 0],
        &[3, 0],
    ])
}

pub fn table_6() -> Vec<u8> {
    table(&[&[1, 2, 0]])
}

pub fn table_7() -> Vec<u8> {
    table(&[&[1, 0], &[2, 1, 0], &[2, 0], &[3, 2, 0]])
}

/// Each vertex prefers the one below it, so that one enters in each stage.
pub fn chain_of_63() -> Vec<u8> {
    let mut bytes = record(1, &[1, 0]).to_vec();
    for v in 2..=63 {
        bytes.extend(record(1, &[v, v - 1, 0]));
        bytes.extend(record(2, &[v, 0]));
    }
    bytes
}

/// Every owner with 16 paths, the most that a table can hold.
pub fn fullest_table() -> Vec<u8> {
    let mut bytes = Vec::new();
    for owner in 1..=63u8 {
        let others = (1..=63u8).filter(|&other| other != owner);
        for (rank, next) in (1..=16).zip(others) {
            bytes.extend(record(rank, &[owner, next, 0]));
        }
    }
    bytes
}

/// The answer of a check together with its two buffers.
pub struct Checked {
    pub answer: Answer,
    pub rows: [u8; ROWS_BYTES],
    pub ring: [u8; RING_BYTES],
}

impl Checked {
    /// The stage byte of a vertex's row.
    pub fn stage(&self, vertex: usize) -> u8 {
        self.rows[16 * vertex]
    }

    /// The rank and the path of a vertex's row, after checking its hops and
    /// unused bytes; rank 0 and nothing for a row without a path.
    pub fn path(&self, vertex: usize) -> (u8, Vec<u8>) {
        let row = &self.rows[16 * vertex..16 * vertex + 16];
        let vertices: Vec<u8> = row[3..].iter().copied().take_while(|&v| v != 255).collect();
        assert!(row[3 + vertices.len()..].iter().all(|&byte| byte == 255));
        assert_eq!(usize::from(row[2]), vertices.len().saturating_sub(1));
        (row[1], vertices)
    }

    /// The ring, after checking that only 255 follows it.
    pub fn ring(&self) -> Vec<u8> {
        let ring: Vec<u8> = self
            .ring
            .iter()
            .copied()
            .take_while(|&v| v != 255)
            .collect();
        assert!(self.ring[ring.len()..].iter().all(|&byte| byte == 255));
        ring
    }
}

/// Runs the check with buffers of the right lengths.
pub fn checked(table: &[u8]) -> Checked {
    let mut rows = [MARK; ROWS_BYTES];
    let mut ring = [MARK; RING_BYTES];
    let answer = check(table, &mut rows, &mut ring);
    Checked { answer, rows, ring }
}

/// The heard state in which nobody has heard anything.
pub fn zeros() -> Vec<u8> {
    vec![0; HEARD_BYTES]
}

/// The bytes of a schedule.
pub fn schedule(pairs: &[(u8, u8)]) -> Vec<u8> {
    pairs.iter().flat_map(|&(v, u)| [v, u]).collect()
}
