//! The greedy check and its answer ("What the check gives back").

use crate::greedy::{settle, Fate, Outcome};
use crate::limits::{RING_BYTES, ROWS_BYTES};
use crate::refusal::{Reason, Refusal};
use crate::ring::find_ring;
use crate::rows::{write_row, write_then_unused, ROW_BYTES};
use crate::table::Table;

/// One of the three verdicts.
#[derive(Clone, Copy, Debug, PartialEq, Eq)]
pub enum Verdict {
    Complete,
    /// Holds the ring's length.
    Stuck(u32),
    /// Holds the refusal's number and place.
    Refused(u8, u32),
}

/// The verdict beside its counts, which leave out vertex 0.
#[derive(Clone, Copy, Debug, PartialEq, Eq)]
pub struct Answer {
    pub verdict: Verdict,
    pub settled: u32,
    pub stuck: u32,
    pub stages: u32,
    pub longest: u32,
}

/// Checks a table and fills the lent rows and ring, unless it refuses.
pub fn check(table: &[u8], rows: &mut [u8], ring: &mut [u8]) -> Answer {
    if rows.len() != ROWS_BYTES || ring.len() != RING_BYTES {
        return refused(Refusal::whole(Reason::BufferLength));
    }
    match Table::read(table) {
        Err(refusal) => refused(refusal),
        Ok(table) => check_accepted(&table, rows, ring),
    }
}

/// A refusal's counts are all 0 ("What the check gives back").
fn refused(refusal: Refusal) -> Answer {
    Answer {
        verdict: Verdict::Refused(refusal.number, refusal.place),
        settled: 0,
        stuck: 0,
        stages: 0,
        longest: 0,
    }
}

fn check_accepted(table: &Table, rows: &mut [u8], ring: &mut [u8]) -> Answer {
    let outcome = settle(table);
    let found_ring = find_ring(&outcome.fates);
    for (row, &fate) in rows.chunks_exact_mut(ROW_BYTES).zip(&outcome.fates) {
        write_row(row, fate);
    }
    write_then_unused(ring, &found_ring);
    answer(table, &outcome, found_ring.len() as u32)
}

fn answer(table: &Table, outcome: &Outcome, ring_length: u32) -> Answer {
    let count = |wanted: fn(&Fate) -> bool| {
        let others = &outcome.fates[1..];
        others.iter().filter(|&fate| wanted(fate)).count() as u32
    };
    let settled = count(|fate| matches!(fate, Fate::Settled { .. }));
    let stuck = count(|fate| matches!(fate, Fate::Waiting { .. }));
    let verdict = match stuck {
        0 => Verdict::Complete,
        _ => Verdict::Stuck(ring_length),
    };
    Answer {
        verdict,
        settled,
        stuck,
        stages: u32::from(outcome.stages),
        longest: u32::from(table.longest()),
    }
}
