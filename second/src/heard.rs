//! The heard state: its validity, choices and standing ("The machine").

use crate::limits::{DESTINATION, VERTICES};
use crate::path::DESTINATION_PATH;
use crate::table::Table;

/// The byte that stands for (0) in what was heard from vertex 0.
pub const HEARD_DESTINATION: u8 = 1;

/// Where the state keeps what v last heard from u.
pub fn offset(v: usize, u: usize) -> usize {
    VERTICES * v + u
}

/// The lowest offset that makes the state not valid, the place of refusal 12.
pub fn first_bad_offset(table: &Table, state: &[u8]) -> Option<usize> {
    state
        .iter()
        .enumerate()
        .position(|(at, &byte)| byte > highest_valid(table, at / VERTICES, at % VERTICES))
}

/// 0 where nobody listens, else u's number of records, or 1 for (0).
fn highest_valid(table: &Table, v: usize, u: usize) -> u8 {
    if !table.listens(v, u) {
        0
    } else if u == DESTINATION {
        HEARD_DESTINATION
    } else {
        table.path_count(u)
    }
}

/// The path that v last heard from u, or none if it heard nothing.
fn heard_path<'t>(table: &Table<'t>, state: &[u8], v: usize, u: usize) -> Option<&'t [u8]> {
    let byte = state[offset(v, u)];
    if u == DESTINATION {
        return (byte == HEARD_DESTINATION).then_some(DESTINATION_PATH.vertices);
    }
    table.path_with_rank(u, byte).map(|path| path.vertices)
}

/// The rank of v's choice: its first record whose rest is what v last heard
/// from the next hop; the destination always chooses (0), stored as 1.
pub fn choice(table: &Table, state: &[u8], v: usize) -> Option<u8> {
    if v == DESTINATION {
        return Some(HEARD_DESTINATION);
    }
    table
        .paths_of(v)
        .find(|path| heard_path(table, state, v, path.next_hop()) == Some(path.rest()))
        .map(|path| path.rank)
}

/// 17 minus the rank of the choice, or 0 for none.
pub fn standing(choice: Option<u8>) -> i32 {
    match choice {
        Some(rank) => 17 - i32::from(rank),
        None => 0,
    }
}
