//! One step of the machine ("The machine").

use crate::heard::{choice, first_bad_offset, offset, standing};
use crate::limits::HEARD_BYTES;
use crate::refusal::{Reason, Refusal};
use crate::table::Table;

/// Activates the pair (v, u) and answers the movement of v.
pub fn step(table: &[u8], state: &mut [u8], v: u32, u: u32) -> Result<i32, Refusal> {
    if state.len() != HEARD_BYTES {
        return Err(Refusal::whole(Reason::BufferLength));
    }
    let table = Table::read(table)?;
    check_heard(&table, state)?;
    let (v, u) = (v as usize, u as usize);
    if !table.listens(v, u) {
        return Err(Refusal::whole(Reason::NotListening));
    }
    Ok(activate(&table, state, v, u))
}

/// Refusal 12, at the lowest bad offset.
pub fn check_heard(table: &Table, state: &[u8]) -> Result<(), Refusal> {
    match first_bad_offset(table, state) {
        Some(at) => Err(Refusal::at(Reason::HeardState, at)),
        None => Ok(()),
    }
}

/// Stores u's present choice at 64v+u and nothing else; the movement is v's
/// new standing minus its old one ("The machine").
pub fn activate(table: &Table, state: &mut [u8], v: usize, u: usize) -> i32 {
    let old = standing(choice(table, state, v));
    state[offset(v, u)] = choice(table, state, u).unwrap_or(0);
    let new = standing(choice(table, state, v));
    new - old
}
