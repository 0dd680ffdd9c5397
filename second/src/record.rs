//! One record read by itself: refusals 4 to 8 in their order.

use crate::limits::{DESTINATION, MAX_HOPS, UNUSED, VERTICES};
use crate::path::RankedPath;
use crate::refusal::Reason;

/// Reads a 16-byte record, or says which of 4 to 8 comes first
/// ("Refusal numbers, in order of checking").
pub fn read_record(record: &[u8]) -> Result<RankedPath<'_>, Reason> {
    let hops = record[1];
    if hops == 0 || hops > MAX_HOPS {
        return Err(Reason::Hops);
    }
    let (vertices, unused) = record[2..15].split_at(usize::from(hops) + 1);
    if vertices.iter().any(|&v| usize::from(v) >= VERTICES) {
        return Err(Reason::VertexAbove63);
    }
    if unused.iter().any(|&byte| byte != UNUSED) || record[15] != 0 {
        return Err(Reason::UnusedByte);
    }
    if names_a_vertex_twice(vertices) {
        return Err(Reason::VertexTwice);
    }
    let last = vertices[vertices.len() - 1];
    if usize::from(last) != DESTINATION {
        return Err(Reason::LastNotDestination);
    }
    Ok(path_of_record(record))
}

/// The path of a record whose hops are already known to be 1 to 12.
pub fn path_of_record(record: &[u8]) -> RankedPath<'_> {
    let hops = usize::from(record[1]);
    RankedPath {
        rank: record[0],
        vertices: &record[2..=2 + hops],
    }
}

fn names_a_vertex_twice(vertices: &[u8]) -> bool {
    vertices
        .iter()
        .enumerate()
        .any(|(at, vertex)| vertices[..at].contains(vertex))
}
