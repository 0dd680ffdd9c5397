//! The rows of the check, 16 bytes for each vertex
//! ("What the check gives back").

use crate::greedy::Fate;
use crate::limits::UNUSED;
use crate::path::RankedPath;

/// Each vertex has its own part of the rows, of this many bytes.
pub const ROW_BYTES: usize = 16;

/// Byte 0 of the row of an absent vertex.
pub const ABSENT: u8 = 254;

/// Byte 0 of the row of a stuck vertex.
pub const STUCK: u8 = 255;

/// Writes the row of one vertex.
pub fn write_row(row: &mut [u8], fate: Fate) {
    let (stage, path) = match fate {
        Fate::Absent => (ABSENT, None),
        Fate::Settled { stage, path } => (stage, path),
        Fate::Waiting { best } => (STUCK, Some(best)),
    };
    row[0] = stage;
    write_path(&mut row[1..], path);
}

/// Without a path there are rank 0, hops 0 and no vertex.
fn write_path(part: &mut [u8], path: Option<RankedPath>) {
    let (rank, hops, vertices) = match path {
        Some(path) => (path.rank, path.hops(), path.vertices),
        None => (0, 0, &[][..]),
    };
    part[0] = rank;
    part[1] = hops;
    write_then_unused(&mut part[2..], vertices);
}

/// Vertices are followed by 255 to the end, in a row and in the ring alike.
pub fn write_then_unused(part: &mut [u8], vertices: &[u8]) {
    let (used, unused) = part.split_at_mut(vertices.len());
    used.copy_from_slice(vertices);
    unused.fill(UNUSED);
}
