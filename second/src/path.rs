//! One permitted path with its rank ("The table").

use crate::limits::DESTINATION;

/// A path, owner first and destination last, with its owner's rank for it.
#[derive(Clone, Copy, Debug, PartialEq, Eq)]
pub struct RankedPath<'t> {
    pub rank: u8,
    pub vertices: &'t [u8],
}

/// The path (0) has no record, and row 0 shows it with rank 0 and hops 0
/// ("What the check gives back").
pub const DESTINATION_PATH: RankedPath<'static> = RankedPath {
    rank: 0,
    vertices: &[DESTINATION as u8],
};

impl<'t> RankedPath<'t> {
    /// The vertex whose permitted path this is.
    pub fn owner(self) -> usize {
        usize::from(self.vertices[0])
    }

    /// The number of hops, one less than the number of vertices.
    pub fn hops(self) -> u8 {
        (self.vertices.len() - 1) as u8
    }

    /// The second vertex, which the owner listens to.
    pub fn next_hop(self) -> usize {
        usize::from(self.vertices[1])
    }

    /// What follows the owner, which the next hop must offer.
    pub fn rest(self) -> &'t [u8] {
        &self.vertices[1..]
    }
}
