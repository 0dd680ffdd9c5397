//! The ring of stuck vertices ("Greedy stages").

use crate::greedy::Fate;
use crate::limits::VERTICES;

/// The ring, beginning at its lowest vertex; empty if no vertex is stuck.
pub fn find_ring(fates: &[Fate; VERTICES]) -> Vec<u8> {
    let lowest_stuck = fates
        .iter()
        .position(|fate| matches!(fate, Fate::Waiting { .. }));
    let mut walk = Vec::new();
    let mut next = lowest_stuck;
    while let Some(vertex) = next {
        if let Some(at) = walk.iter().position(|&walked| walked == vertex as u8) {
            return lowest_first(walk.split_off(at));
        }
        walk.push(vertex as u8);
        next = next_stuck(fates[vertex]);
    }
    // Reached only without a stuck vertex, as a stuck one leads to another.
    Vec::new()
}

/// The next hop of a stuck vertex's best compatible path, stuck as well.
fn next_stuck(fate: Fate) -> Option<usize> {
    match fate {
        Fate::Waiting { best } => Some(best.next_hop()),
        _ => None,
    }
}

/// The walk may enter the ring anywhere, so the closed part is turned.
fn lowest_first(mut closed: Vec<u8>) -> Vec<u8> {
    let lowest = closed.iter().min().copied();
    let at = closed.iter().position(|&v| Some(v) == lowest).unwrap_or(0);
    closed.rotate_left(at);
    closed
}
