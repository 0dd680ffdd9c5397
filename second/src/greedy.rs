//! The greedy stages ("Greedy stages").

use crate::limits::{DESTINATION, VERTICES};
use crate::path::{RankedPath, DESTINATION_PATH};
use crate::table::Table;

/// What the stages have made of a vertex so far.
#[derive(Clone, Copy, Debug, PartialEq, Eq)]
pub enum Fate<'t> {
    /// No record names the vertex.
    Absent,
    /// The vertex entered in this stage, with a path or without one.
    Settled {
        stage: u8,
        path: Option<RankedPath<'t>>,
    },
    /// The next hop of the best compatible path is not settled yet.
    Waiting { best: RankedPath<'t> },
}

/// The end of the stages, where whoever still waits is stuck.
#[derive(Clone, Debug)]
pub struct Outcome<'t> {
    pub fates: [Fate<'t>; VERTICES],
    pub stages: u8,
}

/// Runs stages until one in which no vertex enters, which isn't counted.
pub fn settle<'t>(table: &Table<'t>) -> Outcome<'t> {
    let mut fates = [Fate::Absent; VERTICES];
    fates[DESTINATION] = Fate::Settled {
        stage: 0,
        path: Some(DESTINATION_PATH),
    };
    let mut stages = 0;
    loop {
        let judged = judge_unsettled(table, &fates, stages + 1);
        let entered = judged.iter().any(|&(_, fate)| is_settled(fate));
        for (vertex, fate) in judged {
            fates[vertex] = fate;
        }
        if !entered {
            return Outcome { fates, stages };
        }
        stages += 1;
    }
}

/// Judges every present unsettled vertex before any of them enters, because
/// a stage looks at one and the same settled set ("Greedy stages").
fn judge_unsettled<'t>(
    table: &Table<'t>,
    fates: &[Fate<'t>; VERTICES],
    stage: u8,
) -> Vec<(usize, Fate<'t>)> {
    (0..VERTICES)
        .filter(|&vertex| table.present()[vertex] && !is_settled(fates[vertex]))
        .map(|vertex| (vertex, judge(table, fates, stage, vertex)))
        .collect()
}

/// The three cases of a stage for one vertex ("Greedy stages").
fn judge<'t>(
    table: &Table<'t>,
    fates: &[Fate<'t>; VERTICES],
    stage: u8,
    vertex: usize,
) -> Fate<'t> {
    let best = table
        .paths_of(vertex)
        .find(|&path| is_compatible(path, fates));
    match best {
        None => Fate::Settled { stage, path: None },
        Some(path) if is_settled(fates[path.next_hop()]) => Fate::Settled {
            stage,
            path: Some(path),
        },
        Some(path) => Fate::Waiting { best: path },
    }
}

/// Only the first settled vertex of a path decides, and one that settled
/// without a path makes it incompatible ("Greedy stages").
fn is_compatible(path: RankedPath, fates: &[Fate; VERTICES]) -> bool {
    for (at, &vertex) in path.vertices.iter().enumerate() {
        if let Fate::Settled { path: settled, .. } = fates[usize::from(vertex)] {
            return settled.is_some_and(|s| s.vertices == &path.vertices[at..]);
        }
    }
    // Not reached for an accepted path: it ends in 0, settled at stage 0.
    false
}

fn is_settled(fate: Fate) -> bool {
    matches!(fate, Fate::Settled { .. })
}
