//! The table reader and what the table says of its vertices ("The table").

use crate::limits::{DESTINATION, MAX_TABLE_BYTES, RANKS, RECORD_BYTES, VERTICES};
use crate::path::RankedPath;
use crate::record::{path_of_record, read_record};
use crate::refusal::{Reason, Refusal};

/// The record numbers of one vertex, best first.
pub type Slots = [Option<u16>; RANKS];

/// An accepted table.
#[derive(Clone, Debug)]
pub struct Table<'t> {
    bytes: &'t [u8],
    slots: [Slots; VERTICES],
    path_counts: [u8; VERTICES],
    present: [bool; VERTICES],
    listens: [[bool; VERTICES]; VERTICES],
    longest: u8,
}

impl<'t> Table<'t> {
    /// Reads a table: 2 and 3 speak of its length, and then the first bad
    /// record decides ("Refusal numbers, in order of checking").
    pub fn read(bytes: &'t [u8]) -> Result<Self, Refusal> {
        if bytes.len() > MAX_TABLE_BYTES {
            return Err(Refusal::whole(Reason::TableTooLong));
        }
        if !bytes.len().is_multiple_of(RECORD_BYTES) {
            return Err(Refusal::whole(Reason::TableNotWholeRecords));
        }
        let mut table = Table::without_records(bytes);
        let mut previous = None;
        for (number, record) in bytes.chunks_exact(RECORD_BYTES).enumerate() {
            let path = table
                .judge_record(record, previous)
                .map_err(|reason| Refusal::at(reason, number))?;
            table.add(number, path);
            previous = Some(path);
        }
        Ok(table)
    }

    /// Vertex 0 is always present, even in the empty table ("The table").
    fn without_records(bytes: &'t [u8]) -> Self {
        let mut present = [false; VERTICES];
        present[DESTINATION] = true;
        Table {
            bytes,
            slots: [[None; RANKS]; VERTICES],
            path_counts: [0; VERTICES],
            present,
            listens: [[false; VERTICES]; VERTICES],
            longest: 0,
        }
    }

    /// Refusals 4 to 8 look at the record alone, 9 to 11 at those before it.
    fn judge_record(
        &self,
        record: &'t [u8],
        previous: Option<RankedPath<'t>>,
    ) -> Result<RankedPath<'t>, Reason> {
        let path = read_record(record)?;
        let owner = path.owner();
        if previous.is_some_and(|before| owner < before.owner()) {
            return Err(Reason::OwnerBelowPrevious);
        }
        let expected_rank = match previous {
            Some(before) if before.owner() == owner => before.rank + 1,
            _ => 1,
        };
        if usize::from(path.rank) > RANKS || path.rank != expected_rank {
            return Err(Reason::Rank);
        }
        if self
            .paths_of(owner)
            .any(|other| other.vertices == path.vertices)
        {
            return Err(Reason::SamePath);
        }
        Ok(path)
    }

    /// Notes what an accepted record says ("The table").
    fn add(&mut self, number: usize, path: RankedPath<'t>) {
        let owner = path.owner();
        // Record numbers stay below 1,008 and ranks within 1 to 16 here.
        self.slots[owner][usize::from(path.rank) - 1] = Some(number as u16);
        self.path_counts[owner] += 1;
        for &vertex in path.vertices {
            self.present[usize::from(vertex)] = true;
        }
        self.listens[owner][path.next_hop()] = true;
        self.longest = self.longest.max(path.hops());
    }

    /// The path in a record of this table.
    fn path_at(&self, number: u16) -> RankedPath<'t> {
        let start = RECORD_BYTES * usize::from(number);
        path_of_record(&self.bytes[start..start + RECORD_BYTES])
    }

    /// The permitted paths of a vertex, best first.
    pub fn paths_of(&self, vertex: usize) -> impl Iterator<Item = RankedPath<'t>> + '_ {
        self.slots[vertex]
            .iter()
            .map_while(|slot| slot.map(|number| self.path_at(number)))
    }

    /// The permitted path of a vertex with a given rank, if it has one.
    pub fn path_with_rank(&self, vertex: usize, rank: u8) -> Option<RankedPath<'t>> {
        let slot = usize::from(rank).checked_sub(1)?;
        let number = (*self.slots[vertex].get(slot)?)?;
        Some(self.path_at(number))
    }

    /// How many records a vertex owns.
    pub fn path_count(&self, vertex: usize) -> u8 {
        self.path_counts[vertex]
    }

    /// The best-first slots of every vertex.
    pub fn slots(&self) -> &[Slots; VERTICES] {
        &self.slots
    }

    /// Which vertices are present.
    pub fn present(&self) -> &[bool; VERTICES] {
        &self.present
    }

    /// L, the greatest number of hops.
    pub fn longest(&self) -> u8 {
        self.longest
    }

    /// Whether v listens to u; a number above 63 is no vertex.
    pub fn listens(&self, v: usize, u: usize) -> bool {
        v < VERTICES && u < VERTICES && self.listens[v][u]
    }

    /// The number of listening pairs, all of which a round must activate.
    pub fn listening_pair_count(&self) -> usize {
        self.listens.iter().flatten().filter(|&&pair| pair).count()
    }
}
