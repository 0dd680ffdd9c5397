//! Valid tables from paths, and what such a table says of its pairs.

use std::collections::BTreeMap;

use second::limits::{HEARD_BYTES, RECORD_BYTES, VERTICES};

/// Each owner's paths, best first; a path has its owner first and 0 last.
pub type Paths = BTreeMap<u8, Vec<Vec<u8>>>;

pub const MOST_HOPS: usize = 12;
pub const MOST_PATHS: usize = 16;
pub const MOST_BYTES: usize = 16_128;

/// Adds a path where it is new and its owner has room; tells whether it did.
pub fn add(paths: &mut Paths, path: Vec<u8>, most: usize) -> bool {
    let own = paths.entry(path[0]).or_default();
    let is_added = own.len() < most && !own.contains(&path);
    if is_added {
        own.push(path);
    }
    is_added
}

fn record(rank: usize, path: &[u8]) -> [u8; RECORD_BYTES] {
    let mut bytes = [255; RECORD_BYTES];
    bytes[0] = rank as u8;
    bytes[1] = path.len() as u8 - 1;
    bytes[2..2 + path.len()].copy_from_slice(path);
    bytes[RECORD_BYTES - 1] = 0;
    bytes
}

pub fn table_of(paths: &Paths) -> Vec<u8> {
    let ranked = paths.values().flat_map(|own| own.iter().enumerate());
    ranked.flat_map(|(at, path)| record(at + 1, path)).collect()
}

/// What a heard state and a schedule must fit.
pub struct Facts {
    /// Every listening pair, listener first, rising.
    pub pairs: Vec<[u8; 2]>,
    /// The highest byte that is valid at each offset of a heard state.
    pub highest: Vec<u8>,
}

impl Facts {
    /// Of an accepted table.
    pub fn of(table: &[u8]) -> Self {
        let mut counts = [0; VERTICES];
        counts[0] = 1;
        let mut pairs = vec![];
        for record in table.chunks_exact(RECORD_BYTES) {
            counts[usize::from(record[2])] += 1;
            pairs.push([record[2], record[3]]);
        }
        pairs.sort_unstable();
        pairs.dedup();
        let highest = highest_bytes(&pairs, &counts);
        Facts { pairs, highest }
    }
}

/// 0 where nobody listens, else how many paths the speaker can speak of.
fn highest_bytes(pairs: &[[u8; 2]], counts: &[u8; VERTICES]) -> Vec<u8> {
    let mut highest = vec![0; HEARD_BYTES];
    for &pair in pairs {
        highest[offset(pair)] = counts[usize::from(pair[1])];
    }
    highest
}

pub fn offset([listener, speaker]: [u8; 2]) -> usize {
    VERTICES * usize::from(listener) + usize::from(speaker)
}

#[cfg(test)]
mod tests {
    use super::*;

    /// Table 5 of the page, as its bytes stand there.
    #[test]
    fn a_table_is_laid_out_as_on_the_page() {
        let mut paths = Paths::new();
        for path in [vec![2, 3, 0], vec![2, 1, 0], vec![2, 0], vec![1, 0], vec![2, 0]] {
            add(&mut paths, path, MOST_PATHS);
        }
        let table = table_of(&paths);
        let x = 255;
        assert_eq!(table[..16], [1, 1, 1, 0, x, x, x, x, x, x, x, x, x, x, x, 0]);
        assert_eq!(table[16..32], [1, 2, 2, 3, 0, x, x, x, x, x, x, x, x, x, x, 0]);
        assert_eq!(table[48..], [3, 1, 2, 0, x, x, x, x, x, x, x, x, x, x, x, 0]);
    }

    #[test]
    fn facts_are_the_pairs_and_the_speakers_paths() {
        let paths = Paths::from([(1, vec![vec![1, 2, 0]]), (2, vec![vec![2, 0], vec![2, 1, 0]])]);
        let facts = Facts::of(&table_of(&paths));
        assert_eq!(facts.pairs, [[1, 2], [2, 0], [2, 1]]);
        let found: Vec<_> =
            facts.highest.iter().enumerate().filter(|&(_, &most)| most > 0).collect();
        assert_eq!(found, [(64 + 2, &2), (128, &1), (128 + 1, &1)]);
    }
}
