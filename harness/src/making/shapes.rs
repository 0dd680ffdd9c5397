//! Valid tables of many shapes.

use second::limits::VERTICES;

use super::random::Random;
use super::tables::{add, table_of, Paths, MOST_HOPS, MOST_PATHS};

type Shape = fn(&mut Random) -> Paths;

/// Every shape with its weight; the large ones are seldom, since they take the most time.
const SHAPES: [(usize, Shape); 15] = [
    (2, empty),
    (25, few_vertices),
    (25, small_grown),
    (10, silent),
    (8, rings),
    (6, long_line),
    (6, near_misses),
    (5, short_stages),
    (4, many_owners),
    (3, many_grown),
    (1, all_stages),
    (1, full_any),
    (1, full_grown),
    (1, full_stages),
    (1, full_ring),
];

/// An accepted table.
pub fn table(random: &mut Random) -> Vec<u8> {
    let shape = random.weighted(&SHAPES);
    table_of(&shape(random))
}

/// The vertices that can own paths.
fn owners() -> Vec<u8> {
    (1..VERTICES as u8).collect()
}

fn some_owners(random: &mut Random, low: usize, high: usize) -> Vec<u8> {
    let count = random.between(low, high);
    random.sample(&owners(), count)
}

fn to_destination(mut vertices: Vec<u8>) -> Vec<u8> {
    vertices.push(0);
    vertices
}

fn empty(_: &mut Random) -> Paths {
    Paths::new()
}

// ---- any paths

/// Any paths among few vertices, so that many are named and few fit together.
fn few_vertices(random: &mut Random) -> Paths {
    let vertices = some_owners(random, 1, 6);
    let mut paths = Paths::new();
    for _ in 0..random.between(1, 20) {
        let count = random.between(1, vertices.len());
        let path = to_destination(random.sample(&vertices, count));
        add(&mut paths, path, MOST_PATHS);
    }
    paths
}

/// Gives an owner so many paths through any vertices.
fn fill(random: &mut Random, paths: &mut Paths, owner: u8, count: usize, most_hops: usize) {
    let others: Vec<u8> = owners().into_iter().filter(|&v| v != owner).collect();
    let mut missing = count;
    while missing > 0 {
        let between = random.below(most_hops);
        let mut path = vec![owner];
        path.extend(random.sample(&others, between));
        missing -= usize::from(add(paths, to_destination(path), MOST_PATHS));
    }
}

fn many_owners(random: &mut Random) -> Paths {
    let mut paths = Paths::new();
    let most_hops = random.between(2, MOST_HOPS);
    let most_paths = random.between(1, MOST_PATHS);
    for owner in some_owners(random, 1, 63) {
        let count = random.between(1, most_paths);
        fill(random, &mut paths, owner, count, most_hops);
    }
    paths
}

fn full_any(random: &mut Random) -> Paths {
    let mut paths = Paths::new();
    let most_hops = random.between(3, MOST_HOPS);
    for owner in owners() {
        fill(random, &mut paths, owner, MOST_PATHS, most_hops);
    }
    paths
}

// ---- paths that lengthen one another, so that one can become compatible and cease to be

struct Growth {
    vertices: Vec<u8>,
    most_paths: usize,
    most_hops: usize,
}

impl Growth {
    fn grow(&self, random: &mut Random, tries: usize) -> Paths {
        let mut paths = self.direct(random);
        for _ in 0..tries {
            self.lengthen(random, &mut paths);
        }
        ranked(random, paths)
    }

    /// Most vertices have their direct path, the first of them always.
    fn direct(&self, random: &mut Random) -> Paths {
        let mut paths = Paths::new();
        for (at, &v) in self.vertices.iter().enumerate() {
            if at == 0 || random.chance(70) {
                paths.insert(v, vec![vec![v, 0]]);
            }
        }
        paths
    }

    /// One more path, where the drawn one is new and allowed.
    fn lengthen(&self, random: &mut Random, paths: &mut Paths) {
        let [v, u] = [0, 1].map(|_| random.choose(&self.vertices));
        let Some(known) = paths.get(&u) else { return };
        let rest = &known[random.below(known.len())];
        if rest.len() <= self.most_hops && !rest.contains(&v) {
            let path = [&[v], &rest[..]].concat();
            add(paths, path, self.most_paths);
        }
    }
}

/// Each owner's paths by any order, or long ones first, which is where rings come from.
fn ranked(random: &mut Random, paths: Paths) -> Paths {
    let rank = |mut own: Vec<Vec<u8>>| {
        match random.below(3) {
            0 => own.sort_by_key(|path| path.len()),
            1 => own.sort_by_key(|path| MOST_HOPS + 1 - path.len()),
            _ => own.sort_by_cached_key(|_| random.next()),
        }
        own
    };
    let (owners, lists): (Vec<u8>, Vec<_>) = paths.into_iter().unzip();
    owners.into_iter().zip(lists.into_iter().map(rank)).collect()
}

fn small_grown(random: &mut Random) -> Paths {
    let growth = Growth {
        vertices: some_owners(random, 2, 10),
        most_paths: random.between(1, 6),
        most_hops: random.choose(&[2, 3, MOST_HOPS]),
    };
    let tries = random.between(5, 80);
    growth.grow(random, tries)
}

fn many_grown(random: &mut Random) -> Paths {
    let growth = Growth {
        vertices: some_owners(random, 11, 63),
        most_paths: random.between(2, MOST_PATHS),
        most_hops: random.between(2, MOST_HOPS),
    };
    let tries = random.between(100, 2000);
    growth.grow(random, tries)
}

/// Without some owners' records, so that others name vertices that own none.
fn silent(random: &mut Random) -> Paths {
    let growth =
        Growth { vertices: some_owners(random, 3, 12), most_paths: 5, most_hops: MOST_HOPS };
    let mut paths = growth.grow(random, 80);
    let count = random.between(1, growth.vertices.len() / 2);
    for v in random.sample(&growth.vertices[1..], count) {
        paths.remove(&v);
    }
    paths
}

/// All 1,008 records: grown as far as that goes, then filled.
fn full_grown(random: &mut Random) -> Paths {
    let growth = Growth { vertices: owners(), most_paths: MOST_PATHS, most_hops: MOST_HOPS };
    let mut paths = growth.grow(random, 3000);
    for owner in owners() {
        let missing = MOST_PATHS - paths.get(&owner).map_or(0, Vec::len);
        fill(random, &mut paths, owner, missing, MOST_HOPS);
    }
    paths
}

// ---- rings

/// Each vertex prefers the one that it follows to its direct path, so that none of them settles.
fn following(paths: &mut Paths, pairs: impl Iterator<Item = (u8, u8)>) {
    for (v, u) in pairs {
        paths.insert(v, vec![vec![v, u, 0], vec![v, 0]]);
    }
}

fn circle(vertices: &[u8]) -> impl Iterator<Item = (u8, u8)> + '_ {
    let turned = vertices.iter().cycle().skip(1);
    vertices.iter().copied().zip(turned.copied())
}

/// One or two rings, tails that lead into them, and settled vertices beside.
fn rings(random: &mut Random) -> Paths {
    let vertices = some_owners(random, 2, 63);
    let length = random.between(2, vertices.len());
    let (ring, others) = vertices.split_at(length);
    let tail_count = random.between(0, others.len());
    let (tails, others) = others.split_at(tail_count);
    let mut paths = Paths::new();
    following(&mut paths, circle(ring));
    let reached = random.choose(&[length, length, length + tail_count]);
    let leads: Vec<u8> = tails.iter().map(|_| random.choose(&vertices[..reached])).collect();
    let apart = tails.iter().copied().zip(leads).filter(|(v, u)| v != u);
    following(&mut paths, apart);
    match others.len() {
        2.. if random.chance(50) => following(&mut paths, circle(others)),
        _ => paths.extend(others.iter().map(|&v| (v, vec![vec![v, 0]]))),
    }
    paths
}

/// All 1,008 records in one ring of all.
fn full_ring(random: &mut Random) -> Paths {
    let vertices = random.shuffled(&owners());
    let mut paths = Paths::new();
    for (v, u) in circle(&vertices) {
        paths.insert(v, vec![vec![v, u, 0]]);
        add_long(random, &mut paths, v, u, MOST_PATHS - 1);
    }
    paths
}

// ---- long paths

/// A line of up to twelve vertices, each with the path along it, among other paths; some lines are broken.
fn long_line(random: &mut Random) -> Paths {
    let growth =
        Growth { vertices: some_owners(random, MOST_HOPS, 20), most_paths: 4, most_hops: 3 };
    let mut paths = growth.grow(random, 40);
    for length in 1..=MOST_HOPS {
        let line = along(&growth.vertices[..length]);
        let own = paths.entry(line[0]).or_default();
        if !own.contains(&line) && random.chance(97) {
            own.insert(random.choose(&[0, 0, own.len()]), line);
        }
    }
    paths.retain(|_, own| !own.is_empty());
    paths
}

/// The path from the last vertex of a line along it.
fn along(line: &[u8]) -> Vec<u8> {
    to_destination(line.iter().rev().copied().collect())
}

/// A line of vertices, and others whose path's rest is that of the line's head or differs from it in one place.
///
/// Those come to that path only after the head has settled, since one by a later vertex keeps them waiting before. Some
/// go by a vertex that is stuck, so that the first settled vertex is not the next hop.
fn near_misses(random: &mut Random) -> Paths {
    let vertices = some_owners(random, 20, 20);
    let length = random.between(2, MOST_HOPS - 2);
    let (line, others) = vertices.split_at(length);
    let [late, one, other, stranger] = others[..4] else {
        unreachable!("twenty vertices leave ten beside the line")
    };
    let fronts = (1..=length).map(|length| along(&line[..length]));
    let mut paths: Paths = fronts.map(|path| (path[0], vec![path])).collect();
    following(&mut paths, circle(&[one, other]));
    paths.insert(late, vec![[&[late], &along(line)[..]].concat()]);
    paths.insert(stranger, vec![vec![stranger, 0]]);
    for &v in &others[4..] {
        let front = random.choose(&[&[v][..], &[v, one]]).to_vec();
        let missed = [front, changed(random, line, stranger)].concat();
        paths.insert(v, vec![vec![v, late, 0], missed, vec![v, 0]]);
    }
    paths
}

/// The path along a line with a vertex behind its head replaced, left out, moved, or none of these.
fn changed(random: &mut Random, line: &[u8], stranger: u8) -> Vec<u8> {
    let mut path = along(line);
    let at = random.between(1, line.len() - 1);
    match random.below(4) {
        0 => path[at] = stranger,
        1 => drop(path.remove(at)),
        2 => path[1..line.len()].rotate_left(1),
        _ => {}
    }
    path
}

// ---- stages

/// Paths of 12 hops through a vertex, none of which stays compatible once that has settled on its direct path.
fn add_long(random: &mut Random, paths: &mut Paths, owner: u8, through: u8, count: usize) {
    let others: Vec<u8> = owners().into_iter().filter(|&v| v != owner && v != through).collect();
    let mut missing = count;
    while missing > 0 {
        let drawn = random.sample(&others, MOST_HOPS - 2);
        let (last, front) = drawn.split_last().unwrap();
        let path = [&[owner], front, &[through, *last, 0]].concat();
        missing -= usize::from(add(paths, path, MOST_PATHS));
    }
}

/// Each vertex waits for the one before it, so that every stage has one; where it has more paths, the long ones come
/// first and each judgement looks at all of them.
fn staged(random: &mut Random, vertices: &[u8], each_has: usize) -> Paths {
    let mut paths = Paths::new();
    let first = vertices[0];
    paths.insert(first, vec![vec![first, 0]]);
    for pair in vertices.windows(2) {
        let (u, v) = (pair[0], pair[1]);
        add_long(random, &mut paths, v, first, each_has.saturating_sub(2));
        add(&mut paths, vec![v, u, 0], MOST_PATHS);
        add(&mut paths, vec![v, 0], MOST_PATHS);
    }
    paths
}

fn short_stages(random: &mut Random) -> Paths {
    let vertices = some_owners(random, 2, 30);
    let each_has = random.choose(&[2, 2, 3]);
    staged(random, &vertices, each_has)
}

fn all_stages(random: &mut Random) -> Paths {
    let each_has = random.between(2, MOST_PATHS - 1);
    let vertices = random.shuffled(&owners());
    staged(random, &vertices, each_has)
}

/// All 1,008 records: the vertex of stage 1 has its direct path first and any others behind it.
fn full_stages(random: &mut Random) -> Paths {
    let vertices = random.shuffled(&owners());
    let mut paths = staged(random, &vertices, MOST_PATHS);
    fill(random, &mut paths, vertices[0], MOST_PATHS - 1, MOST_HOPS);
    paths
}

#[cfg(test)]
mod tests {
    use super::*;
    use crate::making::tables::MOST_BYTES;

    fn made(shape: Shape, seed: u64) -> Vec<u8> {
        table_of(&shape(&mut Random::new(seed)))
    }

    #[test]
    fn every_shape_is_accepted() {
        for turn in 0..100 * SHAPES.len() {
            let (seed, at) = (turn / SHAPES.len(), turn % SHAPES.len());
            let table = made(SHAPES[at].1, seed as u64);
            let refused = second::Table::read(&table).err();
            assert_eq!(refused, None, "shape {at}, seed {seed}");
            assert_eq!(table.is_empty(), at == 0, "shape {at}, seed {seed}");
        }
    }

    #[test]
    fn full_tables_are_full() {
        for shape in [full_any, full_grown, full_stages, full_ring] as [Shape; 4] {
            assert_eq!(made(shape, 1).len(), MOST_BYTES);
        }
    }

    fn checked(table: &[u8]) -> second::Answer {
        second::check(table, &mut [0; 1024], &mut [0; 64])
    }

    #[test]
    fn stages_and_rings_are_as_long_as_they_can_be() {
        for shape in [all_stages, full_stages] as [Shape; 2] {
            let answer = checked(&made(shape, 1));
            assert_eq!((answer.stages, answer.settled, answer.longest), (63, 63, 12));
        }
        let answer = checked(&made(full_ring, 1));
        assert_eq!(answer.verdict, second::Verdict::Stuck(63));
    }
}
