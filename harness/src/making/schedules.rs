//! Schedules for a table, and pairs and schedules that are refused.

use second::limits::VERTICES;

use super::random::Random;
use super::tables::Facts;

const MOST_PAIRS: usize = 16_384;

/// An accepted schedule: most often up to a few rounds, now and then none or the longest.
pub fn accepted(random: &mut Random, facts: &Facts) -> Vec<u8> {
    let settling = (random.between(5, 20) * facts.pairs.len()).min(3000);
    match random.weighted(&[(4, 'n'), (75, 's'), (18, 'r'), (3, 'l')]) {
        'n' => vec![],
        's' => short(random, facts),
        'r' => walk(random, facts, settling),
        _ => walk(random, facts, MOST_PAIRS),
    }
}

/// Up to a few rounds.
pub fn short(random: &mut Random, facts: &Facts) -> Vec<u8> {
    let count = random.between(1, 300.min(4 * facts.pairs.len() + 4));
    walk(random, facts, count)
}

/// So many listening pairs in one of the orders; none where nobody listens.
fn walk(random: &mut Random, facts: &Facts, count: usize) -> Vec<u8> {
    let pairs = &facts.pairs;
    let rare = match pairs[..] {
        [] => return vec![],
        _ => random.choose(pairs),
    };
    let few = random.sample(pairs, pairs.len().min(3));
    let drawn: Vec<[u8; 2]> = match random.below(5) {
        0 | 1 => (0..count).map(|_| random.choose(pairs)).collect(),
        2 => in_rounds(random, pairs, count),
        // Rounds close late, at a pair that comes seldom.
        3 => {
            let others: Vec<_> = pairs.iter().copied().filter(|&pair| pair != rare).collect();
            (0..count).map(|_| seldom(random, &others, rare)).collect()
        }
        // Most steps change nothing.
        _ => (0..count).map(|_| random.choose(&few)).collect(),
    };
    drawn.concat()
}

/// One of the others, or the rare pair, which comes more seldom than each of them.
fn seldom(random: &mut Random, others: &[[u8; 2]], rare: [u8; 2]) -> [u8; 2] {
    match random.below(others.len() + 4) {
        0 => rare,
        _ if others.is_empty() => rare,
        _ => random.choose(others),
    }
}

/// Each round has every pair once, in an order of its own.
fn in_rounds(random: &mut Random, pairs: &[[u8; 2]], count: usize) -> Vec<[u8; 2]> {
    let mut order = vec![];
    while order.len() < count {
        order.extend(random.shuffled(pairs));
    }
    order.truncate(count);
    order
}

/// A pair that most likely does not listen: any bytes, any vertices, a listening pair turned around, or one with a
/// vertex above 63 that would wrap onto a listening pair.
pub fn bad_pair(random: &mut Random, facts: &Facts) -> [u8; 2] {
    let any = [random.byte(), random.byte()];
    let vertices = any.map(|byte| byte % VERTICES as u8);
    let [v, u] = match facts.pairs[..] {
        [] => vertices,
        _ => random.choose(&facts.pairs),
    };
    let past = VERTICES as u8 * random.between(1, 3) as u8;
    let carried = [v.wrapping_sub(past / VERTICES as u8), u + past];
    random.choose(&[any, vertices, [u, v], [v, u + past], [v + past, u], carried])
}

/// Puts a bad pair at the start, at the end or between; to an empty schedule, it becomes the only one.
pub fn put_bad_pair(random: &mut Random, schedule: &mut Vec<u8>, facts: &Facts) {
    let last = (schedule.len() / 2).saturating_sub(1);
    let any = random.between(0, last);
    let at = 2 * random.choose(&[0, last, any]);
    schedule.resize(schedule.len().max(2), 0);
    schedule[at..at + 2].copy_from_slice(&bad_pair(random, facts));
}

/// Odd, by a byte less or more, or too long, by a pair or more; a schedule that is both is one refusal.
pub fn spoil_length(random: &mut Random, schedule: &mut Vec<u8>) {
    match random.below(3) {
        0 if !schedule.is_empty() => drop(schedule.pop()),
        0 | 1 => schedule.push(random.byte()),
        _ => repeat_beyond_the_most(random, schedule),
    }
}

fn repeat_beyond_the_most(random: &mut Random, schedule: &mut Vec<u8>) {
    let pattern = match schedule[..] {
        [] => vec![1, 0],
        _ => schedule.clone(),
    };
    let any = random.between(1, 3000);
    let wrapped = 65_536 - 2 * MOST_PAIRS;
    let length = 2 * MOST_PAIRS + random.choose(&[1, 2, 2, 3, any, wrapped]);
    *schedule = pattern.into_iter().cycle().take(length).collect();
}

#[cfg(test)]
mod tests {
    use super::*;
    use crate::making::{shapes, states};

    fn code(table: &[u8], schedule: &[u8]) -> u64 {
        let ran = second::run(table, &mut states::zeros(), schedule, &mut [0; VERTICES]);
        ran.map_or_else(second::Refusal::code, |_| 0)
    }

    #[test]
    fn schedules_are_accepted_until_their_length_is_spoiled() {
        for seed in 0..300 {
            let mut random = Random::new(seed);
            let table = shapes::table(&mut random);
            let mut schedule = accepted(&mut random, &Facts::of(&table));
            assert_eq!(code(&table, &schedule), 0, "seed {seed}");
            spoil_length(&mut random, &mut schedule);
            assert_eq!(code(&table, &schedule), 13, "seed {seed}");
        }
    }

    #[test]
    fn most_bad_pairs_are_refused() {
        let mut refused = 0;
        for seed in 0..300 {
            let mut random = Random::new(seed);
            let table = shapes::table(&mut random);
            let facts = Facts::of(&table);
            let mut schedule = short(&mut random, &facts);
            put_bad_pair(&mut random, &mut schedule, &facts);
            refused += usize::from(code(&table, &schedule) % 256 == 14);
        }
        assert!(refused > 250, "{refused}");
    }
}
