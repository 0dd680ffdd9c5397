//! Tables that are no longer valid: one record that breaks a rule, a wrong length, or bytes of no meaning.

use second::limits::{RANKS, RECORD_BYTES, VERTICES};

use super::random::Random;
use super::tables::{MOST_BYTES, MOST_HOPS};

/// Any byte that is not allowed, every other time one just outside, since a limit that is off by one shows only there.
fn other_than(random: &mut Random, is_allowed: impl Fn(u8) -> bool) -> Option<u8> {
    let others: Vec<u8> = (0..=255).filter(|&byte| !is_allowed(byte)).collect();
    let is_near = |byte: u8| is_allowed(byte.wrapping_add(1)) || is_allowed(byte.wrapping_sub(1));
    let near: Vec<u8> = others.iter().copied().filter(|&byte| is_near(byte)).collect();
    match (random.chance(50), &near[..], &others[..]) {
        (_, _, []) => None,
        (true, near @ [_, ..], _) => Some(random.choose(near)),
        _ => Some(random.choose(&others)),
    }
}

/// Breaks a rule at the first record that can break it, the last, or any; gives its number, or nothing where there is
/// no such record. In a valid table no rule before this one is broken then.
pub fn break_rule(random: &mut Random, table: &mut [u8], rule: u8) -> Option<usize> {
    let records = table.len() / RECORD_BYTES;
    let places: Vec<usize> = (0..records).filter(|&at| can_break(table, at, rule)).collect();
    let last = places.len().checked_sub(1)?;
    let any = random.between(0, last);
    let at = places[random.choose(&[0, last, any, any])];
    let (before, from) = table.split_at_mut(RECORD_BYTES * at);
    let record = &mut from[..RECORD_BYTES];
    change_record(random, before, record, rule)?;
    Some(at)
}

/// Rule 9 needs a record before this one, and 11 one of the same owner; other faults may have left no path to change.
fn can_break(table: &[u8], at: usize, rule: u8) -> bool {
    let record = &table[RECORD_BYTES * at..];
    let has_path = (1..=MOST_HOPS).contains(&record[1].into());
    has_path
        && match rule {
            9 => at > 0,
            11 => record[0] > 1 && usize::from(record[0]) <= at + 1,
            _ => true,
        }
}

/// Nothing where no byte breaks the rule.
fn change_record(random: &mut Random, before: &[u8], record: &mut [u8], rule: u8) -> Option<()> {
    let hops = usize::from(record[1]);
    let path = record[2..3 + hops].to_vec();
    let any_of_path = random.between(2, 2 + hops);
    let any_filler = random.between(3 + hops, RECORD_BYTES - 1);
    let (at, byte) = match rule {
        4 => (1, other_than(random, |byte| (1..=MOST_HOPS as u8).contains(&byte))?),
        5 => (any_of_path, other_than(random, |byte| byte < VERTICES as u8)?),
        6 => (any_filler, other_than(random, |byte| byte == record[any_filler])?),
        7 => {
            let two = random.sample(&(0..=hops).collect::<Vec<_>>(), 2);
            (2 + two[0], path[two[1]])
        }
        8 => (2 + hops, other_than(random, |byte| byte > 63 || path.contains(&byte))?),
        9 => {
            let previous = before[before.len() - RECORD_BYTES + 2];
            (2, other_than(random, |byte| byte >= previous || path[1..].contains(&byte))?)
        }
        10 => (0, other_rank(random, record[0])),
        _ => {
            let earlier = random.between(1, usize::from(record[0]) - 1);
            let start = before.len() - RECORD_BYTES * earlier;
            record[1..].copy_from_slice(&before[start + 1..start + RECORD_BYTES]);
            return Some(());
        }
    };
    record[at] = byte;
    Some(())
}

/// A near rank or any other, since a near one is the likelier to be let through.
fn other_rank(random: &mut Random, rank: u8) -> u8 {
    let any = random.byte();
    let near = [rank.wrapping_sub(1), rank.wrapping_add(1), 0, 1, RANKS as u8 + 1, any];
    match random.choose(&near) {
        same if same == rank => rank.wrapping_add(1),
        other => other,
    }
}

/// One byte changes, often by one, since that hits the limits; some tables stay valid.
pub fn change_byte(random: &mut Random, table: &mut [u8]) {
    if table.is_empty() {
        return;
    }
    let at = random.below(table.len());
    let any = random.byte();
    let by = random.choose(&[1, 255, any]);
    table[at] = table[at].wrapping_add(by);
}

/// Longer than 16,128 bytes, by one byte, by some, or by 65,536, so that a length of two bytes would wrap.
pub fn lengthen(random: &mut Random, table: &mut Vec<u8>) {
    let any = random.between(1, 3000);
    let beyond = MOST_BYTES + random.choose(&[1, 15, 16, 17, any]);
    let wrapped = 65_536 + table.len();
    let length = random.weighted(&[(9, beyond), (1, wrapped)]);
    let missing = length.saturating_sub(table.len());
    table.extend(random.bytes(missing));
}

/// Ends within a record.
pub fn make_ragged(random: &mut Random, table: &mut Vec<u8>) {
    let part = random.between(1, RECORD_BYTES - 1);
    if random.chance(50) && !table.is_empty() {
        table.truncate(table.len().saturating_sub(part));
    } else {
        table.extend(random.bytes(part));
    }
}

/// Bytes of any length from 0 on, every other time whole records.
pub fn any_bytes(random: &mut Random) -> Vec<u8> {
    let most = random.choose(&[64, 1000, MOST_BYTES + 500]);
    let length = random.between(0, most);
    match random.chance(50) {
        true => random.bytes(length),
        false => random.bytes(length / RECORD_BYTES * RECORD_BYTES),
    }
}

/// Records whose every field is near its limits, so that each rule has its turn.
pub fn likely_records(random: &mut Random) -> Vec<u8> {
    let mut table = vec![];
    for _ in 0..random.between(1, 5) {
        table.extend(likely_record(random));
    }
    table
}

fn likely_record(random: &mut Random) -> [u8; RECORD_BYTES] {
    let mut record = [255; RECORD_BYTES];
    let hops = random.choose(&[0, 1, 1, 2, 2, 3, 12, 13]);
    record[0] = random.choose(&[1, 1, 1, 2, 3, 16, 17]);
    record[1] = hops as u8;
    for vertex in &mut record[2..2 + hops] {
        *vertex = random.choose(&[1, 2, 3, 62, 63, 64]);
    }
    record[(2 + hops).min(RECORD_BYTES - 2)] = random.weighted(&[(9, 0), (1, 1)]);
    record[RECORD_BYTES - 1] = random.weighted(&[(19, 0), (1, 255)]);
    record
}

#[cfg(test)]
mod tests {
    use super::*;
    use crate::making::shapes;

    /// The number and the place, as the second program judges it.
    fn judged(table: &[u8]) -> Option<(u8, usize)> {
        let refusal = second::Table::read(table).err()?;
        Some((refusal.number, refusal.place as usize))
    }

    #[test]
    fn each_rule_is_broken_where_it_says_and_no_other_before() {
        for rule in 4..=11 {
            let broken = (0..300).filter(|&seed| is_broken(rule, seed)).count();
            assert!(broken > 100, "rule {rule}: {broken}");
        }
    }

    /// Whether some record could break the rule; then that is what is judged.
    fn is_broken(rule: u8, seed: u64) -> bool {
        let mut random = Random::new(seed);
        let mut table = shapes::table(&mut random);
        let broken = break_rule(&mut random, &mut table, rule);
        if let Some(at) = broken {
            assert_eq!(judged(&table), Some((rule, at)), "rule {rule}, seed {seed}");
        }
        broken.is_some()
    }

    #[test]
    fn wrong_lengths_are_refused_by_their_numbers() {
        for seed in 0..300 {
            let mut random = Random::new(seed);
            let (mut long, mut ragged) = (shapes::table(&mut random), shapes::table(&mut random));
            lengthen(&mut random, &mut long);
            make_ragged(&mut random, &mut ragged);
            assert_eq!(judged(&long), Some((2, 0)), "seed {seed}");
            let number = if ragged.len() > MOST_BYTES { 2 } else { 3 };
            assert_eq!(judged(&ragged), Some((number, 0)), "seed {seed}");
        }
    }
}
