//! Heard states for a table: valid ones, ones that a run has reached, and ones with a bad byte.

use second::limits::{HEARD_BYTES, VERTICES};

use super::random::Random;
use super::schedules;
use super::tables::{offset, Facts};

pub fn zeros() -> Vec<u8> {
    vec![0; HEARD_BYTES]
}

/// A valid state of any kind.
pub fn valid(random: &mut Random, table: &[u8], facts: &Facts) -> Vec<u8> {
    match random.below(6) {
        0 => zeros(),
        1 => reached(random, table, facts),
        2 | 3 => fitting(random, table),
        _ => drawn(random, facts),
    }
}

/// At each listening pair nothing, any byte that is valid, or the highest; sparse or dense.
fn drawn(random: &mut Random, facts: &Facts) -> Vec<u8> {
    let share = random.choose(&[10, 50, 90, 100]);
    let mut state = zeros();
    for &pair in &facts.pairs {
        let highest = facts.highest[offset(pair)];
        let any = random.between(0, highest.into()) as u8;
        if random.chance(share) {
            state[offset(pair)] = random.choose(&[highest, any]);
        }
    }
    state
}

/// Listeners have heard rests of their own paths, so that many have a choice to lose.
fn fitting(random: &mut Random, table: &[u8]) -> Vec<u8> {
    let mut state = zeros();
    let Ok(table) = second::Table::read(table) else {
        return state;
    };
    for path in (1..VERTICES).flat_map(|v| table.paths_of(v)) {
        let next = path.next_hop();
        let own = table.paths_of(next).find(|own| own.vertices == path.rest());
        let rank = own.map_or(u8::from(next == 0), |own| own.rank);
        if rank > 0 && random.chance(70) {
            state[VERTICES * path.owner() + next] = rank;
        }
    }
    state
}

/// What a run of some rounds leaves.
fn reached(random: &mut Random, table: &[u8], facts: &Facts) -> Vec<u8> {
    let mut state = drawn(random, facts);
    let schedule = schedules::short(random, facts);
    // It is accepted; should the second program refuse it, the comparison must tell and not this.
    let _ = second::run(table, &mut state, &schedule, &mut [0; VERTICES]);
    state
}

/// One byte becomes too high, at any offset or at a listening pair; every other time by one alone.
pub fn spoil(random: &mut Random, state: &mut [u8], facts: &Facts) {
    let at = match facts.pairs[..] {
        [_, ..] if random.chance(50) => offset(random.choose(&facts.pairs)),
        _ => random.below(HEARD_BYTES),
    };
    let lowest = facts.highest[at] + 1;
    let any = random.between(lowest.into(), 255) as u8;
    // A state of another length is refused for that, and may have no such byte.
    if let Some(byte) = state.get_mut(at) {
        *byte = random.choose(&[lowest, any]);
    }
}

#[cfg(test)]
mod tests {
    use super::*;
    use crate::making::shapes;

    #[test]
    fn valid_states_are_accepted_and_spoiled_ones_are_not() {
        for seed in 0..500 {
            let mut random = Random::new(seed);
            let table = shapes::table(&mut random);
            let facts = Facts::of(&table);
            let read = second::Table::read(&table).unwrap();
            let mut state = valid(&mut random, &table, &facts);
            assert_eq!(second::first_bad_offset(&read, &state), None, "seed {seed}");
            spoil(&mut random, &mut state, &facts);
            assert!(second::first_bad_offset(&read, &state).is_some(), "seed {seed}");
        }
    }
}
