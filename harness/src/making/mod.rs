//! The cases: a seed and a number give one call of one entry, valid or with faults.

mod damage;
pub mod random;
mod schedules;
mod shapes;
mod states;
mod tables;

use crate::case::{Buffer, Case, Contents, Entry};
use random::Random;
use tables::Facts;

/// What can be wrong with a call.
#[derive(Clone, Copy)]
enum Fault {
    /// A record breaks this rule.
    Rule(u8),
    TableByte,
    TableTooLong,
    TableRagged,
    AnyTable,
    LikelyTable,
    BufferLength,
    State,
    AnyState,
    ScheduleLength,
    AnySchedule,
    Pair,
}

/// The faults that every entry can have, with their weights.
const OF_ALL: [(usize, Fault); 14] = [
    (7, Fault::Rule(4)),
    (7, Fault::Rule(5)),
    (7, Fault::Rule(6)),
    (7, Fault::Rule(7)),
    (7, Fault::Rule(8)),
    (7, Fault::Rule(9)),
    (7, Fault::Rule(10)),
    (7, Fault::Rule(11)),
    (6, Fault::TableByte),
    (7, Fault::TableTooLong),
    (7, Fault::TableRagged),
    (4, Fault::AnyTable),
    (4, Fault::LikelyTable),
    (10, Fault::BufferLength),
];
const OF_MACHINE: [(usize, Fault); 3] =
    [(14, Fault::State), (2, Fault::AnyState), (16, Fault::Pair)];
const OF_RUN: [(usize, Fault); 2] = [(14, Fault::ScheduleLength), (2, Fault::AnySchedule)];

fn faults(entry: Entry) -> Vec<(usize, Fault)> {
    match entry {
        Entry::Check => OF_ALL.to_vec(),
        Entry::Step => [&OF_ALL[..], &OF_MACHINE].concat(),
        Entry::Run => [&OF_ALL[..], &OF_MACHINE, &OF_RUN].concat(),
    }
}

/// The entries take turns.
pub fn entry_of(number: u64) -> Entry {
    Entry::ALL[(number % 3) as usize]
}

/// The case of a number, and the generator for what surrounds it.
pub fn case(seed: u64, number: u64) -> (Case, Random) {
    let mut random = Random::of_case(seed, number);
    let entry = entry_of(number);
    let (mut case, facts) = valid_case(&mut random, entry);
    // More than one fault at times, so that the order in which they are looked for decides.
    let count = random.weighted(&[(60, 0), (28, 1), (8, 2), (4, 4)]);
    for _ in 0..count {
        let fault = random.weighted(&faults(entry));
        spoil(&mut random, &mut case, &facts, fault);
    }
    (case, random)
}

/// An accepted call, and the facts of its table; what the buffers held before is any bytes. Only a step has none where
/// the table is empty.
fn valid_case(random: &mut Random, entry: Entry) -> (Case, Facts) {
    let mut contents = Contents::default();
    for &buffer in entry.buffers() {
        contents[buffer] = random.bytes(buffer.written_length().unwrap_or(0));
    }
    let table = shapes::table(random);
    let facts = Facts::of(&table);
    let mut pair = [0, 0];
    if entry != Entry::Check {
        contents[Buffer::Heard] = states::valid(random, &table, &facts);
    }
    match entry {
        Entry::Check => {}
        Entry::Step => pair = moving_pair(random, &table, &contents[Buffer::Heard], &facts),
        Entry::Run => contents[Buffer::Schedule] = schedules::accepted(random, &facts),
    }
    contents[Buffer::Table] = table;
    let case = Case { entry, pair, contents };
    (case, facts)
}

/// A listening pair, most often one at which the listener moves, since at most pairs it does not.
fn moving_pair(random: &mut Random, table: &[u8], heard: &[u8], facts: &Facts) -> [u8; 2] {
    let wanted = random.choose(&[-1, -1, 0, 1]);
    let mut pair = schedules::bad_pair(random, facts);
    for _ in 0..facts.pairs.len().min(12) {
        pair = random.choose(&facts.pairs);
        let [v, u] = pair.map(u32::from);
        if second::step(table, &mut heard.to_vec(), v, u).map(i32::signum) == Ok(wanted) {
            break;
        }
    }
    pair
}

fn spoil(random: &mut Random, case: &mut Case, facts: &Facts, fault: Fault) {
    let contents = &mut case.contents;
    let table = &mut contents[Buffer::Table];
    match fault {
        Fault::Rule(rule) => break_rule(random, table, rule),
        Fault::TableByte => damage::change_byte(random, table),
        Fault::TableTooLong => damage::lengthen(random, table),
        Fault::TableRagged => damage::make_ragged(random, table),
        Fault::AnyTable => *table = damage::any_bytes(random),
        Fault::LikelyTable => *table = damage::likely_records(random),
        Fault::BufferLength => change_lengths(random, case),
        Fault::State => states::spoil(random, &mut contents[Buffer::Heard], facts),
        Fault::AnyState => contents[Buffer::Heard] = random.bytes(4096),
        Fault::ScheduleLength => schedules::spoil_length(random, &mut contents[Buffer::Schedule]),
        Fault::AnySchedule => contents[Buffer::Schedule] = any_schedule(random),
        Fault::Pair if case.entry == Entry::Step => case.pair = schedules::bad_pair(random, facts),
        Fault::Pair => schedules::put_bad_pair(random, &mut contents[Buffer::Schedule], facts),
    }
}

/// Where no record can break the rule, another fault takes its place.
fn break_rule(random: &mut Random, table: &mut [u8], rule: u8) {
    if damage::break_rule(random, table, rule).is_none() {
        damage::change_byte(random, table);
    }
}

/// One of the buffers that have a fixed length gets another, or several do.
fn change_lengths(random: &mut Random, case: &mut Case) {
    let lent = case.entry.buffers().iter().copied();
    let fixed: Vec<Buffer> = lent.filter(|buffer| buffer.written_length().is_some()).collect();
    let any_count = random.between(1, fixed.len());
    let count = random.choose(&[1, 1, any_count]);
    for buffer in random.sample(&fixed, count) {
        let content = &mut case.contents[buffer];
        let length = other_length(random, content.len());
        content.truncate(length);
        let missing = length - content.len();
        content.extend(random.bytes(missing));
    }
}

/// 0, one less, one more, any, the double, or one that a length of two bytes would take for the right one.
fn other_length(random: &mut Random, length: usize) -> usize {
    let any = random.below(2 * length + 2);
    random.weighted(&[
        (2, 0),
        (2, length.saturating_sub(1)),
        (2, length + 1),
        (2, any),
        (1, 2 * length),
        (1, length + 65_536),
    ])
}

fn any_schedule(random: &mut Random) -> Vec<u8> {
    let most = random.choose(&[8, 100, 40_000]);
    let length = random.between(0, most);
    random.bytes(length)
}

#[cfg(test)]
mod tests {
    use super::*;

    #[test]
    fn a_case_can_be_made_again() {
        for number in 0..30 {
            let [once, again] = [0, 1].map(|_| case(5, number).0.inputs());
            assert_eq!(once, again);
            assert_ne!(once, case(6, number).0.inputs());
        }
    }

    #[test]
    fn cases_without_a_fault_are_accepted() {
        for number in 0..600 {
            let mut random = Random::new(number);
            let entry = entry_of(number);
            let (case, facts) = valid_case(&mut random, entry);
            let is_accepted = entry != Entry::Step || !facts.pairs.is_empty();
            let code = crate::expected::of(&case).code;
            assert_eq!(code, if is_accepted { 0 } else { 14 }, "{entry:?} {number}");
        }
    }
}
