//! What a case turned out to be, by the second program's answer, and how often each label must come.

use crate::case::{Buffer, Case, Contents, Entry};
use crate::expected::{numbers_in, Expected};

type Least = (&'static str, u64);

const CHECK: &[Least] = &[
    ("accepted", 4500),
    ("complete", 1500),
    ("stuck", 1500),
    ("with a vertex without a path", 500),
    ("63 stages", 50),
    ("12 hops", 350),
    ("ring without the lowest stuck vertex", 300),
    ("refused at a place above 0", 800),
];
const STEP: &[Least] = &[
    ("accepted", 4500),
    ("up", 700),
    ("down", 400),
    ("no movement", 1500),
    ("another byte stored without a movement", 200),
    ("refused at a place above 0", 800),
];
const RUN: &[Least] = &[
    ("accepted", 4500),
    ("with ups", 2000),
    ("with downs", 1000),
    ("no change", 1000),
    ("last change before the last step", 1000),
    ("with rounds", 1200),
    ("no round", 1700),
    ("with a sum below 0", 800),
    ("no pair", 150),
    ("16384 pairs", 80),
    ("refused at a place above 0", 800),
];
const TABLES: &[Least] = &[
    ("table of 0 bytes", 80),
    ("table of 1 to 15 records", 2000),
    ("table of 16 to 255 records", 2000),
    ("table of 256 to 1007 records", 140),
    ("table of 1008 records", 160),
    ("table of more than 16128 bytes", 120),
    ("table not of whole records", 140),
];
/// For each refusal that an entry has.
const LEAST_REFUSALS: u64 = 80;

fn refusals(entry: Entry) -> Vec<u64> {
    match entry {
        Entry::Check => (1..=11).collect(),
        Entry::Step => (1..=12).chain([14]).collect(),
        Entry::Run => (1..=14).collect(),
    }
}

/// Every label of an entry, with how often it must come at least among `mix::CASES` cases.
pub fn all_of(entry: Entry) -> Vec<(String, u64)> {
    let own = match entry {
        Entry::Check => CHECK,
        Entry::Step => STEP,
        Entry::Run => RUN,
    };
    let refused = refusals(entry).into_iter();
    let refused = refused.map(|number| (format!("refused {number}"), LEAST_REFUSALS));
    let named = |list: &'static [Least]| list.iter().map(|&(label, least)| (label.into(), least));
    named(own).chain(refused).chain(named(TABLES)).collect()
}

/// The labels of one case.
pub fn of(case: &Case, expected: &Expected) -> Vec<String> {
    let mut labels = vec![table_label(case.contents[Buffer::Table].len()).to_string()];
    if expected.code != 0 {
        labels.push(format!("refused {}", expected.code % 256));
        labels.extend((expected.code >= 256).then(|| "refused at a place above 0".into()));
        return labels;
    }
    let (before, after) = (&case.contents, &expected.contents);
    let own = match case.entry {
        Entry::Check => check_labels(after),
        Entry::Step => step_labels(before, after),
        Entry::Run => run_labels(after),
    };
    labels.push("accepted".into());
    labels.extend(own.into_iter().map(String::from));
    labels
}

fn table_label(length: usize) -> &'static str {
    match length {
        16_129.. => "table of more than 16128 bytes",
        _ if !length.is_multiple_of(16) => "table not of whole records",
        0 => "table of 0 bytes",
        _ => match length / 16 {
            1..=15 => "table of 1 to 15 records",
            16..=255 => "table of 16 to 255 records",
            256..=1007 => "table of 256 to 1007 records",
            _ => "table of 1008 records",
        },
    }
}

/// The labels that hold.
fn chosen(labels: &[(&'static str, bool)]) -> Vec<&'static str> {
    let holding = labels.iter().filter(|&&(_, holds)| holds);
    holding.map(|&(label, _)| label).collect()
}

/// The first five numbers of an answer.
fn five(after: &Contents) -> [i32; 5] {
    let numbers = numbers_in(&after[Buffer::Numbers]);
    [0, 1, 2, 3, 4].map(|at| numbers[at])
}

fn check_labels(after: &Contents) -> Vec<&'static str> {
    let [ring_length, _, _, stages, longest] = five(after);
    let rows = || after[Buffer::Rows].chunks_exact(16).enumerate().skip(1);
    let mut stuck = rows().filter(|(_, row)| row[0] == 255);
    let lowest = stuck.next().map(|(vertex, _)| vertex as u8);
    let is_outside = |vertex| !after[Buffer::Ring].contains(&vertex);
    let has_none = rows().any(|(_, row)| row[0] < 254 && row[1] == 0);
    chosen(&[
        ("complete", ring_length == 0),
        ("stuck", ring_length != 0),
        ("with a vertex without a path", has_none),
        ("63 stages", stages == 63),
        ("12 hops", longest == 12),
        ("ring without the lowest stuck vertex", lowest.is_some_and(is_outside)),
    ])
}

fn step_labels(before: &Contents, after: &Contents) -> Vec<&'static str> {
    let [movement, ..] = five(after);
    let is_stored = before[Buffer::Heard] != after[Buffer::Heard];
    chosen(&[
        ("up", movement > 0),
        ("down", movement < 0),
        ("no movement", movement == 0),
        ("another byte stored without a movement", movement == 0 && is_stored),
    ])
}

fn run_labels(after: &Contents) -> Vec<&'static str> {
    let [steps, ups, downs, last_change, rounds] = five(after);
    let sums = numbers_in(&after[Buffer::Sums]);
    chosen(&[
        ("with ups", ups > 0),
        ("with downs", downs > 0),
        ("no change", last_change == 0),
        ("last change before the last step", 0 < last_change && last_change < steps),
        ("with rounds", rounds > 0),
        ("no round", rounds == 0),
        ("with a sum below 0", sums.iter().any(|&sum| sum < 0)),
        ("no pair", steps == 0),
        ("16384 pairs", steps == 16_384),
    ])
}

#[cfg(test)]
mod tests {
    use super::*;
    use crate::{expected, making};

    #[test]
    fn each_label_that_comes_has_a_least_number() {
        for number in 0..1500 {
            let (case, _) = making::case(3, number);
            let known: Vec<String> = all_of(case.entry).into_iter().map(|(name, _)| name).collect();
            let mut found = of(&case, &expected::of(&case));
            found.retain(|label| !known.contains(label));
            assert_eq!(found, Vec::<String>::new(), "case {number}");
        }
    }

    #[test]
    fn tables_are_told_apart_by_their_lengths() {
        let found = [0, 16, 240, 256, 4080, 4096, 16112, 16128, 16129, 16144, 17].map(table_label);
        let [empty, few, some, many, full, long, ragged] =
            [0, 1, 2, 3, 4, 5, 6].map(|at| TABLES[at].0);
        assert_eq!(found, [empty, few, few, some, some, many, many, full, long, long, ragged]);
    }
}
