//! How often each label came, so that cases that have drifted are noticed.

use std::collections::{BTreeMap, BTreeSet};

use crate::case::{Buffer, Case, Entry};
use crate::expected::Expected;
use crate::labels;

/// The least numbers are those of so many cases, and go with the number of cases.
pub const CASES: u64 = 30_000;

/// Fewer cases than these leave the numbers to chance.
pub const LEAST_JUDGED: u64 = 10_000;

#[derive(Default)]
pub struct Mix {
    pub cases: u64,
    counts: BTreeMap<(&'static str, String), u64>,
    table_lengths: BTreeSet<usize>,
}

impl Mix {
    pub fn add(&mut self, case: &Case, expected: &Expected) {
        self.cases += 1;
        self.table_lengths.insert(case.contents[Buffer::Table].len());
        for label in labels::of(case, expected) {
            *self.counts.entry((case.entry.name(), label)).or_default() += 1;
        }
    }

    fn count(&self, entry: Entry, label: &str) -> u64 {
        let key = (entry.name(), label.to_string());
        self.counts.get(&key).copied().unwrap_or(0)
    }

    /// One line for each entry, and one for the tables' lengths.
    pub fn summary(&self) -> String {
        let line = |entry: Entry| {
            let all = labels::all_of(entry).into_iter();
            let counted = all.map(|(label, _)| format!("{label}: {}", self.count(entry, &label)));
            let counted: Vec<String> = counted.collect();
            format!("{}: {}\n", entry.name(), counted.join(", "))
        };
        let lines: String = Entry::ALL.into_iter().map(line).collect();
        format!("{lines}different lengths of tables: {}", self.table_lengths.len())
    }

    /// The labels that came too seldom, where there are enough cases to tell.
    pub fn rare(&self) -> Vec<String> {
        if self.cases < LEAST_JUDGED {
            return vec![];
        }
        let all = Entry::ALL.into_iter();
        all.flat_map(|entry| self.rare_of(entry)).collect()
    }

    fn rare_of(&self, entry: Entry) -> Vec<String> {
        let too_few = |(label, least): (String, u64)| {
            let (found, least) = (self.count(entry, &label), least * self.cases / CASES);
            (found < least).then(|| format!("{} {label}: {found}, at least {least}", entry.name()))
        };
        labels::all_of(entry).into_iter().filter_map(too_few).collect()
    }
}

#[cfg(test)]
mod tests {
    use super::*;
    use crate::{expected, making};

    fn mix_of(cases: u64) -> Mix {
        let mut mix = Mix::default();
        for number in 0..cases {
            let (case, _) = making::case(3, number);
            mix.add(&case, &expected::of(&case));
        }
        mix
    }

    #[test]
    fn a_label_that_is_missing_is_named() {
        let mut mix = mix_of(LEAST_JUDGED);
        assert_eq!(mix.rare(), Vec::<String>::new());
        mix.counts.insert(("run", "refused 9".into()), 1);
        assert_eq!(mix.rare(), ["run refused 9: 1, at least 26"]);
    }

    #[test]
    fn few_cases_are_not_judged() {
        let without_labels = |cases| Mix { cases, ..Mix::default() };
        assert!(without_labels(LEAST_JUDGED - 1).rare().is_empty());
        assert!(without_labels(LEAST_JUDGED).rare().len() > 30);
    }
}
