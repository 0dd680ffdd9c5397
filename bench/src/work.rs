//! What is measured: a check, a step or a run, by its C entry or by the second program, on the same bytes.

use second::limits::{HEARD_BYTES, RING_BYTES, ROWS_BYTES, VERTICES};
use second::{Answer, Refusal, Verdict};

use crate::entries;

const WORD_BYTES: usize = 4;
const NUMBERS_BYTES: usize = 32;
const SUMS_BYTES: usize = WORD_BYTES * VERTICES;

#[derive(Clone, Copy)]
pub enum Who {
    /// The proved reader alone: the part that every call pays for, to see where the time goes.
    Reading,
    Proved,
    Second,
}

/// One call with all that is lent to it; two that are equal have answered alike.
pub trait Work: Clone + PartialEq {
    fn table(&self) -> &[u8];
    fn proved(&mut self) -> u64;

    /// The same, and what C sees of it: the code, and the bytes of numbers and sums.
    fn second(&mut self) -> u64;

    /// The call's numbers, once it has been made.
    fn numbers(&self) -> String;

    fn call(&mut self, who: Who) -> u64 {
        match who {
            Who::Reading => entries::read(self.table()),
            Who::Proved => self.proved(),
            Who::Second => self.second(),
        }
    }

    fn records(&self) -> usize {
        self.table().len() / 16
    }
}

/// Numbers as C has them: four bytes each, low byte first, then zeros.
fn laid<const BYTES: usize>(words: impl IntoIterator<Item = [u8; WORD_BYTES]>) -> [u8; BYTES] {
    let mut bytes = [0; BYTES];
    for (place, word) in bytes.chunks_exact_mut(WORD_BYTES).zip(words) {
        place.copy_from_slice(&word);
    }
    bytes
}

/// These words of a buffer of numbers, with a space between two.
fn printed(numbers: &[u8; NUMBERS_BYTES], words: &[usize]) -> String {
    let word = |at: &usize| {
        let bytes = &numbers[WORD_BYTES * at..][..WORD_BYTES];
        i32::from_le_bytes(bytes.try_into().unwrap()).to_string()
    };
    words.iter().map(word).collect::<Vec<_>>().join(" ")
}

#[derive(Clone, PartialEq)]
pub struct Check {
    table: Vec<u8>,
    rows: [u8; ROWS_BYTES],
    ring: [u8; RING_BYTES],
    numbers: [u8; NUMBERS_BYTES],
}

impl Check {
    pub fn new(table: Vec<u8>) -> Self {
        Check {
            table,
            rows: [0; ROWS_BYTES],
            ring: [0; RING_BYTES],
            numbers: [0; NUMBERS_BYTES],
        }
    }

    fn accepted(&mut self, ring_length: u32, answer: Answer) -> u64 {
        let Answer {
            settled,
            stuck,
            stages,
            longest,
            ..
        } = answer;
        let words = [ring_length, settled, stuck, stages, longest];
        self.numbers = laid(words.map(u32::to_le_bytes));
        0
    }
}

impl Work for Check {
    fn table(&self) -> &[u8] {
        &self.table
    }

    fn proved(&mut self) -> u64 {
        entries::check(
            &self.table,
            &mut self.rows,
            &mut self.ring,
            &mut self.numbers,
        )
    }

    fn second(&mut self) -> u64 {
        let answer = second::check(&self.table, &mut self.rows, &mut self.ring);
        match answer.verdict {
            Verdict::Complete => self.accepted(0, answer),
            Verdict::Stuck(ring_length) => self.accepted(ring_length, answer),
            Verdict::Refused(number, place) => Refusal { number, place }.code(),
        }
    }

    /// s, L, settled and stuck.
    fn numbers(&self) -> String {
        printed(&self.numbers, &[3, 4, 1, 2])
    }
}

/// The heard state of a step or a run, which begins each call anew: that copy is in the time of both programs.
#[derive(Clone, PartialEq)]
struct State {
    start: [u8; HEARD_BYTES],
    heard: [u8; HEARD_BYTES],
}

impl State {
    fn fresh(&mut self) -> &mut [u8] {
        self.heard = self.start;
        &mut self.heard
    }
}

#[derive(Clone, PartialEq)]
pub struct Step {
    table: Vec<u8>,
    state: State,
    pair: [u8; 2],
    numbers: [u8; NUMBERS_BYTES],
}

impl Step {
    /// The last pair of a schedule, in the state that the pairs before it leave.
    pub fn last_of(table: Vec<u8>, schedule: &[u8]) -> Self {
        let mut start = [0; HEARD_BYTES];
        let (before, pair) = schedule.split_at(schedule.len() - 2);
        second::run(&table, &mut start, before, &mut [0; VERTICES]).unwrap();
        let heard = start;
        Step {
            table,
            state: State { start, heard },
            pair: [pair[0], pair[1]],
            numbers: [0; NUMBERS_BYTES],
        }
    }
}

impl Work for Step {
    fn table(&self) -> &[u8] {
        &self.table
    }

    fn proved(&mut self) -> u64 {
        let [v, u] = self.pair;
        entries::step(&self.table, self.state.fresh(), v, u, &mut self.numbers)
    }

    fn second(&mut self) -> u64 {
        let [v, u] = self.pair.map(u32::from);
        match second::step(&self.table, self.state.fresh(), v, u) {
            Ok(movement) => {
                self.numbers = laid([movement.to_le_bytes()]);
                0
            }
            Err(refusal) => refusal.code(),
        }
    }

    /// The movement.
    fn numbers(&self) -> String {
        printed(&self.numbers, &[0])
    }
}

#[derive(Clone, PartialEq)]
pub struct Run {
    table: Vec<u8>,
    state: State,
    schedule: Vec<u8>,
    sums: [u8; SUMS_BYTES],
    numbers: [u8; NUMBERS_BYTES],
}

impl Run {
    pub fn from_zeros(table: Vec<u8>, schedule: Vec<u8>) -> Self {
        Run {
            table,
            state: State {
                start: [0; HEARD_BYTES],
                heard: [0; HEARD_BYTES],
            },
            schedule,
            sums: [0; SUMS_BYTES],
            numbers: [0; NUMBERS_BYTES],
        }
    }
}

impl Work for Run {
    fn table(&self) -> &[u8] {
        &self.table
    }

    fn proved(&mut self) -> u64 {
        entries::run(
            &self.table,
            self.state.fresh(),
            &self.schedule,
            &mut self.sums,
            &mut self.numbers,
        )
    }

    fn second(&mut self) -> u64 {
        let mut sums = [0; VERTICES];
        match second::run(&self.table, self.state.fresh(), &self.schedule, &mut sums) {
            Ok(numbers) => {
                self.numbers = laid(numbers.in_order().map(u32::to_le_bytes));
                self.sums = laid(sums.map(i32::to_le_bytes));
                0
            }
            Err(refusal) => refusal.code(),
        }
    }

    /// Steps, ups, downs, last change and rounds.
    fn numbers(&self) -> String {
        printed(&self.numbers, &[0, 1, 2, 3, 4])
    }
}
