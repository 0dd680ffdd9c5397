//! A run over a schedule ("The machine").

use crate::limits::{HEARD_BYTES, MAX_SCHEDULE_BYTES, VERTICES};
use crate::refusal::{Reason, Refusal};
use crate::rounds::Rounds;
use crate::step::{activate, check_heard};
use crate::table::Table;

/// The numbers that a run answers, in the order of the rules.
#[derive(Clone, Copy, Debug, Default, PartialEq, Eq)]
pub struct RunNumbers {
    pub steps: u32,
    pub ups: u32,
    pub downs: u32,
    /// The number of the last step that changed a choice, from 1; or 0.
    pub last_change: u32,
    pub rounds: u32,
}

/// Runs a schedule over the heard state and fills the sums of movements.
pub fn run(
    table: &[u8],
    state: &mut [u8],
    schedule: &[u8],
    sums: &mut [i32],
) -> Result<RunNumbers, Refusal> {
    if state.len() != HEARD_BYTES || sums.len() != VERTICES {
        return Err(Refusal::whole(Reason::BufferLength));
    }
    let table = Table::read(table)?;
    check_heard(&table, state)?;
    check_schedule(&table, schedule)?;
    Ok(run_accepted(&table, state, schedule, sums))
}

/// Refusals 13 and 14, before any step, since a refusal changes no byte.
fn check_schedule(table: &Table, schedule: &[u8]) -> Result<(), Refusal> {
    if !schedule.len().is_multiple_of(2) || schedule.len() > MAX_SCHEDULE_BYTES {
        return Err(Refusal::whole(Reason::ScheduleLength));
    }
    match pairs(schedule).position(|(v, u)| !table.listens(v, u)) {
        Some(number) => Err(Refusal::at(Reason::NotListening, number)),
        None => Ok(()),
    }
}

/// A schedule has two bytes for each pair, listener first ("The machine").
fn pairs(schedule: &[u8]) -> impl Iterator<Item = (usize, usize)> + '_ {
    schedule
        .chunks_exact(2)
        .map(|pair| (usize::from(pair[0]), usize::from(pair[1])))
}

fn run_accepted(table: &Table, state: &mut [u8], schedule: &[u8], sums: &mut [i32]) -> RunNumbers {
    let mut numbers = RunNumbers::default();
    let mut rounds = Rounds::start(table);
    sums.fill(0);
    for (v, u) in pairs(schedule) {
        let movement = activate(table, state, v, u);
        sums[v] += movement;
        numbers.count(movement);
        rounds.activated(v, u);
    }
    numbers.rounds = rounds.closed();
    numbers
}

impl RunNumbers {
    /// The numbers in the order of the rules.
    pub fn in_order(self) -> [u32; 5] {
        [
            self.steps,
            self.ups,
            self.downs,
            self.last_change,
            self.rounds,
        ]
    }

    /// Above 0 is an up, below 0 a down; ranks of one owner all differ, so
    /// the choice changed exactly if the movement is not 0 ("The machine").
    fn count(&mut self, movement: i32) {
        self.steps += 1;
        self.ups += u32::from(movement > 0);
        self.downs += u32::from(movement < 0);
        if movement != 0 {
            self.last_change = self.steps;
        }
    }
}
