//! Compares the three proved C entries with the second program on seeded cases in one process: the return value, every
//! byte of every buffer, and the bytes on both sides of each.

mod case;
mod compare;
mod entries;
mod expected;
mod labels;
mod lent;
mod making;
mod mix;
mod options;
mod planting;
mod trouble;

use std::env;
use std::process::ExitCode;
use std::time::{Duration, Instant, SystemTime, UNIX_EPOCH};

use mix::Mix;
use options::{Extent, Options};
use planting::Plant;

const DIFFERENT: u8 = 1;
const DRIFTED: u8 = 2;
const NOT_UNDERSTOOD: u8 = 3;

/// The cases that are compared, and what they turned out to be.
struct Comparison {
    plant: Option<Plant>,
    mix: Mix,
}

impl Comparison {
    /// Says what is different in the case of a number, if something is.
    fn case(&mut self, seed: u64, number: u64) -> Result<(), String> {
        trouble::begin(seed, number);
        let (case, mut random) = making::case(seed, number);
        let plant = self.plant.as_ref();
        if plant.is_some_and(|plant| plant.skips(case.entry)) {
            return Ok(());
        }
        let (expected, difference) = compare::compare(&case, &mut random, plant);
        self.mix.add(&case, &expected);
        match difference {
            None => Ok(()),
            Some(found) => Err(trouble::said(seed, number, &case, &found.to_string())),
        }
    }

    /// The cases of one seed, until the time is over; tells whether it is.
    fn seed(&mut self, seed: u64, count: u64, end: Option<Instant>) -> Result<bool, String> {
        for number in 0..count {
            if end.is_some_and(|end| Instant::now() >= end) {
                return Ok(true);
            }
            self.case(seed, number)?;
        }
        Ok(false)
    }

    /// One seed after the other, until the time is over.
    fn seeds(&mut self, first: u64, time: Duration) -> Result<(), String> {
        let end = Instant::now() + time;
        let mut seed = first;
        // At the start as well, since a night's run can be ended from outside.
        println!("seeds from {first} on, {} cases each", mix::CASES);
        while !self.seed(seed, mix::CASES, Some(end))? {
            seed += 1;
        }
        println!("seeds {first} to {seed}");
        Ok(())
    }

    /// Prints what the cases turned out to be; the last line has the result.
    fn end(&self) -> ExitCode {
        println!("{}", self.mix.summary());
        let rare = self.mix.rare();
        for label in &rare {
            println!("too seldom: {label}");
        }
        println!("harness: {} cases, 0 differences", self.mix.cases);
        match rare[..] {
            [] => ExitCode::SUCCESS,
            _ => ExitCode::from(DRIFTED),
        }
    }
}

/// The seconds of the clock, so that no two nights have the same seeds.
fn clock_seed() -> u64 {
    let now = SystemTime::now().duration_since(UNIX_EPOCH);
    now.map_or(1, |since| since.as_secs())
}

fn run(options: Options) -> ExitCode {
    let mut comparison = Comparison { plant: options.plant, mix: Mix::default() };
    let seed = options.seed.unwrap_or(1);
    trouble::watch();
    let compared = match options.extent {
        Extent::Cases(count) => comparison.seed(seed, count, None).map(|_| ()),
        Extent::One(number) => comparison.case(seed, number),
        Extent::Time(time) => comparison.seeds(options.seed.unwrap_or_else(clock_seed), time),
        Extent::Plants => return print_plants(),
    };
    match compared {
        Ok(()) => comparison.end(),
        Err(difference) => {
            print!("{difference}");
            ExitCode::from(DIFFERENT)
        }
    }
}

fn print_plants() -> ExitCode {
    for plant in planting::all() {
        println!("{}", plant.name);
    }
    ExitCode::SUCCESS
}

fn main() -> ExitCode {
    let words: Vec<String> = env::args().skip(1).collect();
    match options::parse(&words) {
        Ok(options) => run(options),
        Err(why) => {
            eprintln!("{why}\n{}", options::USAGE);
            ExitCode::from(NOT_UNDERSTOOD)
        }
    }
}
