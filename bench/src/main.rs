//! The C entries of the proved code and the second program on the same bytes in one process.
//!
//! `bench time BATCHES WORK..` times both in turn and prints a line: the table's records, the numbers of the answer,
//! the median nanoseconds of the proved reader alone and of one call by each, on a processor, and the median of
//! second/proved over the pairs of batches.
//! `bench repeat reading|proved|second COUNT WORK..` makes so many calls and prints nothing, for counting instructions.
//! WORK is `check TABLE`, `run TABLE SCHEDULE`, or `step TABLE SCHEDULE`: its last pair, after those before it.

mod clock;
mod entries;
mod work;

use std::env;
use std::fs;
use std::hint::black_box;

use work::{Check, Run, Step, Who, Work};

const USAGE: &str =
    "usage: bench time BATCHES WORK.. | bench repeat reading|proved|second COUNT WORK..
WORK: check TABLE | step TABLE SCHEDULE | run TABLE SCHEDULE";

/// One batch takes at least so long, so that reading the clock weighs nothing.
const BATCH_NANOSECONDS: f64 = 200_000.0;

/// Makes so many calls, none of which the compiler can leave out.
fn repeat(work: &mut impl Work, who: Who, count: usize) {
    for _ in 0..count {
        black_box(black_box(&mut *work).call(who));
    }
}

/// Nanoseconds of one call, over a batch.
fn batch(work: &mut impl Work, who: Who, count: usize) -> f64 {
    let start = clock::now();
    repeat(work, who, count);
    (clock::now() - start) / count as f64
}

fn median(mut numbers: Vec<f64>) -> f64 {
    numbers.sort_by(f64::total_cmp);
    numbers[numbers.len() / 2]
}

/// The median times of `Reading`, `Proved` and `Second`, then the ratio.
fn time(work: &mut impl Work, batches: usize) -> [f64; 4] {
    let all = [Who::Reading, Who::Proved, Who::Second];
    let counts = all.map(|who| {
        let once = batch(work, who, 20);
        (BATCH_NANOSECONDS / once).ceil() as usize
    });
    let mut times = [vec![], vec![], vec![]];
    for _ in 0..batches {
        for which in 0..all.len() {
            times[which].push(batch(work, all[which], counts[which]));
        }
    }
    let ratios = times[1].iter().zip(&times[2]).map(|(ours, its)| its / ours);
    let ratio = median(ratios.collect());
    let [read, ours, theirs] = times.map(median);
    [read, ours, theirs, ratio]
}

/// A time of a wrong answer means nothing, so both must agree first.
fn agree(work: &impl Work) {
    let (mut ours, mut theirs) = (work.clone(), work.clone());
    let codes = (ours.call(Who::Proved), theirs.call(Who::Second));
    assert!(codes.0 == codes.1 && ours == theirs, "the two differ");
}

fn print_line(mut work: impl Work, batches: usize) {
    agree(&work);
    let [read, ours, theirs, ratio] = time(&mut work, batches);
    println!(
        "{} {} {read:.0} {ours:.0} {theirs:.0} {ratio:.2}",
        work.records(),
        work.numbers(),
    );
}

/// What the first words of the command line ask for.
enum Task {
    Time(usize),
    Repeat(Who, usize),
}

fn do_task(task: Task, mut work: impl Work) {
    match task {
        Task::Time(batches) => print_line(work, batches),
        Task::Repeat(who, count) => repeat(&mut work, who, count),
    }
}

fn who(name: &str) -> Who {
    match name {
        "reading" => Who::Reading,
        "proved" => Who::Proved,
        "second" => Who::Second,
        _ => panic!("{USAGE}"),
    }
}

fn main() {
    let arguments: Vec<String> = env::args().skip(1).collect();
    let arguments: Vec<&str> = arguments.iter().map(String::as_str).collect();
    let (task, work) = match arguments[..] {
        ["time", batches, ref work @ ..] => (Task::Time(batches.parse().unwrap()), work),
        ["repeat", name, count, ref work @ ..] => {
            (Task::Repeat(who(name), count.parse().unwrap()), work)
        }
        _ => panic!("{USAGE}"),
    };
    let file = |name: &str| fs::read(name).unwrap();
    match *work {
        ["check", table] => do_task(task, Check::new(file(table))),
        ["step", table, schedule] => do_task(task, Step::last_of(file(table), &file(schedule))),
        ["run", table, schedule] => do_task(task, Run::from_zeros(file(table), file(schedule))),
        _ => panic!("{USAGE}"),
    }
}
