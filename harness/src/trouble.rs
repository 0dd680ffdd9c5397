//! A case that breaks off or does not end is a difference too: it is told with its seed, its number and all inputs.

use std::panic;
use std::process;
use std::ptr;
use std::sync::atomic::{AtomicBool, AtomicU64, Ordering};

use crate::case::Case;
use crate::making;

/// The seed and the number of the case that is being compared.
static SEED: AtomicU64 = AtomicU64::new(0);
static NUMBER: AtomicU64 = AtomicU64::new(0);
static IS_TOLD: AtomicBool = AtomicBool::new(false);

/// A case takes some milliseconds at most. It is the processor's time, since a busy machine may let a case wait.
const MOST_SECONDS: i64 = 1;

/// Linux's numbers.
const SIGNALS: [(i32, &str); 6] = [
    (4, "it met an illegal instruction"),
    (6, "it aborted"),
    (7, "it met a bus error"),
    (8, "it met an arithmetic error"),
    (11, "it met a segmentation fault"),
    (27, "it did not end"),
];

/// The timer of the process's own time, whose signal is 27.
const PROFILING: i32 = 2;

extern "C" {
    fn signal(number: i32, handler: extern "C" fn(i32)) -> usize;
    fn setitimer(which: i32, new: *const TimerValue, old: *mut TimerValue) -> i32;
}

#[repr(C)]
struct TimerValue {
    interval_seconds: i64,
    interval_microseconds: i64,
    seconds: i64,
    microseconds: i64,
}

/// From now on, trouble ends the program with status 1.
pub fn watch() {
    panic::set_hook(Box::new(|why| tell(&why.to_string())));
    for (number, _) in SIGNALS {
        // SAFETY: the handler reads two numbers, makes a case from them, prints, and ends the program; the entries
        // hold no lock while they run.
        unsafe { signal(number, broken_off) };
    }
}

/// Notes which case comes next, and gives it its time.
pub fn begin(seed: u64, number: u64) {
    SEED.store(seed, Ordering::Relaxed);
    NUMBER.store(number, Ordering::Relaxed);
    let time = TimerValue {
        interval_seconds: 0,
        interval_microseconds: 0,
        seconds: MOST_SECONDS,
        microseconds: 0,
    };
    // SAFETY: the value lives through the call, and no old one is asked for.
    unsafe { setitimer(PROFILING, &time, ptr::null_mut()) };
}

extern "C" fn broken_off(number: i32) {
    let found = SIGNALS.iter().find(|&&(known, _)| known == number);
    tell(found.map_or("it broke off", |&(_, words)| words));
}

/// Where making the case again is what fails, its number must do.
fn tell(what: &str) -> ! {
    let (seed, number) = (SEED.load(Ordering::Relaxed), NUMBER.load(Ordering::Relaxed));
    if !IS_TOLD.swap(true, Ordering::Relaxed) {
        println!("{}", heading(seed, number, what));
        print!("{}", inputs(seed, number, &making::case(seed, number).0));
    }
    process::exit(1)
}

fn heading(seed: u64, number: u64, what: &str) -> String {
    let entry = making::entry_of(number).name();
    format!("reefsplice_{entry}, seed {seed}, case {number}: {what}")
}

fn inputs(seed: u64, number: u64, case: &Case) -> String {
    format!("{}again: harness --seed {seed} --case {number}\n", case.inputs())
}

/// All that is needed to see a difference again.
pub fn said(seed: u64, number: u64, case: &Case, what: &str) -> String {
    format!("{}\n{}", heading(seed, number, what), inputs(seed, number, case))
}
