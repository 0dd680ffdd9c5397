//! The program: `check`, `reader`, `run` and the batches on the command line.

use std::env;
use std::fs::File;
use std::io::{self, BufRead, BufReader, BufWriter, Read, Write};
use std::process::ExitCode;

use second::limits::{MAX_SCHEDULE_BYTES, MAX_TABLE_BYTES, RING_BYTES, ROWS_BYTES};
use second::print::{check_program_text, refusal_text, run_program_text};
use second::{batch, machine_batch, Table};

const USAGE: &str = "usage: second check < TABLE
       second reader < TABLE
       second batch < CASES
       second check-batch [ROWS RING] < CASES
       second step-batch < CASES
       second run-batch < CASES
       second run TABLEFILE SCHEDULEFILE";

fn main() -> ExitCode {
    let arguments: Vec<String> = env::args().skip(1).collect();
    let arguments: Vec<&str> = arguments.iter().map(String::as_str).collect();
    let done = match arguments[..] {
        ["check"] => check(),
        ["reader"] => reader(),
        ["batch"] => batch::batch(cases(), answers()),
        ["check-batch"] => batch::check_batch(cases(), answers(), ROWS_BYTES, RING_BYTES),
        ["check-batch", rows, ring] => check_cases(rows, ring),
        ["step-batch"] => machine_batch::step_batch(cases(), answers()),
        ["run-batch"] => machine_batch::run_batch(cases(), answers()),
        ["run", table, schedule] => run(table, schedule),
        _ => Err(io::Error::new(io::ErrorKind::InvalidInput, USAGE)),
    };
    match done {
        Ok(()) => ExitCode::SUCCESS,
        Err(error) => {
            eprintln!("{error}");
            ExitCode::from(2)
        }
    }
}

/// Reads one byte past the limit and no more, since that byte is enough to
/// see that an input is too long ("Refusal numbers, in order of checking").
fn read_limited(input: impl Read, limit: usize) -> io::Result<Vec<u8>> {
    let mut bytes = Vec::new();
    input.take(limit as u64 + 1).read_to_end(&mut bytes)?;
    Ok(bytes)
}

fn print(text: &str) -> io::Result<()> {
    io::stdout().lock().write_all(text.as_bytes())
}

fn check() -> io::Result<()> {
    let table = read_limited(io::stdin().lock(), MAX_TABLE_BYTES)?;
    print(&check_program_text(&table))
}

fn reader() -> io::Result<()> {
    let table = read_limited(io::stdin().lock(), MAX_TABLE_BYTES)?;
    match Table::read(&table) {
        Ok(_) => print("accepted\n"),
        Err(refusal) => print(&refusal_text(refusal)),
    }
}

fn cases() -> impl BufRead {
    BufReader::with_capacity(1 << 16, io::stdin().lock())
}

fn answers() -> impl Write {
    BufWriter::with_capacity(1 << 16, io::stdout().lock())
}

/// The check with lent buffers of other lengths, which it must refuse.
fn check_cases(rows: &str, ring: &str) -> io::Result<()> {
    match (rows.parse(), ring.parse()) {
        (Ok(rows), Ok(ring)) => batch::check_batch(cases(), answers(), rows, ring),
        _ => Err(io::Error::new(io::ErrorKind::InvalidInput, USAGE)),
    }
}

fn run(table_file: &str, schedule_file: &str) -> io::Result<()> {
    let table = read_limited(File::open(table_file)?, MAX_TABLE_BYTES)?;
    let schedule = read_limited(File::open(schedule_file)?, MAX_SCHEDULE_BYTES)?;
    print(&run_program_text(&table, &schedule))
}
