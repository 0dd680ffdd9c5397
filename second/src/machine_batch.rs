//! Many steps or runs in one go: a line of lowercase hex in, all that the
//! call gives back out.

use std::io::{self, BufRead, Write};

use crate::lines::{bad_input, each_case, hex};
use crate::print::run_program_text;
use crate::run::{run, RunNumbers};
use crate::step::step;

/// Answers `TABLE HEARD PAIR` with the code, the movement and the heard
/// state after the step; a refusal's movement is 0.
pub fn step_batch(input: impl BufRead, output: impl Write) -> io::Result<()> {
    each_case(input, output, |[table, heard, pair], output| {
        let &[v, u] = pair else {
            return Err(bad_input("a pair has two bytes"));
        };
        let mut heard = heard.to_vec();
        let (code, movement) = match step(table, &mut heard, v.into(), u.into()) {
            Ok(movement) => (0, movement),
            Err(refusal) => (refusal.code(), 0),
        };
        writeln!(output, "{code} {movement} {}", hex(&heard))
    })
}

/// Answers `TABLE HEARD SCHEDULE SUMS` with the code, the five numbers, the
/// heard state and the sums after the run, and the text of a run from zeros.
pub fn run_batch(input: impl BufRead, output: impl Write) -> io::Result<()> {
    each_case(input, output, |[table, heard, schedule, sums], output| {
        let mut heard = heard.to_vec();
        let mut sums = decode_numbers(sums)?;
        let (code, numbers) = match run(table, &mut heard, schedule, &mut sums) {
            Ok(numbers) => (0, numbers),
            Err(refusal) => (refusal.code(), RunNumbers::default()),
        };
        write!(output, "{code}")?;
        for number in numbers.in_order() {
            write!(output, " {number}")?;
        }
        let text = run_program_text(table, schedule);
        let (heard, sums, text) = (hex(&heard), with_commas(&sums), hex(text.as_bytes()));
        writeln!(output, " {heard} {sums} {text}")
    })
}

/// The lent sums before the call, four bytes each, low byte first.
fn decode_numbers(bytes: &[u8]) -> io::Result<Vec<i32>> {
    bytes
        .chunks(4)
        .map(|chunk| match *chunk {
            [a, b, c, d] => Ok(i32::from_le_bytes([a, b, c, d])),
            _ => Err(bad_input("a sum has four bytes")),
        })
        .collect()
}

/// No numbers are a dash, so that no field is empty.
fn with_commas(numbers: &[i32]) -> String {
    match numbers {
        [] => "-".to_string(),
        _ => numbers
            .iter()
            .map(i32::to_string)
            .collect::<Vec<_>>()
            .join(","),
    }
}
