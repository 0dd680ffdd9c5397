//! One case through both programs, and the first difference between them.

use std::fmt;

use crate::case::Case;
use crate::entries;
use crate::expected::{self, Expected};
use crate::lent::{lend, Loan, Wrong};
use crate::making::random::Random;
use crate::planting::Plant;

/// Where the two differ: the return value, or a byte of a buffer or of its edges.
pub struct Difference {
    place: String,
    ours: String,
    theirs: String,
}

impl fmt::Display for Difference {
    fn fmt(&self, to: &mut fmt::Formatter) -> fmt::Result {
        let Difference { place, ours, theirs } = self;
        write!(to, "{place} is {ours} for the proved entry and {theirs} for the second program")
    }
}

/// Makes the call, and gives what was expected of it with the first difference, if there is one.
pub fn compare(
    case: &Case,
    random: &mut Random,
    plant: Option<&Plant>,
) -> (Expected, Option<Difference>) {
    let expected = expected::of(case);
    let mut loans = lend(case, random);
    let spans: Vec<_> = loans.iter_mut().map(Loan::span).collect();
    // SAFETY: each loan has memory of its own, which lives on and is not touched before the call is over.
    let code = unsafe { entries::call(case.entry, case.pair, &spans) };
    let code = match plant {
        Some(plant) => plant.spoil(case.entry, code, &mut loans),
        None => code,
    };
    let difference = first_difference(&expected, code, &loans);
    (expected, difference)
}

fn first_difference(expected: &Expected, code: u64, loans: &[Loan]) -> Option<Difference> {
    if code != expected.code {
        return Some(Difference {
            place: "the return value".into(),
            ours: code_words(code),
            theirs: code_words(expected.code),
        });
    }
    loans.iter().find_map(|loan| {
        let wrong = loan.first_wrong(&expected.contents[loan.buffer])?;
        Some(Difference {
            place: place_words(loan, &wrong),
            ours: format!("{:02x}", wrong.found),
            theirs: format!("{:02x}", wrong.wanted),
        })
    })
}

fn code_words(code: u64) -> String {
    match code {
        0 => "0".into(),
        _ => format!("{code} (refusal {}, place {})", code % 256, code / 256),
    }
}

fn place_words(loan: &Loan, wrong: &Wrong) -> String {
    let (name, length) = (loan.buffer.name(), loan.content().len() as isize);
    match wrong.at {
        at if at < 0 => format!("the byte {} before {name}", -at),
        at if at >= length => format!("the byte {} behind {name}", at - length + 1),
        at => format!("{name} at {at}"),
    }
}
