//! The printed forms of the check ("Tables tried by hand") and of the run.

use crate::check::{check, Answer, Verdict};
use crate::heard::choice;
use crate::limits::{HEARD_BYTES, RING_BYTES, ROWS_BYTES, UNUSED, VERTICES};
use crate::path::RankedPath;
use crate::refusal::Refusal;
use crate::rows::{ABSENT, ROW_BYTES, STUCK};
use crate::run::run;
use crate::table::Table;

/// What the check program prints for a table.
pub fn check_program_text(table: &[u8]) -> String {
    let mut rows = [0; ROWS_BYTES];
    let mut ring = [0; RING_BYTES];
    let answer = check(table, &mut rows, &mut ring);
    check_text(&answer, &rows, &ring)
}

/// The check as the check program prints it, every line with its newline.
pub fn check_text(answer: &Answer, rows: &[u8], ring: &[u8]) -> String {
    let name = match answer.verdict {
        Verdict::Refused(number, place) => return refusal_text(Refusal { number, place }),
        Verdict::Complete => "complete",
        Verdict::Stuck(_) => "stuck",
    };
    let mut text = format!(
        "verdict {name} settled {} stuck {} stages {} longest {}\n",
        answer.settled, answer.stuck, answer.stages, answer.longest
    );
    // Vertex 0 is left out of the lines, so the rows start with vertex 1.
    for (vertex, row) in rows.chunks_exact(ROW_BYTES).enumerate().skip(1) {
        if row[0] != ABSENT {
            text += &row_line(vertex, row);
        }
    }
    if let Verdict::Stuck(_) = answer.verdict {
        text += &format!("ring{}\n", vertices_text(ring));
    }
    text
}

/// The line of one present vertex: number, stage or stuck, rank, path.
fn row_line(vertex: usize, row: &[u8]) -> String {
    let place = match row[0] {
        STUCK => "stuck".to_string(),
        stage => format!("stage {stage}"),
    };
    match row[1] {
        0 => format!("{vertex} {place} none\n"),
        rank => format!(
            "{vertex} {place} rank {rank} path{}\n",
            vertices_text(&row[3..])
        ),
    }
}

/// Vertices up to the first unused byte, each after a space.
fn vertices_text(bytes: &[u8]) -> String {
    let mut text = String::new();
    for vertex in bytes.iter().take_while(|&&byte| byte != UNUSED) {
        text += &format!(" {vertex}");
    }
    text
}

/// A refusal; 4 to 11 name their record, and 12 and 14 (which no table has)
/// name their offset or pair in the same manner.
pub fn refusal_text(refusal: Refusal) -> String {
    let Refusal { number, place } = refusal;
    match number {
        4..=11 => format!("refused {number} record {place}\n"),
        12 => format!("refused {number} offset {place}\n"),
        14 => format!("refused {number} pair {place}\n"),
        _ => format!("refused {number}\n"),
    }
}

/// What the run program prints for a table and a schedule, from all zeros.
pub fn run_program_text(table: &[u8], schedule: &[u8]) -> String {
    run_text(table, schedule).unwrap_or_else(refusal_text)
}

/// The numbers of the run, then a line for each present vertex but 0.
fn run_text(table: &[u8], schedule: &[u8]) -> Result<String, Refusal> {
    let mut state = [0; HEARD_BYTES];
    let mut sums = [0; VERTICES];
    let numbers = run(table, &mut state, schedule, &mut sums)?;
    let table = Table::read(table)?;
    let mut text = format!(
        "run steps {} ups {} downs {} last {} rounds {}\n",
        numbers.steps, numbers.ups, numbers.downs, numbers.last_change, numbers.rounds
    );
    for vertex in (1..VERTICES).filter(|&vertex| table.present()[vertex]) {
        let rank = choice(&table, &state, vertex);
        let path = rank.and_then(|rank| table.path_with_rank(vertex, rank));
        text += &format!("{vertex} sum {}{}\n", sums[vertex], path_text(path));
    }
    Ok(text)
}

/// The rank and the vertices of a path, or that there is none.
fn path_text(path: Option<RankedPath>) -> String {
    match path {
        None => " none".to_string(),
        Some(path) => format!(" rank {} path{}", path.rank, vertices_text(path.vertices)),
    }
}
