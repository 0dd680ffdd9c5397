//! Many tables in one go: a line of lowercase hex in, the reader's answer or
//! the whole of the check out.

use std::io::{self, BufRead, Write};

use crate::check::{check, Answer, Verdict};
use crate::limits::VERTICES;
use crate::lines::{each_case, hex};
use crate::print::check_program_text;
use crate::refusal::Refusal;
use crate::table::Table;

/// What an empty slot prints as.
const EMPTY_SLOT: &[u8] = b"65535";

/// Answers every line of the input with one line of output, as the reader.
pub fn batch(input: impl BufRead, output: impl Write) -> io::Result<()> {
    each_case(input, output, |[table], output| write_case(table, output))
}

/// Answers every line of the input with one line of output, as the check with
/// lent buffers of these lengths.
pub fn check_batch(
    input: impl BufRead,
    output: impl Write,
    rows_bytes: usize,
    ring_bytes: usize,
) -> io::Result<()> {
    each_case(input, output, |[table], output| {
        write_check(table, rows_bytes, ring_bytes, output)
    })
}

fn write_case(table: &[u8], output: &mut impl Write) -> io::Result<()> {
    match Table::read(table) {
        Err(Refusal { number, place }) => writeln!(output, "{number} {place}"),
        Ok(table) => write_accepted(&table, output),
    }
}

/// `0 0`, then L, present, slots and listens, each after a space.
fn write_accepted(table: &Table, output: &mut impl Write) -> io::Result<()> {
    write!(output, "0 0 {} ", table.longest())?;
    write_flags(table.present().iter().copied(), output)?;
    write_slots(table, output)?;
    let all_pairs = (0..VERTICES).flat_map(|v| (0..VERTICES).map(move |u| (v, u)));
    write_flags(all_pairs.map(|(v, u)| table.listens(v, u)), output)?;
    output.write_all(b"\n")
}

fn write_flags(flags: impl Iterator<Item = bool>, output: &mut impl Write) -> io::Result<()> {
    let text: Vec<u8> = flags.map(|flag| b'0' + u8::from(flag)).collect();
    output.write_all(&text)
}

/// The record numbers of all slots, vertex by vertex, commas between them.
fn write_slots(table: &Table, output: &mut impl Write) -> io::Result<()> {
    let mut separator: &[u8] = b" ";
    for slot in table.slots().iter().flatten() {
        output.write_all(separator)?;
        match slot {
            Some(number) => write!(output, "{number}")?,
            None => output.write_all(EMPTY_SLOT)?,
        }
        separator = b",";
    }
    output.write_all(b" ")
}

/// The return value of a C entry, the five numbers, rows, ring and text.
fn write_check(
    table: &[u8],
    rows_bytes: usize,
    ring_bytes: usize,
    output: &mut impl Write,
) -> io::Result<()> {
    let mut rows = marked(rows_bytes);
    let mut ring = marked(ring_bytes);
    let answer = check(table, &mut rows, &mut ring);
    let (code, ring_length) = match answer.verdict {
        Verdict::Complete => (0, 0),
        Verdict::Stuck(length) => (0, length),
        Verdict::Refused(number, place) => (Refusal { number, place }.code(), 0),
    };
    let Answer {
        settled,
        stuck,
        stages,
        longest,
        ..
    } = answer;
    write!(
        output,
        "{code} {ring_length} {settled} {stuck} {stages} {longest}"
    )?;
    for bytes in [&rows, &ring, check_program_text(table).as_bytes()] {
        write!(output, " {}", hex(bytes))?;
    }
    output.write_all(b"\n")
}

/// A lent buffer before the call: no byte is like its neighbours, so that a
/// change shows, and one that only moves bytes too.
fn marked(length: usize) -> Vec<u8> {
    (0..length).map(|at| (165 + 7 * at) as u8).collect()
}
