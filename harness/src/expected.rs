//! What an entry must answer and leave in each buffer: the second program's answer, in the page's layout for C.

use second::{Refusal, Verdict};

use crate::case::{Buffer, Case, Contents, Entry};

pub struct Expected {
    pub code: u64,
    pub contents: Contents,
}

/// The code of refusal 1, whose place is 0.
const WRONG_LENGTH: u64 = 1;

/// What an accepted call gives back: its numbers, and the buffers that it has filled.
type Accepted = (Vec<i32>, Vec<(Buffer, Vec<u8>)>);

/// A refused call leaves every byte as it was, so nothing that the second program did before it refused is taken over.
pub fn of(case: &Case) -> Expected {
    let mut contents = case.contents.clone();
    let code = match answered(case) {
        Err(code) => code,
        Ok((numbers, filled)) => {
            contents[Buffer::Numbers] = words(&numbers, 8);
            for (buffer, bytes) in filled {
                contents[buffer] = bytes;
            }
            0
        }
    };
    Expected { code, contents }
}

/// The numbers, and the sums as bytes, are C's alone: the second program has no such buffers, so 1 is decided here.
fn answered(case: &Case) -> Result<Accepted, u64> {
    let is_wrong = |buffer: Buffer| Some(case.contents[buffer].len()) != buffer.written_length();
    if is_wrong(Buffer::Numbers) || case.entry == Entry::Run && is_wrong(Buffer::Sums) {
        return Err(WRONG_LENGTH);
    }
    match case.entry {
        Entry::Check => check(&case.contents),
        Entry::Step => step(&case.contents, case.pair),
        Entry::Run => run(&case.contents),
    }
}

fn check(lent: &Contents) -> Result<Accepted, u64> {
    let (mut rows, mut ring) = (lent[Buffer::Rows].clone(), lent[Buffer::Ring].clone());
    let answer = second::check(&lent[Buffer::Table], &mut rows, &mut ring);
    let ring_length = match answer.verdict {
        Verdict::Complete => 0,
        Verdict::Stuck(length) => length,
        Verdict::Refused(number, place) => return Err(Refusal { number, place }.code()),
    };
    let counts = [ring_length, answer.settled, answer.stuck, answer.stages, answer.longest];
    let filled = vec![(Buffer::Rows, rows), (Buffer::Ring, ring)];
    Ok((counts.map(signed).to_vec(), filled))
}

fn step(lent: &Contents, [listener, speaker]: [u8; 2]) -> Result<Accepted, u64> {
    let mut heard = lent[Buffer::Heard].clone();
    let table = &lent[Buffer::Table];
    let movement = second::step(table, &mut heard, listener.into(), speaker.into());
    let movement = movement.map_err(Refusal::code)?;
    Ok((vec![movement], vec![(Buffer::Heard, heard)]))
}

fn run(lent: &Contents) -> Result<Accepted, u64> {
    let mut heard = lent[Buffer::Heard].clone();
    let mut sums = numbers_in(&lent[Buffer::Sums]);
    let (table, schedule) = (&lent[Buffer::Table], &lent[Buffer::Schedule]);
    let numbers = second::run(table, &mut heard, schedule, &mut sums).map_err(Refusal::code)?;
    let sums = words(&sums, sums.len());
    let filled = vec![(Buffer::Heard, heard), (Buffer::Sums, sums)];
    Ok((numbers.in_order().map(signed).to_vec(), filled))
}

fn signed(count: u32) -> i32 {
    i32::try_from(count).expect("no count is above 16,384")
}

/// So many words of four bytes, low byte first, two's complement; those behind the numbers are 0.
pub fn words(numbers: &[i32], count: usize) -> Vec<u8> {
    let zeros = std::iter::repeat(&0);
    let padded = numbers.iter().chain(zeros).take(count);
    padded.flat_map(|number| number.to_le_bytes()).collect()
}

/// The numbers that such words hold.
pub fn numbers_in(bytes: &[u8]) -> Vec<i32> {
    let words = bytes.chunks_exact(4);
    words.map(|word| i32::from_le_bytes([word[0], word[1], word[2], word[3]])).collect()
}

#[cfg(test)]
mod tests {
    use super::*;

    /// Written by hand from the page: four bytes, low byte first, two's complement, the rest 0.
    #[test]
    fn words_are_low_byte_first_and_two_s_complement() {
        let bytes = [1, 0, 0, 0, 255, 255, 255, 255, 240, 255, 255, 255, 0, 64, 0, 0, 0, 0, 0, 0];
        assert_eq!(words(&[1, -1, -16, 16384], 5), bytes);
        assert_eq!(numbers_in(&bytes), [1, -1, -16, 16384, 0]);
    }

    fn case(entry: Entry, table: &[u8]) -> Case {
        let mut contents = Contents::default();
        for &buffer in entry.buffers() {
            contents[buffer] = vec![7; buffer.written_length().unwrap_or(0)];
        }
        contents[Buffer::Table] = table.to_vec();
        let pair = [0, 0];
        Case { entry, pair, contents }
    }

    /// Table 7 of the page.
    fn table_7() -> Vec<u8> {
        let records = [&[1, 1, 1, 0][..], &[1, 2, 2, 1, 0], &[2, 1, 2, 0], &[1, 2, 3, 2, 0]];
        let padded = records.map(|fields| {
            let mut record = [255; 16];
            record[..fields.len()].copy_from_slice(fields);
            record[15] = 0;
            record
        });
        padded.concat()
    }

    fn numbers_of(expected: &Expected) -> Vec<i32> {
        numbers_in(&expected.contents[Buffer::Numbers])
    }

    #[test]
    fn the_check_of_table_7_is_the_page_s() {
        let expected = of(&case(Entry::Check, &table_7()));
        assert_eq!(expected.code, 0);
        assert_eq!(numbers_of(&expected), [0, 3, 0, 3, 2, 0, 0, 0]);
        let rows = &expected.contents[Buffer::Rows];
        assert_eq!(rows[16..20], [1, 1, 1, 1]);
        assert_eq!(rows[48..52], [3, 0, 0, 255]);
        assert_eq!(expected.contents[Buffer::Ring], [255; 64]);
    }

    /// Case 9 of the page.
    fn case_9() -> Case {
        let mut case = case(Entry::Run, &table_7());
        case.contents[Buffer::Heard].fill(0);
        case.contents[Buffer::Schedule] = vec![2, 0, 3, 2, 1, 0, 2, 1, 3, 2];
        case
    }

    #[test]
    fn the_run_of_case_9_is_the_page_s() {
        let expected = of(&case_9());
        assert_eq!(expected.code, 0);
        assert_eq!(numbers_of(&expected), [5, 4, 1, 5, 1, 0, 0, 0]);
        let sums = &expected.contents[Buffer::Sums];
        assert_eq!(sums[..20], [0, 0, 0, 0, 16, 0, 0, 0, 16, 0, 0, 0, 0, 0, 0, 0, 0, 0, 0, 0]);
    }

    #[test]
    fn the_last_step_of_case_9_is_the_page_s() {
        let mut case = case(Entry::Step, &table_7());
        let mut before = case_9();
        before.contents[Buffer::Schedule].truncate(8);
        case.contents[Buffer::Heard] = of(&before).contents[Buffer::Heard].clone();
        case.pair = [3, 2];
        let numbers = &of(&case).contents[Buffer::Numbers];
        assert_eq!(numbers[..8], [240, 255, 255, 255, 0, 0, 0, 0]);
    }

    /// Refusal 1 comes before the others, here 3, and no byte changes.
    #[test]
    fn a_wrong_length_is_refusal_1() {
        for (entry, buffer) in written() {
            let mut case = case(entry, &[0; 17]);
            assert_eq!(of(&case).code, 3);
            case.contents[buffer].push(9);
            let expected = of(&case);
            assert_eq!(expected.code, 1, "{entry:?} {buffer:?}");
            assert_eq!(expected.contents, case.contents);
        }
    }

    fn written() -> Vec<(Entry, Buffer)> {
        let all = Entry::ALL.iter();
        let pairs =
            all.flat_map(|&entry| entry.buffers().iter().map(move |&buffer| (entry, buffer)));
        pairs.filter(|(_, buffer)| buffer.written_length().is_some()).collect()
    }
}
