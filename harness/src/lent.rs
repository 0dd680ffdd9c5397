//! Buffers lent to the proved entries, each between two edges that nothing may write to.

use crate::case::{Buffer, Case};
use crate::entries::Span;
use crate::making::random::Random;

const EDGE: usize = 256;
const ALIGNMENTS: usize = 16;

/// One lent buffer with its edges.
pub struct Loan {
    pub buffer: Buffer,
    bytes: Vec<u8>,
    /// The bytes as they were lent.
    kept: Vec<u8>,
    front: usize,
    length: usize,
}

/// A byte of a loan that is not what it should be; `at` counts from the buffer's start and may lie in an edge.
#[derive(Debug, PartialEq)]
pub struct Wrong {
    pub at: isize,
    pub found: u8,
    pub wanted: u8,
}

impl Loan {
    /// The edges hold any bytes, and the buffer begins at any address, since C promises neither.
    pub fn new(buffer: Buffer, content: &[u8], random: &mut Random) -> Self {
        let front = EDGE + random.below(ALIGNMENTS);
        let mut bytes = random.bytes(front);
        bytes.extend_from_slice(content);
        bytes.extend(random.bytes(EDGE));
        Loan { buffer, kept: bytes.clone(), bytes, front, length: content.len() }
    }

    pub fn span(&mut self) -> Span {
        // From the whole, so that a pointer that leaves the buffer stays within what it was made from.
        let start = self.bytes.as_mut_ptr().wrapping_add(self.front);
        let length = self.length;
        Span { start, length }
    }

    pub fn content(&self) -> &[u8] {
        &self.bytes[self.front..self.front + self.length]
    }

    pub fn content_mut(&mut self) -> &mut [u8] {
        &mut self.bytes[self.front..self.front + self.length]
    }

    /// Changes a byte, which may lie in an edge, as a wrong program would.
    pub fn flip(&mut self, at: isize) {
        let place = self.front.wrapping_add_signed(at);
        self.bytes[place] ^= 1;
    }

    /// The first byte that is neither what was wanted in the buffer nor what was there in an edge.
    pub fn first_wrong(&self, wanted: &[u8]) -> Option<Wrong> {
        let mut whole = self.kept.clone();
        whole[self.front..self.front + self.length].copy_from_slice(wanted);
        let mut pairs = self.bytes.iter().zip(&whole);
        let place = pairs.position(|(found, wanted)| found != wanted)?;
        let at = place as isize - self.front as isize;
        Some(Wrong { at, found: self.bytes[place], wanted: whole[place] })
    }
}

/// What a call is lent, in the order of its parameters.
pub fn lend(case: &Case, random: &mut Random) -> Vec<Loan> {
    let buffers = case.entry.buffers().iter();
    buffers.map(|&buffer| Loan::new(buffer, &case.contents[buffer], random)).collect()
}

#[cfg(test)]
mod tests {
    use super::*;

    fn loan() -> Loan {
        Loan::new(Buffer::Ring, &[1, 2, 3], &mut Random::new(7))
    }

    #[test]
    fn a_loan_is_right_where_it_holds_what_is_wanted() {
        assert_eq!(loan().content(), [1, 2, 3]);
        assert_eq!(loan().first_wrong(&[1, 2, 3]), None);
    }

    #[test]
    fn a_wrong_byte_is_named_by_its_place() {
        for at in [0, 1, 2] {
            let mut loan = loan();
            loan.flip(at);
            let found = loan.content()[at as usize];
            let wanted = at as u8 + 1;
            assert_eq!(found, wanted ^ 1);
            assert_eq!(loan.first_wrong(&[1, 2, 3]), Some(Wrong { at, found, wanted }));
        }
    }

    #[test]
    fn a_byte_that_should_have_changed_is_wrong() {
        let found = loan().first_wrong(&[1, 9, 3]);
        let (at, found_byte, wanted) = (1, 2, 9);
        let wrong = Wrong { at, found: found_byte, wanted };
        assert_eq!(found, Some(wrong));
    }

    #[test]
    fn a_byte_of_an_edge_is_wrong() {
        for at in [-1, -(EDGE as isize), 3, 2 + EDGE as isize] {
            let mut loan = loan();
            loan.flip(at);
            let wrong = loan.first_wrong(&[1, 2, 3]).unwrap();
            assert_eq!((wrong.at, wrong.found), (at, wrong.wanted ^ 1));
        }
    }
}
