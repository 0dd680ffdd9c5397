//! Wrong programs: a layer between the comparison and the proved entries that plants one difference by its name, to see
//! that the comparison finds each.

use std::hint;
use std::process;

use crate::case::{Buffer, Entry};
use crate::expected::numbers_in;
use crate::lent::Loan;

pub struct Plant {
    pub name: String,
    entry: Entry,
    when: When,
    what: What,
}

/// The calls of the entry that are spoiled.
#[derive(Clone, Copy)]
enum When {
    Always,
    Accepted,
    Refused,
    RefusedWith(u64),
    /// Accepted, and a word of a buffer of numbers is such.
    Word(Buffer, fn(&[i32]) -> bool),
    /// Accepted, with a table or a schedule of that length.
    Length(Buffer, usize),
}

/// What is done to them.
#[derive(Clone, Copy)]
enum What {
    /// Another number is answered, larger by so much.
    Code(u64),
    /// A byte of a buffer changes, if there is one.
    Byte(Buffer, At),
    /// A buffer is laid out in another way.
    Layout(Buffer, fn(&mut [u8])),
    Abort,
    Stay,
    /// The call is not made at all, as if the cases had none of this entry.
    Skip,
}

#[derive(Clone, Copy)]
enum At {
    Before,
    First,
    Last,
    After,
}

impl Plant {
    pub fn named(name: &str) -> Option<Plant> {
        all().into_iter().find(|plant| plant.name == name)
    }

    /// Whether cases of this entry are left out.
    pub fn skips(&self, entry: Entry) -> bool {
        matches!(self.what, What::Skip) && self.entry == entry
    }

    /// Changes what an entry has answered or done; gives the code to answer with.
    pub fn spoil(&self, entry: Entry, code: u64, loans: &mut [Loan]) -> u64 {
        if self.entry != entry || !self.when.holds(code, loans) {
            return code;
        }
        match self.what {
            What::Code(more) => return code + more,
            What::Byte(buffer, at) => flip(loan_of(loans, buffer), at),
            What::Abort => process::abort(),
            What::Layout(buffer, change) => change(loan_of(loans, buffer).content_mut()),
            // Something must happen in the loop, or it could be left out.
            What::Stay => loop {
                hint::spin_loop();
            },
            What::Skip => {}
        }
        code
    }
}

impl When {
    fn holds(self, code: u64, loans: &mut [Loan]) -> bool {
        let is_accepted = code == 0;
        match self {
            When::Always => true,
            When::Accepted => is_accepted,
            When::Refused => !is_accepted,
            When::RefusedWith(number) => code % 256 == number,
            When::Word(buffer, is_such) => {
                is_accepted && is_such(&numbers_in(loan_of(loans, buffer).content()))
            }
            When::Length(buffer, length) => {
                is_accepted && loan_of(loans, buffer).content().len() == length
            }
        }
    }
}

fn loan_of(loans: &mut [Loan], buffer: Buffer) -> &mut Loan {
    let mut loans = loans.iter_mut();
    let found = loans.find(|loan| loan.buffer == buffer);
    found.expect("a plant names buffers of its own entry")
}

fn flip(loan: &mut Loan, at: At) {
    let length = loan.content().len() as isize;
    match at {
        At::Before => loan.flip(-1),
        At::After => loan.flip(length),
        At::First if length > 0 => loan.flip(0),
        At::Last if length > 0 => loan.flip(length - 1),
        At::First | At::Last => {}
    }
}

/// Every plant: for each entry those of its return value and of each buffer, then wrong layouts, then those that come
/// seldom.
pub fn all() -> Vec<Plant> {
    let mut plants: Vec<_> = Entry::ALL.into_iter().flat_map(of_entry).collect();
    plants.extend(layouts());
    plants.extend(seldom());
    plants
}

fn of_entry(entry: Entry) -> Vec<Plant> {
    let mut plants = vec![
        plant(entry, "number", When::Accepted, What::Code(1)),
        plant(entry, "place", When::Refused, What::Code(256)),
        plant(entry, "aborts", When::Always, What::Abort),
        plant(entry, "left-out", When::Always, What::Skip),
    ];
    for &buffer in entry.buffers() {
        plants.extend(of_buffer(entry, buffer));
    }
    plants
}

/// A byte in it and one on each side, and a store after a refusal.
fn of_buffer(entry: Entry, buffer: Buffer) -> Vec<Plant> {
    let places = [
        ("first", When::Accepted, At::First),
        ("last", When::Accepted, At::Last),
        ("refused", When::Refused, At::First),
        ("before", When::Always, At::Before),
        ("after", When::Always, At::After),
    ];
    let named = places.map(|(name, when, at)| {
        let name = format!("{}-{name}", buffer.name());
        plant(entry, &name, when, What::Byte(buffer, at))
    });
    named.into()
}

/// What a C layout is easily taken for.
fn layouts() -> Vec<Plant> {
    let of = |entry, name, buffer, change| {
        plant(entry, name, When::Accepted, What::Layout(buffer, change))
    };
    let without_sign = |bytes: &mut [u8]| bytes[1..4].fill(0);
    let high_byte_first = |bytes: &mut [u8]| bytes.chunks_exact_mut(4).for_each(<[u8]>::reverse);
    let without_ring_length = |bytes: &mut [u8]| bytes.rotate_left(4);
    vec![
        of(Entry::Check, "no-ring-length", Buffer::Numbers, without_ring_length),
        of(Entry::Step, "movement-of-one-byte", Buffer::Numbers, without_sign),
        of(Entry::Run, "high-byte-first", Buffer::Sums, high_byte_first),
    ]
}

/// Differences that come only in calls of which there are few.
fn seldom() -> Vec<Plant> {
    use Buffer::{Heard, Numbers, Ring, Rows, Schedule, Sums, Table};
    use Entry::{Check, Run, Step};
    let last = |buffer| What::Byte(buffer, At::Last);
    let first = |buffer| What::Byte(buffer, At::First);
    vec![
        plant(Check, "stays", When::RefusedWith(11), What::Stay),
        plant(Check, "refusal-11", When::RefusedWith(11), What::Code(256)),
        plant(Check, "63-stages", When::Word(Numbers, |n| n[3] == 63), last(Rows)),
        plant(Check, "ring-of-10", When::Word(Numbers, |n| n[0] >= 10), first(Ring)),
        plant(Check, "full-table", When::Length(Table, 16128), first(Numbers)),
        plant(Step, "refusal-14", When::RefusedWith(14), What::Code(256)),
        plant(Step, "refusal-1", When::RefusedWith(1), first(Heard)),
        plant(Step, "deepest-fall", When::Word(Numbers, |n| n[0] == -16), last(Numbers)),
        plant(Run, "refusal-14", When::RefusedWith(14), What::Code(256)),
        plant(Run, "refusal-13", When::RefusedWith(13), first(Sums)),
        plant(Run, "negative-sum", When::Word(Sums, |n| n.iter().any(|&n| n < 0)), last(Sums)),
        plant(Run, "longest-schedule", When::Length(Schedule, 32768), last(Heard)),
        plant(Run, "no-pair", When::Length(Schedule, 0), first(Sums)),
    ]
}

fn plant(entry: Entry, name: &str, when: When, what: What) -> Plant {
    let name = format!("{}-{name}", entry.name());
    Plant { name, entry, when, what }
}
