//! What is compared: one call of one of the three entries, with all that it is lent.

use std::ops::{Index, IndexMut};

#[derive(Clone, Copy, Debug, PartialEq, Eq)]
pub enum Entry {
    Check,
    Step,
    Run,
}

/// What an entry can be lent, by the names of its parameters.
#[derive(Clone, Copy, Debug, PartialEq, Eq)]
pub enum Buffer {
    Table,
    Rows,
    Ring,
    Heard,
    Schedule,
    Sums,
    Numbers,
}

impl Entry {
    pub const ALL: [Entry; 3] = [Entry::Check, Entry::Step, Entry::Run];

    pub fn name(self) -> &'static str {
        match self {
            Entry::Check => "check",
            Entry::Step => "step",
            Entry::Run => "run",
        }
    }

    /// What it is lent, in the order of its parameters.
    pub fn buffers(self) -> &'static [Buffer] {
        use Buffer::*;
        match self {
            Entry::Check => &[Table, Rows, Ring, Numbers],
            Entry::Step => &[Table, Heard, Numbers],
            Entry::Run => &[Table, Heard, Schedule, Sums, Numbers],
        }
    }
}

impl Buffer {
    pub fn name(self) -> &'static str {
        match self {
            Buffer::Table => "table",
            Buffer::Rows => "rows",
            Buffer::Ring => "ring",
            Buffer::Heard => "heard",
            Buffer::Schedule => "schedule",
            Buffer::Sums => "sums",
            Buffer::Numbers => "numbers",
        }
    }

    /// The length that a buffer must have, if an accepted call may write to it; the others are for reading alone.
    pub fn written_length(self) -> Option<usize> {
        match self {
            Buffer::Table | Buffer::Schedule => None,
            Buffer::Rows => Some(1024),
            Buffer::Ring => Some(64),
            Buffer::Heard => Some(4096),
            Buffer::Sums => Some(256),
            Buffer::Numbers => Some(32),
        }
    }
}

/// The bytes of each buffer; those that an entry is not lent stay empty.
#[derive(Clone, Debug, Default, PartialEq)]
pub struct Contents([Vec<u8>; 7]);

impl Index<Buffer> for Contents {
    type Output = Vec<u8>;

    fn index(&self, buffer: Buffer) -> &Vec<u8> {
        &self.0[buffer as usize]
    }
}

impl IndexMut<Buffer> for Contents {
    fn index_mut(&mut self, buffer: Buffer) -> &mut Vec<u8> {
        &mut self.0[buffer as usize]
    }
}

#[derive(Clone)]
pub struct Case {
    pub entry: Entry,
    /// Listener and speaker, which only the step takes.
    pub pair: [u8; 2],
    pub contents: Contents,
}

impl Case {
    /// All that the call takes, one line each, in hex.
    pub fn inputs(&self) -> String {
        let line = |name, bytes: &[u8]| format!("{name} {}\n", hex(bytes));
        let lent = self.entry.buffers().iter();
        let mut text: String =
            lent.map(|&buffer| line(buffer.name(), &self.contents[buffer])).collect();
        if self.entry == Entry::Step {
            text += &line("pair", &self.pair);
        }
        text
    }
}

fn hex(bytes: &[u8]) -> String {
    bytes.iter().map(|byte| format!("{byte:02x}")).collect()
}
