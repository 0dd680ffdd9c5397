//! Counting the rounds of a run ("The machine").

use crate::heard::offset;
use crate::limits::HEARD_BYTES;
use crate::table::Table;

/// A round closes as soon as every listening pair has been activated since
/// the last closing.
pub struct Rounds {
    pairs: usize,
    missing: usize,
    closed: u32,
    /// For each pair, the number of the round (from 1) it was last active in.
    active_in: [u32; HEARD_BYTES],
}

impl Rounds {
    /// The first round opens at the start of the run.
    pub fn start(table: &Table) -> Self {
        let pairs = table.listening_pair_count();
        Rounds {
            pairs,
            missing: pairs,
            closed: 0,
            active_in: [0; HEARD_BYTES],
        }
    }

    /// Notes that the listening pair (v, u) has been activated.
    pub fn activated(&mut self, v: usize, u: usize) {
        let open_round = self.closed + 1;
        let last_active = &mut self.active_in[offset(v, u)];
        if *last_active == open_round {
            return;
        }
        *last_active = open_round;
        self.missing -= 1;
        if self.missing == 0 {
            self.closed = open_round;
            self.missing = self.pairs;
        }
    }

    /// The number of rounds closed so far.
    pub fn closed(&self) -> u32 {
        self.closed
    }
}
