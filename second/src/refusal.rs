//! Refusals: a number that says why, and a place that says where
//! ("Refusal numbers, in order of checking").

/// Why a call is refused; the value of each case is the rules' number.
#[derive(Clone, Copy, Debug, PartialEq, Eq)]
#[repr(u8)]
pub enum Reason {
    BufferLength = 1,
    TableTooLong = 2,
    TableNotWholeRecords = 3,
    Hops = 4,
    VertexAbove63 = 5,
    UnusedByte = 6,
    VertexTwice = 7,
    LastNotDestination = 8,
    OwnerBelowPrevious = 9,
    Rank = 10,
    SamePath = 11,
    HeardState = 12,
    ScheduleLength = 13,
    NotListening = 14,
}

/// A refused call's number and place.
#[derive(Clone, Copy, Debug, PartialEq, Eq)]
pub struct Refusal {
    pub number: u8,
    pub place: u32,
}

impl Refusal {
    /// A refusal at a record, an offset or a pair, counted from 0.
    pub fn at(reason: Reason, place: usize) -> Self {
        // Every place is below 16,384 pairs, so it fits 32 bits.
        Refusal {
            number: reason as u8,
            place: place as u32,
        }
    }

    /// A refusal of the call as a whole, whose place is 0.
    pub fn whole(reason: Reason) -> Self {
        Refusal::at(reason, 0)
    }
    /// The return value of a C entry ("What is built").
    pub fn code(self) -> u64 {
        u64::from(self.number) + 256 * u64::from(self.place)
    }
}
