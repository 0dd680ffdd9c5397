//! The fixed sizes that the rules page (01) names.

/// Vertices are 0 to 63 ("The table").
pub const VERTICES: usize = 64;

/// The destination is always vertex 0 ("The table").
pub const DESTINATION: usize = 0;

/// A record holds 16 bytes ("The table").
pub const RECORD_BYTES: usize = 16;

/// Ranks are 1 to 16, so each vertex has 16 best-first slots ("The table").
pub const RANKS: usize = 16;

/// A path has 1 to 12 hops ("The table").
pub const MAX_HOPS: u8 = 12;

/// A table holds at most 1,008 records ("The table").
pub const MAX_TABLE_BYTES: usize = 16_128;

/// The rows take 16 bytes for each vertex ("What the check gives back").
pub const ROWS_BYTES: usize = 1_024;

/// The ring buffer has room for every vertex ("What the check gives back").
pub const RING_BYTES: usize = 64;

/// The heard state has one byte for each pair of vertices ("The machine").
pub const HEARD_BYTES: usize = 4_096;

/// A schedule holds at most 16,384 pairs of two bytes ("The machine").
pub const MAX_SCHEDULE_BYTES: usize = 32_768;

/// Unused places in records, rows and the ring hold 255.
pub const UNUSED: u8 = 255;
