//! The most that a plan, its sheet and an input of many sheets can have, so that lent memory can be given enough room.

/// The regions of a plan.
pub const MOST_REGIONS: usize = 512;

/// The sectors of a plan.
pub const MOST_SECTORS: usize = 64;

/// The edges of a plan.
pub const MOST_EDGES: usize = 2_048;

/// The flights over a plan.
pub const MOST_FLIGHTS: usize = 64;

/// The visits of one flight.
pub const MOST_VISITS: usize = 32;

/// The visits of all flights.
pub const MOST_VISITS_IN_ALL: usize = MOST_FLIGHTS * MOST_VISITS;

/// The constraints of a plan.
pub const MOST_CONSTRAINTS: usize = 16;

/// The moves of one call.
pub const MOST_MOVES: usize = 4_096;

/// The bytes of the largest first sheet: 43 blocks.
pub const MOST_BYTES: usize = 43 * 512;

/// The bytes of the largest second sheet: 74 blocks.
pub const MOST_SECOND_BYTES: usize = 74 * 512;

/// The sheets in one input of the program `figures`.
pub const MOST_SHEETS: usize = 1_000;
