//! The numbers that documents 01 and 02 fix.

pub const REGIONS: u64 = 512;
pub const SECTORS: u64 = 64;
pub const WORKLOAD: u64 = 1_000_000;
pub const EDGES: u64 = 2_048;

/// The area of an edge, or of a region's face to the outside.
pub const AREA: u64 = 1_000_000;

pub const FLIGHTS: u64 = 64;
pub const VISITS: u64 = 32;
pub const DWELL: u64 = 86_400;
pub const CONSTRAINTS: u64 = 16;
pub const LIMIT: u64 = 100_000_000_000;
pub const WEIGHT: u64 = 1_000;
pub const MOVES: u64 = 4_096;

/// The kinds of constraints that the call takes.
pub const CALL_KINDS: u64 = 5;

/// A block's bytes, its bytes before the payload, and the most payload it has.
pub const BLOCK: usize = 512;
pub const PREFIX: usize = 10;
pub const PAYLOAD: usize = 500;

/// The sheets that figures are over.
pub const SHEETS: usize = 1_000;
