//! An independent implementation of the board's rules (see README.md).
//!
//! Numbers are `i64`. The largest product, a slack in parts times a period, is
//! below 2 to the 62; the release profile has overflow checks, so that the
//! comparisons would show one that is larger.

pub mod board;
pub mod console;
pub mod draw;
pub mod exact;
pub mod images;
pub mod judge;
pub mod placement;
pub mod refusal;
pub mod rng;
pub mod sessions;
pub mod simulate;
pub mod stored;
pub mod timing;
pub mod workbench;

/// Parts that make a whole processor.
pub const SCALE: i64 = 1_048_576;
pub const MAX_PROCESSORS: usize = 8;
pub const MAX_RESERVATIONS: usize = 64;
pub const MAX_ROWS: usize = 32;
pub const MAX_KEY: i64 = 65_535;
pub const MAX_PERIOD: i64 = 100_000;
pub const MAX_STEPS: i64 = 9;
pub const MAX_REFINEMENTS: i64 = 5;
