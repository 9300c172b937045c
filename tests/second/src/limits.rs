//! "Numbers that bound the work": every limit of 01, each written once.

/// Coefficients, constants, lo and hi lie in -M..M, and so do all reduced numbers.
pub const M: i128 = 1_073_741_823;

pub const SHEET_BYTES: usize = 16_384;
pub const SHEET_LEVELS: usize = 24;

/// The limits of the test at fractions and of the look at a body.
pub const LOOK_BYTES: usize = 65_536;
pub const LOOK_LEVELS: usize = 25;

pub const RESULT_BYTES: usize = 65_536;
pub const TERMS: usize = 64;

pub const TEST_VALUE: i128 = 1_000_000;
pub const TEST_DENOMINATOR: i128 = 1_000_000;

pub fn in_range(number: i128) -> bool {
    (-M..=M).contains(&number)
}
