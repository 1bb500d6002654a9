//! The terms that docs/TERMS.md advises.

use naive::refusals::FARTHEST_REACH;

/// For a tremble of up to 7 pixels, which the search then just meets.
pub const BITS: u32 = 3;
pub const TOLERANCE: u8 = 4;
pub const PERCENTILE: u8 = 50;

/// Where a frame is clipped: one for half of it white, one for half of it black.
pub const OF_WHITE: u8 = 17;
pub const OF_BLACK: u8 = 83;

/// How far the percentiles of two neighbours may lie apart.
pub const MOST_APART: u8 = 5;

/// How far a rival may lie from a step that is mostly right all the same.
pub const NEAR: u32 = 3;

/// One in so many of the compared pixels disagrees at a shift that is no match.
pub const NO_MATCH: u64 = 5;

/// The farthest that a search with so many bits goes, with none as with one, which is meant to
/// be the tremble.
pub const fn tremble(bits: u32) -> u32 {
    match 1u32.checked_shl(bits) {
        Some(1) => 1,
        Some(power) => power - 1,
        None => u32::MAX,
    }
}

/// Tremble and search together, as far as a report reaches.
pub const fn reach(bits: u32) -> u32 {
    let both = tremble(bits).saturating_mul(2);
    if both < FARTHEST_REACH {
        both
    } else {
        FARTHEST_REACH
    }
}

/// A sixteenth of the frame's pixels, and at least one.
pub const fn floor(width: usize, height: usize) -> u32 {
    match width * height / 16 {
        0 => 1,
        sixteenth => sixteenth as u32,
    }
}

/// One and a half percent of the frame's pixels.
pub const fn margin(width: usize, height: usize) -> u32 {
    (width * height * 3 / 200) as u32
}
