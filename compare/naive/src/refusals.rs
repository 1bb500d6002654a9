//! The fifteen refusals and the limits behind them.

/// Why a call was refused. Values come with 4, 5 and 10.
#[derive(Clone, Debug, PartialEq, Eq)]
pub struct Refusal {
    pub number: u32,
    pub values: Vec<u64>,
}

impl Refusal {
    pub fn new(number: u32, values: &[usize]) -> Self {
        let values = values.iter().map(|&value| value as u64).collect();
        Self { number, values }
    }
}

pub const SIDE_TOO_LONG: u32 = 1;
pub const WRONG_LENGTH: u32 = 2;
pub const NO_PERCENTILE: u32 = 3;
pub const SIZES_DIFFER: u32 = 4;
pub const NO_SUCH_REFERENCE: u32 = 5;
pub const TOO_MANY_FRAMES: u32 = 6;
pub const SCRATCH_TOO_SHORT: u32 = 7;
pub const PADDING_SET: u32 = 8;
pub const REACH_TOO_FAR: u32 = 9;
pub const RECORD_SPACE_TOO_SHORT: u32 = 10;
pub const PIXEL_OUTSIDE: u32 = 11;
pub const COORDINATE_OUTSIDE: u32 = 12;
pub const HEADER_MALFORMED: u32 = 13;
pub const HIGHEST_VALUE_OTHER: u32 = 14;
pub const SAMPLES_MISSING: u32 = 15;

pub const LONGEST_SIDE: usize = 8192;
pub const MOST_FRAMES: usize = 16;
pub const FARTHEST_REACH: u32 = 64;
pub const HIGHEST_PERCENTILE: u8 = 100;

/// One check of a call's list: refuses where `broken` holds.
pub(crate) fn refuse_if(broken: bool, number: u32) -> Result<(), Refusal> {
    refuse_with(broken, number, &[])
}

pub(crate) fn refuse_with(broken: bool, number: u32, values: &[usize]) -> Result<(), Refusal> {
    if broken {
        Err(Refusal::new(number, values))
    } else {
        Ok(())
    }
}

pub(crate) fn check_sides(sides: &[usize]) -> Result<(), Refusal> {
    refuse_if(sides.iter().any(|&side| side > LONGEST_SIDE), SIDE_TOO_LONG)
}

pub(crate) fn check_percentiles(percentiles: &[u8]) -> Result<(), Refusal> {
    let is_over = |&percentile: &u8| percentile > HIGHEST_PERCENTILE;
    refuse_if(percentiles.iter().any(is_over), NO_PERCENTILE)
}
