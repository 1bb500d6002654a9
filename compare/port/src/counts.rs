//! The two counts of packed pairs.

use crate::{Pair, Shift, Values};

pub fn disagreement(
    reference: Pair,
    target: Pair,
    shift: Shift,
    disagreeing: &mut u64,
    compared: &mut u64,
    values: &mut Values,
) -> u32 {
    unsafe extern "C" {
        fn mtb_disagreement(
            reference_threshold: *const u64,
            reference_threshold_length: usize,
            reference_exclusion: *const u64,
            reference_exclusion_length: usize,
            width: usize,
            height: usize,
            target_threshold: *const u64,
            target_threshold_length: usize,
            target_exclusion: *const u64,
            target_exclusion_length: usize,
            target_width: usize,
            target_height: usize,
            x: i32,
            y: i32,
            disagreeing: *mut u64,
            compared: *mut u64,
            values: *mut Values,
        ) -> u32;
    }
    unsafe {
        mtb_disagreement(
            reference.threshold.as_ptr(),
            reference.threshold.len(),
            reference.exclusion.as_ptr(),
            reference.exclusion.len(),
            reference.width,
            reference.height,
            target.threshold.as_ptr(),
            target.threshold.len(),
            target.exclusion.as_ptr(),
            target.exclusion.len(),
            target.width,
            target.height,
            shift.x,
            shift.y,
            disagreeing,
            compared,
            values,
        )
    }
}
