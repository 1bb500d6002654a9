//! The step of two frames and the stack.

use crate::{Exposure, Options, Shrink, Stack, Values};

/// After an accepted call, the scratch that it needs holds anything.
pub fn shift(
    reference: Exposure,
    target: Exposure,
    options: &Options,
    (bytes, words): (&mut [u8], &mut [u64]),
    (x, y): (&mut i32, &mut i32),
    comparisons: &mut u64,
    values: &mut Values,
) -> u32 {
    unsafe extern "C" {
        fn mtb_shift(
            reference: *const u8,
            reference_length: usize,
            width: usize,
            height: usize,
            percentile: u8,
            target: *const u8,
            target_length: usize,
            target_width: usize,
            target_height: usize,
            target_percentile: u8,
            bits: u32,
            tolerance: u8,
            subsampled: bool,
            bytes: *mut u8,
            bytes_length: usize,
            words: *mut u64,
            words_length: usize,
            x: *mut i32,
            y: *mut i32,
            comparisons: *mut u64,
            values: *mut Values,
        ) -> u32;
    }
    unsafe {
        mtb_shift(
            reference.frame.samples.as_ptr(),
            reference.frame.samples.len(),
            reference.frame.width,
            reference.frame.height,
            reference.percentile,
            target.frame.samples.as_ptr(),
            target.frame.samples.len(),
            target.frame.width,
            target.frame.height,
            target.percentile,
            options.bits,
            options.tolerance,
            matches!(options.shrink, Shrink::Subsample),
            bytes.as_mut_ptr(),
            bytes.len(),
            words.as_mut_ptr(),
            words.len(),
            x,
            y,
            comparisons,
            values,
        )
    }
}

/// After an accepted call, the scratch that it needs holds anything.
pub fn align_stack(
    stack: Stack,
    options: &Options,
    shifts: &mut [i32],
    (bytes, words): (&mut [u8], &mut [u64]),
    values: &mut Values,
) -> u32 {
    unsafe extern "C" {
        fn mtb_align_stack(
            widths: *const usize,
            widths_length: usize,
            heights: *const usize,
            heights_length: usize,
            percentiles: *const u8,
            percentiles_length: usize,
            samples: *const u8,
            samples_length: usize,
            reference: usize,
            bits: u32,
            tolerance: u8,
            subsampled: bool,
            shifts: *mut i32,
            shifts_length: usize,
            bytes: *mut u8,
            bytes_length: usize,
            words: *mut u64,
            words_length: usize,
            values: *mut Values,
        ) -> u32;
    }
    unsafe {
        mtb_align_stack(
            stack.widths.as_ptr(),
            stack.widths.len(),
            stack.heights.as_ptr(),
            stack.heights.len(),
            stack.percentiles.as_ptr(),
            stack.percentiles.len(),
            stack.samples.as_ptr(),
            stack.samples.len(),
            stack.reference,
            options.bits,
            options.tolerance,
            matches!(options.shrink, Shrink::Subsample),
            shifts.as_mut_ptr(),
            shifts.len(),
            bytes.as_mut_ptr(),
            bytes.len(),
            words.as_mut_ptr(),
            words.len(),
            values,
        )
    }
}
