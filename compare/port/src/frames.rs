//! Single frames and bitmaps.

use crate::{Bitmap, Frame, Shrink};

pub fn from_rgb(rgb: &[u8], width: usize, height: usize, gray: &mut [u8]) -> u32 {
    unsafe extern "C" {
        fn mtb_from_rgb(
            rgb: *const u8,
            rgb_length: usize,
            width: usize,
            height: usize,
            gray: *mut u8,
            gray_length: usize,
        ) -> u32;
    }
    unsafe {
        mtb_from_rgb(
            rgb.as_ptr(),
            rgb.len(),
            width,
            height,
            gray.as_mut_ptr(),
            gray.len(),
        )
    }
}

pub fn shrink2(frame: Frame, shrink: Shrink, shrunk: &mut [u8]) -> u32 {
    unsafe extern "C" {
        fn mtb_shrink2(
            samples: *const u8,
            samples_length: usize,
            width: usize,
            height: usize,
            subsampled: bool,
            shrunk: *mut u8,
            shrunk_length: usize,
        ) -> u32;
    }
    unsafe {
        mtb_shrink2(
            frame.samples.as_ptr(),
            frame.samples.len(),
            frame.width,
            frame.height,
            shrink == Shrink::Subsample,
            shrunk.as_mut_ptr(),
            shrunk.len(),
        )
    }
}

pub fn threshold(frame: Frame, percentile: u8, cut: &mut u16) -> u32 {
    unsafe extern "C" {
        fn mtb_threshold(
            samples: *const u8,
            samples_length: usize,
            width: usize,
            height: usize,
            percentile: u8,
            cut: *mut u16,
        ) -> u32;
    }
    unsafe {
        mtb_threshold(
            frame.samples.as_ptr(),
            frame.samples.len(),
            frame.width,
            frame.height,
            percentile,
            cut,
        )
    }
}

pub fn compute_bitmaps(
    frame: Frame,
    percentile: u8,
    tolerance: u8,
    threshold: &mut [u64],
    exclusion: &mut [u64],
) -> u32 {
    unsafe extern "C" {
        fn mtb_compute_bitmaps(
            samples: *const u8,
            samples_length: usize,
            width: usize,
            height: usize,
            percentile: u8,
            tolerance: u8,
            threshold: *mut u64,
            threshold_length: usize,
            exclusion: *mut u64,
            exclusion_length: usize,
        ) -> u32;
    }
    unsafe {
        mtb_compute_bitmaps(
            frame.samples.as_ptr(),
            frame.samples.len(),
            frame.width,
            frame.height,
            percentile,
            tolerance,
            threshold.as_mut_ptr(),
            threshold.len(),
            exclusion.as_mut_ptr(),
            exclusion.len(),
        )
    }
}

pub fn get(bitmap: Bitmap, x: usize, y: usize, pixel: &mut bool) -> u32 {
    unsafe extern "C" {
        fn mtb_get(
            words: *const u64,
            words_length: usize,
            width: usize,
            height: usize,
            x: usize,
            y: usize,
            pixel: *mut bool,
        ) -> u32;
    }
    unsafe {
        mtb_get(
            bitmap.words.as_ptr(),
            bitmap.words.len(),
            bitmap.width,
            bitmap.height,
            x,
            y,
            pixel,
        )
    }
}

/// Sets a pixel of the words that are lent.
pub fn set(words: &mut [u64], width: usize, height: usize, x: usize, y: usize, value: bool) -> u32 {
    unsafe extern "C" {
        fn mtb_set(
            words: *mut u64,
            words_length: usize,
            width: usize,
            height: usize,
            x: usize,
            y: usize,
            value: bool,
        ) -> u32;
    }
    unsafe { mtb_set(words.as_mut_ptr(), words.len(), width, height, x, y, value) }
}

pub fn count_ones(bitmap: Bitmap, total: &mut u64) -> u32 {
    unsafe extern "C" {
        fn mtb_count_ones(
            words: *const u64,
            words_length: usize,
            width: usize,
            height: usize,
            total: *mut u64,
        ) -> u32;
    }
    unsafe {
        mtb_count_ones(
            bitmap.words.as_ptr(),
            bitmap.words.len(),
            bitmap.width,
            bitmap.height,
            total,
        )
    }
}

/// Answers with the number of words of the row and puts in `start` where they stand
/// in the bitmap's: both are 0 where the row is none.
pub fn row(bitmap: Bitmap, y: usize, start: &mut usize) -> usize {
    unsafe extern "C" {
        fn mtb_row(
            words: *const u64,
            words_length: usize,
            width: usize,
            height: usize,
            y: usize,
            start: *mut usize,
        ) -> usize;
    }
    unsafe {
        mtb_row(
            bitmap.words.as_ptr(),
            bitmap.words.len(),
            bitmap.width,
            bitmap.height,
            y,
            start,
        )
    }
}
