//! The original's calls as a caller meets the port's: functions of C's convention that
//! are never inlined, take what the port's take, put numbers where they are told and
//! give a status back. An object of the original's stands for a list and its sides, as
//! the original makes none of a list that is lent. An answer that it allocates is freed
//! at once. Its checks are its own.

use std::hint::black_box;
use std::slice;

use mtb_align::{Bitmap, Bitmaps, Gray, Options, Percentile, Shift, Shrink};
use trials::recount;

#[inline(never)]
#[unsafe(export_name = "original_from_rgb")]
pub extern "C" fn from_rgb(rgb: *const u8, rgb_length: usize, width: usize, height: usize) -> u32 {
    let rgb = unsafe { slice::from_raw_parts(rgb, rgb_length) };
    black_box(Gray::from_rgb(rgb, width, height));
    0
}

#[inline(never)]
#[unsafe(export_name = "original_shrink2")]
pub extern "C" fn shrink2(gray: &Gray, subsampled: bool) -> u32 {
    black_box(mtb_align::shrink2(gray, mode(subsampled)));
    0
}

/// The original's own is private: these are its lines, for the levels that it would
/// have.
#[inline(never)]
#[unsafe(export_name = "original_pyramid")]
pub extern "C" fn pyramid(gray: &Gray, bits: u32, subsampled: bool) -> u32 {
    let levels = recount::levels(gray.width(), gray.height(), bits);
    let mut pyramid = Vec::with_capacity(levels + 1);
    pyramid.push(gray.clone());
    for _ in 0..levels {
        let coarser = mtb_align::shrink2(pyramid.last().expect("just pushed"), mode(subsampled));
        pyramid.push(coarser);
    }
    black_box(pyramid);
    0
}

#[inline(never)]
#[unsafe(export_name = "original_threshold")]
pub extern "C" fn threshold(gray: &Gray, percentile: u8, cut: &mut u16) -> u32 {
    *cut = mtb_align::threshold(gray, Percentile::new(percentile));
    0
}

#[inline(never)]
#[unsafe(export_name = "original_compute_bitmaps")]
pub extern "C" fn compute_bitmaps(gray: &Gray, percentile: u8, tolerance: u8) -> u32 {
    let percentile = Percentile::new(percentile);
    black_box(mtb_align::compute_bitmaps(gray, percentile, tolerance));
    0
}

#[inline(never)]
#[unsafe(export_name = "original_get")]
pub extern "C" fn get(bitmap: &Bitmap, x: usize, y: usize, pixel: &mut bool) -> u32 {
    *pixel = bitmap.get(x, y);
    0
}

#[inline(never)]
#[unsafe(export_name = "original_set")]
pub extern "C" fn set(bitmap: &mut Bitmap, x: usize, y: usize, value: bool) -> u32 {
    bitmap.set(x, y, value);
    0
}

#[inline(never)]
#[unsafe(export_name = "original_count_ones")]
pub extern "C" fn count_ones(bitmap: &Bitmap, total: &mut u64) -> u32 {
    *total = bitmap.count_ones();
    0
}

#[inline(never)]
#[unsafe(export_name = "original_shifted")]
pub extern "C" fn shifted(gray: &Gray, x: i32, y: i32) -> u32 {
    black_box(gray.shifted(Shift::new(x, y)));
    0
}

#[inline(never)]
#[unsafe(export_name = "original_common_crop")]
pub extern "C" fn common_crop(
    shifts: *const Shift,
    shifts_length: usize,
    width: usize,
    height: usize,
    left: &mut usize,
    top: &mut usize,
    wide: &mut usize,
    high: &mut usize,
) -> u32 {
    let shifts = unsafe { slice::from_raw_parts(shifts, shifts_length) };
    let crop = mtb_align::common_crop(shifts, width, height);
    (*left, *top, *wide, *high) = (crop.x, crop.y, crop.width, crop.height);
    0
}

#[inline(never)]
#[unsafe(export_name = "original_disagreement")]
pub extern "C" fn disagreement(
    reference: &Bitmaps,
    target: &Bitmaps,
    x: i32,
    y: i32,
    disagreeing: &mut u64,
) -> u32 {
    *disagreeing = mtb_align::disagreement(reference, target, Shift::new(x, y));
    0
}

#[inline(never)]
#[unsafe(export_name = "original_shift")]
pub extern "C" fn shift(
    reference: &Gray,
    target: &Gray,
    bits: u32,
    tolerance: u8,
    percentile: u8,
    subsampled: bool,
    x: &mut i32,
    y: &mut i32,
) -> u32 {
    let options = options(bits, tolerance, percentile, subsampled);
    match mtb_align::shift(reference, target, &options) {
        Ok(shift) => {
            (*x, *y) = (shift.x, shift.y);
            0
        }
        Err(_) => 4,
    }
}

#[inline(never)]
#[unsafe(export_name = "original_align_stack")]
pub extern "C" fn align_stack(
    frames: *const Gray,
    count: usize,
    reference: usize,
    bits: u32,
    tolerance: u8,
    percentile: u8,
    subsampled: bool,
) -> u32 {
    let frames = unsafe { slice::from_raw_parts(frames, count) };
    let options = options(bits, tolerance, percentile, subsampled);
    match black_box(mtb_align::align_stack(frames, reference, &options)) {
        Ok(_) => 0,
        Err(_) => 4,
    }
}

fn mode(subsampled: bool) -> Shrink {
    if subsampled {
        Shrink::Subsample
    } else {
        Shrink::Average
    }
}

fn options(bits: u32, tolerance: u8, percentile: u8, subsampled: bool) -> Options {
    Options {
        bits,
        tolerance,
        percentile: Percentile::new(percentile),
        shrink: mode(subsampled),
    }
}
