//! Shifts, moved frames and crops.

use crate::{Frame, Shift};

pub fn doubled(shift: Shift, new_x: &mut i32, new_y: &mut i32) -> u32 {
    unsafe extern "C" {
        fn mtb_doubled(x: i32, y: i32, new_x: *mut i32, new_y: *mut i32) -> u32;
    }
    unsafe { mtb_doubled(shift.x, shift.y, new_x, new_y) }
}

pub fn offset(shift: Shift, by_x: i32, by_y: i32, new_x: &mut i32, new_y: &mut i32) -> u32 {
    unsafe extern "C" {
        fn mtb_offset(
            x: i32,
            y: i32,
            by_x: i32,
            by_y: i32,
            new_x: *mut i32,
            new_y: *mut i32,
        ) -> u32;
    }
    unsafe { mtb_offset(shift.x, shift.y, by_x, by_y, new_x, new_y) }
}

pub fn shifted(frame: Frame, shift: Shift, moved: &mut [u8]) -> u32 {
    unsafe extern "C" {
        fn mtb_shifted(
            samples: *const u8,
            samples_length: usize,
            width: usize,
            height: usize,
            x: i32,
            y: i32,
            moved: *mut u8,
            moved_length: usize,
        ) -> u32;
    }
    unsafe {
        mtb_shifted(
            frame.samples.as_ptr(),
            frame.samples.len(),
            frame.width,
            frame.height,
            shift.x,
            shift.y,
            moved.as_mut_ptr(),
            moved.len(),
        )
    }
}

/// `crop` gets left, top, width and height.
pub fn common_crop(shifts: &[i32], width: usize, height: usize, crop: [&mut usize; 4]) -> u32 {
    unsafe extern "C" {
        fn mtb_common_crop(
            shifts: *const i32,
            shifts_length: usize,
            width: usize,
            height: usize,
            left: *mut usize,
            top: *mut usize,
            wide: *mut usize,
            high: *mut usize,
        ) -> u32;
    }
    let [left, top, wide, high] = crop;
    unsafe {
        mtb_common_crop(
            shifts.as_ptr(),
            shifts.len(),
            width,
            height,
            left,
            top,
            wide,
            high,
        )
    }
}
