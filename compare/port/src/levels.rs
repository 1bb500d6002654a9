//! Pyramids, their levels, and the scratch of a step.

use crate::{Frame, Shrink};

/// Fills the front of the scratch with the halved levels, one after another.
pub fn pyramid(frame: Frame, bits: u32, shrink: Shrink, scratch: &mut [u8]) -> u32 {
    unsafe extern "C" {
        fn mtb_pyramid(
            samples: *const u8,
            samples_length: usize,
            width: usize,
            height: usize,
            bits: u32,
            subsampled: bool,
            scratch: *mut u8,
            scratch_length: usize,
        ) -> u32;
    }
    unsafe {
        mtb_pyramid(
            frame.samples.as_ptr(),
            frame.samples.len(),
            frame.width,
            frame.height,
            bits,
            shrink == Shrink::Subsample,
            scratch.as_mut_ptr(),
            scratch.len(),
        )
    }
}

/// Answers with the length of a level, 0 being the frame itself, and puts in
/// `in_scratch` whether it is a part of the scratch or else of the frame, and in
/// `start` where it stands there. A level that is none has length 0 at 0 of the frame.
pub fn level(
    frame: Frame,
    bits: u32,
    scratch: &[u8],
    level: usize,
    in_scratch: &mut bool,
    start: &mut usize,
) -> usize {
    unsafe extern "C" {
        fn mtb_level(
            frame: *const u8,
            frame_length: usize,
            width: usize,
            height: usize,
            bits: u32,
            scratch: *const u8,
            scratch_length: usize,
            k: usize,
            in_scratch: *mut bool,
            start: *mut usize,
        ) -> usize;
    }
    unsafe {
        mtb_level(
            frame.samples.as_ptr(),
            frame.samples.len(),
            frame.width,
            frame.height,
            bits,
            scratch.as_ptr(),
            scratch.len(),
            level,
            in_scratch,
            start,
        )
    }
}

/// The scratch that a step of two frames of this size needs.
pub fn scratch(
    width: usize,
    height: usize,
    bits: u32,
    bytes: &mut usize,
    words: &mut usize,
) -> u32 {
    unsafe extern "C" {
        fn mtb_scratch(
            width: usize,
            height: usize,
            bits: u32,
            bytes: *mut usize,
            words: *mut usize,
        ) -> u32;
    }
    unsafe { mtb_scratch(width, height, bits, bytes, words) }
}
