//! Netpbm's binary greymaps (P5): one image of a file, several as a stack, and a frame as a
//! file.

use crate::Frame;

/// `image` gets width, height, where the samples start in the file, and the place behind
/// them.
pub fn read_pgm(file: &[u8], at: usize, image: [&mut usize; 4]) -> u32 {
    unsafe extern "C" {
        fn mtb_read_pgm(
            file: *const u8,
            file_length: usize,
            at: usize,
            width: *mut usize,
            height: *mut usize,
            samples: *mut usize,
            next: *mut usize,
        ) -> u32;
    }
    let [width, height, samples, next] = image;
    unsafe { mtb_read_pgm(file.as_ptr(), file.len(), at, width, height, samples, next) }
}

/// As many images, one directly behind another, as `widths` is long. `next` gets the place
/// behind the last.
pub fn read_stack(
    file: &[u8],
    at: usize,
    widths: &mut [usize],
    heights: &mut [usize],
    samples: &mut [u8],
    next: &mut usize,
) -> u32 {
    unsafe extern "C" {
        fn mtb_read_stack(
            file: *const u8,
            file_length: usize,
            at: usize,
            widths: *mut usize,
            widths_length: usize,
            heights: *mut usize,
            heights_length: usize,
            samples: *mut u8,
            samples_length: usize,
            next: *mut usize,
        ) -> u32;
    }
    unsafe {
        mtb_read_stack(
            file.as_ptr(),
            file.len(),
            at,
            widths.as_mut_ptr(),
            widths.len(),
            heights.as_mut_ptr(),
            heights.len(),
            samples.as_mut_ptr(),
            samples.len(),
            next,
        )
    }
}

/// `file` then begins with the frame's file, and `length` gets how long that is.
pub fn write_pgm(frame: Frame, file: &mut [u8], length: &mut usize) -> u32 {
    unsafe extern "C" {
        fn mtb_write_pgm(
            samples: *const u8,
            samples_length: usize,
            width: usize,
            height: usize,
            file: *mut u8,
            file_length: usize,
            length: *mut usize,
        ) -> u32;
    }
    unsafe {
        mtb_write_pgm(
            frame.samples.as_ptr(),
            frame.samples.len(),
            frame.width,
            frame.height,
            file.as_mut_ptr(),
            file.len(),
            length,
        )
    }
}
