//! OpenCV's aligner, where it was at hand when this was built. It takes a step as the
//! original does, so a stack is a step of each frame against its neighbour; its own call
//! for stacks takes frames in colour only.

use mtb_align::Gray;
use port::Options;

pub const AT_HAND: bool = cfg!(opencv);

/// What the head of the output says of it.
pub const SAID: &str = match AT_HAND {
    true => "Beside them steps and stacks are timed with OpenCV's AlignMTB, in one thread.",
    false => "OpenCV is not at hand, so its AlignMTB has no column.",
};

#[cfg(opencv)]
pub fn shift(reference: &Gray, target: &Gray, options: &Options) {
    unsafe extern "C" {
        fn opencv_shift(
            reference: *const u8,
            target: *const u8,
            width: usize,
            height: usize,
            bits: u32,
            tolerance: u8,
            x: *mut i32,
            y: *mut i32,
        ) -> u32;
    }
    let (mut x, mut y) = (0, 0);
    let status = unsafe {
        opencv_shift(
            reference.as_slice().as_ptr(),
            target.as_slice().as_ptr(),
            reference.width(),
            reference.height(),
            options.bits,
            options.tolerance,
            &mut x,
            &mut y,
        )
    };
    assert_eq!(status, 0, "OpenCV takes the frames");
    std::hint::black_box((x, y));
}

#[cfg(not(opencv))]
pub fn shift(_: &Gray, _: &Gray, _: &Options) {
    unreachable!("OpenCV is not at hand")
}

/// The steps of a stack.
pub fn steps(frames: &[Gray], options: &Options) {
    for pair in frames.windows(2) {
        shift(&pair[0], &pair[1], options);
    }
}
