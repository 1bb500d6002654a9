//! The calibration cards A to J of the scope.

use naive::align::{Exposure, Options, Scratch, halved_samples, pyramid, shift};
use naive::bitmap::{Bitmap, get};
use naive::geometry::{Crop, Shift, common_crop, shifted};
use naive::gray::{Frame, from_rgb};
use naive::shrink::{Shrink, shrink2};
use naive::stacksteps::{OPTIONS, PERCENTILE};
use naive::threshold::{Packed, compute_bitmaps, threshold};

#[test]
fn a_no_samples_cut_0() {
    assert_eq!(threshold(Frame::new(&[], 0, 0), 50), Ok(0));
    assert_eq!(threshold(Frame::new(&[], 0, 8192), 100), Ok(0));
}

#[test]
fn b_one_sample_cut_0_bit_set() {
    let frame = Frame::new(&[200], 1, 1);
    assert_eq!(threshold(frame, 50), Ok(0));
    let bitmaps = compute_bitmaps(frame, 50, 4, [1, 1]).unwrap();
    assert_eq!(get(Bitmap::new(&bitmaps.threshold, 1, 1), 0, 0), Ok(true));
}

#[test]
fn c_two_255s_cut_256() {
    assert_eq!(threshold(Frame::new(&[255, 255], 2, 1), 50), Ok(256));
}

#[test]
fn d_cut_11_words_12_and_13() {
    let frame = Frame::new(&[0, 10, 20, 30], 4, 1);
    assert_eq!(threshold(frame, 50), Ok(11));
    let words = Packed {
        threshold: vec![12],
        exclusion: vec![13],
    };
    assert_eq!(compute_bitmaps(frame, 50, 4, [1, 1]), Ok(words));
}

/// Levels are no call of their own: they show in the comparisons of a step (one a level
/// on equal frames that are cut alike) and in the length of a pyramid.
#[test]
fn e_levels() {
    for (side, bits, levels, samples) in [
        (4, 6, 1, 4),
        (3, 6, 0, 0),
        (64, 8, 5, 1024 + 256 + 64 + 16 + 4),
    ] {
        let flat = vec![7; side * side];
        let frame = Frame::new(&flat, side, side);
        let options = Options { bits, ..OPTIONS };
        let scratch = Scratch::of_step(side, side, bits);
        let exposure = Exposure::new(frame, PERCENTILE);
        let step = shift(exposure, exposure, &options, scratch).unwrap();
        assert_eq!(step.comparisons, levels + 1);
        assert_eq!(halved_samples(side, side, bits), samples);
        assert_eq!(
            pyramid(frame, bits, Shrink::Average, samples),
            Ok(vec![7; samples])
        );
    }
}

#[test]
fn f_averages() {
    let average = |samples: [u8; 4]| shrink2(Frame::new(&samples, 2, 2), Shrink::Average, 1);
    assert_eq!(average([0, 0, 1, 1]), Ok(vec![1]));
    assert_eq!(average([0, 0, 0, 1]), Ok(vec![0]));
}

#[test]
fn g_blue_is_18() {
    assert_eq!(from_rgb(&[0, 0, 255], 1, 1, 1), Ok(vec![18]));
}

#[test]
fn h_moved_row() {
    let moved = |x| shifted(Frame::new(&[1, 2, 3], 3, 1), Shift::new(x, 0), 3);
    assert_eq!(moved(-1), Ok(vec![2, 3, 0]));
    assert_eq!(moved(3), Ok(vec![0, 0, 0]));
}

fn crop(x: u64, y: u64, width: u64, height: u64) -> Crop {
    Crop {
        x,
        y,
        width,
        height,
    }
}

#[test]
fn i_crop_of_three() {
    let shifts = [0, 0, 3, -2, -1, 1];
    assert_eq!(common_crop(&shifts, 10, 8), Ok(crop(3, 1, 6, 5)));
}

#[test]
fn j_crop_with_no_width() {
    assert_eq!(common_crop(&[12, 0], 10, 8), Ok(crop(12, 0, 0, 8)));
}
