//! The calls on one image, one bitmap, two bitmaps, or shifts alone.

use naive::bitmap::{Bitmap, words_needed, words_per_row};
use naive::difference::{Pair, disagreement as count};
use naive::geometry::{self, Shift};
use naive::gray::Frame;
use naive::{gray, threshold as cut};
use trials::Outcome;
use trials::inputs::{
    ANY, Random, any_shift, colours, doubling, percentile_of, perhaps_wrong, shift_list, shrink,
    size, tolerance, two_pairs, words,
};
use trials::{original, recount, scenes};

use crate::same;

/// A frame's samples, now and then of a wrong length.
pub fn samples(random: &mut Random, width: usize, height: usize) -> Vec<u8> {
    let mut samples = scenes::frame(random, width, height);
    let length = perhaps_wrong(random, samples.len());
    samples.resize(length, 77);
    samples
}

pub fn from_rgb(random: &mut Random, _: usize) -> Outcome {
    let (width, height) = size(random, 24);
    let length = perhaps_wrong(random, 3 * width * height);
    let rgb = colours(random, length);
    same(
        &format!("{width} by {height}, {length} bytes"),
        &gray::from_rgb(&rgb, width, height, width * height),
        &original::from_rgb(&rgb, width, height),
    )
}

pub fn shrink2(random: &mut Random, _: usize) -> Outcome {
    let (width, height) = size(random, 40);
    let samples = samples(random, width, height);
    let (frame, mode) = (Frame::new(&samples, width, height), shrink(random));
    same(
        &format!("{width} by {height}, {mode:?}"),
        &naive::shrink::shrink2(frame, mode, (width / 2) * (height / 2)),
        &original::shrink2(frame, mode),
    )
}

pub fn shifted(random: &mut Random, _: usize) -> Outcome {
    let (width, height) = size(random, 24);
    let samples = samples(random, width, height);
    let frame = Frame::new(&samples, width, height);
    let shift = any_shift(random, (width, height));
    same(
        &format!("{width} by {height}, {shift:?}"),
        &geometry::shifted(frame, shift, width * height),
        &original::shifted(frame, shift),
    )
}

pub fn threshold(random: &mut Random, case: usize) -> Outcome {
    let (width, height) = size(random, 30);
    let samples = samples(random, width, height);
    let frame = Frame::new(&samples, width, height);
    let percentile = percentile_of(case);
    same(
        &format!("{width} by {height}, percentile {percentile}"),
        &cut::threshold(frame, percentile),
        &original::threshold(frame, percentile),
    )
}

pub fn compute_bitmaps(random: &mut Random, case: usize) -> Outcome {
    let (width, height) = size(random, 20);
    let samples = samples(random, width, height);
    let frame = Frame::new(&samples, width, height);
    let (percentile, tolerance) = (percentile_of(case), tolerance(random));
    // The original's words are held against its own pixels and clear padding where
    // they are taken out of it.
    same(
        &format!("{width} by {height}, percentile {percentile}, tolerance {tolerance}"),
        &cut::compute_bitmaps(
            frame,
            percentile,
            tolerance,
            [words_needed(width, height); 2],
        ),
        &original::compute_bitmaps(frame, percentile, tolerance),
    )
}

/// A bitmap and a pixel in or about it.
fn pixel(random: &mut Random) -> (Vec<u64>, [usize; 4]) {
    let (width, height) = size(random, 12);
    let words = words(random, (width, height), ANY);
    let (x, y) = (random.below(width + 2), random.below(height + 2));
    (words, [width, height, x, y])
}

pub fn get(random: &mut Random, _: usize) -> Outcome {
    let (words, [width, height, x, y]) = pixel(random);
    let bitmap = Bitmap::new(&words, width, height);
    same(
        &format!("{width} by {height} at ({x}, {y})"),
        &naive::bitmap::get(bitmap, x, y),
        &original::get(bitmap, x, y),
    )
}

pub fn set(random: &mut Random, _: usize) -> Outcome {
    let (words, [width, height, x, y]) = pixel(random);
    let (bitmap, value) = (Bitmap::new(&words, width, height), random.one_in(2));
    same(
        &format!("{width} by {height} at ({x}, {y}) to {value}"),
        &naive::bitmap::set(bitmap, x, y, value),
        &original::set(bitmap, x, y, value),
    )
}

pub fn count_ones(random: &mut Random, _: usize) -> Outcome {
    let (words, [width, height, ..]) = pixel(random);
    let bitmap = Bitmap::new(&words, width, height);
    same(
        &format!("{width} by {height}"),
        &naive::bitmap::count_ones(bitmap),
        &original::count_ones(bitmap),
    )
}

/// Where the original panics, the row is empty.
pub fn row(random: &mut Random, _: usize) -> Outcome {
    let (words, [width, height, _, y]) = pixel(random);
    let bitmap = Bitmap::new(&words, width, height);
    let input = format!("{width} by {height}, row {y}");
    let answer = original::row(bitmap, y).unwrap_or_default();
    same(&input, &naive::bitmap::row(bitmap, y).to_vec(), &answer)?;
    let start = original::row_start(bitmap, y).unwrap_or_default();
    same(&input, &naive::bitmap::row_place(bitmap, y).start, &start)?;
    same(
        &input,
        &words_per_row(width),
        &original::words_per_row(width),
    )
}

pub fn doubled(random: &mut Random, _: usize) -> Outcome {
    let shift = Shift::new(doubling(random), doubling(random));
    same(
        &format!("{shift:?}"),
        &shift.doubled(),
        &original::doubled(shift),
    )
}

pub fn offset(random: &mut Random, _: usize) -> Outcome {
    let [x, y, right, down] = [(); 4].map(|()| doubling(random));
    let shift = Shift::new(x, y);
    same(
        &format!("{shift:?} by ({right}, {down})"),
        &shift.offset(right, down),
        &original::offset(shift, right, down),
    )
}

pub fn common_crop(random: &mut Random, _: usize) -> Outcome {
    let (width, height) = size(random, 24);
    let shifts = shift_list(random, (width, height));
    let input = format!("{width} by {height}, {shifts:?}");
    let crop = geometry::common_crop(&shifts, width, height);
    same(
        &input,
        &crop,
        &original::common_crop(&shifts, width, height),
    )?;

    let crop = crop.expect("sides and list are sound");
    if recount::crop_is_what_all_cover(crop, &shifts, width, height) {
        Ok(())
    } else {
        Err(format!("{input}: {crop:?} is not what all frames cover"))
    }
}

pub fn disagreement(random: &mut Random, case: usize) -> Outcome {
    let (width, height) = size(random, 12);
    let maps: [Vec<u64>; 4] = match random.one_in(2) {
        true => two_pairs(random, (width, height)),
        false => packed_frames(random, width, height, case),
    };
    // Another width with as many words, so that only the size can be at fault.
    let other_width = match random.one_in(12) {
        true => width.next_multiple_of(64),
        false => width,
    };
    let pair = |first: usize, width| Pair {
        threshold: &maps[first],
        exclusion: &maps[first + 1],
        width,
        height,
    };
    let (reference, target) = (pair(0, width), pair(2, other_width));
    let shift = any_shift(random, (width, height));

    let input = format!("{width} and {other_width} by {height}, {shift:?}");
    let counts = count(reference, target, shift);
    let disagreeing = counts.clone().map(|counts| counts.disagreeing);
    same(
        &input,
        &disagreeing,
        &original::disagreement(reference, target, shift),
    )?;
    let Ok(counts) = counts else {
        return Ok(());
    };

    let trusted = |words: &[u64]| original::bitmap_of(Bitmap::new(words, width, height));
    let compared = recount::compared(
        &trusted(reference.exclusion),
        &trusted(target.exclusion),
        shift,
    );
    same(&input, &counts.compared, &compared)
}

/// Both bitmaps of two frames of one scene.
fn packed_frames(random: &mut Random, width: usize, height: usize, case: usize) -> [Vec<u64>; 4] {
    let frames = scenes::bracket(random, width, height, 2);
    let packed = |samples: &[u8]| {
        let frame = Frame::new(samples, width, height);
        let room = [words_needed(width, height); 2];
        cut::compute_bitmaps(frame, (case % 101) as u8, 4, room).expect("a sound frame")
    };
    let (reference, target) = (packed(&frames[0]), packed(&frames[1]));
    [
        reference.threshold,
        reference.exclusion,
        target.threshold,
        target.exclusion,
    ]
}
