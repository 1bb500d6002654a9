//! The calls on single frames and bitmaps.

use naive::bitmap::{self, Bitmap};
use naive::gray::{self, Frame};
use naive::refusals::HIGHEST_PERCENTILE;
use naive::shrink::{self, Shrink};
use naive::threshold::{self as cut, Packed};
use port::frames as port;
use trials::Outcome;
use trials::inputs::{Random, percentile_of, tolerance};
use trials::original;

use crate::agreed;
use crate::claims::Claim;
use crate::lent::Lent;

pub fn from_rgb(random: &mut Random, case: usize) -> Outcome {
    let claim = Claim::any(random, case, 24);
    let Claim { width, height, .. } = claim;
    let rgb = claim.rgb(random);
    let mut out = claim.room(random, claim.area());
    let input = format!("{claim}, RGB {rgb}, grey {out}");

    let status = port::from_rgb(rgb.list(), width, height, out.list_mut());
    rgb.is_kept(&input)?;
    agreed(
        &input,
        (status, out.after(&input, status)?),
        gray::from_rgb(rgb.list(), width, height, out.list().len()),
        Some(|| original::from_rgb(rgb.list(), width, height)),
    )
}

pub fn shrink2_average(random: &mut Random, case: usize) -> Outcome {
    shrink2(random, case, Shrink::Average)
}

pub fn shrink2_subsample(random: &mut Random, case: usize) -> Outcome {
    shrink2(random, case, Shrink::Subsample)
}

fn shrink2(random: &mut Random, case: usize, mode: Shrink) -> Outcome {
    let claim = Claim::any(random, case, 40);
    let samples = claim.samples(random);
    let mut out = claim.room(random, claim.halved_area());
    let input = format!("{claim}, samples {samples}, halved {out}");

    let frame = Frame::new(samples.list(), claim.width, claim.height);
    let status = port::shrink2(frame, mode, out.list_mut());
    samples.is_kept(&input)?;
    agreed(
        &input,
        (status, out.after(&input, status)?),
        shrink::shrink2(frame, mode, out.list().len()),
        Some(|| original::shrink2(frame, mode)),
    )
}

pub fn threshold(random: &mut Random, case: usize) -> Outcome {
    let claim = Claim::any(random, case, 30);
    let samples = claim.samples(random);
    cut_agrees(
        random,
        &samples,
        (claim.width, claim.height),
        percentile_of(case),
    )
}

/// Rows of no, one and several fours of samples, with and without a rest.
const TALLIED_WIDTHS: [usize; 6] = [0, 1, 3, 63, 64, 65];
const TALLIED_HEIGHTS: [usize; 5] = [0, 1, 7, 8, 9];
const TALLIED_SIZES: usize = TALLIED_WIDTHS.len() * TALLIED_HEIGHTS.len();
pub const TALLIES: usize = 2 * TALLIED_SIZES * (HIGHEST_PERCENTILE as usize + 1);

/// Two values, and as many samples of the lower one as the target asks for, or one
/// fewer: where one of them is left out of the bins, or counted twice, the cut moves.
/// Every size with every percentile.
pub fn tally(random: &mut Random, case: usize) -> Outcome {
    let (fewer, size, percentile) = (
        case % 2,
        case / 2 % TALLIED_SIZES,
        (case / (2 * TALLIED_SIZES)) as u8,
    );
    let width = TALLIED_WIDTHS[size % TALLIED_WIDTHS.len()];
    let height = TALLIED_HEIGHTS[size / TALLIED_WIDTHS.len()];
    let target = width * height * usize::from(percentile) / 100;

    let higher = 1 + random.below(255);
    let mut samples = vec![higher as u8; width * height];
    let lower = random.below(higher) as u8;
    for place in places(random, width, height)
        .into_iter()
        .take(target.saturating_sub(fewer))
    {
        samples[place] = lower;
    }
    let samples = Lent::holding(random, &samples);
    cut_agrees(random, &samples, (width, height), percentile)
}

/// The places of a frame in any order; of three frames one has the last column's first,
/// one those of the last row.
fn places(random: &mut Random, width: usize, height: usize) -> Vec<usize> {
    let mut places: Vec<usize> = (0..width * height).collect();
    for end in (1..places.len()).rev() {
        places.swap(end, random.below(end + 1));
    }
    match random.below(3) {
        0 => places.sort_by_key(|place| place % width != width - 1),
        1 => places.sort_by_key(|place| place / width != height - 1),
        _ => {}
    }
    places
}

fn cut_agrees(
    random: &mut Random,
    samples: &Lent<u8>,
    (width, height): (usize, usize),
    percentile: u8,
) -> Outcome {
    let mut out = Lent::room(random, 1);
    let input = format!("{width} by {height}, samples {samples}, percentile {percentile}");

    let frame = Frame::new(samples.list(), width, height);
    let status = port::threshold(frame, percentile, out.one_mut());
    samples.is_kept(&input)?;
    agreed(
        &input,
        (status, out.after(&input, status)?[0]),
        cut::threshold(frame, percentile),
        Some(|| original::threshold(frame, percentile)),
    )
}

pub fn compute_bitmaps(random: &mut Random, case: usize) -> Outcome {
    let claim = Claim::any(random, case, 20);
    let samples = claim.samples(random);
    let (percentile, tolerance) = (percentile_of(case), tolerance(random));
    let mut threshold = claim.room(random, claim.words());
    let mut exclusion = claim.room(random, claim.words());
    let input = format!(
        "{claim}, samples {samples}, percentile {percentile}, tolerance {tolerance}, \
         threshold {threshold}, exclusion {exclusion}"
    );

    let frame = Frame::new(samples.list(), claim.width, claim.height);
    let status = port::compute_bitmaps(
        frame,
        percentile,
        tolerance,
        threshold.list_mut(),
        exclusion.list_mut(),
    );
    samples.is_kept(&input)?;
    let written = Packed {
        threshold: threshold.after(&input, status)?,
        exclusion: exclusion.after(&input, status)?,
    };
    let room = [threshold.list().len(), exclusion.list().len()];
    agreed(
        &input,
        (status, written),
        cut::compute_bitmaps(frame, percentile, tolerance, room),
        Some(|| original::compute_bitmaps(frame, percentile, tolerance)),
    )
}

pub fn get(random: &mut Random, case: usize) -> Outcome {
    let claim = Claim::any(random, case, 12);
    let words = claim.bitmap(random);
    let (x, y) = claim.pixel(random);
    let mut out = Lent::room(random, 1);
    let input = format!("{claim}, words {words}, pixel ({x}, {y})");

    let bitmap = Bitmap::new(words.list(), claim.width, claim.height);
    let status = port::get(bitmap, x, y, out.one_mut());
    words.is_kept(&input)?;
    agreed(
        &input,
        (status, out.after(&input, status)?[0]),
        bitmap::get(bitmap, x, y),
        Some(|| original::get(bitmap, x, y)),
    )
}

/// The original has no bitmap with set padding, and a total is refused just there.
fn original_has(bitmap: Bitmap) -> bool {
    bitmap::count_ones(bitmap).is_ok()
}

pub fn set(random: &mut Random, case: usize) -> Outcome {
    let claim = Claim::any(random, case, 12);
    let mut words = claim.bitmap(random);
    let ((x, y), value) = (claim.pixel(random), random.one_in(2));
    let input = format!("{claim}, words {words}, pixel ({x}, {y}) to {value}");

    let status = port::set(words.list_mut(), claim.width, claim.height, x, y, value);
    let bitmap = Bitmap::new(words.list_before(), claim.width, claim.height);
    agreed(
        &input,
        (status, words.after(&input, status)?),
        bitmap::set(bitmap, x, y, value),
        original_has(bitmap).then_some(|| original::set(bitmap, x, y, value)),
    )
}

pub fn count_ones(random: &mut Random, case: usize) -> Outcome {
    let claim = Claim::any(random, case, 12);
    let words = claim.bitmap(random);
    let mut out = Lent::room(random, 1);
    let input = format!("{claim}, words {words}");

    let bitmap = Bitmap::new(words.list(), claim.width, claim.height);
    let status = port::count_ones(bitmap, out.one_mut());
    words.is_kept(&input)?;
    agreed(
        &input,
        (status, out.after(&input, status)?[0]),
        bitmap::count_ones(bitmap),
        Some(|| original::count_ones(bitmap)),
    )
}

/// A row is never refused: it is the empty part, at 0, where another call would be.
pub fn row(random: &mut Random, case: usize) -> Outcome {
    let claim = Claim::any(random, case, 12);
    let words = claim.bitmap(random);
    let (_, y) = claim.pixel(random);
    let mut start = Lent::room(random, 1);
    let input = format!("{claim}, words {words}, row {y}");

    let bitmap = Bitmap::new(words.list(), claim.width, claim.height);
    let length = port::row(bitmap, y, start.one_mut());
    words.is_kept(&input)?;
    let start = start.after(&input, 0)?[0];
    let place = bitmap::row_place(bitmap, y);
    let part = bitmap::row(bitmap, y);
    agreed(
        &input,
        (0, (start, words.part(start, length))),
        Ok((place.start, Some(part.to_vec()))),
        (!part.is_empty() && original_has(bitmap)).then_some(|| {
            let start = original::row_start(bitmap, y)?;
            Ok((start, Some(original::row(bitmap, y)?)))
        }),
    )
}
