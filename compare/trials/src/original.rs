//! The original, asked with plain lists and answering in the scope's terms: its
//! errors and the panics that it documents become the refusals that stand for them.

use std::any::Any;
use std::cell::Cell;
use std::panic::{AssertUnwindSafe, catch_unwind, resume_unwind, set_hook, take_hook};
use std::sync::Once;

use mtb_align as original;
use naive::Refusal;
use naive::align::{Exposure, Options, Stack};
use naive::bitmap::{Bitmap, get as bit};
use naive::difference::Pair;
use naive::geometry::{Crop, Shift};
use naive::gray::Frame;
use naive::refusals::{
    COORDINATE_OUTSIDE, NO_PERCENTILE, NO_SUCH_REFERENCE, PIXEL_OUTSIDE, SIZES_DIFFER, WRONG_LENGTH,
};
use naive::shrink::Shrink;
use naive::threshold::Packed;

use crate::recount;

/// What the original's panics say, and the refusals that stand for them.
const PANICS: [(&str, u32); 6] = [
    (" samples, got ", WRONG_LENGTH),
    (" is not a percentile", NO_PERCENTILE),
    ("cannot compare a ", SIZES_DIFFER),
    (" is outside a ", PIXEL_OUTSIDE),
    (" out of range for slice ", PIXEL_OUTSIDE),
    (" with overflow", COORDINATE_OUTSIDE),
];

thread_local! {
    static ASKING: Cell<bool> = const { Cell::new(false) };
}

/// Runs the original. Panics meanwhile print nothing; one that is not documented
/// goes on.
fn ask<T>(call: impl FnOnce() -> Result<T, original::Error>) -> Result<T, Refusal> {
    static QUIET: Once = Once::new();
    QUIET.call_once(|| {
        let loud = take_hook();
        set_hook(Box::new(move |panic| {
            if !ASKING.get() {
                loud(panic);
            }
        }));
    });

    ASKING.set(true);
    let answer = catch_unwind(AssertUnwindSafe(call));
    ASKING.set(false);
    match answer {
        Ok(answer) => answer.map_err(refusal_of_error),
        Err(panic) => Err(refusal_of_panic(panic)),
    }
}

fn refusal_of_error(error: original::Error) -> Refusal {
    match error {
        original::Error::SizeMismatch { reference, target } => Refusal::new(
            SIZES_DIFFER,
            &[reference.0, reference.1, target.0, target.1],
        ),
        original::Error::NoSuchReference {
            reference,
            exposures,
        } => Refusal::new(NO_SUCH_REFERENCE, &[reference, exposures]),
    }
}

fn refusal_of_panic(panic: Box<dyn Any + Send>) -> Refusal {
    let said = match (panic.downcast_ref::<String>(), panic.downcast_ref::<&str>()) {
        (Some(said), _) => said.as_str(),
        (_, Some(said)) => said,
        _ => "",
    };
    let known = PANICS.iter().find(|(words, _)| said.contains(words));
    match known {
        Some(&(_, SIZES_DIFFER)) => Refusal::new(SIZES_DIFFER, &numbers_in(said)),
        Some(&(_, number)) => Refusal::new(number, &[]),
        None => {
            eprintln!("the original panicked: {said}");
            resume_unwind(panic)
        }
    }
}

/// The sizes that the original names when they differ.
fn numbers_in(said: &str) -> Vec<usize> {
    said.split(|c: char| !c.is_ascii_digit())
        .filter_map(|digits| digits.parse().ok())
        .collect()
}

/// A frame of the original's own.
pub fn gray(frame: Frame) -> original::Gray {
    original::Gray::from_vec(frame.samples.to_vec(), frame.width, frame.height)
}

pub(crate) fn shrink_of(shrink: Shrink) -> original::Shrink {
    match shrink {
        Shrink::Average => original::Shrink::Average,
        Shrink::Subsample => original::Shrink::Subsample,
    }
}

/// Whether the original can be asked: it has one percentile for all frames.
pub fn has_one(percentiles: &[u8]) -> bool {
    percentiles.windows(2).all(|two| two[0] == two[1])
}

/// With the one percentile of these; of no frames it is no matter which.
pub fn options_of(options: &Options, percentiles: &[u8]) -> original::Options {
    assert!(has_one(percentiles), "the original has one percentile");
    let percentile = percentiles.first().copied().unwrap_or_default();
    original::Options {
        bits: options.bits,
        tolerance: options.tolerance,
        percentile: original::Percentile::new(percentile),
        shrink: shrink_of(options.shrink),
    }
}

fn shift_of(shift: Shift) -> original::Shift {
    original::Shift::new(shift.x, shift.y)
}

fn plain(shift: original::Shift) -> Shift {
    Shift::new(shift.x, shift.y)
}

/// The original's bitmap of these words. It has no padding of its own to set.
pub fn bitmap_of(bitmap: Bitmap) -> original::Bitmap {
    let mut set = original::Bitmap::zeros(bitmap.width, bitmap.height);
    for y in 0..bitmap.height {
        for x in 0..bitmap.width {
            set.set(x, y, bit(bitmap, x, y) == Ok(true));
        }
    }
    set
}

fn pair_of(pair: Pair) -> original::Bitmaps {
    let bitmap = |words| bitmap_of(Bitmap::new(words, pair.width, pair.height));
    original::Bitmaps {
        threshold: bitmap(pair.threshold),
        exclusion: bitmap(pair.exclusion),
    }
}

/// A bitmap's words through its rows, held against each bit through `get`.
pub fn words_of(bitmap: &original::Bitmap) -> Vec<u64> {
    let words: Vec<u64> = (0..bitmap.height())
        .flat_map(|y| bitmap.row(y).to_vec())
        .collect();
    let again = naive::bitmap::packed(bitmap.width(), bitmap.height(), |x, y| bitmap.get(x, y));
    assert!(words == again, "rows and pixels of a bitmap differ");
    words
}

pub fn from_rgb(rgb: &[u8], width: usize, height: usize) -> Result<Vec<u8>, Refusal> {
    ask(|| {
        let gray = original::Gray::from_rgb(rgb, width, height);
        Ok(gray.as_slice().to_vec())
    })
}

pub fn shrink2(frame: Frame, shrink: Shrink) -> Result<Vec<u8>, Refusal> {
    ask(|| {
        let halved = original::shrink2(&gray(frame), shrink_of(shrink));
        Ok(halved.as_slice().to_vec())
    })
}

/// The halved levels. The original's own list of them is private.
pub fn pyramid(frame: Frame, bits: u32, shrink: Shrink) -> Result<Vec<Vec<u8>>, Refusal> {
    ask(|| Ok(recount::halved_levels(frame, bits, shrink)))
}

pub fn shifted(frame: Frame, shift: Shift) -> Result<Vec<u8>, Refusal> {
    ask(|| {
        let moved = gray(frame).shifted(shift_of(shift));
        Ok(moved.as_slice().to_vec())
    })
}

pub fn threshold(frame: Frame, percentile: u8) -> Result<u16, Refusal> {
    ask(|| {
        let gray = gray(frame);
        let percentile = original::Percentile::new(percentile);
        Ok(original::threshold(&gray, percentile))
    })
}

pub fn compute_bitmaps(frame: Frame, percentile: u8, tolerance: u8) -> Result<Packed, Refusal> {
    ask(|| {
        let gray = gray(frame);
        let percentile = original::Percentile::new(percentile);
        let bitmaps = original::compute_bitmaps(&gray, percentile, tolerance);
        Ok(Packed {
            threshold: words_of(&bitmaps.threshold),
            exclusion: words_of(&bitmaps.exclusion),
        })
    })
}

pub fn words_per_row(width: usize) -> usize {
    original::Bitmap::zeros(width, 1).words_per_row()
}

pub fn get(bitmap: Bitmap, x: usize, y: usize) -> Result<bool, Refusal> {
    ask(|| Ok(bitmap_of(bitmap).get(x, y)))
}

pub fn set(bitmap: Bitmap, x: usize, y: usize, value: bool) -> Result<Vec<u64>, Refusal> {
    ask(|| {
        let mut bitmap = bitmap_of(bitmap);
        bitmap.set(x, y, value);
        Ok(words_of(&bitmap))
    })
}

pub fn count_ones(bitmap: Bitmap) -> Result<u64, Refusal> {
    ask(|| Ok(bitmap_of(bitmap).count_ones()))
}

pub fn row(bitmap: Bitmap, y: usize) -> Result<Vec<u64>, Refusal> {
    ask(|| Ok(bitmap_of(bitmap).row(y).to_vec()))
}

/// How many words stand before those of a row.
pub fn row_start(bitmap: Bitmap, y: usize) -> Result<usize, Refusal> {
    ask(|| {
        let bitmap = bitmap_of(bitmap);
        let rows = (0..=y).map(|row| bitmap.row(row).len());
        Ok(rows.sum::<usize>() - bitmap.words_per_row())
    })
}

pub fn doubled(shift: Shift) -> Result<Shift, Refusal> {
    ask(|| Ok(plain(shift_of(shift).doubled())))
}

pub fn offset(shift: Shift, x: i32, y: i32) -> Result<Shift, Refusal> {
    ask(|| Ok(plain(shift_of(shift).offset(x, y))))
}

/// The crop of a whole shift list: the original has pairs, so no odd list.
pub fn common_crop(shifts: &[i32], width: usize, height: usize) -> Result<Crop, Refusal> {
    ask(|| {
        let shifts: Vec<_> = shifts
            .chunks_exact(2)
            .map(|pair| original::Shift::new(pair[0], pair[1]))
            .collect();
        let crop = original::common_crop(&shifts, width, height);
        Ok(Crop {
            x: crop.x as u64,
            y: crop.y as u64,
            width: crop.width as u64,
            height: crop.height as u64,
        })
    })
}

/// The count of disagreeing pixels; the original does not count the compared ones.
pub fn disagreement(reference: Pair, target: Pair, shift: Shift) -> Result<u64, Refusal> {
    ask(|| {
        let (reference, target) = (pair_of(reference), pair_of(target));
        Ok(original::disagreement(&reference, &target, shift_of(shift)))
    })
}

/// The step of two frames that are cut at one percentile.
pub fn shift(reference: Exposure, target: Exposure, options: &Options) -> Result<Shift, Refusal> {
    ask(|| {
        let options = options_of(options, &[reference.percentile, target.percentile]);
        original::shift(&gray(reference.frame), &gray(target.frame), &options).map(plain)
    })
}

/// The shift list of a stack whose samples are as many as its sizes ask for, and whose frames
/// are all cut at one percentile.
pub fn align_stack(stack: Stack, options: &Options) -> Result<Vec<i32>, Refusal> {
    ask(|| {
        let mut rest = stack.samples;
        let mut frames = Vec::new();
        for (&width, &height) in stack.widths.iter().zip(stack.heights) {
            let (samples, others) = rest.split_at(width * height);
            frames.push(gray(Frame::new(samples, width, height)));
            rest = others;
        }
        let options = options_of(options, stack.percentiles);
        let shifts = original::align_stack(&frames, stack.reference, &options)?;
        Ok(shifts.iter().flat_map(|shift| [shift.x, shift.y]).collect())
    })
}
