//! The cut, and the two bits of a pixel.

use crate::bitmap::{packed, words_needed};
use crate::gray::{Frame, by_pixel};
use crate::refusals::{Refusal, WRONG_LENGTH, check_percentiles, check_sides, refuse_if};

/// The cut: 1, 2, 3.
pub fn threshold(frame: Frame, percentile: u8) -> Result<u16, Refusal> {
    check_sides(&[frame.width, frame.height])?;
    refuse_if(!frame.is_whole(), WRONG_LENGTH)?;
    check_percentiles(&[percentile])?;
    Ok(cut(frame.samples, percentile))
}

/// The least number of bins, counted from 0 up, that hold the target.
fn cut(samples: &[u8], percentile: u8) -> u16 {
    let target = samples.len() * usize::from(percentile) / 100;
    let held_by = |bins: u16| samples.iter().filter(|&&s| u16::from(s) < bins).count();
    (0..=256)
        .find(|&bins| held_by(bins) >= target)
        .expect("256 bins hold every sample, and the target is no more")
}

/// The two bits of a pixel.
#[derive(Clone, Copy)]
pub(crate) struct Bits {
    pub threshold: bool,
    pub exclusion: bool,
}

/// The two bits of every pixel of a frame, unpacked.
pub(crate) struct BitFrame {
    pub width: usize,
    pub height: usize,
    bits: Vec<Bits>,
}

impl BitFrame {
    pub fn new(width: usize, height: usize, bits: impl Fn(usize, usize) -> Bits) -> Self {
        Self {
            width,
            height,
            bits: by_pixel(width, height, bits),
        }
    }

    /// A frame, cut by itself.
    pub fn of(frame: Frame, percentile: u8, tolerance: u8) -> Self {
        let cut = cut(frame.samples, percentile);
        Self::new(frame.width, frame.height, |x, y| {
            let sample = u16::from(frame.sample(x, y));
            Bits {
                threshold: sample > cut,
                exclusion: sample.abs_diff(cut) > u16::from(tolerance),
            }
        })
    }

    pub fn at(&self, x: usize, y: usize) -> Bits {
        self.bits[y * self.width + x]
    }
}

/// The words of a threshold bitmap and of the exclusion bitmap beside it.
#[derive(Clone, Debug, PartialEq, Eq)]
pub struct Packed {
    pub threshold: Vec<u64>,
    pub exclusion: Vec<u64>,
}

/// Packing: 1, 2, 3. `room` holds the lengths of both bitmaps, threshold first.
pub fn compute_bitmaps(
    frame: Frame,
    percentile: u8,
    tolerance: u8,
    room: [usize; 2],
) -> Result<Packed, Refusal> {
    let Frame { width, height, .. } = frame;
    check_sides(&[width, height])?;
    refuse_if(
        !frame.is_whole() || room != [words_needed(width, height); 2],
        WRONG_LENGTH,
    )?;
    check_percentiles(&[percentile])?;

    let bits = BitFrame::of(frame, percentile, tolerance);
    Ok(Packed {
        threshold: packed(width, height, |x, y| bits.at(x, y).threshold),
        exclusion: packed(width, height, |x, y| bits.at(x, y).exclusion),
    })
}
