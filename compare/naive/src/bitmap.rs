//! Packed bitmaps: 64 pixels a word, lowest bit first, rows padded with clear bits.

use std::ops::Range;

use crate::refusals::{PADDING_SET, PIXEL_OUTSIDE, Refusal, WRONG_LENGTH, check_sides, refuse_if};

pub fn words_per_row(width: usize) -> usize {
    width.div_ceil(64)
}

pub fn words_needed(width: usize, height: usize) -> usize {
    height * words_per_row(width)
}

/// A bitmap as a caller lends it: words row by row and the size they claim.
#[derive(Clone, Copy, Debug)]
pub struct Bitmap<'a> {
    pub words: &'a [u64],
    pub width: usize,
    pub height: usize,
}

impl<'a> Bitmap<'a> {
    pub fn new(words: &'a [u64], width: usize, height: usize) -> Self {
        Self {
            words,
            width,
            height,
        }
    }

    /// Whether the words fill the size. Ask only after the sides are checked.
    pub(crate) fn is_whole(&self) -> bool {
        self.words.len() == words_needed(self.width, self.height)
    }

    /// The bit at a column of a row, padding columns included.
    pub(crate) fn bit(&self, x: usize, y: usize) -> bool {
        let word = self.words[y * words_per_row(self.width) + x / 64];
        (word >> (x % 64)) & 1 == 1
    }

    pub(crate) fn padding_is_clear(&self) -> bool {
        let padding = self.width..64 * words_per_row(self.width);
        (0..self.height).all(|y| padding.clone().all(|x| !self.bit(x, y)))
    }
}

/// The words whose bits are a function of column and row.
pub fn packed(width: usize, height: usize, bit: impl Fn(usize, usize) -> bool) -> Vec<u64> {
    let mut words = vec![0; words_needed(width, height)];
    for y in 0..height {
        for x in 0..width {
            if bit(x, y) {
                words[y * words_per_row(width) + x / 64] |= 1 << (x % 64);
            }
        }
    }
    words
}

/// The checks that all calls on one bitmap begin with: 1, 2.
fn check_size(bitmap: &Bitmap) -> Result<(), Refusal> {
    check_sides(&[bitmap.width, bitmap.height])?;
    refuse_if(!bitmap.is_whole(), WRONG_LENGTH)
}

/// Reading a pixel: 1, 2, 11.
pub fn get(bitmap: Bitmap, x: usize, y: usize) -> Result<bool, Refusal> {
    check_size(&bitmap)?;
    refuse_if(x >= bitmap.width || y >= bitmap.height, PIXEL_OUTSIDE)?;
    Ok(bitmap.bit(x, y))
}

/// Setting a pixel: 1, 2, 11. Answers with the words as they then stand.
pub fn set(bitmap: Bitmap, x: usize, y: usize, value: bool) -> Result<Vec<u64>, Refusal> {
    get(bitmap, x, y)?;
    let mut words = bitmap.words.to_vec();
    let word = &mut words[y * words_per_row(bitmap.width) + x / 64];
    let bit = 1 << (x % 64);
    *word = if value { *word | bit } else { *word & !bit };
    Ok(words)
}

/// Total of set bits: 1, 2, 8.
pub fn count_ones(bitmap: Bitmap) -> Result<u64, Refusal> {
    check_size(&bitmap)?;
    refuse_if(!bitmap.padding_is_clear(), PADDING_SET)?;

    let mut total = 0;
    for y in 0..bitmap.height {
        for x in 0..bitmap.width {
            total += u64::from(bitmap.bit(x, y));
        }
    }
    Ok(total)
}

/// One row: the empty part where 1, 2 or 11 holds.
pub fn row(bitmap: Bitmap<'_>, y: usize) -> &[u64] {
    &bitmap.words[row_place(bitmap, y)]
}

/// Where that row stands in the words: the empty part is at 0.
pub fn row_place(bitmap: Bitmap, y: usize) -> Range<usize> {
    if check_size(&bitmap).is_err() || y >= bitmap.height {
        return 0..0;
    }
    let length = words_per_row(bitmap.width);
    y * length..(y + 1) * length
}
