//! Frames, and grey from RGB.

use crate::refusals::{Refusal, WRONG_LENGTH, check_sides, refuse_if};

/// A frame as a caller lends it: samples row by row and the size they claim.
#[derive(Clone, Copy, Debug)]
pub struct Frame<'a> {
    pub samples: &'a [u8],
    pub width: usize,
    pub height: usize,
}

impl<'a> Frame<'a> {
    pub fn new(samples: &'a [u8], width: usize, height: usize) -> Self {
        Self {
            samples,
            width,
            height,
        }
    }

    /// Whether the samples fill the size. Ask only after the sides are checked.
    pub(crate) fn is_whole(&self) -> bool {
        self.samples.len() == self.width * self.height
    }

    pub(crate) fn sample(&self, x: usize, y: usize) -> u8 {
        self.samples[y * self.width + x]
    }
}

/// The list of an image given by its pixels, row by row.
pub(crate) fn by_pixel<T>(
    width: usize,
    height: usize,
    pixel: impl Fn(usize, usize) -> T,
) -> Vec<T> {
    let mut image = Vec::new();
    for y in 0..height {
        for x in 0..width {
            image.push(pixel(x, y));
        }
    }
    image
}

/// Grey from RGB: 1, 2. `room` is the length of the output.
pub fn from_rgb(rgb: &[u8], width: usize, height: usize, room: usize) -> Result<Vec<u8>, Refusal> {
    check_sides(&[width, height])?;
    refuse_if(
        rgb.len() != 3 * width * height || room != width * height,
        WRONG_LENGTH,
    )?;

    Ok(by_pixel(width, height, |x, y| {
        let channel = |number: usize| u32::from(rgb[3 * (y * width + x) + number]);
        ((54 * channel(0) + 183 * channel(1) + 19 * channel(2)) / 256) as u8
    }))
}
