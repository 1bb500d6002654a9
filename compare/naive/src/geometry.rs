//! Shifts, moved images and the crop.

use crate::gray::{Frame, by_pixel};
use crate::refusals::{COORDINATE_OUTSIDE, Refusal, WRONG_LENGTH, check_sides, refuse_if};

/// A move to the right and down.
#[derive(Clone, Copy, Debug, PartialEq, Eq)]
pub struct Shift {
    pub x: i32,
    pub y: i32,
}

impl Shift {
    pub const ZERO: Self = Self { x: 0, y: 0 };

    pub fn new(x: i32, y: i32) -> Self {
        Self { x, y }
    }

    /// 12.
    pub fn doubled(self) -> Result<Self, Refusal> {
        self.offset(self.x, self.y)
    }

    /// 12.
    pub fn offset(self, x: i32, y: i32) -> Result<Self, Refusal> {
        Ok(Self::new(sum(self.x, x)?, sum(self.y, y)?))
    }
}

fn sum(left: i32, right: i32) -> Result<i32, Refusal> {
    i32::try_from(i64::from(left) + i64::from(right))
        .map_err(|_| Refusal::new(COORDINATE_OUTSIDE, &[]))
}

/// Where a place reads from along one axis; `None` is outside.
pub(crate) fn source(destination: usize, shift: i32, side: usize) -> Option<usize> {
    let source = destination as i64 - i64::from(shift);
    if 0 <= source && source < side as i64 {
        Some(source as usize)
    } else {
        None
    }
}

/// Moving an image: 1, 2. `room` is the length of the output.
pub fn shifted(frame: Frame, shift: Shift, room: usize) -> Result<Vec<u8>, Refusal> {
    let Frame { width, height, .. } = frame;
    check_sides(&[width, height])?;
    refuse_if(!frame.is_whole() || room != width * height, WRONG_LENGTH)?;

    Ok(by_pixel(width, height, |x, y| {
        match (source(x, shift.x, width), source(y, shift.y, height)) {
            (Some(x), Some(y)) => frame.sample(x, y),
            _ => 0,
        }
    }))
}

/// A region of a frame.
#[derive(Clone, Copy, Debug, PartialEq, Eq)]
pub struct Crop {
    pub x: u64,
    pub y: u64,
    pub width: u64,
    pub height: u64,
}

/// The crop: 1, then 2 for an odd list. `shifts` holds x, then y for each frame.
pub fn common_crop(shifts: &[i32], width: usize, height: usize) -> Result<Crop, Refusal> {
    check_sides(&[width, height])?;
    refuse_if(!shifts.len().is_multiple_of(2), WRONG_LENGTH)?;

    let every_other = |first| shifts.iter().skip(first).step_by(2).copied();
    let (x, width) = span(every_other(0), width);
    let (y, height) = span(every_other(1), height);
    Ok(Crop {
        x,
        y,
        width,
        height,
    })
}

/// Start and width along one axis.
fn span(coordinates: impl Iterator<Item = i32>, side: usize) -> (u64, u64) {
    let (mut start, mut lost) = (0, 0);
    for coordinate in coordinates.map(i64::from) {
        start = start.max(coordinate);
        lost = lost.max(-coordinate);
    }
    let width = (side as i64 - lost - start).max(0);
    (start as u64, width as u64)
}
