//! A colour sensor's mosaic taken apart into four planes, and put together from them. Rows and
//! columns count from 0.

use crate::gray::{Frame, by_pixel};
use crate::refusals::{Refusal, WRONG_LENGTH, check_sides, refuse_if};

/// Where a plane starts in the list of all four, and its size.
#[derive(Clone, Copy, Debug, PartialEq, Eq)]
pub struct Plane {
    pub start: usize,
    pub width: usize,
    pub height: usize,
}

impl Plane {
    /// The plane's part of the list: the empty one where a side is over the limit, or where
    /// the plane does not lie inside.
    pub fn part(self, planes: &[u8]) -> &[u8] {
        if check_sides(&[self.width, self.height]).is_err() {
            return &[];
        }
        let rest = planes.get(self.start..).unwrap_or_default();
        rest.get(..self.width * self.height).unwrap_or_default()
    }

    /// The same as a frame, which the aligner takes as any other.
    pub fn frame(self, planes: &[u8]) -> Frame<'_> {
        Frame::new(self.part(planes), self.width, self.height)
    }
}

/// The planes by which rows they have of the mosaic, and then which columns, in the order in
/// which they stand.
#[derive(Clone, Copy, Debug, PartialEq, Eq)]
pub struct Planes {
    pub even_even: Plane,
    pub even_odd: Plane,
    pub odd_even: Plane,
    pub odd_odd: Plane,
}

impl Planes {
    pub fn from_order([even_even, even_odd, odd_even, odd_odd]: [Plane; 4]) -> Self {
        Self {
            even_even,
            even_odd,
            odd_even,
            odd_odd,
        }
    }

    pub fn in_order(self) -> [Plane; 4] {
        [self.even_even, self.even_odd, self.odd_even, self.odd_odd]
    }
}

/// The first row and the first column that each plane has of the mosaic.
const FIRST: [(usize, usize); 4] = [(0, 0), (0, 1), (1, 0), (1, 1)];

/// How many rows or columns of a side are the first one or a whole number of twos behind it.
fn every_other(first: usize, side: usize) -> usize {
    (first..side).step_by(2).count()
}

/// The planes of a mosaic of this size: 1.
pub fn layout(width: usize, height: usize) -> Result<Planes, Refusal> {
    check_sides(&[width, height])?;
    let mut start = 0;
    Ok(Planes::from_order(FIRST.map(|(row, column)| {
        let plane = Plane {
            start,
            width: every_other(column, width),
            height: every_other(row, height),
        };
        start += plane.width * plane.height;
        plane
    })))
}

/// The checks of both ways, 1, 2 for the mosaic's list, 2 for that of the planes: answers with
/// the layout.
fn checked(width: usize, height: usize, mosaic: usize, planes: usize) -> Result<Planes, Refusal> {
    let layout = layout(width, height)?;
    refuse_if(mosaic != width * height, WRONG_LENGTH)?;
    refuse_if(planes != width * height, WRONG_LENGTH)?;
    Ok(layout)
}

/// Taking apart, plane by plane. `room` is the length of the output.
pub fn take_apart(
    mosaic: &[u8],
    width: usize,
    height: usize,
    room: usize,
) -> Result<Vec<u8>, Refusal> {
    let layout = checked(width, height, mosaic.len(), room)?;
    let mosaic = Frame::new(mosaic, width, height);
    let planes = layout.in_order().into_iter().zip(FIRST);
    let samples = planes.flat_map(|(plane, (row, column))| {
        by_pixel(plane.width, plane.height, |u, v| {
            mosaic.sample(2 * u + column, 2 * v + row)
        })
    });
    Ok(samples.collect())
}

/// Putting together, pixel by pixel of the mosaic. `room` is the length of the output.
pub fn put_together(
    planes: &[u8],
    width: usize,
    height: usize,
    room: usize,
) -> Result<Vec<u8>, Refusal> {
    let layout = checked(width, height, room, planes.len())?;
    Ok(by_pixel(width, height, |x, y| {
        let plane = match (y % 2, x % 2) {
            (0, 0) => layout.even_even,
            (0, _) => layout.even_odd,
            (_, 0) => layout.odd_even,
            (_, _) => layout.odd_odd,
        };
        plane.frame(planes).sample(x / 2, y / 2)
    }))
}
