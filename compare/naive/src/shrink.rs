//! Halving.

use crate::gray::{Frame, by_pixel};
use crate::refusals::{Refusal, WRONG_LENGTH, check_sides, refuse_if};

#[derive(Clone, Copy, Debug, PartialEq, Eq)]
pub enum Shrink {
    Average,
    Subsample,
}

/// Halving: 1, 2. `room` is the length of the output.
pub fn shrink2(frame: Frame, shrink: Shrink, room: usize) -> Result<Vec<u8>, Refusal> {
    check_sides(&[frame.width, frame.height])?;
    refuse_if(
        !frame.is_whole() || room != (frame.width / 2) * (frame.height / 2),
        WRONG_LENGTH,
    )?;
    Ok(halved(frame, shrink))
}

pub(crate) fn halved(frame: Frame, shrink: Shrink) -> Vec<u8> {
    by_pixel(frame.width / 2, frame.height / 2, |x, y| {
        let sample = |right, down| u32::from(frame.sample(2 * x + right, 2 * y + down));
        let halved = match shrink {
            Shrink::Average => (sample(0, 0) + sample(1, 0) + sample(0, 1) + sample(1, 1) + 2) / 4,
            Shrink::Subsample => sample(0, 0),
        };
        halved as u8
    })
}
