//! The calls on shifts, moved frames and crops. Doubling and offsetting are too short
//! to time.

use std::hint::black_box;

use ::port::{Shift, moves as port};

use crate::frames::{accepted, frame, gray};
use crate::inputs::Input;
use crate::original;
use crate::race::race;
use crate::{Timed, timed};

pub fn shifted(input: &Input) -> Vec<Timed> {
    let (gray, frame) = (gray(input), frame(input));
    let mut out = vec![0; frame.samples.len()];
    let shift = Shift::new(5, -3);
    let times = race([
        &mut || {
            let gray = black_box(&gray);
            accepted(original::shifted(gray, shift.x, shift.y));
        },
        &mut || accepted(port::shifted(*black_box(&frame), shift, &mut out)),
    ]);
    vec![timed("shifted", 1.0, input, times)]
}

/// The crop of a whole stack.
pub fn common_crop(input: &Input) -> Vec<Timed> {
    let (width, height) = input.size;
    let pairs: Vec<mtb_align::Shift> = (0..16)
        .map(|n| mtb_align::Shift::new(n % 7 - 3, 5 - n))
        .collect();
    let list: Vec<i32> = pairs.iter().flat_map(|shift| [shift.x, shift.y]).collect();
    let [mut there, mut here] = [[0; 4]; 2];
    let times = race([
        &mut || {
            let (pairs, [x, y, wide, high]) = (black_box(&pairs), &mut there);
            accepted(original::common_crop(
                pairs.as_ptr(),
                pairs.len(),
                width,
                height,
                x,
                y,
                wide,
                high,
            ));
        },
        &mut || {
            let (list, slots) = (black_box(&list), here.each_mut());
            accepted(port::common_crop(list, width, height, slots));
        },
    ]);
    vec![timed("common_crop", 1.0, input, times)]
}
