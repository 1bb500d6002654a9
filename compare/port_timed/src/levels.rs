//! The pyramid, for as many bits as a search has. The original's begins with a copy of
//! the frame. A level's place and a step's scratch are too short to time.

use std::hint::black_box;

use ::port::{Shrink, halved_samples, levels as port};

use crate::frames::{accepted, frame, gray};
use crate::inputs::Input;
use crate::original;
use crate::race::race;
use crate::search::OPTIONS;
use crate::{Timed, timed};

pub fn pyramid(input: &Input) -> Vec<Timed> {
    let (width, height) = input.size;
    let (gray, frame, bits) = (gray(input), frame(input), OPTIONS.bits);
    let mut scratch = vec![0; halved_samples(width, height, bits)];
    let mut times = |mode| {
        let subsampled = mode == Shrink::Subsample;
        race([
            &mut || accepted(original::pyramid(black_box(&gray), bits, subsampled)),
            &mut || {
                let frame = *black_box(&frame);
                accepted(port::pyramid(frame, bits, mode, &mut scratch));
            },
        ])
    };
    let average = times(Shrink::Average);
    let subsample = times(Shrink::Subsample);
    vec![
        timed("pyramid average", 2.0, input, average),
        timed("pyramid subsample", 2.0, input, subsample),
    ]
}
