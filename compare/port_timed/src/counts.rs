//! The two counts of packed pairs. The original counts only those that disagree.

use std::hint::black_box;

use ::port::{Pair, Shift, counts as port, frames as packing, words_needed};
use mtb_align::{Percentile, compute_bitmaps};

use crate::frames::{PERCENTILE, TOLERANCE, accepted, frame, gray};
use crate::inputs::Input;
use crate::original;
use crate::race::race;
use crate::{Timed, timed};

const SHIFTS: [(&str, i32); 6] = [
    ("disagreement at 0", 0),
    ("disagreement at 1", 1),
    ("disagreement at -1", -1),
    ("disagreement at 63", 63),
    ("disagreement at 64", 64),
    ("disagreement at -65", -65),
];

/// At shifts along the rows. A shift by whole words needs no funnelling.
pub fn disagreement(input: &Input) -> Vec<Timed> {
    let (width, height) = input.size;
    let bitmaps = compute_bitmaps(&gray(input), Percentile::new(PERCENTILE), TOLERANCE);
    let mut maps = [(); 2].map(|()| vec![0; words_needed(width, height)]);
    let [threshold, exclusion] = &mut maps;
    accepted(packing::compute_bitmaps(
        frame(input),
        PERCENTILE,
        TOLERANCE,
        threshold,
        exclusion,
    ));
    let pair = Pair {
        threshold: &maps[0],
        exclusion: &maps[1],
        width,
        height,
    };
    let half = ("disagreement at half", width as i32 / 2);
    let shifts = SHIFTS.into_iter().chain([half]);
    shifts
        .map(|(name, x)| {
            let [mut there, mut disagreeing, mut compared] = [0; 3];
            let mut values = [0; 5];
            let times = race([
                &mut || {
                    let reference = black_box(&bitmaps);
                    accepted(original::disagreement(
                        reference, &bitmaps, x, 0, &mut there,
                    ));
                },
                &mut || {
                    let counts = (&mut disagreeing, &mut compared);
                    let (reference, shift) = (*black_box(&pair), Shift::new(x, 0));
                    accepted(port::disagreement(
                        reference,
                        pair,
                        shift,
                        counts.0,
                        counts.1,
                        &mut values,
                    ));
                },
            ]);
            let goal = match x % 64 {
                0 => 1.0,
                _ if width <= 128 => 1.5,
                _ => 1.8,
            };
            timed(name, goal, input, times)
        })
        .collect()
}
