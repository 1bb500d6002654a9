//! The survey of one pair: a report of two frames, whose search is of one level,
//! against the original's count at every shift that the report surveys, which are those
//! within reach but for the eight around the step, of bitmaps packed before. The original
//! counts only the pixels that disagree.

use std::hint::black_box;

use ::port::{Options, RECORD_BYTES, Rivalry, Scratch, Stack, report as port};
use mtb_align::{Percentile, Shift, compute_bitmaps};

use crate::frames::{PERCENTILE, TOLERANCE, accepted, gray};
use crate::inputs::{Input, Size};
use crate::original;
use crate::race::race_of;
use crate::{Timed, timed};

const OPTIONS: Options = Options {
    bits: 1,
    ..Options::USUAL
};
/// How far each survey reaches and how the second frame is moved. The nine shifts of one
/// level have (1, -1), after which few shifts are rivals. They miss (3, -2): then the
/// step disagrees in much, and most rows of the window have a rival.
const SURVEYS: [(&str, u32, Shift); 3] = [
    ("report at reach 16", 16, Shift { x: 1, y: -1 }),
    ("report at reach 64", 64, Shift { x: 1, y: -1 }),
    ("report at 16, step missed", 16, Shift { x: 3, y: -2 }),
];
const SIZES: [Size; 3] = [(64, 64), (640, 480), (1920, 1080)];
const GOAL: f64 = 2.5;

/// The shifts of a survey, row by row: those within reach of a step, without its eight
/// neighbour shifts.
fn around(step: (i32, i32), reach: i32) -> Vec<(i32, i32)> {
    let mut surveyed = Vec::new();
    for down in -reach..=reach {
        for right in -reach..=reach {
            if right.abs().max(down.abs()) != 1 {
                surveyed.push((step.0 + right, step.1 + down));
            }
        }
    }
    surveyed
}

/// The fewer the longer a survey takes, from its shifts and samples.
fn rounds(shifts: usize, samples: usize) -> usize {
    match shifts * samples {
        ..100_000_000 => 6,
        100_000_000..10_000_000_000 => 2,
        _ => 0,
    }
}

pub fn report(input: &Input) -> Vec<Timed> {
    if !SIZES.contains(&input.size) {
        return vec![];
    }
    let (width, height) = input.size;
    let need = Scratch::of_step(width, height, OPTIONS.bits);
    let (mut bytes, mut words) = (vec![0; need.bytes], vec![0; need.words]);
    let (mut shifts, mut verdicts) = ([0; 4], [0; 2]);
    let ([mut left, mut top, mut wide, mut high], mut count) = ([0; 4], 0);
    let mut values = [0; 5];

    SURVEYS
        .into_iter()
        .map(|(name, reach, moved)| {
            let frames = [gray(input), gray(input).shifted(moved)];
            let bitmaps = frames
                .each_ref()
                .map(|frame| compute_bitmaps(frame, Percentile::new(PERCENTILE), TOLERANCE));
            let samples = [frames[0].as_slice(), frames[1].as_slice()].concat();
            let stack = Stack {
                samples: &samples,
                widths: &[width; 2],
                heights: &[height; 2],
                percentiles: &[PERCENTILE; 2],
                reference: 0,
            };
            let rivalry = Rivalry {
                reach,
                floor: 1,
                margin: 0,
            };
            let mut records = vec![0; RECORD_BYTES * rivalry.most_rivals()];
            let mut report = || {
                accepted(port::report(
                    *black_box(&stack),
                    &OPTIONS,
                    &rivalry,
                    port::Report {
                        shifts: &mut shifts,
                        verdicts: &mut verdicts,
                        records: &mut records,
                        crop: [&mut left, &mut top, &mut wide, &mut high],
                        count: &mut count,
                    },
                    (&mut bytes, &mut words),
                    &mut values,
                ));
                (shifts[2], shifts[3])
            };
            // The second frame's shift is its step, around which it is surveyed.
            let surveyed = around(report(), reach as i32);
            let mut disagreeing = 0;
            let times = race_of(
                rounds(surveyed.len(), width * height),
                [
                    &mut || {
                        let [reference, target] = black_box(&bitmaps);
                        for &(x, y) in &surveyed {
                            accepted(original::disagreement(
                                reference,
                                target,
                                x,
                                y,
                                &mut disagreeing,
                            ));
                        }
                    },
                    &mut || _ = report(),
                ],
            );
            timed(name, GOAL, input, times)
        })
        .collect()
}
