//! The step of two frames and the stack, with the original's usual options and one
//! percentile for all frames. Every frame is the one before it, moved; steps are also
//! timed on a frame and itself.

use std::hint::black_box;

use ::port::{Exposure, Frame, Options, Scratch, Shrink, Stack, search as port};
use mtb_align::{Gray, Shift};

use crate::frames::{PERCENTILE, accepted, gray};
use crate::inputs::Input;
use crate::race::race_beside;
use crate::{Timed, opencv, original, timed};

pub const OPTIONS: Options = Options::USUAL;
const BRACKETS: [(&str, usize); 3] = [
    ("align_stack of 3", 3),
    ("align_stack of 5", 5),
    ("align_stack of 9", 9),
];
const GOAL: f64 = 2.5;

fn bracket(input: &Input, count: usize) -> Vec<Gray> {
    let mut frames = vec![gray(input)];
    while frames.len() < count {
        let next = frames[frames.len() - 1].shifted(Shift::new(3, -2));
        frames.push(next);
    }
    frames
}

fn scratch((width, height): (usize, usize)) -> (Vec<u8>, Vec<u64>) {
    let need = Scratch::of_step(width, height, OPTIONS.bits);
    (vec![0; need.bytes], vec![0; need.words])
}

/// A race of the original and the port, and of OpenCV where it is at hand.
fn beside(
    call: &'static str,
    input: &Input,
    racers: [&mut dyn FnMut(); 2],
    opencv: &mut dyn FnMut(),
) -> Timed {
    let (times, opencv) = race_beside(racers, opencv::AT_HAND.then_some(opencv));
    Timed {
        opencv,
        ..timed(call, GOAL, input, times)
    }
}

pub fn shift(input: &Input) -> Vec<Timed> {
    let equal = vec![gray(input); 2];
    vec![
        step("shift", input, &bracket(input, 2)),
        step("shift of equal frames", input, &equal),
    ]
}

fn step(call: &'static str, input: &Input, frames: &[Gray]) -> Timed {
    let (width, height) = input.size;
    let [reference, target] = [0, 1].map(|frame: usize| {
        let frame = Frame::new(frames[frame].as_slice(), width, height);
        Exposure::new(frame, PERCENTILE)
    });
    let (mut bytes, mut words) = scratch(input.size);
    let (mut x, mut y, mut comparisons) = (0, 0, 0);
    let mut values = [0; 5];
    let [mut x_there, mut y_there] = [0; 2];
    let mut opencv = || opencv::shift(black_box(&frames[0]), &frames[1], &OPTIONS);
    let racers: [&mut dyn FnMut(); 2] = [
        &mut || {
            accepted(original::shift(
                black_box(&frames[0]),
                &frames[1],
                OPTIONS.bits,
                OPTIONS.tolerance,
                PERCENTILE,
                OPTIONS.shrink == Shrink::Subsample,
                &mut x_there,
                &mut y_there,
            ));
        },
        &mut || {
            accepted(port::shift(
                *black_box(&reference),
                target,
                &OPTIONS,
                (&mut bytes, &mut words),
                (&mut x, &mut y),
                &mut comparisons,
                &mut values,
            ));
        },
    ];
    beside(call, input, racers, &mut opencv)
}

pub fn align_stack(input: &Input) -> Vec<Timed> {
    let (width, height) = input.size;
    let (mut bytes, mut words) = scratch(input.size);
    BRACKETS
        .into_iter()
        .map(|(name, count)| {
            let frames = bracket(input, count);
            let samples: Vec<u8> = frames.iter().flat_map(Gray::as_slice).copied().collect();
            let stack = Stack {
                samples: &samples,
                widths: &vec![width; count],
                heights: &vec![height; count],
                percentiles: &vec![PERCENTILE; count],
                reference: count / 2,
            };
            let mut shifts = vec![0; 2 * count];
            let mut values = [0; 5];
            let mut opencv = || opencv::steps(black_box(&frames), &OPTIONS);
            let racers: [&mut dyn FnMut(); 2] = [
                &mut || {
                    let frames = black_box(&frames);
                    accepted(original::align_stack(
                        frames.as_ptr(),
                        frames.len(),
                        count / 2,
                        OPTIONS.bits,
                        OPTIONS.tolerance,
                        PERCENTILE,
                        OPTIONS.shrink == Shrink::Subsample,
                    ));
                },
                &mut || {
                    let scratch = (&mut bytes[..], &mut words[..]);
                    let stack = *black_box(&stack);
                    accepted(port::align_stack(
                        stack,
                        &OPTIONS,
                        &mut shifts,
                        scratch,
                        &mut values,
                    ));
                },
            ];
            beside(name, input, racers, &mut opencv)
        })
        .collect()
}
