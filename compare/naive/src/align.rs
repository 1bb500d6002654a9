//! Pyramids, the step of two frames, and stacks.

use std::ops::Range;

use crate::bitmap::words_needed;
use crate::difference::counts;
use crate::geometry::Shift;
use crate::gray::Frame;
use crate::refusals::{
    MOST_FRAMES, NO_SUCH_REFERENCE, Refusal, SCRATCH_TOO_SHORT, SIZES_DIFFER, TOO_MANY_FRAMES,
    WRONG_LENGTH, check_percentiles, check_sides, refuse_if, refuse_with,
};
use crate::shrink::{Shrink, halved};
use crate::threshold::BitFrame;

/// How a search is run, whatever each frame is cut at. Bits is any u32, tolerance any byte.
#[derive(Clone, Copy, Debug)]
pub struct Options {
    pub bits: u32,
    pub tolerance: u8,
    pub shrink: Shrink,
}

impl Options {
    /// The original's own, where nothing else is said.
    pub const USUAL: Self = Self {
        bits: 6,
        tolerance: 4,
        shrink: Shrink::Average,
    };
}

/// A frame and the percentile that it is cut at, at every level.
#[derive(Clone, Copy, Debug)]
pub struct Exposure<'a> {
    pub frame: Frame<'a>,
    pub percentile: u8,
}

impl<'a> Exposure<'a> {
    pub fn new(frame: Frame<'a>, percentile: u8) -> Self {
        Self { frame, percentile }
    }
}

/// The lengths of the scratch that a caller lends to a step, a stack or a report.
#[derive(Clone, Copy, Debug, PartialEq, Eq)]
pub struct Scratch {
    pub bytes: usize,
    pub words: usize,
}

impl Scratch {
    pub const NONE: Self = Self { bytes: 0, words: 0 };

    /// What a step of two frames of this size needs. Ask only after the sides are
    /// checked.
    pub fn of_step(width: usize, height: usize, bits: u32) -> Self {
        Self {
            bytes: 2 * halved_samples(width, height, bits),
            words: 4 * words_needed(width, height),
        }
    }

    pub(crate) fn check(self, needed: Self) -> Result<(), Refusal> {
        refuse_if(
            self.bytes < needed.bytes || self.words < needed.words,
            SCRATCH_TOO_SHORT,
        )
    }
}

/// L: how many times a frame is halved.
fn levels(width: usize, height: usize, bits: u32) -> usize {
    if width == 0 || height == 0 {
        return 0;
    }
    let by_bits = bits.saturating_sub(1) as usize;
    let by_longest = floor_log2(width.max(height)).saturating_sub(1);
    let by_shortest = floor_log2(width.min(height));
    by_bits.min(by_longest).min(by_shortest)
}

fn floor_log2(number: usize) -> usize {
    let mut log = 0;
    while 2 << log <= number {
        log += 1;
    }
    log
}

/// The samples of one level. Halving a side again and again, rounding down each
/// time, is one division.
fn samples_of(width: usize, height: usize, level: usize) -> usize {
    (width >> level) * (height >> level)
}

/// The samples of all halved levels.
pub fn halved_samples(width: usize, height: usize, bits: u32) -> usize {
    (1..=levels(width, height, bits))
        .map(|level| samples_of(width, height, level))
        .sum()
}

/// The frame and its halved levels.
fn all_levels(frame: Frame, bits: u32, shrink: Shrink) -> Vec<Vec<u8>> {
    let mut all = vec![frame.samples.to_vec()];
    for level in 0..levels(frame.width, frame.height, bits) {
        let finer = Frame::new(&all[level], frame.width >> level, frame.height >> level);
        all.push(halved(finer, shrink));
    }
    all
}

/// The checks of both pyramid calls: 1, 2, 7.
fn check_pyramid(frame: Frame, bits: u32, scratch: usize) -> Result<(), Refusal> {
    check_sides(&[frame.width, frame.height])?;
    refuse_if(!frame.is_whole(), WRONG_LENGTH)?;
    let needed = halved_samples(frame.width, frame.height, bits);
    refuse_if(scratch < needed, SCRATCH_TOO_SHORT)
}

/// Filling a frame's pyramid: answers with the bytes that the scratch then begins
/// with. `scratch` is its length.
pub fn pyramid(
    frame: Frame,
    bits: u32,
    shrink: Shrink,
    scratch: usize,
) -> Result<Vec<u8>, Refusal> {
    check_pyramid(frame, bits, scratch)?;
    Ok(all_levels(frame, bits, shrink)[1..].concat())
}

/// A part of one of two lists.
#[derive(Clone, Debug, PartialEq, Eq)]
pub struct Place {
    /// Of the scratch, or else of the frame.
    pub in_scratch: bool,
    pub part: Range<usize>,
}

/// Asking for a level: the frame itself, a part of the scratch, or the empty part.
pub fn level<'a>(frame: Frame<'a>, bits: u32, scratch: &'a [u8], level: usize) -> &'a [u8] {
    let place = level_place(frame, bits, scratch.len(), level);
    let list = match place.in_scratch {
        true => scratch,
        false => frame.samples,
    };
    &list[place.part]
}

/// Where that level stands: the empty part is at 0 of the frame. `scratch` is its
/// length.
pub fn level_place(frame: Frame, bits: u32, scratch: usize, level: usize) -> Place {
    let samples = |level| samples_of(frame.width, frame.height, level);
    let refused = check_pyramid(frame, bits, scratch).is_err();
    let (in_scratch, part) = if refused || level > levels(frame.width, frame.height, bits) {
        (false, 0..0)
    } else if level == 0 {
        (false, 0..samples(0))
    } else {
        let start = (1..level).map(samples).sum::<usize>();
        (true, start..start + samples(level))
    };
    Place { in_scratch, part }
}

/// Asking for the scratch of a step: 1.
pub fn scratch(width: usize, height: usize, bits: u32) -> Result<Scratch, Refusal> {
    check_sides(&[width, height])?;
    Ok(Scratch::of_step(width, height, bits))
}

/// A step: how far the target moves, and the number of comparisons made. A level is left at
/// the first candidate that disagrees in no pixel.
#[derive(Clone, Copy, Debug, PartialEq, Eq)]
pub struct Step {
    pub shift: Shift,
    pub comparisons: u64,
}

/// Step of two frames: 1, 3, 4, 2, 7.
pub fn shift(
    reference: Exposure,
    target: Exposure,
    options: &Options,
    scratch: Scratch,
) -> Result<Step, Refusal> {
    let frames = [reference.frame, target.frame];
    let [width, height] = [frames[0].width, frames[0].height];
    let sizes = [width, height, frames[1].width, frames[1].height];
    check_sides(&sizes)?;
    check_percentiles(&[reference.percentile, target.percentile])?;
    refuse_with(sizes[..2] != sizes[2..], SIZES_DIFFER, &sizes)?;
    refuse_if(!frames.iter().all(Frame::is_whole), WRONG_LENGTH)?;
    scratch.check(Scratch::of_step(width, height, options.bits))?;
    Ok(step(reference, target, options))
}

/// The nine offsets around a shift: the centre, then column by column.
fn candidates(around: Shift) -> Vec<Shift> {
    let mut nine = vec![around];
    for x in -1..=1 {
        for y in -1..=1 {
            if (x, y) != (0, 0) {
                nine.push(Shift::new(around.x + x, around.y + y));
            }
        }
    }
    nine
}

fn step(reference: Exposure, target: Exposure, options: &Options) -> Step {
    let seen = |Exposure { frame, percentile }: Exposure| -> Vec<BitFrame> {
        all_levels(frame, options.bits, options.shrink)
            .iter()
            .enumerate()
            .map(|(level, samples)| {
                let frame = Frame::new(samples, frame.width >> level, frame.height >> level);
                BitFrame::of(frame, percentile, options.tolerance)
            })
            .collect()
    };
    step_at(0, &seen(reference), &seen(target))
}

/// The step at a level, from twice the step at the next coarser one.
fn step_at(level: usize, reference: &[BitFrame], target: &[BitFrame]) -> Step {
    let coarser = if level + 1 == reference.len() {
        Step {
            shift: Shift::ZERO,
            comparisons: 0,
        }
    } else {
        step_at(level + 1, reference, target)
    };
    let around = Shift::new(2 * coarser.shift.x, 2 * coarser.shift.y);
    let nine = candidates(around);
    let disagreeing = |&shift: &Shift| counts(&reference[level], &target[level], shift).disagreeing;
    let costs: Vec<u64> = nine.iter().map(disagreeing).collect();
    let best = (0..9).min_by_key(|&at| costs[at]); // of equal ones, the first
    let clean = costs.iter().position(|&cost| cost == 0);
    let tried = clean.map_or(9, |at| at as u64 + 1);
    Step {
        shift: nine[best.expect("there are nine")],
        comparisons: coarser.comparisons + tried,
    }
}

/// A stack as a caller lends it: the frames' samples one after another, their
/// sizes, the percentile of each, and which of them is the reference.
#[derive(Clone, Copy, Debug)]
pub struct Stack<'a> {
    pub samples: &'a [u8],
    pub widths: &'a [usize],
    pub heights: &'a [usize],
    pub percentiles: &'a [u8],
    pub reference: usize,
}

impl<'a> Stack<'a> {
    pub(crate) fn count(&self) -> usize {
        self.widths.len()
    }

    /// One frame of a stack that has passed its checks, so all have one size, with its
    /// own percentile.
    pub(crate) fn exposure(&self, number: usize) -> Exposure<'a> {
        let (width, height) = (self.widths[0], self.heights[0]);
        let area = width * height;
        let frame = Frame::new(&self.samples[number * area..][..area], width, height);
        Exposure::new(frame, self.percentiles[number])
    }

    /// Each frame but the reference with its neighbour, in the order of the walk:
    /// from the reference down to 0, then up.
    pub(crate) fn walk(&self) -> Vec<(usize, usize)> {
        let down = (0..self.reference).rev().map(|frame| (frame, frame + 1));
        let up = (self.reference + 1..self.count()).map(|frame| (frame, frame - 1));
        down.chain(up).collect()
    }

    /// The checks of a stack before scratch: 6, 2, 1, 3, 5, 4, 2. `room` is the
    /// length of the shift list. How many percentiles there are is no matter of 6.
    pub(crate) fn check(&self, room: usize) -> Result<(), Refusal> {
        let count = self.count();
        refuse_if(
            count > MOST_FRAMES || self.heights.len() > MOST_FRAMES,
            TOO_MANY_FRAMES,
        )?;
        refuse_if(self.heights.len() != count, WRONG_LENGTH)?;
        refuse_if(self.percentiles.len() != count, WRONG_LENGTH)?;
        check_sides(&[self.widths, self.heights].concat())?;
        check_percentiles(self.percentiles)?;
        let chosen = [self.reference, count];
        refuse_with(self.reference >= count, NO_SUCH_REFERENCE, &chosen)?;

        let size = |frame: usize| [self.widths[frame], self.heights[frame]];
        for (frame, neighbour) in self.walk() {
            let [width, height] = size(neighbour);
            let [own_width, own_height] = size(frame);
            let values = [width, height, own_width, own_height, frame];
            refuse_with(size(neighbour) != size(frame), SIZES_DIFFER, &values)?;
        }

        let samples = count * self.widths[0] * self.heights[0];
        refuse_if(
            self.samples.len() != samples || room != 2 * count,
            WRONG_LENGTH,
        )
    }

    /// What a stack that has passed its other checks needs: nothing with one frame.
    pub(crate) fn scratch(&self, bits: u32) -> Scratch {
        match self.count() {
            1 => Scratch::NONE,
            _ => Scratch::of_step(self.widths[0], self.heights[0], bits),
        }
    }

    /// The step of each frame against its neighbour; (0, 0) for the reference.
    pub(crate) fn steps(&self, options: &Options) -> Vec<Shift> {
        let mut steps = vec![Shift::ZERO; self.count()];
        for (frame, neighbour) in self.walk() {
            steps[frame] = step(self.exposure(neighbour), self.exposure(frame), options).shift;
        }
        steps
    }

    /// The shift list: for each frame the sum of the steps on its way.
    pub(crate) fn shifts(&self, steps: &[Shift]) -> Vec<i32> {
        let mut shifts = steps.to_vec();
        for (frame, neighbour) in self.walk() {
            shifts[frame].x += shifts[neighbour].x;
            shifts[frame].y += shifts[neighbour].y;
        }
        shifts.iter().flat_map(|shift| [shift.x, shift.y]).collect()
    }
}

/// Stack: 6, 2, 1, 3, 5, 4, 2, 7. `room` is the length of the shift list.
pub fn align_stack(
    stack: Stack,
    options: &Options,
    room: usize,
    scratch: Scratch,
) -> Result<Vec<i32>, Refusal> {
    stack.check(room)?;
    scratch.check(stack.scratch(options.bits))?;
    Ok(stack.shifts(&stack.steps(options)))
}
