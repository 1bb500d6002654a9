//! What the original lacks, written a second time: from its own calls where they
//! serve, by brute force where they do not.

use mtb_align::{Bitmap, Bitmaps, Gray, Percentile, Shift, compute_bitmaps, disagreement, shrink2};
use naive::align::{Exposure, Options, Scratch, Stack, Step};
use naive::geometry::Crop;
use naive::gray::Frame;
use naive::report::{Record, Report, Rivalry};
use naive::shrink::Shrink;

use crate::matches::NINE;
use crate::original;

/// The pixels compared at a shift, by a disagreement that every compared pixel
/// shows: the reference's bits all set where it is trusted, the target's all clear.
pub fn compared(reference: &Bitmap, target: &Bitmap, shift: naive::geometry::Shift) -> u64 {
    let all_differ = |threshold: Bitmap, exclusion: &Bitmap| Bitmaps {
        threshold,
        exclusion: exclusion.clone(),
    };
    disagreement(
        &all_differ(reference.clone(), reference),
        &all_differ(Bitmap::zeros(target.width(), target.height()), target),
        Shift::new(shift.x, shift.y),
    )
}

/// The greatest L within all of the scope's limits, tried one by one.
pub fn levels(width: usize, height: usize, bits: u32) -> usize {
    let (longest, shortest) = (width.max(height), width.min(height));
    (1..)
        .take_while(|&level| {
            level < bits as usize && 1 << (level + 1) <= longest && 1 << level <= shortest
        })
        .count()
}

fn packed(samples: &[u8], size: (usize, usize), percentile: u8, tolerance: u8) -> Bitmaps {
    let gray = Gray::from_vec(samples.to_vec(), size.0, size.1);
    compute_bitmaps(&gray, Percentile::new(percentile), tolerance)
}

/// The shift of a sound pair's step, and how many shifts it tries at each level, full size
/// first: up to and including the first that disagrees in no pixel, or nine. The original
/// halves, packs and counts, each frame at its own percentile.
fn by_level(
    reference: Exposure,
    target: Exposure,
    options: &Options,
) -> (naive::geometry::Shift, Vec<u64>) {
    let bitmaps = |Exposure { frame, percentile }: Exposure| -> Vec<Bitmaps> {
        let mut levels = vec![frame.samples.to_vec()];
        levels.extend(halved_levels(frame, options.bits, options.shrink));
        let size = |level| (frame.width >> level, frame.height >> level);
        let levels = levels.iter().enumerate();
        levels
            .map(|(level, samples)| packed(samples, size(level), percentile, options.tolerance))
            .collect()
    };
    let (reference, target) = (bitmaps(reference), bitmaps(target));

    let (mut x, mut y) = (0, 0);
    let mut tried = Vec::new();
    for (here, there) in reference.iter().zip(&target).rev() {
        (x, y) = (2 * x, 2 * y);
        let (mut made, mut least, mut best) = (0, u64::MAX, (x, y));
        for (right, down) in NINE {
            made += u64::from(least > 0);
            let at = (x + right, y + down);
            let cost = disagreement(here, there, Shift::new(at.0, at.1));
            if cost < least {
                (least, best) = (cost, at);
            }
        }
        (x, y) = best;
        tried.insert(0, made);
    }
    (naive::geometry::Shift::new(x, y), tried)
}

/// How many shifts the step of a sound pair tries at each level.
pub fn tried(reference: Exposure, target: Exposure, options: &Options) -> Vec<u64> {
    by_level(reference, target, options).1
}

/// The step of a sound pair, with the comparisons of all levels.
pub fn step(reference: Exposure, target: Exposure, options: &Options) -> Step {
    let (shift, tried) = by_level(reference, target, options);
    Step {
        shift,
        comparisons: tried.iter().sum(),
    }
}

/// The halved levels of a frame, one halving after another.
pub fn halved_levels(frame: Frame, bits: u32, shrink: Shrink) -> Vec<Vec<u8>> {
    let mut finer = Gray::from_vec(frame.samples.to_vec(), frame.width, frame.height);
    let shrink = original::shrink_of(shrink);
    (0..levels(frame.width, frame.height, bits))
        .map(|_| {
            finer = shrink2(&finer, shrink);
            finer.as_slice().to_vec()
        })
        .collect()
}

/// The scratch of a step: the samples of the halved levels of both frames, and the
/// words of their four bitmaps.
pub fn scratch(width: usize, height: usize, bits: u32) -> Scratch {
    let dark = vec![0; width * height];
    let levels = halved_levels(Frame::new(&dark, width, height), bits, Shrink::Subsample);
    let bitmap = Bitmap::zeros(width, height);
    Scratch {
        bytes: 2 * levels.concat().len(),
        words: 4 * (0..height).map(|y| bitmap.row(y).len()).sum::<usize>(),
    }
}

/// Whether the places of a crop are exactly those that every moved frame covers.
pub fn crop_is_what_all_cover(crop: Crop, shifts: &[i32], width: usize, height: usize) -> bool {
    let inside = |place: usize, start: u64, length: u64| {
        (start..start.saturating_add(length)).contains(&(place as u64))
    };
    let covers = |place: usize, shift: i32, side: usize| {
        (0..side as i64).contains(&(place as i64 - i64::from(shift)))
    };
    (0..height).all(|y| {
        (0..width).all(|x| {
            let in_crop = inside(x, crop.x, crop.width) && inside(y, crop.y, crop.height);
            let by_all = shifts
                .chunks_exact(2)
                .all(|shift| covers(x, shift[0], width) && covers(y, shift[1], height));
            in_crop == by_all
        })
    })
}

/// From a step to its neighbour shifts, which are no rivals.
const TO_NEIGHBOURS: [(i32, i32); 8] = [
    (-1, -1),
    (0, -1),
    (1, -1),
    (-1, 0),
    (1, 0),
    (-1, 1),
    (0, 1),
    (1, 1),
];

/// What a frame's neighbour and the frame are cut at, by the percentiles of a stack and the
/// numbers of the two.
pub type Cuts = fn(&[u8], [usize; 2]) -> [u8; 2];

/// Each at its own.
pub const OWN: Cuts = |percentiles, pair| pair.map(|frame| percentiles[frame]);

/// The frame next to another on the reference's side.
fn neighbour_of(stack: Stack, frame: usize) -> usize {
    match frame < stack.reference {
        true => frame + 1,
        false => frame - 1,
    }
}

/// A frame's neighbour and the frame, out of a sound stack.
fn pair(stack: Stack<'_>, frame: usize, cuts: Cuts) -> [Exposure<'_>; 2] {
    let (width, height) = (stack.widths[0], stack.heights[0]);
    let numbers = [neighbour_of(stack, frame), frame];
    let percentiles = cuts(stack.percentiles, numbers);
    [0, 1].map(|at: usize| {
        let samples = &stack.samples[numbers[at] * width * height..][..width * height];
        Exposure::new(Frame::new(samples, width, height), percentiles[at])
    })
}

/// The step of each frame of a sound stack against its neighbour; (0, 0) for the reference.
pub fn steps(stack: Stack, options: &Options, cuts: Cuts) -> Vec<(i32, i32)> {
    let step_of = |frame| match frame == stack.reference {
        true => (0, 0),
        false => {
            let [neighbour, frame] = pair(stack, frame, cuts);
            let step = step(neighbour, frame, options).shift;
            (step.x, step.y)
        }
    };
    (0..stack.widths.len()).map(step_of).collect()
}

/// The shift list of a sound stack: for each frame the steps from the reference to it.
pub fn align_stack(stack: Stack, options: &Options) -> Vec<i32> {
    let steps = steps(stack, options, OWN);
    let shift = |frame: usize| {
        let (mut at, mut sum) = (frame, (0, 0));
        while at != stack.reference {
            sum = (sum.0 + steps[at].0, sum.1 + steps[at].1);
            at = neighbour_of(stack, at);
        }
        [sum.0, sum.1]
    };
    (0..steps.len()).flat_map(shift).collect()
}

/// The rivals of a frame of a sound stack around a step. Each place of the window but those
/// next to the step is counted by the original.
pub fn rivals(
    stack: Stack,
    (frame, step): (usize, (i32, i32)),
    options: &Options,
    rivalry: &Rivalry,
    cuts: Cuts,
) -> Vec<Record> {
    let [here, there] = pair(stack, frame, cuts).map(|Exposure { frame, percentile }| {
        let size = (frame.width, frame.height);
        packed(frame.samples, size, percentile, options.tolerance)
    });
    let both = |(x, y): (i32, i32)| {
        let at = naive::geometry::Shift::new(x, y);
        let compared = compared(&here.exclusion, &there.exclusion, at);
        (disagreement(&here, &there, Shift::new(x, y)), compared)
    };

    let (of_step, _) = both(step);
    let reach = rivalry.reach as i32;
    let mut records = Vec::new();
    for down in -reach..=reach {
        for right in -reach..=reach {
            if TO_NEIGHBOURS.contains(&(right, down)) {
                continue;
            }
            let (x, y) = (step.0 + right, step.1 + down);
            let (disagreeing, compared) = both((x, y));
            let more = i128::from(disagreeing) - i128::from(of_step);
            if compared >= u64::from(rivalry.floor) && more <= i128::from(rivalry.margin) {
                records.push(Record {
                    frame: frame as u32,
                    x,
                    y,
                    disagreeing: disagreeing as u32,
                    compared: compared as u32,
                });
            }
        }
    }
    records
}

/// The report of a sound stack. The verdict is told from the records.
pub fn report(stack: Stack, options: &Options, rivalry: &Rivalry) -> Report {
    let mut records = Vec::new();
    let mut verdicts = Vec::new();
    for (frame, step) in steps(stack, options, OWN).into_iter().enumerate() {
        if frame == stack.reference {
            verdicts.push(0);
            continue;
        }
        let rivals = rivals(stack, (frame, step), options, rivalry, OWN);
        let step_is_rival = rivals.iter().any(|rival| (rival.x, rival.y) == step);
        verdicts.push(match (step_is_rival, rivals.len()) {
            (false, _) => 1,
            (true, 1) => 2,
            (true, _) => 3,
        });
        records.extend(rivals);
    }

    let shifts = align_stack(stack, options);
    let (width, height) = (stack.widths[0], stack.heights[0]);
    let crop = original::common_crop(&shifts, width, height).expect("a crop of any shifts");
    Report {
        shifts,
        verdicts,
        crop,
        records,
    }
}
