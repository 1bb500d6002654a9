//! Frames cut at percentiles of their own. Those that tell were looked for: what they get would
//! be something else if the percentiles were mistaken.

use naive::align::{Exposure, Options};
use naive::refusals::MOST_FRAMES;
use naive::report::{Record, Rivalry};

use crate::frames::Frames;
use crate::inputs::{Random, options, rivalry, size, unequal_percentiles};
use crate::matches::Pair;
use crate::recount::{self, Cuts, OWN};
use crate::scenes;

/// Ways to mistake the percentiles of a neighbour and a frame: one of theirs for both, each
/// for the other, and the first of the stack for all.
const MISTAKEN: [Cuts; 4] = [
    |percentiles, [neighbour, _]| [percentiles[neighbour]; 2],
    |percentiles, [_, frame]| [percentiles[frame]; 2],
    |percentiles, [neighbour, frame]| [percentiles[frame], percentiles[neighbour]],
    |percentiles, _| [percentiles[0]; 2],
];

/// How many are looked at for one that tells.
const LOOKED_AT: usize = 10_000;

/// The first of those made that tells the percentiles apart.
fn found<T>(random: &mut Random, make: impl Fn(&mut Random) -> T, tells: impl Fn(&T) -> bool) -> T {
    let mut made = (0..LOOKED_AT).map(|_| make(random));
    made.find(tells).expect("one of them tells")
}

/// Two frames of a scene, each with a percentile of its own.
pub fn pair(random: &mut Random, size: (usize, usize)) -> Pair {
    let frames = scenes::bracket(random, size.0, size.1, 2);
    let percentiles = unequal_percentiles(random, 2);
    Pair {
        samples: frames.try_into().expect("two frames"),
        size,
        percentiles: percentiles.try_into().expect("two percentiles"),
        options: options(random).0,
    }
}

/// A pair whose step or comparisons would be others under each mistake.
pub fn telling_pair(random: &mut Random, make: impl Fn(&mut Random) -> Pair) -> Pair {
    found(random, make, |pair| {
        let [reference, target] = pair.exposures().map(|exposure| exposure.frame);
        let step = |cuts: Cuts| {
            let [one, other] = cuts(&pair.percentiles, [0, 1]);
            let (reference, target) = (Exposure::new(reference, one), Exposure::new(target, other));
            recount::step(reference, target, &pair.options)
        };
        let own = step(OWN);
        MISTAKEN.iter().all(|&cuts| step(cuts) != own)
    })
}

/// A stack whose frames have percentiles of their own, and how it is asked.
pub struct Asked {
    pub frames: Frames,
    pub options: Options,
    pub rivalry: Rivalry,
}

/// As many frames of a scene as there are percentiles.
pub fn stack(random: &mut Random, size: (usize, usize), percentiles: Vec<u8>) -> Asked {
    let count = percentiles.len();
    let frames = scenes::bracket(random, size.0, size.1, count);
    let mut frames = Frames::alike(frames, size, 0, random.below(count));
    frames.percentiles = percentiles;
    let reach = random.pick(&[0, 1, 2, 2, 3]);
    Asked {
        frames,
        options: options(random).0,
        rivalry: rivalry(random, reach, size),
    }
}

/// What shows a mistake.
#[derive(Clone, Copy)]
pub enum By {
    Steps,
    /// Of the steps as they are.
    Rivals,
}

/// A stack of which a frame below the reference and one above it, where there are such, would
/// get others under each mistake.
pub fn telling_stack(random: &mut Random, by: By, make: impl Fn(&mut Random) -> Asked) -> Asked {
    found(random, make, |asked| {
        let (stack, options) = (asked.frames.stack(), &asked.options);
        let steps = |cuts| recount::steps(stack, options, cuts);
        let own = steps(OWN);
        let rivals = |cuts| -> Vec<Vec<Record>> {
            let rivals = |step: (usize, _)| match step.0 == stack.reference {
                true => vec![],
                false => recount::rivals(stack, step, options, &asked.rivalry, cuts),
            };
            own.iter().copied().enumerate().map(rivals).collect()
        };
        match by {
            By::Steps => tells(stack.reference, steps),
            By::Rivals => tells(stack.reference, rivals),
        }
    })
}

/// Whether a frame below the reference and one above it, where there are such, would get
/// something else under each mistake.
fn tells<T: PartialEq>(reference: usize, of_frames: impl Fn(Cuts) -> Vec<T>) -> bool {
    let own = of_frames(OWN);
    let sides = [0..reference, reference + 1..own.len()];
    MISTAKEN.iter().all(|&cuts| {
        let mistaken = of_frames(cuts);
        let mut sides = sides.iter().filter(|side| !side.is_empty());
        sides.all(|side| own[side.clone()] != mistaken[side.clone()])
    })
}

/// A pair for a case of a trial; in every second one it tells.
pub fn pair_of(random: &mut Random, case: usize, most_height: usize) -> Pair {
    let make = |random: &mut Random| {
        let size = size(random, most_height);
        pair(random, size)
    };
    match case % 2 {
        0 => make(random),
        _ => telling_pair(random, make),
    }
}

/// A stack of two to five frames, now and then of sixteen, for a case of a trial; in every
/// second one it tells.
pub fn stack_of(random: &mut Random, case: usize, most_height: usize, by: By) -> Asked {
    let make = |random: &mut Random| {
        let (count, most_height) = match random.one_in(12) {
            true => (MOST_FRAMES, 8),
            false => (2 + random.below(4), most_height),
        };
        let size = size(random, most_height);
        let percentiles = unequal_percentiles(random, count);
        stack(random, size, percentiles)
    };
    match case % 2 {
        0 => make(random),
        _ => telling_stack(random, by, make),
    }
}
