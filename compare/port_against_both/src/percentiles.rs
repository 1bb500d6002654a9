//! The list of percentiles: its length, and each of its entries.

use naive::refusals::{HIGHEST_PERCENTILE, MOST_FRAMES};
use trials::Outcome;
use trials::frames::Frames;
use trials::inputs::{Random, options, rivalry};

use crate::report::{AFTER_ENTRIES, AFTER_LENGTHS, Asked, SLIPS, Slip, in_order, report_agrees};
use crate::search::{stack_agrees, step};

/// The list empty, one short and one long, and one long where there are as many frames as there
/// may be.
const LISTS: [Slip; 4] = [
    |_, asked| asked.frames.percentiles.clear(),
    |_, asked| _ = asked.frames.percentiles.pop(),
    |_, asked| asked.frames.percentiles.push(50),
    |random, asked| {
        *asked = sixteen(random);
        asked.frames.percentiles.push(50);
    },
];

pub const LENGTHS: usize = LISTS.len() * turns(AFTER_LENGTHS);

/// Of each length, alone and with each later check failing.
pub fn lengths(random: &mut Random, case: usize) -> Outcome {
    let mut asked = in_order(random);
    LISTS[case % LISTS.len()](random, &mut asked);
    both_agree(random, asked, AFTER_LENGTHS, case / LISTS.len())
}

/// Sixteen small frames in order.
fn sixteen(random: &mut Random) -> Asked {
    let size = (1 + random.below(5), 1 + random.below(4));
    let frames = (0..MOST_FRAMES)
        .map(|_| random.bytes(size.0 * size.1))
        .collect();
    let reference = random.below(MOST_FRAMES);
    let (options, percentile) = options(random);
    let frames = Frames::alike(frames, size, percentile, reference);
    let rivalry = rivalry(random, 2, size);
    Asked::new(random, frames, options, rivalry)
}

/// A percentile for one frame of sixteen, and for one of a step.
const ENTRIES: [u8; 4] = [0, HIGHEST_PERCENTILE, HIGHEST_PERCENTILE + 1, 255];
pub const PLACES: usize = ENTRIES.len() * MOST_FRAMES * turns(AFTER_ENTRIES);

/// Each of them at each place, alone and with each later check failing.
pub fn places(random: &mut Random, case: usize) -> Outcome {
    let entry = ENTRIES[case % ENTRIES.len()];
    let place = case / ENTRIES.len() % MOST_FRAMES;
    let mut asked = sixteen(random);
    let Asked {
        frames,
        options,
        scratch,
        need,
        ..
    } = &mut asked;
    let size = (frames.widths[0], frames.heights[0]);
    let two = frames.samples.chunks(size.0 * size.1).take(2);
    let two = two.collect::<Vec<_>>().try_into().expect("two frames");
    let mut percentiles = [frames.percentiles[0]; 2];
    percentiles[place % 2] = entry;
    step(
        random,
        two,
        [size; 2],
        percentiles,
        options,
        (*scratch, *need),
    )?;

    frames.percentiles[place] = entry;
    both_agree(
        random,
        asked,
        AFTER_ENTRIES,
        case / ENTRIES.len() / MOST_FRAMES,
    )
}

/// In so many turns every check from one on fails, last a record space that is too short, and
/// then none.
const fn turns(from: usize) -> usize {
    SLIPS.len() - from + 2
}

/// The shifts and the report of the same stack, with the check of this turn failing.
fn both_agree(random: &mut Random, mut asked: Asked, from: usize, turn: usize) -> Outcome {
    let later = from + turn % turns(from);
    if let Some(slip) = SLIPS.get(later) {
        slip(random, &mut asked);
    }
    let scratch = (asked.scratch, asked.need);
    stack_agrees(random, &asked.frames, &asked.options, asked.shifts, scratch)?;
    report_agrees(random, &asked, later == SLIPS.len())
}
