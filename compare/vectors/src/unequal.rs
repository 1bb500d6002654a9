//! Stacks whose frames have percentiles of their own, for their shifts or for a report.

use naive::refusals::{HIGHEST_PERCENTILE, MOST_FRAMES};
use naive::report::Rivalry;
use trials::inputs::{ACROSS, Random, unequal_percentiles};
use trials::unequal::{self, By};

use crate::cases::{Break, accepted, refused_first};
use crate::stacks::{Asked, LATER_BREAKS, PERCENTILE_BREAKS, PERCENTILES_BREAKS, SIDE_BREAKS};
use crate::steps::small;

/// Accepted and refused stacks; for a report where there is a rivalry, which is that of the
/// broken ones. `rest` are the breaks of the checks that come after a stack's.
pub fn lines(random: &mut Random, rivalry: Option<Rivalry>, rest: &[Break<Asked>]) -> Vec<String> {
    let sound = Asked::sound(random, rivalry);
    let after_entries = [&LATER_BREAKS[..], rest].concat();
    let after_lengths = [&SIDE_BREAKS[..], &PERCENTILE_BREAKS, &after_entries].concat();
    // An empty list has no entry over the highest.
    let after_empty = [&SIDE_BREAKS[..], &after_entries].concat();
    let (empty, others) = PERCENTILES_BREAKS.split_at(1);
    [
        accepted(ends(&sound)),
        refused_first(&sound, empty, &after_empty),
        refused_first(&sound, others, &after_lengths),
        refused_first(&sound, &PERCENTILE_BREAKS[1..], &after_entries),
        accepted(telling(random, rivalry.is_some())),
    ]
    .concat()
}

/// Either end of the range at each place.
fn ends(sound: &Asked) -> Vec<Asked> {
    let mut cases = Vec::new();
    for place in 0..sound.frames.percentiles.len() {
        for end in [0, HIGHEST_PERCENTILE] {
            let mut asked = sound.clone();
            asked.frames.percentiles[place] = end;
            cases.push(asked);
        }
    }
    cases
}

/// Stacks whose answers would be others if percentiles were mistaken: brackets from their dark
/// end to their bright one around each frame, lists of any kind, and sixteen that all differ.
fn telling(random: &mut Random, of_report: bool) -> Vec<Asked> {
    let by = if of_report { By::Rivals } else { By::Steps };
    let mut cases = Vec::new();
    let mut add = |make: &dyn Fn(&mut Random) -> unequal::Asked| {
        let found = unequal::telling_stack(random, by, make);
        let rivalry = of_report.then_some(found.rivalry);
        cases.push(Asked::of(random, found.frames, found.options, rivalry));
    };
    for reference in 0..ACROSS.len() {
        add(&|random| {
            let size = small(random);
            let mut bracket = unequal::stack(random, size, ACROSS.to_vec());
            bracket.frames.reference = reference;
            bracket
        });
    }
    for count in [2, 2, 3, 3, 4, 5] {
        add(&|random| {
            let (size, percentiles) = (small(random), unequal_percentiles(random, count));
            unequal::stack(random, size, percentiles)
        });
    }
    let sixteen: Vec<u8> = (0..MOST_FRAMES as u8).map(|frame| 5 + 6 * frame).collect();
    add(&|random| unequal::stack(random, (7, 6), sixteen.clone()));
    cases
}
