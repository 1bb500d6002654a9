//! The two counts of packed pairs.

use naive::bitmap::Bitmap;
use naive::difference::{Counts, Pair, disagreement as count};
use port::counts as port;
use trials::Outcome;
use trials::inputs::{Random, TOO_LONG, any_shift, two_pairs};
use trials::{original, recount};

use crate::agreed;
use crate::claims::Claim;
use crate::lent::Lent;
use crate::search::told;

pub fn disagreement(random: &mut Random, case: usize) -> Outcome {
    let claim = Claim::any(random, case, 12);
    let (width, height) = (claim.width, claim.height);
    // The first has as many words, so that only the size can be at fault.
    let (target_width, target_height) = match random.below(24) {
        0 => (width.checked_next_multiple_of(64).unwrap_or(0), height),
        1 => (width, height.saturating_sub(1)),
        2 => (width, TOO_LONG),
        _ => (width, height),
    };
    let mut maps = two_pairs(random, claim.made);
    if random.one_in(10) && !claim.made.0.is_multiple_of(64) {
        let map = random.below(4);
        if let Some(last) = maps[map].last_mut() {
            *last |= 1 << 63; // padding
        }
    }
    let maps = maps.map(|map| claim.list(random, map));
    let shift = any_shift(random, claim.made);
    let [mut disagreeing, mut compared] = [(); 2].map(|()| Lent::room(random, 1));
    let [rt, re, tt, te] = &maps;
    let mut values = Lent::room(random, 5);
    let input =
        format!("{claim} and {target_width} by {target_height}, {rt}, {re}, {tt}, {te}, {shift:?}");

    let reference = Pair {
        threshold: rt.list(),
        exclusion: re.list(),
        width,
        height,
    };
    let target = Pair {
        threshold: tt.list(),
        exclusion: te.list(),
        width: target_width,
        height: target_height,
    };
    let status = port::disagreement(
        reference,
        target,
        shift,
        disagreeing.one_mut(),
        compared.one_mut(),
        values.array_mut(),
    );
    for map in &maps {
        map.is_kept(&input)?;
    }
    let written = Counts {
        disagreeing: disagreeing.after(&input, status)?[0],
        compared: compared.after(&input, status)?[0],
    };
    let naive = count(reference, target, shift);
    told(&values, &naive, &input)?;
    let trusted = |words| original::bitmap_of(Bitmap::new(words, width, height));
    agreed(
        &input,
        (status, written),
        naive,
        Some(|| {
            let exclusions = [reference.exclusion, target.exclusion].map(trusted);
            Ok(Counts {
                disagreeing: original::disagreement(reference, target, shift)?,
                compared: recount::compared(&exclusions[0], &exclusions[1], shift),
            })
        }),
    )
}
