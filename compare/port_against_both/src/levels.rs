//! Pyramids, their levels, and the scratch of a step.

use naive::align::{self, Scratch, halved_samples};
use naive::gray::Frame;
use port::levels as port;
use trials::Outcome;
use trials::inputs::{Random, options, shrink};
use trials::{original, recount};

use crate::agreed;
use crate::claims::Claim;
use crate::lent::Lent;

/// The scratch past the levels stays.
pub fn pyramid(random: &mut Random, case: usize) -> Outcome {
    let claim = Claim::any(random, case, 60);
    let samples = claim.samples(random);
    let (bits, mode) = (options(random).0.bits, shrink(random));
    let need = halved_samples(claim.made.0, claim.made.1, bits);
    let length = claim.scratch(random, need);
    let mut scratch = Lent::room(random, length);
    let input = format!("{claim}, samples {samples}, bits {bits}, {mode:?}, scratch {scratch}");

    let frame = Frame::new(samples.list(), claim.width, claim.height);
    let status = port::pyramid(frame, bits, mode, scratch.list_mut());
    samples.is_kept(&input)?;
    let filled = |levels: Vec<u8>| {
        let rest = &scratch.list_before()[levels.len()..];
        [&levels, rest].concat()
    };
    agreed(
        &input,
        (status, scratch.after(&input, status)?),
        align::pyramid(frame, bits, mode, length).map(filled),
        Some(|| original::pyramid(frame, bits, mode).map(|levels| filled(levels.concat()))),
    )
}

/// A level is never refused: it is the empty part, at 0 of the frame, where filling
/// the pyramid would be. The scratch holds the original's levels.
pub fn level(random: &mut Random, case: usize) -> Outcome {
    let claim = Claim::any(random, case, 60);
    let samples = claim.samples(random);
    let (bits, mode) = (options(random).0.bits, shrink(random));
    let (width, height) = claim.made;
    let made = Frame::new(samples.list(), width, height);
    let halved = original::pyramid(made, bits, mode).unwrap_or_default();
    let mut filled = halved.concat();
    let length = claim.scratch(random, halved_samples(width, height, bits));
    filled.resize(length, random.byte());
    let scratch = Lent::holding(random, &filled);
    let number = match random.below(12) {
        0 => random.pick(&[12, 13, 63, 64, 1 << 32, usize::MAX]),
        _ => random.below(recount::levels(width, height, bits) + 2),
    };
    let mut in_scratch = Lent::room(random, 1);
    let mut start = Lent::room(random, 1);
    let input =
        format!("{claim}, samples {samples}, bits {bits}, scratch {scratch}, level {number}");

    let frame = Frame::new(samples.list(), claim.width, claim.height);
    let slots = (in_scratch.one_mut(), start.one_mut());
    let length = port::level(frame, bits, scratch.list(), number, slots.0, slots.1);
    samples.is_kept(&input)?;
    scratch.is_kept(&input)?;
    let in_scratch = in_scratch.after(&input, 0)?[0];
    let start = start.after(&input, 0)?[0];
    let list = if in_scratch { &scratch } else { &samples };
    let place = align::level_place(frame, bits, scratch.list().len(), number);
    let part = align::level(frame, bits, scratch.list(), number);
    agreed(
        &input,
        (0, (in_scratch, start, list.part(start, length))),
        Ok((place.in_scratch, place.part.start, Some(part.to_vec()))),
        (!part.is_empty()).then_some(|| {
            Ok(match number {
                0 => (false, 0, Some(samples.list().to_vec())),
                _ => {
                    let (finer, level) = (&halved[..number - 1], &halved[number - 1]);
                    (true, finer.concat().len(), Some(level.clone()))
                }
            })
        }),
    )
}

pub fn scratch(random: &mut Random, case: usize) -> Outcome {
    let claim = Claim::any(random, case, 200);
    let Claim { width, height, .. } = claim;
    let bits = options(random).0.bits;
    let [mut bytes, mut words] = [(); 2].map(|()| Lent::room(random, 1));
    let input = format!("{claim}, bits {bits}");

    let status = port::scratch(width, height, bits, bytes.one_mut(), words.one_mut());
    let written = Scratch {
        bytes: bytes.after(&input, status)?[0],
        words: words.after(&input, status)?[0],
    };
    agreed(
        &input,
        (status, written),
        align::scratch(width, height, bits),
        Some(|| Ok(recount::scratch(width, height, bits))),
    )
}
