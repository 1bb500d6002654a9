//! The step of two frames and the stack.

use naive::Refusal;
use naive::align::{self, Exposure, Options, Scratch, Step};
use naive::geometry::Shift;
use naive::gray::Frame;
use port::search as port;
use trials::frames::Frames;
use trials::inputs::{Random, SIDES_OVER, TOO_LONG, options, percentile_over, size};
use trials::matches::{self, Pair};
use trials::unequal::{self, Asked, By};
use trials::{Outcome, original, recount, same, scenes};

use crate::agreed;
use crate::lent::{Lent, LentStack};

/// One too many or too few.
pub fn wrong(random: &mut Random, length: usize) -> usize {
    match random.one_in(2) {
        true => length + 1,
        false => length.saturating_sub(1),
    }
}

/// The bytes and words of a scratch: what is needed, or some more.
pub fn enough(random: &mut Random, need: Scratch) -> Scratch {
    Scratch {
        bytes: need.bytes + random.below(3),
        words: need.words + random.below(3),
    }
}

pub fn lent(random: &mut Random, scratch: Scratch) -> (Lent<u8>, Lent<u64>) {
    let bytes = Lent::room(random, scratch.bytes);
    (bytes, Lent::room(random, scratch.words))
}

/// The values of a refusal stand at the front of their list; an accepted call leaves it.
pub fn told<T>(values: &Lent<usize>, naive: &Result<T, Refusal>, input: &str) -> Outcome {
    let front: Vec<usize> = match naive {
        Ok(_) => vec![],
        Err(refusal) => refusal.values.iter().map(|&value| value as usize).collect(),
    };
    values.begins_with(&front, input)
}

pub fn shift(random: &mut Random, _: usize) -> Outcome {
    let (width, height) = size(random, 100);
    let mut frames = scenes::bracket(random, width, height, 2);
    let (options, percentile) = options(random);
    let mut percentiles = [percentile; 2];
    let mut sizes = [(width, height); 2];
    let need = Scratch::of_step(width, height, options.bits);
    let mut scratch = enough(random, need);
    match random.below(24) {
        0 => percentiles[random.below(2)] = percentile_over(random),
        1 | 2 => {
            let frame = random.below(2);
            let length = wrong(random, frames[frame].len());
            frames[frame].resize(length, 77);
        }
        3 => {
            sizes[1] = size(random, 100);
            frames[1] = scenes::frame(random, sizes[1].0, sizes[1].1);
        }
        4 => sizes[0].0 = random.pick(&SIDES_OVER),
        5 => sizes[1].1 = random.pick(&SIDES_OVER),
        6 => scratch.bytes = need.bytes.saturating_sub(1),
        7 => scratch.words = need.words.saturating_sub(1),
        _ => {}
    }
    step(
        random,
        [&frames[0], &frames[1]],
        sizes,
        percentiles,
        &options,
        (scratch, need),
    )?;
    Ok(())
}

/// Each frame at a percentile of its own.
pub fn shift_unequal(random: &mut Random, case: usize) -> Outcome {
    let pair = unequal::pair_of(random, case, 100);
    step_of(random, &pair)?;
    Ok(())
}

/// At each of three levels every number of candidates tried, for pairs of both kinds.
pub const STOPS: usize = 9 * 3 * 2 * 20;

/// Pairs made or found for the number of candidates that their step tries at a level.
pub fn stops(random: &mut Random, case: usize) -> Outcome {
    let (at, level) = (case % 9, case / 9 % 3);
    let (pair, meant) = match case / 27 % 2 {
        0 => (matches::trying(random, at as u64 + 1, level), None),
        _ => {
            let [width, height] = [(); 2].map(|()| 40 + random.below(32));
            let (pair, (x, y)) = matches::moved(random, (width, height), level, at);
            let step = Step {
                shift: Shift::new(x, y),
                comparisons: (at + 1 + level) as u64,
            };
            (pair, Some(step))
        }
    };
    let found = step_of(random, &pair)?;
    let Some(meant) = meant else {
        return Ok(());
    };
    let (size, options) = (pair.size, pair.options);
    let input = format!("{size:?}, candidate {at} of level {level}, {options:?}");
    same(&input, ("port", &found), ("meant", &meant))
}

/// The step of a sound pair.
fn step_of(random: &mut Random, pair: &Pair) -> Result<Step, String> {
    let need = Scratch::of_step(pair.size.0, pair.size.1, pair.options.bits);
    let scratch = enough(random, need);
    let frames = pair.samples.each_ref().map(|frame| &frame[..]);
    step(
        random,
        frames,
        [pair.size; 2],
        pair.percentiles,
        &pair.options,
        (scratch, need),
    )
}

/// The step of two frames of these sizes, in a scratch of which so much is needed.
pub fn step(
    random: &mut Random,
    frames: [&[u8]; 2],
    sizes: [(usize, usize); 2],
    percentiles: [u8; 2],
    options: &Options,
    (scratch, need): (Scratch, Scratch),
) -> Result<Step, String> {
    let frames = frames.map(|frame| Lent::holding(random, frame));
    let (mut bytes, mut words) = lent(random, scratch);
    let [mut x, mut y] = [(); 2].map(|()| Lent::room(random, 1));
    let mut comparisons = Lent::room(random, 1);
    let mut values = Lent::room(random, 5);
    let input = format!("{sizes:?} at {percentiles:?}, {options:?}, {scratch:?}");

    let [reference, target] = [0, 1].map(|number: usize| {
        let (width, height) = sizes[number];
        let frame = Frame::new(frames[number].list(), width, height);
        Exposure::new(frame, percentiles[number])
    });
    let status = port::shift(
        reference,
        target,
        options,
        (bytes.list_mut(), words.list_mut()),
        (x.one_mut(), y.one_mut()),
        comparisons.one_mut(),
        values.array_mut(),
    );
    for frame in &frames {
        frame.is_kept(&input)?;
    }
    bytes.used_up_to(need.bytes, &input, status)?;
    words.used_up_to(need.words, &input, status)?;
    let (x, y) = (x.after(&input, status)?, y.after(&input, status)?);
    let naive = align::shift(reference, target, options, scratch);
    told(&values, &naive, &input)?;
    let written = Step {
        shift: Shift::new(x[0], y[0]),
        comparisons: comparisons.after(&input, status)?[0],
    };
    let counted = || Ok(recount::step(reference, target, options));
    agreed(&input, (status, written), naive, Some(counted))?;
    if status == 0 && original::has_one(&percentiles) {
        let original = original::shift(reference, target, options);
        let shift = Ok(written.shift);
        same(&input, ("port", &shift), ("original", &original))?;
    }
    Ok(written)
}

pub fn align_stack(random: &mut Random, _: usize) -> Outcome {
    let (count, most_height) = match random.below(12) {
        0 => (15 + random.below(3), 8),
        _ => (random.below(7), 60),
    };
    let size = size(random, most_height);
    let reference = match random.one_in(20) {
        true => random.pick(&[count, count + 1, usize::MAX]),
        false => random.below(count.max(1)),
    };
    let bracket = scenes::bracket(random, size.0, size.1, count);
    let (options, percentile) = options(random);
    let mut frames = Frames::alike(bracket, size, percentile, reference);
    let need = frames.scratch(options.bits);
    let mut scratch = enough(random, need);
    let mut room = 2 * count;
    match random.below(24) {
        0..4 if count > 0 => {
            frames.lose_rows_or_columns(random);
        }
        4 if count > 0 => _ = frames.heights.pop(),
        5 if count > 0 => frames.widths[random.below(count)] = random.pick(&[TOO_LONG, usize::MAX]),
        6 if count > 0 => frames.percentiles[random.below(count)] = percentile_over(random),
        7 => {
            let length = wrong(random, frames.samples.len());
            frames.samples.resize(length, 77);
        }
        8 => room = wrong(random, room),
        9 => scratch.bytes = need.bytes.saturating_sub(1),
        10 => scratch.words = need.words.saturating_sub(1),
        11 => {
            let length = wrong(random, frames.percentiles.len());
            frames.percentiles.resize(length, percentile);
        }
        _ => {}
    }
    stack_agrees(random, &frames, &options, room, (scratch, need))
}

/// Each frame at a percentile of its own.
pub fn align_stack_unequal(random: &mut Random, case: usize) -> Outcome {
    let Asked {
        frames, options, ..
    } = unequal::stack_of(random, case, 60, By::Steps);
    let need = frames.scratch(options.bits);
    let (room, scratch) = (2 * frames.widths.len(), enough(random, need));
    stack_agrees(random, &frames, &options, room, (scratch, need))
}

/// The shifts of a stack in a list of this length and a scratch of which so much is needed.
pub fn stack_agrees(
    random: &mut Random,
    frames: &Frames,
    options: &Options,
    room: usize,
    (scratch, need): (Scratch, Scratch),
) -> Outcome {
    let lists = LentStack::of(random, frames);
    let mut shifts = Lent::room(random, room);
    let (mut bytes, mut words) = lent(random, scratch);
    let mut values = Lent::room(random, 5);
    let input = format!("{frames}, {options:?}, shifts {shifts}, {scratch:?}");

    let stack = lists.stack();
    let status = port::align_stack(
        stack,
        options,
        shifts.list_mut(),
        (bytes.list_mut(), words.list_mut()),
        values.array_mut(),
    );
    lists.are_kept(&input)?;
    bytes.used_up_to(need.bytes, &input, status)?;
    words.used_up_to(need.words, &input, status)?;
    let naive = align::align_stack(stack, options, room, scratch);
    told(&values, &naive, &input)?;
    let written = shifts.after(&input, status)?;
    let counted = || Ok(recount::align_stack(stack, options));
    agreed(&input, (status, written.clone()), naive, Some(counted))?;
    if status == 0 && original::has_one(stack.percentiles) {
        let original = original::align_stack(stack, options);
        same(&input, ("port", &Ok(written)), ("original", &original))?;
    }
    Ok(())
}
