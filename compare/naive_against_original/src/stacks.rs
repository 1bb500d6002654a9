//! The calls on pyramids, on two frames and on stacks.

use naive::align::{self, Exposure, Options, Scratch, halved_samples};
use naive::geometry::Crop;
use naive::gray::Frame;
use naive::refusals::{RECORD_SPACE_TOO_SHORT, Refusal, SIZES_DIFFER};
use naive::report::{RECORD_BYTES, Record, Report, Rivalry, Room};
use naive::stacksteps::{self as program, OPTIONS, PERCENTILE, RIVALRY};
use trials::Outcome;
use trials::frames::Frames;
use trials::inputs::{Random, options, percentile_over, rivalry, shrink, size};
use trials::unequal::{self, Asked, By};
use trials::{matches, original, recount, scenes};

use crate::calls::samples;
use crate::same;

pub fn pyramid(random: &mut Random, _: usize) -> Outcome {
    let (width, height) = size(random, 130);
    let samples = samples(random, width, height);
    let frame = Frame::new(&samples, width, height);
    let (bits, mode) = (options(random).0.bits, shrink(random));
    let scratch = halved_samples(width, height, bits) + random.below(3);
    let levels = original::pyramid(frame, bits, mode);
    same(
        &format!("{width} by {height}, bits {bits}, {mode:?}"),
        &align::pyramid(frame, bits, mode, scratch),
        &levels.map(|levels| levels.concat()),
    )
}

/// Every level and one more, out of a filled scratch, and where each stands.
pub fn level(random: &mut Random, _: usize) -> Outcome {
    let (width, height) = size(random, 130);
    let samples = scenes::frame(random, width, height);
    let frame = Frame::new(&samples, width, height);
    let (bits, mode) = (options(random).0.bits, shrink(random));
    let halved = recount::halved_levels(frame, bits, mode);
    let mut scratch = halved.concat();
    scratch.resize(scratch.len() + random.below(3), 99);

    let mut expected = vec![(samples.clone(), false, 0)];
    let mut start = 0;
    for level in halved {
        start += level.len();
        expected.push((level.clone(), true, start - level.len()));
    }
    expected.push((vec![], false, 0));
    let asked: Vec<_> = (0..expected.len())
        .map(|level| {
            let part = align::level(frame, bits, &scratch, level).to_vec();
            let place = align::level_place(frame, bits, scratch.len(), level);
            (part, place.in_scratch, place.part.start)
        })
        .collect();
    let input = format!("{width} by {height}, bits {bits}, {mode:?}");
    same(&input, &asked, &expected)
}

/// The original asks for none: what it would hold is counted.
pub fn scratch(random: &mut Random, _: usize) -> Outcome {
    let (width, height) = size(random, 130);
    let bits = options(random).0.bits;
    same(
        &format!("{width} by {height}, bits {bits}"),
        &align::scratch(width, height, bits),
        &Ok(recount::scratch(width, height, bits)),
    )
}

pub fn shift(random: &mut Random, _: usize) -> Outcome {
    let (width, height) = size(random, 100);
    let mut frames = scenes::bracket(random, width, height, 2);
    let (options, mut percentile) = options(random);
    let mut target_size = (width, height);
    match random.below(30) {
        0 => percentile = percentile_over(random),
        1 => frames[0] = samples(random, width, height),
        2 => {
            target_size = size(random, 100);
            frames[1] = scenes::frame(random, target_size.0, target_size.1);
        }
        _ => {}
    }
    let reference = Frame::new(&frames[0], width, height);
    let target = Frame::new(&frames[1], target_size.0, target_size.1);
    let exposures = [reference, target].map(|frame| Exposure::new(frame, percentile));
    step_agrees(exposures, &options)
}

/// With the original where both frames are cut at one percentile, and where the pair is sound
/// with the count by level.
fn step_agrees([reference, target]: [Exposure; 2], options: &Options) -> Outcome {
    let percentiles = [reference.percentile, target.percentile];
    let sizes = [reference.frame, target.frame].map(|frame| (frame.width, frame.height));
    let input = format!("{sizes:?} at {percentiles:?}, {options:?}");
    let scratch = Scratch::of_step(sizes[0].0, sizes[0].1, options.bits);
    let step = align::shift(reference, target, options, scratch);
    if original::has_one(&percentiles) {
        let shift = step.clone().map(|step| step.shift);
        same(&input, &shift, &original::shift(reference, target, options))?;
    }
    match step {
        Ok(step) => same(&input, &step, &recount::step(reference, target, options)),
        Err(_) => Ok(()),
    }
}

pub fn shift_unequal(random: &mut Random, case: usize) -> Outcome {
    let pair = unequal::pair_of(random, case, 100);
    step_agrees(pair.exposures(), &pair.options)
}

/// At each of three levels every number of candidates tried.
pub const STOPS: usize = 9 * 3 * 40;

pub fn stops(random: &mut Random, case: usize) -> Outcome {
    let pair = matches::trying(random, (case % 9) as u64 + 1, case / 9 % 3);
    step_agrees(pair.exposures(), &pair.options)
}

pub fn align_stack(random: &mut Random, _: usize) -> Outcome {
    let (width, height) = size(random, 60);
    let count = random.below(7);
    let reference = random.below(count + 1);
    let bracket = scenes::bracket(random, width, height, count);
    let (options, percentile) = options(random);
    let mut frames = Frames::alike(bracket, (width, height), percentile, reference);
    if count > 0 && random.one_in(5) {
        frames.lose_rows_or_columns(random);
        let areas = frames.widths.iter().zip(&frames.heights);
        frames
            .samples
            .truncate(areas.map(|(width, height)| width * height).sum());
    }

    let input = format!("{frames}, {options:?}");
    let scratch = frames.scratch(options.bits);
    let mut answer = align::align_stack(frames.stack(), &options, 2 * count, scratch);
    if let Err(refusal) = &mut answer
        && refusal.number == SIZES_DIFFER
    {
        // The original does not name the frame: the walk met no other size before it.
        let frame = refusal.values.pop().expect("five values") as usize;
        let size = |frame: usize| (frames.widths[frame], frames.heights[frame]);
        let mut passed = match frame < reference {
            true => frame + 1..reference,
            false => 0..frame,
        };
        let alike = passed.all(|passed| size(passed) == size(reference));
        same(
            &input,
            &(alike, size(frame) != size(reference)),
            &(true, true),
        )?;
    }
    same(
        &input,
        &answer,
        &original::align_stack(frames.stack(), &options),
    )?;
    match answer {
        Ok(shifts) => same(
            &input,
            &shifts,
            &recount::align_stack(frames.stack(), &options),
        ),
        Err(_) => Ok(()),
    }
}

pub fn align_stack_unequal(random: &mut Random, case: usize) -> Outcome {
    let Asked {
        frames, options, ..
    } = unequal::stack_of(random, case, 60, By::Steps);
    let scratch = frames.scratch(options.bits);
    let room = 2 * frames.widths.len();
    same(
        &format!("{frames}, {options:?}"),
        &align::align_stack(frames.stack(), &options, room, scratch),
        &Ok(recount::align_stack(frames.stack(), &options)),
    )
}

/// The fields of a record from its twenty bytes.
fn read_record(bytes: &[u8]) -> Record {
    let field = |number: usize| {
        (0..4)
            .map(|byte| i64::from(bytes[4 * number + byte]) << (8 * byte))
            .sum::<i64>()
    };
    let signed = |number| match field(number) {
        low @ ..0x8000_0000 => low as i32,
        high => (high - 0x1_0000_0000) as i32,
    };
    Record {
        frame: field(0) as u32,
        x: signed(1),
        y: signed(2),
        disagreeing: field(3) as u32,
        compared: field(4) as u32,
    }
}

pub fn report(random: &mut Random, case: usize) -> Outcome {
    // One window of the farthest reach now and then, on frames small enough for it.
    let farthest = case.is_multiple_of(100);
    let (most_height, reach) = match farthest {
        true => (6, 64),
        false => (30, random.pick(&[0, 1, 2, 2, 2, 3, 3])),
    };
    let size = size(random, most_height);
    let count = 1 + random.below(4);
    let reference = random.below(count);
    let bracket = scenes::bracket(random, size.0, size.1, count);
    let rivalry = rivalry(random, reach, size);
    let (options, percentile) = options(random);
    let frames = Frames::alike(bracket, size, percentile, reference);
    report_agrees(&frames, &options, &rivalry)
}

pub fn report_unequal(random: &mut Random, case: usize) -> Outcome {
    let asked = unequal::stack_of(random, case, 30, By::Rivals);
    report_agrees(&asked.frames, &asked.options, &asked.rivalry)
}

/// A sound stack's, with the original's shifts where all frames are cut at one percentile.
fn report_agrees(frames: &Frames, options: &Options, rivalry: &Rivalry) -> Outcome {
    let (count, stack) = (frames.widths.len(), frames.stack());
    let input = format!("{frames}, {options:?}, {rivalry:?}");
    let expected = recount::report(stack, options, rivalry);
    let needed = expected.records.len();
    let asked = |records: usize| {
        let room = Room {
            shifts: 2 * count,
            verdicts: count,
            scratch: frames.scratch(options.bits),
            records,
        };
        naive::report::report(stack, options, rivalry, room)
    };

    let read_back = asked(RECORD_BYTES * needed).map(|mut report| {
        for record in &mut report.records {
            *record = read_record(&record.bytes());
        }
        report
    });
    same(&input, &read_back, &Ok(expected.clone()))?;
    if original::has_one(stack.percentiles) {
        let shifts = read_back.map(|report| report.shifts);
        same(&input, &shifts, &original::align_stack(stack, options))?;
    }
    if needed > 0 {
        let short = Refusal::new(RECORD_SPACE_TOO_SHORT, &[needed]);
        same(&input, &asked(RECORD_BYTES * needed - 1), &Err(short))?;
    }
    let (width, height) = (frames.widths[0], frames.heights[0]);
    let cover = recount::crop_is_what_all_cover(expected.crop, &expected.shifts, width, height);
    same(&input, &cover, &true)
}

/// The program's text for a report, from the records back to their frames.
fn text_of(report: &Report) -> String {
    let mut records = vec![(0, String::new()); report.verdicts.len()];
    for record in &report.records {
        let (count, lines) = &mut records[record.frame as usize];
        *count += 1;
        *lines += &format!("{} {} {} ", record.frame, record.x, record.y);
        *lines += &format!("{} {}\n", record.disagreeing, record.compared);
    }

    let Crop {
        x,
        y,
        width,
        height,
    } = report.crop;
    let mut text = format!("frames {} crop {x} {y} {width} {height}\n", records.len());
    for (frame, (count, lines)) in records.iter().enumerate() {
        let name = match report.verdicts[frame] {
            0 => "reference",
            1 => "weak",
            2 => "alone",
            _ => "contested",
        };
        let (x, y) = (report.shifts[2 * frame], report.shifts[2 * frame + 1]);
        text += &format!("{frame} {x} {y} {name} {count}\n{lines}");
    }
    text
}

/// The program's text, and the one that it would have with a longer reach.
pub fn stacksteps(random: &mut Random, case: usize) -> Outcome {
    let count = 1 + case % 8;
    let bracket = scenes::bracket(random, 64, 64, count);
    let frames = Frames::alike(bracket, (64, 64), PERCENTILE, 0);
    let expected = |rivalry: &Rivalry| text_of(&recount::report(frames.stack(), &OPTIONS, rivalry));
    let text = program::stacksteps(&frames.samples);
    same(&format!("{count} frames"), &text, &expected(&RIVALRY))?;
    let farther = Rivalry {
        reach: random.pick(&[2, 3, 5]),
        ..RIVALRY
    };
    let text = program::text_at(&frames.samples, &farther);
    let input = format!("{count} frames, {farther:?}");
    same(&input, &text, &expected(&farther))
}
