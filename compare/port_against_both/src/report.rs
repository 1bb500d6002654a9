//! The report of a stack.

use ::port::report::{self as port, Report};
use naive::align::{Options, Scratch};
use naive::geometry::Crop;
use naive::refusals::{FARTHEST_REACH, MOST_FRAMES, RECORD_SPACE_TOO_SHORT};
use naive::report::{self, RECORD_BYTES, Rivalry, Room};
use trials::frames::Frames;
use trials::inputs::{Random, SIDES_OVER, options, percentile_over, rivalry, size};
use trials::unequal::{self, By};
use trials::{Outcome, original, recount, same, scenes};

use crate::agreed;
use crate::lent::{Lent, LentStack};
use crate::search::{enough, lent, told, wrong};

/// What a caller passes, the record space apart.
pub struct Asked {
    pub frames: Frames,
    pub options: Options,
    pub rivalry: Rivalry,
    pub shifts: usize,
    pub verdicts: usize,
    pub scratch: Scratch,
    /// What the stack needs while it is in order.
    pub need: Scratch,
}

impl Asked {
    pub fn new(random: &mut Random, frames: Frames, options: Options, rivalry: Rivalry) -> Self {
        let (count, need) = (frames.widths.len(), frames.scratch(options.bits));
        Self {
            frames,
            options,
            rivalry,
            shifts: 2 * count,
            verdicts: count,
            scratch: enough(random, need),
            need,
        }
    }
}

/// A check made to fail.
pub type Slip = fn(&mut Random, &mut Asked);

/// In the order of the checks. The last, a record space that is too short, comes with
/// the space.
pub const SLIPS: [Slip; 13] = [
    // Over 16 frames in either list, or in both.
    |random, asked| {
        let (width, height) = size(random, 3);
        let count = MOST_FRAMES + 1 + random.below(2);
        asked.frames.samples = vec![77; count * width * height];
        asked.frames.widths = vec![width; count];
        asked.frames.heights = vec![height; count];
        asked.frames.percentiles.resize(count, 50);
        match random.below(3) {
            0 => asked.frames.widths.truncate(MOST_FRAMES),
            1 => asked.frames.heights.truncate(MOST_FRAMES),
            _ => {}
        }
    },
    |random, asked| match random.one_in(2) {
        true => asked.frames.heights.push(3),
        false => _ = asked.frames.heights.pop(),
    },
    |random, asked| {
        let length = wrong(random, asked.frames.percentiles.len());
        asked.frames.percentiles.resize(length, 50);
    },
    |random, asked| {
        let over = random.pick(&SIDES_OVER);
        *one_side(random, &mut asked.frames) = over;
    },
    |random, asked| {
        let place = random.below(asked.frames.widths.len());
        if let Some(entry) = asked.frames.percentiles.get_mut(place) {
            *entry = percentile_over(random);
        }
    },
    |random, asked| {
        let count = asked.frames.widths.len();
        asked.frames.reference = random.pick(&[count, count + 1, usize::MAX]);
    },
    |random, asked| {
        for _ in 0..1 + random.below(2) {
            let side = one_side(random, &mut asked.frames);
            *side = side.saturating_sub(1);
        }
    },
    |random, asked| {
        let length = wrong(random, asked.frames.samples.len());
        asked.frames.samples.resize(length, 77);
    },
    |random, asked| asked.shifts = wrong(random, asked.shifts),
    |random, asked| asked.verdicts = wrong(random, asked.verdicts),
    |random, asked| {
        asked.rivalry.reach =
            random.pick(&[FARTHEST_REACH + 1, FARTHEST_REACH + 2, 1 << 16, u32::MAX])
    },
    |_, asked| asked.scratch.bytes = asked.need.bytes.saturating_sub(1),
    |_, asked| asked.scratch.words = asked.need.words.saturating_sub(1),
];

/// Of the slips, the first after those of the lists' lengths, and the first after that of a
/// percentile.
pub const AFTER_LENGTHS: usize = 3;
pub const AFTER_ENTRIES: usize = 5;

/// Each check failing alone and with the next, in turn: the record space is the last.
const ALONE: usize = SLIPS.len() + 1;
const WITH_THE_NEXT: usize = ALONE + SLIPS.len();
/// As many stacks without a slip but for the record space.
const TURN: usize = 2 * WITH_THE_NEXT;

fn one_side<'a>(random: &mut Random, frames: &'a mut Frames) -> &'a mut usize {
    let sides = match random.one_in(2) && !frames.heights.is_empty() {
        true => &mut frames.heights,
        false => &mut frames.widths,
    };
    let frame = random.below(sides.len());
    &mut sides[frame]
}

/// A stack in order, with a reach of 0 to 64; frames are small where the reach is far.
pub fn in_order(random: &mut Random) -> Asked {
    let (most_height, reach) = match random.below(24) {
        0 => (6, FARTHEST_REACH),
        1 => (6, random.between(9, 63) as u32),
        2 => (16, random.between(4, 8) as u32),
        _ => (30, random.pick(&[0, 1, 2, 2, 2, 3, 3])),
    };
    let size = size(random, most_height);
    let count = match random.one_in(12) {
        true => 15 + random.below(2),
        false => 1 + random.below(5),
    };
    let bracket = scenes::bracket(random, size.0, size.1, count);
    let reference = random.below(count);
    let (options, percentile) = options(random);
    let frames = Frames::alike(bracket, size, percentile, reference);
    let rivalry = rivalry(random, reach, size);
    Asked::new(random, frames, options, rivalry)
}

/// The length of a record space: exact, longer, or too short by one, by a record or
/// altogether.
fn space(random: &mut Random, needed: usize, short: bool) -> usize {
    let exact = RECORD_BYTES * needed;
    match (short, random.below(3)) {
        (false, 0) => exact + 1 + random.below(60),
        (false, _) => exact,
        (true, 0) => 0,
        (true, 1) => exact.saturating_sub(RECORD_BYTES),
        (true, _) => exact.saturating_sub(1),
    }
}

pub fn report(random: &mut Random, case: usize) -> Outcome {
    let mut asked = in_order(random);
    let turn = case % TURN;
    let slips = match turn {
        ..ALONE => turn..turn + 1,
        ALONE..WITH_THE_NEXT => turn - ALONE..turn - ALONE + 2,
        _ => 0..0,
    };
    for slip in SLIPS.iter().take(slips.end).skip(slips.start) {
        slip(random, &mut asked);
    }
    let short = slips.end > SLIPS.len() || slips.is_empty() && random.one_in(3);
    report_agrees(random, &asked, short)
}

/// Each frame at a percentile of its own.
pub fn report_unequal(random: &mut Random, case: usize) -> Outcome {
    let found = unequal::stack_of(random, case, 30, By::Rivals);
    let asked = Asked::new(random, found.frames, found.options, found.rivalry);
    report_agrees(random, &asked, case % 8 == 6)
}

/// The report, with a record space that is too short or not.
pub fn report_agrees(random: &mut Random, asked: &Asked, short: bool) -> Outcome {
    let Asked {
        frames,
        options,
        rivalry,
        ..
    } = asked;
    let lists = LentStack::of(random, frames);
    let stack = lists.stack();
    let room = |records| Room {
        shifts: asked.shifts,
        verdicts: asked.verdicts,
        scratch: asked.scratch,
        records,
    };
    let endless = report::report(stack, options, rivalry, room(usize::MAX));
    let needed = endless.map_or(random.below(3), |report| report.records.len());
    let space = space(random, needed, short);

    let mut shifts = Lent::room(random, asked.shifts);
    let mut verdicts = Lent::room(random, asked.verdicts);
    let mut records = Lent::room(random, space);
    let (mut bytes, mut words) = lent(random, asked.scratch);
    let mut crop = [(); 4].map(|()| Lent::room(random, 1));
    let mut count = Lent::room(random, 1);
    let mut values = Lent::room(random, 5);
    let input = format!(
        "{frames}, {options:?}, {rivalry:?}, {:?}",
        room(records.list().len())
    );

    let status = port::report(
        stack,
        options,
        rivalry,
        Report {
            shifts: shifts.list_mut(),
            verdicts: verdicts.list_mut(),
            records: records.list_mut(),
            crop: crop.each_mut().map(Lent::one_mut),
            count: count.one_mut(),
        },
        (bytes.list_mut(), words.list_mut()),
        values.array_mut(),
    );
    let naive = report::report(stack, options, rivalry, room(space));
    lists.are_kept(&input)?;
    told(&values, &naive, &input)?;
    // Under 10 the records were counted, so that the scratch is used.
    let of_counting = match status {
        RECORD_SPACE_TOO_SHORT => 0,
        _ => status,
    };
    bytes.used_up_to(asked.need.bytes, &input, of_counting)?;
    words.used_up_to(asked.need.words, &input, of_counting)?;
    let mut sides = [0; 4];
    for (side, slot) in sides.iter_mut().zip(&crop) {
        *side = slot.after(&input, status)?[0] as u64;
    }
    let [x, y, width, height] = sides;
    let written = (
        shifts.after(&input, status)?,
        verdicts.after(&input, status)?,
        records.after(&input, status)?,
        Crop {
            x,
            y,
            width,
            height,
        },
        count.after(&input, status)?[0],
    );
    let in_lists = |report: report::Report| {
        let mut bytes = records.list_before().to_vec();
        for (bytes, record) in bytes.chunks_mut(RECORD_BYTES).zip(&report.records) {
            bytes.copy_from_slice(&record.bytes());
        }
        let count = report.records.len();
        (report.shifts, report.verdicts, bytes, report.crop, count)
    };
    if status == 0 && original::has_one(stack.percentiles) {
        let original = original::align_stack(stack, options);
        let shifts = Ok(written.0.clone());
        same(&input, ("port", &shifts), ("original", &original))?;
    }
    agreed(
        &input,
        (status, written),
        naive.map(in_lists),
        Some(|| Ok(in_lists(recount::report(stack, options, rivalry)))),
    )
}
