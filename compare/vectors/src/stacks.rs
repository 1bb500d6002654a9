//! Stacks and their shifts.

use naive::align::{self, Options, Scratch};
use naive::refusals::{
    HIGHEST_PERCENTILE, LONGEST_SIDE, MOST_FRAMES, NO_PERCENTILE, NO_SUCH_REFERENCE,
    SCRATCH_TOO_SHORT, SIDE_TOO_LONG, SIZES_DIFFER, TOO_MANY_FRAMES, WRONG_LENGTH,
};
use naive::report::{RECORD_BYTES, Report, Rivalry, Room};
use naive::stacksteps::PERCENTILE;
use trials::frames::Frames;
use trials::inputs::{Random, TOO_LONG, options};
use trials::{original, recount};

use crate::cases::{Break, Case, Size, accepted, agreed, frames, refused, sizes_and_longest};
use crate::line::{Answered, Line};
use crate::steps::{MANY_BITS, SOUND, Settings, USUAL, ample};
use crate::unequal;

/// A stack and how it is asked; with a rivalry for a report, else for its shifts.
#[derive(Clone)]
pub struct Asked {
    pub frames: Frames,
    pub options: Options,
    pub rivalry: Option<Rivalry>,
    pub room: Room,
}

impl Asked {
    pub fn any(
        random: &mut Random,
        size: Size,
        count: usize,
        (options, percentile): Settings,
        rivalry: Option<Rivalry>,
    ) -> Self {
        let frames = frames(random, size, count);
        let frames = Frames::alike(frames, size, percentile, random.below(count));
        Self::of(random, frames, options, rivalry)
    }

    pub fn of(
        random: &mut Random,
        frames: Frames,
        options: Options,
        rivalry: Option<Rivalry>,
    ) -> Self {
        let needed = rivalry.map_or(0, |rivalry| {
            let report = recount::report(frames.stack(), &options, &rivalry);
            report.records.len()
        });
        let count = frames.widths.len();
        let room = Room {
            shifts: 2 * count,
            verdicts: count,
            scratch: ample(random, frames.scratch(options.bits)),
            records: RECORD_BYTES * needed + random.pick(&[0, 0, 19, 21]),
        };
        Self {
            frames,
            options,
            rivalry,
            room,
        }
    }

    /// A stack that just has what it needs, for a report as many rivals as can be.
    pub fn sound(random: &mut Random, rivalry: Option<Rivalry>) -> Self {
        let mut asked = Self::any(random, SOUND, 3, USUAL, rivalry);
        asked.frames.reference = 1;
        asked.room.scratch = asked.needed();
        asked.room.records = rivalry.map_or(0, |r| 2 * r.most_rivals() * RECORD_BYTES);
        asked
    }

    fn needed(&self) -> Scratch {
        self.frames.scratch(self.options.bits)
    }

    /// The report of an input whose other buffers are in order.
    pub fn report(&self) -> Report {
        let rivalry = &self.rivalry.expect("a report");
        recount::report(self.frames.stack(), &self.options, rivalry)
    }

    /// The same input with this many bytes of record space over what is needed.
    pub fn with_space(mut self, spare: usize) -> Self {
        self.room.records = RECORD_BYTES * self.report().records.len() + spare;
        self
    }

    /// The same input with this much scratch over what is needed.
    pub fn with_scratch(mut self, bytes: usize, words: usize) -> Self {
        let needed = self.needed();
        self.room.scratch = Scratch {
            bytes: needed.bytes + bytes,
            words: needed.words + words,
        };
        self
    }
}

impl Case for Asked {
    fn answered(&self) -> Answered {
        let (stack, options, room) = (self.frames.stack(), &self.options, self.room);
        let line = Line::new().stack(stack).options(options);
        let as_original = |shifts: &Vec<i32>| {
            if original::has_one(stack.percentiles) {
                assert_eq!(original::align_stack(stack, options).as_ref(), Ok(shifts));
            }
        };
        let Some(rivalry) = &self.rivalry else {
            let naive = align::align_stack(stack, options, room.shifts, room.scratch);
            return line
                .number(room.shifts)
                .scratch(room.scratch, &naive, || self.needed())
                .answer(agreed(naive, || {
                    let shifts = recount::align_stack(stack, options);
                    as_original(&shifts);
                    Ok(shifts)
                }));
        };
        let naive = naive::report::report(stack, options, rivalry, room);
        line.numbers([rivalry.reach, rivalry.floor, rivalry.margin])
            .numbers([room.shifts, room.verdicts])
            .scratch(room.scratch, &naive, || self.needed())
            .number(room.records)
            .answer(agreed(naive, || {
                let report = recount::report(stack, options, rivalry);
                as_original(&report.shifts);
                Ok(report)
            }))
    }
}

/// The checks of a stack up to the lengths of its lists.
pub const LIST_BREAKS: [Break<Asked>; 5] = [
    (TOO_MANY_FRAMES, |asked| {
        asked.frames.widths.resize(MOST_FRAMES + 1, SOUND.0);
        asked.frames.heights.resize(MOST_FRAMES + 1, SOUND.1);
    }),
    (TOO_MANY_FRAMES, |asked| {
        asked.frames.widths.resize(MOST_FRAMES + 1, SOUND.0)
    }),
    (TOO_MANY_FRAMES, |asked| {
        asked.frames.heights.resize(MOST_FRAMES + 1, SOUND.1)
    }),
    (WRONG_LENGTH, |asked| asked.frames.heights.push(SOUND.1)),
    (WRONG_LENGTH, |asked| {
        asked.frames.widths.extend([SOUND.0; 2])
    }),
];

/// The list of percentiles empty, one short and one long.
pub const PERCENTILES_BREAKS: [Break<Asked>; 3] = [
    (WRONG_LENGTH, |asked| asked.frames.percentiles.clear()),
    (WRONG_LENGTH, |asked| _ = asked.frames.percentiles.pop()),
    (WRONG_LENGTH, |asked| {
        asked.frames.percentiles.push(PERCENTILE)
    }),
];

pub const SIDE_BREAKS: [Break<Asked>; 3] = [
    (SIDE_TOO_LONG, |asked| asked.frames.widths[0] = TOO_LONG),
    (SIDE_TOO_LONG, |asked| asked.frames.heights[1] = TOO_LONG),
    (SIDE_TOO_LONG, |asked| asked.frames.heights[2] = 1 << 32),
];

/// All percentiles over the highest, and each of the three.
pub const PERCENTILE_BREAKS: [Break<Asked>; 4] = [
    (NO_PERCENTILE, |asked| asked.frames.percentiles.fill(OVER)),
    (NO_PERCENTILE, |asked| asked.frames.percentiles[0] = OVER),
    (NO_PERCENTILE, |asked| asked.frames.percentiles[1] = OVER),
    (NO_PERCENTILE, |asked| asked.frames.percentiles[2] = OVER),
];
const OVER: u8 = HIGHEST_PERCENTILE + 1;

/// The checks of a stack after its percentiles, up to the shift list.
pub const LATER_BREAKS: [Break<Asked>; 9] = [
    (NO_SUCH_REFERENCE, |asked| asked.frames.reference = 3),
    (NO_SUCH_REFERENCE, |asked| asked.frames.reference = 1 << 32),
    (SIZES_DIFFER, |asked| asked.frames.heights[0] += 1),
    (SIZES_DIFFER, |asked| asked.frames.widths[2] += 1),
    (SIZES_DIFFER, |asked| asked.frames.widths[2] = 0),
    (WRONG_LENGTH, |asked| _ = asked.frames.samples.pop()),
    (WRONG_LENGTH, |asked| asked.frames.samples.extend([0; 2])),
    (WRONG_LENGTH, |asked| asked.room.shifts += 1),
    (WRONG_LENGTH, |asked| asked.room.shifts = 0),
];

pub const SCRATCH_BREAKS: [Break<Asked>; 3] = [
    (SCRATCH_TOO_SHORT, |asked| asked.room.scratch.bytes -= 1),
    (SCRATCH_TOO_SHORT, |asked| asked.room.scratch.words -= 1),
    (SCRATCH_TOO_SHORT, |asked| {
        asked.room.scratch = Scratch::NONE
    }),
];

/// The checks of a stack up to the shift list. Those of its percentiles, but for all being over
/// the highest, are broken in `unequal.rs`.
pub fn stack_breaks() -> Vec<Break<Asked>> {
    [
        &LIST_BREAKS[..],
        &SIDE_BREAKS,
        &PERCENTILE_BREAKS[..1],
        &LATER_BREAKS,
    ]
    .concat()
}

/// Sizes of the walk that differ more than once; the first met is named.
pub fn walks(random: &mut Random, rivalry: Option<Rivalry>) -> Vec<String> {
    let differ: [Break<Asked>; 4] = [
        (SIZES_DIFFER, |asked| {
            asked.frames.widths = vec![5, 7, 6, 6, 6]
        }),
        (SIZES_DIFFER, |asked| {
            asked.frames.widths = vec![5, 6, 6, 6, 7]
        }),
        (SIZES_DIFFER, |asked| {
            asked.frames.heights = vec![4, 4, 4, 8, 9]
        }),
        (SIZES_DIFFER, |asked| asked.frames.heights[2] = 1),
    ];
    let mut asked = Asked::any(random, SOUND, 5, USUAL, rivalry);
    asked.frames.reference = 2;
    refused(&asked, &differ)
}

/// No frame, for which every reference is refused.
pub fn no_frame(random: &mut Random, rivalry: Option<Rivalry>) -> Vec<String> {
    let none: [Break<Asked>; 1] = [(NO_SUCH_REFERENCE, |asked| {
        asked.frames.samples.clear();
        asked.frames.widths.clear();
        asked.frames.heights.clear();
        asked.frames.percentiles.clear();
        asked.frames.reference = 0;
        (asked.room.shifts, asked.room.verdicts) = (0, 0);
    })];
    refused(&Asked::sound(random, rivalry), &none)
}

/// Seventeen frames with all that they would need, and seventeen percentiles for sixteen.
pub fn seventeen(random: &mut Random, rivalry: Option<Rivalry>) -> Vec<String> {
    let size = (3, 2);
    let sixteen = Asked::any(random, size, MOST_FRAMES, USUAL, rivalry);
    let one_more: [Break<Asked>; 2] = [
        (TOO_MANY_FRAMES, |asked| {
            asked.frames.samples.extend([5; 6]);
            asked.frames.widths.push(3);
            asked.frames.heights.push(2);
            asked.frames.percentiles.push(PERCENTILE);
            asked.room.shifts += 2;
            asked.room.verdicts += 1;
            let most_rivals = asked.rivalry.map_or(0, |rivalry| rivalry.most_rivals());
            asked.room.records += most_rivals * RECORD_BYTES;
        }),
        (WRONG_LENGTH, |asked| {
            asked.frames.percentiles.push(PERCENTILE)
        }),
    ];
    [accepted([sixteen.clone()]), refused(&sixteen, &one_more)].concat()
}

pub fn align_stack(random: &mut Random) -> Vec<String> {
    let mut cases = Vec::new();
    for (number, size) in sizes_and_longest(random).into_iter().enumerate() {
        let count = if size.0 == LONGEST_SIDE {
            2
        } else {
            1 + number % 4
        };
        let settings = options(random);
        cases.push(Asked::any(random, size, count, settings, None));
    }
    for (size, count) in [
        ((24, 20), 5),
        ((40, 16), 3),
        ((8, 6), MOST_FRAMES),
        ((20, 30), 4),
    ] {
        for settings in [USUAL, options(random)] {
            cases.push(Asked::any(random, size, count, settings, None));
        }
    }
    let breaks = [stack_breaks(), SCRATCH_BREAKS.to_vec()].concat();
    [
        accepted(cases),
        refused(&Asked::sound(random, None), &breaks),
        walks(random, None),
        no_frame(random, None),
        accepted([Asked::any(random, (19, 34), 3, MANY_BITS, None)]),
        seventeen(random, None),
        unequal::lines(random, None, &SCRATCH_BREAKS),
    ]
    .concat()
}
