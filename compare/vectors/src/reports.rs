//! Reports of stacks.

use std::collections::BTreeSet;

use naive::align::{Options, Scratch};
use naive::refusals::{
    FARTHEST_REACH, LONGEST_SIDE, MOST_FRAMES, REACH_TOO_FAR, RECORD_SPACE_TOO_SHORT, WRONG_LENGTH,
};
use naive::report::{CONTESTED, RECORD_BYTES, REFERENCE, Record, Rivalry};
use naive::stacksteps::{OPTIONS, PERCENTILE, RIVALRY};
use trials::frames::Frames;
use trials::inputs::{Random, options};

use crate::cases::{Break, Size, accepted, frames, refused, sizes_and_longest};
use crate::stacks::{Asked, SCRATCH_BREAKS, no_frame, seventeen, stack_breaks, walks};
use crate::steps::{EDGES, MANY_BITS, USUAL};
use crate::{neighbours, unequal};

/// Seventeen rivals a frame: of a window of 5 by 5 all but the neighbour shifts.
const ALL_NEARBY: Rivalry = Rivalry {
    reach: 2,
    floor: 0,
    margin: u32::MAX,
};
/// The program's terms, but with rivals beside the step.
const FEW_NEARBY: Rivalry = reaching(3, RIVALRY);
const REPORT_BREAKS: [Break<Asked>; 4] = [
    (WRONG_LENGTH, |asked| asked.room.verdicts += 1),
    (WRONG_LENGTH, |asked| asked.room.verdicts = 0),
    (REACH_TOO_FAR, |asked| {
        asked.rivalry = Some(reaching(FARTHEST_REACH + 1, ALL_NEARBY))
    }),
    (REACH_TOO_FAR, |asked| {
        asked.rivalry = Some(reaching(u32::MAX, ALL_NEARBY))
    }),
];
const RECORD_BREAKS: [Break<Asked>; 3] = [
    (RECORD_SPACE_TOO_SHORT, |asked| asked.room.records -= 1),
    (RECORD_SPACE_TOO_SHORT, |asked| {
        asked.room.records -= RECORD_BYTES
    }),
    (RECORD_SPACE_TOO_SHORT, |asked| asked.room.records = 0),
];

const fn reaching(reach: u32, rivalry: Rivalry) -> Rivalry {
    Rivalry { reach, ..rivalry }
}

/// Mostly a few rivals, now and then all of a window or none.
fn rivalry(random: &mut Random, (width, height): Size) -> Rivalry {
    let area = (width * height) as u32;
    Rivalry {
        reach: random.pick(&[0, 1, 2, 2, 2, 3]),
        floor: random.pick(&[0, 1, 1, 1, area / 8, area / 3, u32::MAX]),
        margin: random.pick(&[0, 0, 0, 1, area / 8, u32::MAX]),
    }
}

pub fn report(random: &mut Random) -> Vec<String> {
    let mut cases = Vec::new();
    for (number, size) in sizes_and_longest(random).into_iter().enumerate() {
        let count = if size.0 == LONGEST_SIDE {
            2
        } else {
            1 + number % 3
        };
        let (settings, rivalry) = (options(random), rivalry(random, size));
        cases.push(Asked::any(random, size, count, settings, Some(rivalry)));
    }
    for (size, count) in [
        ((24, 20), 4),
        ((40, 16), 3),
        ((8, 6), MOST_FRAMES),
        ((18, 30), 4),
    ] {
        for settings in [USUAL, options(random)] {
            let rivalry = rivalry(random, size);
            cases.push(Asked::any(random, size, count, settings, Some(rivalry)));
        }
    }
    // The farthest reach, where most of the window compares nothing.
    let farthest = Rivalry {
        reach: FARTHEST_REACH,
        floor: 1,
        margin: 3,
    };
    let frames = vec![random.bytes(20), random.bytes(20), random.bytes(20)];
    let noise = Frames::alike(frames, (5, 4), PERCENTILE, 1);
    let asked = Asked::of(random, noise, OPTIONS, Some(farthest));
    assert_eq!(asked.report().verdicts, [CONTESTED, REFERENCE, CONTESTED]);
    cases.push(asked);
    // A step that disagrees, so that its count and the margin pass 32 bits.
    let frames = vec![random.bytes(63), random.bytes(63)];
    let noise = Frames::alike(frames, (9, 7), PERCENTILE, 0);
    cases.push(Asked::of(random, noise, OPTIONS, Some(ALL_NEARBY)));

    let of_report = [&REPORT_BREAKS[..], &SCRATCH_BREAKS, &RECORD_BREAKS].concat();
    let breaks = [stack_breaks(), of_report.clone()].concat();
    let sound = Asked::sound(random, Some(ALL_NEARBY));
    [
        accepted(cases),
        accepted([sound.clone()]),
        refused(&sound, &breaks),
        no_frame(random, Some(ALL_NEARBY)),
        whole_window(random),
        walks(random, Some(ALL_NEARBY)),
        accepted(limits(random)),
        accepted(spaces(random)),
        short_of_space(random),
        accepted(bounds(random)),
        accepted(references(random)),
        seventeen(random, Some(ALL_NEARBY)),
        accepted(pins(random)),
        accepted(EDGES.map(|settings| Asked::any(random, (8, 7), 3, settings, Some(FEW_NEARBY)))),
        many_records(random),
        accepted(neighbours::cases(random)),
        unequal::lines(random, Some(ALL_NEARBY), &of_report),
    ]
    .concat()
}

/// The most records whose bytes 16 bits count, one more, and a byte too few for those.
fn many_records(random: &mut Random) -> Vec<String> {
    let [most, over] = [3276, 3277].map(|records| noise_of(random, records));
    let short: [Break<Asked>; 1] = [(RECORD_SPACE_TOO_SHORT, |asked| asked.room.records -= 1)];
    [accepted([most, over.clone()]), refused(&over, &short)].concat()
}

/// Noise with just so many records: where two frames share no pixel they disagree in
/// none, and a margin keeps some of the other shifts out.
fn noise_of(random: &mut Random, records: usize) -> Asked {
    loop {
        let noise = vec![random.bytes(225), random.bytes(225)];
        let frames = Frames::alike(noise, (15, 15), PERCENTILE, 0);
        let mut asked = Asked::of(random, frames, OPTIONS, Some(reaching(29, ALL_NEARBY)));
        let report = asked.report();
        let is_step = |record: &&Record| [record.x, record.y] == report.shifts[2..];
        let step = report.records.iter().find(is_step).expect("the step");
        let mut counts: Vec<u32> = report.records.iter().map(|r| r.disagreeing).collect();
        counts.sort();
        let last = counts[records - 1];
        if last >= step.disagreeing && last < counts[records] {
            asked.rivalry = Some(Rivalry {
                reach: 29,
                floor: 0,
                margin: last - step.disagreeing,
            });
            assert_eq!(asked.report().records.len(), records);
            return asked.with_space(0);
        }
    }
}

/// Floors and margins at both ends, on frames that disagree; more bits than are of
/// use; and one frame, for which nothing is lent but its shift and its verdict.
fn limits(random: &mut Random) -> Vec<Asked> {
    const ENDS: [u32; 2] = [0, u32::MAX];
    let mut cases = Vec::new();
    for reach in [0, 1, 2, 3] {
        for (floor, margin) in ENDS
            .map(|floor| ENDS.map(|margin| (floor, margin)))
            .concat()
        {
            let rivalry = Rivalry {
                reach,
                floor,
                margin,
            };
            let frames = vec![random.bytes(40), random.bytes(40), random.bytes(40)];
            let frames = Frames::alike(frames, (5, 8), PERCENTILE, 2);
            cases.push(Asked::of(random, frames, OPTIONS, Some(rivalry)));
        }
    }
    cases.push(Asked::any(random, (19, 9), 3, MANY_BITS, Some(FEW_NEARBY)));
    let mut one = Asked::any(
        random,
        (7, 5),
        1,
        USUAL,
        Some(reaching(FARTHEST_REACH, ALL_NEARBY)),
    );
    (one.room.scratch, one.room.records) = (Scratch::NONE, 0);
    cases.push(one);
    cases
}

/// Record space and scratch just as long as needed, and longer.
fn spaces(random: &mut Random) -> Vec<Asked> {
    let sound = Asked::sound(random, Some(ALL_NEARBY));
    let few = Asked::any(random, (12, 9), 4, USUAL, Some(FEW_NEARBY));
    let mut none = few.clone();
    none.rivalry = Some(Rivalry {
        floor: u32::MAX,
        ..FEW_NEARBY
    });
    let mut cases = Vec::new();
    for asked in [sound, few, none] {
        for (spare, bytes, words) in [(0, 0, 0), (1, 7, 0), (20, 0, 5), (57, 3, 2)] {
            cases.push(asked.clone().with_space(spare).with_scratch(bytes, words));
        }
    }
    cases
}

/// Refused for space, with more scratch than is needed.
fn short_of_space(random: &mut Random) -> Vec<String> {
    let breaks: [Break<Asked>; 3] = [
        (RECORD_SPACE_TOO_SHORT, |asked| asked.room.records -= 1),
        (RECORD_SPACE_TOO_SHORT, |asked| asked.room.records /= 2),
        (RECORD_SPACE_TOO_SHORT, |asked| asked.room.records = 0),
    ];
    let asked = Asked::any(random, (12, 9), 4, USUAL, Some(ALL_NEARBY));
    needing(
        3 * 17,
        refused(&asked.with_space(0).with_scratch(6, 4), &breaks),
    )
}

/// The lines of cases refused for space, which all name the number of records needed.
fn needing(records: usize, lines: Vec<String>) -> Vec<String> {
    let named = format!(" {RECORD_SPACE_TOO_SHORT} 1 {records}");
    assert!(lines.iter().all(|line| line.ends_with(&named)));
    lines
}

/// Floors and margins that a shift of the window just meets, and just does not: on
/// noise, on frames that have all that is compared in their first rows, and on equal
/// frames, whose step compares all that can be.
fn bounds(random: &mut Random) -> Vec<Asked> {
    let noise = vec![random.bytes(63), random.bytes(63)];
    let top = [16, 20].map(|noisy| [random.bytes(noisy), vec![90; 165 - noisy]].concat());
    let equal = vec![random.bytes(54); 2];
    let mut cases = Vec::new();
    for (frames, size) in [(noise, (9, 7)), (top.to_vec(), (5, 33)), (equal, (9, 6))] {
        let frames = Frames::alike(frames, size, PERCENTILE, 1);
        cases.extend(just_met(random, frames));
    }
    cases
}

/// For each shift beside the step of two frames a floor and a margin that it just
/// meets, then each of them passed by one.
fn just_met(random: &mut Random, frames: Frames) -> Vec<Asked> {
    let all = Asked::of(random, frames, OPTIONS, Some(ALL_NEARBY));
    let report = all.report();
    let is_step = |record: &&Record| [record.x, record.y] == report.shifts[..2];
    let step = report.records.iter().find(is_step).expect("the step");

    let mut asked = BTreeSet::new(); // each once
    for other in &report.records {
        let floor = other.compared;
        let margin = other.disagreeing.saturating_sub(step.disagreeing);
        asked.insert((floor, margin));
        asked.insert((floor + 1, margin));
        asked.insert((floor, margin.saturating_sub(1)));
    }
    let of_bounds = |(floor, margin)| {
        let mut case = all.clone();
        case.rivalry = Some(Rivalry {
            reach: 2,
            floor,
            margin,
        });
        case.with_space(0)
    };
    let cases: Vec<Asked> = asked.into_iter().map(of_bounds).collect();
    let counts: BTreeSet<usize> = cases
        .iter()
        .map(|case| case.report().records.len())
        .collect();
    assert!(counts.len() > 3, "{counts:?}");
    cases
}

/// The reference first, in the middle and last, also of sixteen frames.
fn references(random: &mut Random) -> Vec<Asked> {
    let mut cases = Vec::new();
    for (size, count) in [((12, 9), 5), ((7, 6), MOST_FRAMES)] {
        for reference in [0, count / 2, count - 1] {
            let frames = frames(random, size, count);
            let frames = Frames::alike(frames, size, PERCENTILE, reference);
            cases.push(Asked::of(random, frames, OPTIONS, Some(FEW_NEARBY)));
        }
    }
    cases
}

/// A row of equal pins: one pitch beside the step is as good as the step.
fn pins(random: &mut Random) -> Vec<Asked> {
    const PITCH: usize = 8;
    let size = (40, 9);
    let pins = |left: usize| -> Vec<u8> {
        let on_pin = |at: usize| (3..7).contains(&(at / size.0)) && (at + left) % PITCH < 3;
        let sample = |at| if on_pin(at) { 200 } else { 30 };
        (0..size.0 * size.1).map(sample).collect()
    };
    let options = Options {
        tolerance: 0, // or the board, which is darkest and most, is not compared
        ..OPTIONS
    };
    let mut cases = Vec::new();
    for frames in [[0, 0, 0], [0, 2, 3]] {
        let frames = Frames::alike(frames.map(pins).to_vec(), size, PERCENTILE, 0);
        let rivalry = reaching(PITCH as u32, RIVALRY);
        let asked = Asked::of(random, frames, options, Some(rivalry));
        let report = asked.report();
        for frame in 1..3 {
            let step =
                |axis: usize| report.shifts[2 * frame + axis] - report.shifts[2 * frame - 2 + axis];
            let one_pitch_aside = |record: &&Record| {
                record.frame as usize == frame
                    && (record.x - step(0)).unsigned_abs() as usize == PITCH
                    && record.y == step(1)
            };
            assert_eq!(report.verdicts[frame], CONTESTED);
            assert!(report.records.iter().any(|record| one_pitch_aside(&record)));
        }
        cases.push(asked);
    }
    cases
}

/// The farthest reach with nothing asked of a rival: of 129 by 129 shifts a frame all but
/// eight are rivals, which do not fit.
fn whole_window(random: &mut Random) -> Vec<String> {
    let everything: [Break<Asked>; 1] = [(RECORD_SPACE_TOO_SHORT, |asked| {
        asked.rivalry = Some(reaching(FARTHEST_REACH, ALL_NEARBY));
    })];
    let sound = Asked::sound(random, Some(ALL_NEARBY));
    needing(2 * (129 * 129 - 8), refused(&sound, &everything))
}
