//! Reports on frames made for it: neighbour shifts fit as well as the step or as well as
//! a rival, and are none.

use naive::align::Options;
use naive::geometry::Shift;
use naive::report::{ALONE, CONTESTED, Record, Rivalry, WEAK};
use naive::shrink::Shrink;
use naive::stacksteps::{OPTIONS, PERCENTILE};
use trials::frames::Frames;
use trials::inputs::Random;

use crate::cases::Size;
use crate::stacks::Asked;

/// Most of a frame: next to the cut, so that it is not compared.
const BOARD: u8 = 9;
const DARK: u8 = 0;
const BRIGHT: u8 = 99;

/// Nine candidates, of which the step is the best.
const ONE_LEVEL: Options = Options { bits: 1, ..OPTIONS };

/// From a step to another shift.
type Offset = (i32, i32);

fn distance((right, down): Offset) -> i32 {
    right.abs().max(down.abs())
}

fn offsets(reach: i32) -> impl Iterator<Item = Offset> {
    (-reach..=reach).flat_map(move |down| (-reach..=reach).map(move |right| (right, down)))
}

/// A bright pixel of the first frame, and what the second frame has there at the shifts
/// around the step.
type Probe<'a> = ((i32, i32), &'a dyn Fn(Offset) -> u8);

/// Two frames of which only the probes are compared, at shifts up to `reach` from the step.
fn probed(size: Size, step: Shift, reach: i32, probes: &[Probe]) -> Frames {
    let at = |x: i32, y: i32| y as usize * size.0 + x as usize;
    let [mut first, mut second] = [(); 2].map(|()| vec![BOARD; size.0 * size.1]);
    for &((x, y), sample) in probes {
        first[at(x, y)] = BRIGHT;
        for (right, down) in offsets(reach) {
            // Its source at this shift.
            let (x, y) = (x - step.x - right, y - step.y - down);
            second[at(x, y)] = sample((right, down));
        }
    }
    Frames::alike(vec![first, second], size, PERCENTILE, 0)
}

/// A case whose second frame has this step, this verdict and rivals at these offsets.
fn asked(
    random: &mut Random,
    frames: Frames,
    options: Options,
    rivalry: Rivalry,
    step: Shift,
    (verdict, rivals): (u8, &[Offset]),
) -> Asked {
    let asked = Asked::of(random, frames, options, Some(rivalry));
    let report = asked.report();
    let offset = |record: &Record| (record.x - step.x, record.y - step.y);
    let found: Vec<Offset> = report.records.iter().map(offset).collect();
    assert_eq!(report.shifts[2..], [step.x, step.y]);
    assert_eq!((report.verdicts[1], &found[..]), (verdict, rivals));
    asked
}

pub fn cases(random: &mut Random) -> Vec<Asked> {
    [
        two_aside(random),
        all_nine_alike(random),
        all_alike(random),
        weak(random),
    ]
    .concat()
}

/// Each shift that lies two pixels off the step on one axis or on both, as the one rival
/// beside the step. The neighbour shifts fit as well as it does.
fn two_aside(random: &mut Random) -> Vec<Asked> {
    let steps: Vec<Offset> = offsets(1).filter(|&step| step != (0, 0)).collect();
    let mut cases = Vec::new();
    for (number, other) in offsets(2).filter(|&o| distance(o) == 2).enumerate() {
        let (x, y) = steps[number % steps.len()];
        let step = Shift::new(x, y);
        let near_or_other = |offset| match distance(offset) <= 1 || offset == other {
            true => BRIGHT,
            false => DARK,
        };
        let step_alone = |offset| if offset == (0, 0) { BRIGHT } else { DARK };
        let probes: [Probe; 2] = [((3, 3), &near_or_other), ((8, 3), &step_alone)];
        let frames = probed((13, 8), step, 2, &probes);
        let rivalry = Rivalry {
            reach: 2 + number as u32 % 2,
            floor: 2,
            margin: 1,
        };
        let mut rivals = [(0, 0), other];
        rivals.sort_by_key(|&(right, down)| (down, right));
        let answer = (CONTESTED, &rivals[..]);
        cases.push(asked(random, frames, ONE_LEVEL, rivalry, step, answer));
    }
    cases
}

/// The step and its neighbour shifts have the same counts: only the step is a rival. With
/// a halved level, which leads the search to the step.
fn all_nine_alike(random: &mut Random) -> Vec<Asked> {
    let options = Options {
        bits: 2,
        shrink: Shrink::Subsample,
        ..OPTIONS
    };
    let mut cases = Vec::new();
    for (x, y) in [(0, 0), (2, -2)] {
        let step = Shift::new(x, y);
        let near = |offset| if distance(offset) <= 1 { BRIGHT } else { DARK };
        for (reach, margin, verdict, rivals) in [
            (1, 1, ALONE, vec![(0, 0)]),
            (2, 0, ALONE, vec![(0, 0)]),
            (2, 1, CONTESTED, all_but_the_neighbours(2)),
        ] {
            let frames = probed((16, 14), step, 4, &[((8, 6), &near)]);
            let rivalry = Rivalry {
                reach,
                floor: 1,
                margin,
            };
            let answer = (verdict, &rivals[..]);
            cases.push(asked(random, frames, options, rivalry, step, answer));
        }
    }
    cases
}

fn all_but_the_neighbours(reach: i32) -> Vec<Offset> {
    offsets(reach).filter(|&o| distance(o) != 1).collect()
}

/// Every shift of the window of 5 by 5 has the same counts.
fn all_alike(random: &mut Random) -> Vec<Asked> {
    let mut cases = Vec::new();
    for (reach, count) in [(0, 1), (1, 1), (2, 17), (3, 17)] {
        let frames = probed((9, 8), Shift::ZERO, 2, &[((4, 4), &|_| BRIGHT)]);
        let rivalry = Rivalry {
            reach,
            floor: 1,
            margin: 0,
        };
        let rivals = all_but_the_neighbours(reach.min(2) as i32);
        assert_eq!(rivals.len(), count);
        let verdict = if count == 1 { ALONE } else { CONTESTED };
        let answer = (verdict, &rivals[..]);
        cases.push(asked(
            random,
            frames,
            ONE_LEVEL,
            rivalry,
            Shift::ZERO,
            answer,
        ));
    }
    cases
}

/// The step compares nothing and has rivals all the same, far from it. At (0, 0) the frames
/// disagree, or that would be the step.
fn weak(random: &mut Random) -> Vec<Asked> {
    let step = Shift::new(-1, -1);
    let rivals = [(-1, -2), (2, 0), (2, 1), (0, 2)];
    let sample = |offset| match offset {
        (0, 0) => BOARD,
        (1, 1) => DARK,
        _ if distance(offset) == 1 || rivals.contains(&offset) => BRIGHT,
        _ => DARK,
    };
    let of_reach = |(reach, rivals): (u32, &[Offset])| {
        let frames = probed((10, 8), step, 2, &[((4, 4), &sample)]);
        let rivalry = Rivalry {
            reach,
            floor: 1,
            margin: 0,
        };
        asked(random, frames, ONE_LEVEL, rivalry, step, (WEAK, rivals))
    };
    [(1, &[][..]), (2, &rivals), (3, &rivals)]
        .map(of_reach)
        .into()
}
