//! A percentile for each frame: what a step and a report make of it, and what is refused.

mod asked;
mod small;

use asked::{Asked, refused};
use naive::Refusal;
use naive::align::{Exposure, Options, Scratch, Stack, Step, shift};
use naive::geometry::Shift;
use naive::gray::Frame;
use naive::report::{CONTESTED, REFERENCE, Record, Report};
use naive::stacksteps::OPTIONS;
use small::{REACH_2, report_of, small_report};

const HIGHEST: u8 = 100;

/// The step of a frame against itself, cut at these percentiles.
fn step(samples: &[u8], (width, height): (usize, usize), percentiles: [u8; 2], bits: u32) -> Step {
    let frame = Frame::new(samples, width, height);
    let [reference, target] = percentiles.map(|percentile| Exposure::new(frame, percentile));
    let options = Options {
        bits,
        tolerance: 0,
        ..OPTIONS
    };
    let scratch = Scratch::of_step(width, height, bits);
    shift(reference, target, &options, scratch).expect("a sound pair")
}

fn stepped(x: i32, y: i32, comparisons: u64) -> Step {
    Step {
        shift: Shift::new(x, y),
        comparisons,
    }
}

#[test]
fn one_pixel_disagrees_with_itself() {
    // At 50 the cut is 0 and the bit set, at 100 it is 201 and the bit clear.
    let one = |percentiles| step(&[200], (1, 1), percentiles, 6);
    for alike in [0, 50, HIGHEST] {
        assert_eq!(one([alike; 2]), stepped(0, 0, 1));
    }
    // The second candidate compares nothing.
    for unlike in [[50, HIGHEST], [HIGHEST, 50]] {
        assert_eq!(one(unlike), stepped(-1, -1, 2));
    }
}

/// Columns that brighten from left to right.
fn ramp(width: usize, height: usize) -> Vec<u8> {
    (0..width * height)
        .map(|at| 6 * (at % width) as u8)
        .collect()
}

#[test]
fn each_frame_has_its_own_cut_at_every_level() {
    // At 30 the coarsest level, 10 columns wide, is cut after its third column, at 20 after
    // its second; so are the levels of 20 and 40 columns, whose centres are clean.
    let of_ramp = |percentiles| step(&ramp(40, 32), (40, 32), percentiles, 3);
    for alike in [20, 30] {
        assert_eq!(of_ramp([alike; 2]), stepped(0, 0, 3));
    }
    assert_eq!(of_ramp([30, 20]), stepped(4, -4, 7 + 1 + 1));
    assert_eq!(of_ramp([20, 30]), stepped(-4, -4, 2 + 1 + 1));
}

/// A report on ramps of 10 by 4, one for each percentile, around the middle one.
fn of_ramps(percentiles: &[u8]) -> Report {
    let count = percentiles.len();
    let stack = Stack {
        samples: &ramp(10, 4).repeat(count),
        widths: &vec![10; count],
        heights: &vec![4; count],
        percentiles,
        reference: count / 2,
    };
    report_of(stack, 0, REACH_2)
}

/// Records of a frame at this x that disagree in no pixel: at each y so many rows are compared.
fn clean(frame: u32, x: i32, columns: u32, rows: [(i32, u32); 3]) -> [Record; 3] {
    rows.map(|(y, rows)| Record {
        frame,
        x,
        y,
        disagreeing: 0,
        compared: columns * rows,
    })
}

/// Those of a ramp that is cut as its neighbour is.
fn alike(frame: u32) -> [Record; 3] {
    clean(frame, 0, 10, [(-2, 2), (0, 4), (2, 2)])
}

#[test]
fn rivals_are_counted_with_the_cut_of_each_frame() {
    // Cut one column before its neighbour, a frame agrees with it one column to the right, and
    // cut one column after it one to the left. The first is cut as its neighbour is.
    let report = of_ramps(&[20, 20, 30, 40, 50]);
    assert_eq!(report.shifts, [1, -1, 1, -1, 0, 0, -1, -1, -2, -2]);
    let mut verdicts = [CONTESTED; 5];
    verdicts[2] = REFERENCE;
    assert_eq!(report.verdicts, verdicts);
    let aside = |frame, x| clean(frame, x, 9, [(-3, 1), (-1, 3), (1, 3)]);
    let rivals = [alike(0), aside(1, 1), aside(3, -1), aside(4, -1)];
    assert_eq!(report.records, rivals.concat());
}

#[test]
fn one_percentile_for_all_has_other_rivals() {
    for percentile in [20, 30, 40] {
        let report = of_ramps(&[percentile; 3]);
        assert_eq!(report.records, [alike(0), alike(2)].concat());
    }
    let two = small_report(&[&ramp(10, 4), &ramp(10, 4)], 4, 0, REACH_2);
    assert_eq!(two.records, alike(1));
}

type Break = fn(&mut Asked);

/// The checks of stack and report after the first 2, but for 3, each broken; then none.
const LATER: [Break; 7] = [
    |asked| asked.widths[0] = 8193,
    |asked| asked.reference = 16,
    |asked| asked.heights[0] = 3,
    |asked| asked.samples += 1,
    |asked| asked.room.shifts -= 1,
    |asked| asked.room.scratch = Scratch::NONE,
    |_| {},
];

/// Those of the report alone.
const OF_REPORT: [Break; 3] = [
    |asked| asked.room.verdicts += 1,
    |asked| asked.reach = 65,
    |asked| asked.room.records = 0,
];

/// Every answer of a broken stack: of both calls, and of reports with one more check broken,
/// for which the floor is 0, or no record would be needed.
fn answers(broken: impl Fn() -> Asked) -> Vec<u32> {
    let mut answers = vec![refused(broken().answer())];
    for more in OF_REPORT {
        let mut asked = broken();
        more(&mut asked);
        answers.push(refused(asked.report_with_floor(0)));
    }
    answers
}

/// The list empty, one short and one long.
const LISTS: [Break; 3] = [
    |asked| asked.percentiles.clear(),
    |asked| _ = asked.percentiles.pop(),
    |asked| asked.percentiles.push(50),
];

#[test]
fn a_list_of_another_length_is_2_before_all_but_6() {
    for frames in [1, 2, 3, 16] {
        for list in LISTS {
            for later in LATER {
                for percentile in [50, HIGHEST + 1] {
                    let broken = || {
                        let mut asked = Asked::accepted(frames);
                        asked.percentiles.fill(percentile);
                        list(&mut asked);
                        later(&mut asked);
                        asked
                    };
                    assert_eq!(answers(broken), [2; 4], "{frames} {percentile}");
                }
            }
        }
    }
}

#[test]
fn how_many_percentiles_there_are_is_no_matter_of_6() {
    let mut sixteen = Asked::accepted(16);
    sixteen.percentiles.push(50);
    assert_eq!(refused(sixteen.answer()), 2);
    let seventeen = Asked::accepted(17);
    assert_eq!(seventeen.percentiles.len(), 17);
    assert_eq!(refused(seventeen.answer()), 6);
    for percentiles in [0, 16, 18] {
        let mut asked = Asked::accepted(17);
        asked.percentiles = vec![50; percentiles];
        assert_eq!(refused(asked.answer()), 6, "{percentiles}");
    }
    // No frame has no percentile.
    assert_eq!(Asked::accepted(0).answer(), Err(Refusal::new(5, &[0, 0])));
    let mut none = Asked::accepted(0);
    none.percentiles.push(50);
    assert_eq!(refused(none.answer()), 2);
}

#[test]
fn every_entry_is_a_percentile_or_3() {
    for frames in [1, 2, 3, 16] {
        for place in 0..frames {
            for percentile in [0, 1, 99, HIGHEST] {
                let mut asked = Asked::accepted(frames);
                asked.percentiles[place] = percentile;
                assert_eq!(asked.answer(), Ok(()), "{percentile} at {place}");
            }
            for over in [HIGHEST + 1, 255] {
                for (number, later) in LATER.into_iter().enumerate() {
                    let broken = || {
                        let mut asked = Asked::accepted(frames);
                        asked.percentiles[place] = over;
                        later(&mut asked);
                        asked
                    };
                    let first = if number == 0 { 1 } else { 3 };
                    assert_eq!(answers(broken), [first; 4], "{over} at {place}, {number}");
                }
            }
        }
    }
}

#[test]
fn both_percentiles_of_a_step_are_checked() {
    let samples = [7; 12];
    let sound = Frame::new(&samples, 4, 3);
    let scratch = Scratch::of_step(4, 3, OPTIONS.bits);
    let asked = |percentiles: [u8; 2], target, scratch| {
        let reference = Exposure::new(sound, percentiles[0]);
        let target = Exposure::new(target, percentiles[1]);
        shift(reference, target, &OPTIONS, scratch)
    };
    for place in 0..2 {
        let with = |percentile| {
            let mut percentiles = [50; 2];
            percentiles[place] = percentile;
            percentiles
        };
        for percentile in [0, HIGHEST] {
            assert!(asked(with(percentile), sound, scratch).is_ok());
        }
        for over in [HIGHEST + 1, 255].map(with) {
            assert_eq!(refused(asked(over, sound, scratch)), 3);
            let high = Frame::new(&samples, 3, 4);
            assert_eq!(refused(asked(over, high, scratch)), 3);
            let short = Frame::new(&samples[1..], 4, 3);
            assert_eq!(refused(asked(over, short, scratch)), 3);
            assert_eq!(refused(asked(over, sound, Scratch::NONE)), 3);
            let long = Frame::new(&samples, 8193, 3);
            assert_eq!(refused(asked(over, long, scratch)), 1);
        }
    }
}
