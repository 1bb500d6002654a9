//! Which shifts are rivals of a step: not its eight neighbour shifts.

mod small;

use naive::report::{ALONE, CONTESTED, Report, Rivalry};
use small::{REACH_2, small_report};

/// Every shift that is no neighbour shift is a rival.
fn anything(reach: u32) -> Rivalry {
    Rivalry {
        reach,
        floor: 0,
        margin: u32::MAX,
    }
}

fn places(report: &Report) -> Vec<(i32, i32)> {
    report.records.iter().map(|r| (r.x, r.y)).collect()
}

/// The places of rows, each with its y and its xs.
fn rows(rows: &[(i32, &[i32])]) -> Vec<(i32, i32)> {
    let mut places = Vec::new();
    for (y, xs) in rows {
        places.extend(xs.iter().map(|x| (*x, *y)));
    }
    places
}

#[test]
fn all_of_a_window_but_the_neighbour_shifts() {
    // 8 by 7 with a dot that goes right by one: the step is (-1, 0), not (0, 0).
    let dot_at = |x: usize| {
        let mut frame = [0; 56];
        frame[24 + x] = 9;
        frame
    };
    let at_reach = |reach| small_report(&[&dot_at(3), &dot_at(4)], 7, 0, anything(reach));
    for reach in [0, 1] {
        assert_eq!(places(&at_reach(reach)), [(-1, 0)]);
        assert_eq!(at_reach(reach).verdicts[1], ALONE);
    }
    let at_2 = rows(&[
        (-2, &[-3, -2, -1, 0, 1]),
        (-1, &[-3, 1]),
        (0, &[-3, -1, 1]),
        (1, &[-3, 1]),
        (2, &[-3, -2, -1, 0, 1]),
    ]);
    assert_eq!(places(&at_reach(2)), at_2);
    assert_eq!(at_reach(2).verdicts[1], CONTESTED);
    for (reach, rivals) in [(3, 41), (64, 16_633)] {
        assert_eq!(at_reach(reach).records.len(), rivals, "{reach}");
    }
}

#[test]
fn two_pixels_aside_on_one_axis_is_far_enough() {
    // Stripes two apart that move by one: standing, then lying.
    let standing = |moved: usize| (0..64).map(|at| 9 * ((at + moved) % 2) as u8).collect();
    let lying = |moved: usize| (0..64).map(|at| 9 * ((at / 8 + moved) % 2) as u8).collect();
    let of_two = |stripes: &dyn Fn(usize) -> Vec<u8>| {
        let report = small_report(&[&stripes(0), &stripes(1)], 8, 0, REACH_2);
        assert_eq!(report.shifts[2..], [-1, -1]);
        assert_eq!(report.verdicts[1], CONTESTED);
        places(&report)
    };
    // Every second column, or row, of the window but for the two shifts next to the step.
    let of_standing = rows(&[
        (-3, &[-3, -1, 1]),
        (-2, &[-3, 1]),
        (-1, &[-3, -1, 1]),
        (0, &[-3, 1]),
        (1, &[-3, -1, 1]),
    ]);
    assert_eq!(of_two(&standing), of_standing);
    let of_lying = rows(&[
        (-3, &[-3, -2, -1, 0, 1]),
        (-1, &[-3, -1, 1]),
        (1, &[-3, -2, -1, 0, 1]),
    ]);
    assert_eq!(of_two(&lying), of_lying);
}

#[test]
fn all_nine_alike_leave_the_step_alone() {
    // Blanks are as dark as most and not compared. The one pixel of the first frame
    // agrees with nine of the second and disagrees with those around them.
    let frame = |picture: [&str; 8]| -> Vec<u8> {
        let sample = |mark| match mark {
            '#' => 99,
            '.' => 0,
            _ => 9,
        };
        picture.concat().chars().map(sample).collect()
    };
    let one = frame([
        "        ", "        ", "        ", "   #    ", "        ", "        ", "        ",
        "        ",
    ]);
    let nine = frame([
        "        ", " .....  ", " .###.  ", " .###.  ", " .###.  ", " .....  ", "        ",
        "        ",
    ]);
    let found = |margin| {
        let report = small_report(&[&one, &nine], 8, 4, Rivalry { margin, ..REACH_2 });
        let counts = report.records.iter().map(|r| (r.disagreeing, r.compared));
        (report.verdicts[1], counts.collect::<Vec<_>>())
    };
    assert_eq!(found(0), (ALONE, vec![(0, 1)]));
    let around = [(1, 1); 8];
    let all = [&around[..], &[(0, 1)], &around].concat();
    assert_eq!(found(1), (CONTESTED, all));
}
