//! The slips that the scope names, each on a small input that shows it.

mod small;

use naive::bitmap::packed;
use naive::difference::{Counts, Pair, disagreement};
use naive::geometry::Shift;
use naive::gray::Frame;
use naive::report::{ALONE, CONTESTED, Record, Rivalry, WEAK};
use naive::threshold::threshold;
use small::{REACH_2, small_report};

/// One row of two pairs: threshold and exclusion bits of the reference, then of the
/// target.
fn row_counts(width: usize, bits: [&dyn Fn(usize) -> bool; 4], shift: Shift) -> Counts {
    let words = bits.map(|bit| packed(width, 1, |x, _| bit(x)));
    let pair = |first: usize| Pair {
        threshold: &words[first],
        exclusion: &words[first + 1],
        width,
        height: 1,
    };
    disagreement(pair(0), pair(2), shift).unwrap()
}

#[test]
fn exclusion_masks_after_the_xor() {
    // Masked beforehand, the target's untrusted bit would be cleared and the equal
    // pixels would seem to disagree.
    let (yes, no) = (|_| true, |_| false);
    let counts = row_counts(1, [&yes, &yes, &yes, &no], Shift::ZERO);
    assert_eq!((counts.disagreeing, counts.compared), (0, 0));
    let counts = row_counts(1, [&yes, &yes, &no, &yes], Shift::ZERO);
    assert_eq!((counts.disagreeing, counts.compared), (1, 1));
}

#[test]
fn the_cut_is_one_past_the_tipping_bin() {
    assert_eq!(threshold(Frame::new(&[9, 9, 9, 9], 4, 1), 50), Ok(10));
}

#[test]
fn negative_shifts_split_downwards_at_a_word() {
    // Only column 65 of the target is set; moved by x it stands at 65 + x.
    let yes = |_| true;
    for x in [-66, -65, -64, -63, -2, -1, 0, 1, 64] {
        let landing = 65 + x;
        let reference = |column: usize| column as i32 == landing;
        let target = |column: usize| column == 65;
        let counts = row_counts(130, [&reference, &yes, &target, &yes], Shift::new(x, 0));
        let compared = 130 - x.unsigned_abs() as u64;
        assert_eq!((counts.disagreeing, counts.compared), (0, compared), "{x}");
    }
}

#[test]
fn rivals_stand_against_the_neighbour() {
    // 8 by 7 with a dot in the middle row that goes right by one from frame to frame.
    let dot_at = |x: usize| {
        let mut frame = [0; 56];
        frame[24 + x] = 9;
        frame
    };
    let report = small_report(&[&dot_at(3), &dot_at(4), &dot_at(5)], 7, 0, REACH_2);
    assert_eq!(report.shifts, [0, 0, -1, 0, -2, 0]);
    assert_eq!(report.verdicts[1..], [ALONE, ALONE]);
    let record = |frame| Record {
        frame,
        x: -1,
        y: 0,
        disagreeing: 0,
        compared: 49,
    };
    assert_eq!(report.records, [record(1), record(2)]);
}

#[test]
fn shifts_below_the_floor_are_no_rivals() {
    let row = [0, 0, 0, 9, 0, 0, 0, 0];
    let compared_from = |floor| {
        let rivalry = Rivalry {
            floor,
            margin: u32::MAX,
            ..REACH_2
        };
        let report = small_report(&[&row, &row], 1, 0, rivalry);
        let compared: Vec<_> = report.records.iter().map(|r| r.compared).collect();
        (report.verdicts[1], compared)
    };
    assert_eq!(compared_from(9), (WEAK, vec![]));
    assert_eq!(compared_from(8), (ALONE, vec![8]));
    // One pixel to the left or right compares 7 and is no rival either.
    assert_eq!(compared_from(7), (ALONE, vec![8]));
    assert_eq!(compared_from(6), (CONTESTED, vec![6, 8, 6]));
    // Floor 0 takes shifts that compare nothing.
    let all = [&[0; 7][..], &[6, 8, 6], &[0; 7]].concat();
    assert_eq!(compared_from(0), (CONTESTED, all));
}

#[test]
fn a_weak_step_may_have_rivals() {
    // At the cut of 5 only the 4s are trusted, and at (0, 0) none meets another.
    let far = Rivalry {
        reach: 3,
        ..REACH_2
    };
    let report = small_report(&[&[4, 4, 5, 5], &[5, 5, 4, 4]], 1, 0, far);
    assert_eq!(report.shifts, [0, 0, 0, 0]);
    assert_eq!(report.verdicts[1], WEAK);
    let rival = |x, compared| Record {
        frame: 1,
        x,
        y: 0,
        disagreeing: 0,
        compared,
    };
    // One pixel is compared at (-1, 0) too, next to the step.
    assert_eq!(report.records, [rival(-3, 1), rival(-2, 2)]);
}

#[test]
fn step_and_margin_add_without_wrapping() {
    // Halves against a checkerboard: every shift disagrees somewhere.
    let halves = [0, 0, 9, 9].repeat(4);
    let checkers = [0, 9, 0, 9, 9, 0, 9, 0].repeat(2);
    let rivalry = Rivalry {
        margin: u32::MAX,
        ..REACH_2
    };
    let report = small_report(&[&halves, &checkers], 4, 0, rivalry);
    assert!(report.records.iter().all(|record| record.disagreeing > 0));
    assert_eq!(report.records.len(), 17);
}
