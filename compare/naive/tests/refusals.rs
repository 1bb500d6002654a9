//! Each refusal by its number, with the values it carries, and the order of checks.

mod asked;

use asked::{Asked, refused};
use naive::Refusal;
use naive::align::{
    Exposure, Place, Scratch, Step, level, level_place, pyramid, scratch, shift as step,
};
use naive::bitmap::{Bitmap, count_ones, get, row, row_place, set};
use naive::difference::{Counts, Pair, disagreement};
use naive::geometry::{Shift, common_crop, shifted};
use naive::gray::{Frame, from_rgb};
use naive::shrink::{Shrink, shrink2};
use naive::stacksteps::{OPTIONS, PERCENTILE};
use naive::threshold::{compute_bitmaps, threshold};

const OVER: usize = 8193;
const NO_PERCENTILE: u8 = 101;

/// A step with both frames at the usual percentile.
fn shift(reference: Frame, target: Frame, scratch: Scratch) -> Result<Step, Refusal> {
    let [reference, target] = [reference, target].map(|frame| Exposure::new(frame, PERCENTILE));
    step(reference, target, &OPTIONS, scratch)
}

fn pair(words: &[u64], width: usize, height: usize) -> Pair<'_> {
    Pair {
        threshold: words,
        exclusion: words,
        width,
        height,
    }
}

fn count(reference: Pair, target: Pair) -> Result<Counts, Refusal> {
    disagreement(reference, target, Shift::ZERO)
}

#[test]
fn the_limits_themselves_are_accepted() {
    assert_eq!(threshold(Frame::new(&[3; 8192], 8192, 1), 100), Ok(4));
    assert_eq!(threshold(Frame::new(&[3; 8192], 1, 8192), 0), Ok(0));
    for frames in [1, 2, 16] {
        assert_eq!(Asked::accepted(frames).answer(), Ok(()), "{frames}");
    }
    let mut farthest = Asked::accepted(2);
    farthest.reach = 64;
    assert_eq!(farthest.report(), Ok(()));
}

#[test]
fn refusal_1_side_too_long() {
    // The lists below have the lengths that the sides ask for, but for the last.
    for (width, height) in [(OVER, 0), (0, OVER), (usize::MAX, usize::MAX)] {
        let frame = Frame::new(&[], width, height);
        let bitmap = Bitmap::new(&[], width, height);
        assert_eq!(refused(from_rgb(&[], width, height, 0)), 1);
        assert_eq!(refused(shrink2(frame, Shrink::Average, 0)), 1);
        assert_eq!(refused(shifted(frame, Shift::ZERO, 0)), 1);
        assert_eq!(refused(threshold(frame, 101)), 1);
        assert_eq!(refused(compute_bitmaps(frame, 101, 4, [0, 0])), 1);
        assert_eq!(refused(get(bitmap, 0, 0)), 1);
        assert_eq!(refused(set(bitmap, 0, 0, true)), 1);
        assert_eq!(refused(count_ones(bitmap)), 1);
        assert_eq!(refused(common_crop(&[1], width, height)), 1);
        assert_eq!(refused(pyramid(frame, 6, Shrink::Average, 0)), 1);
        assert_eq!(refused(scratch(width, height, 6)), 1);
        let sound = Frame::new(&[], 0, 0);
        for (reference, target) in [(frame, sound), (sound, frame), (frame, frame)] {
            let [reference, target] =
                [reference, target].map(|frame| Exposure::new(frame, NO_PERCENTILE));
            let step = step(reference, target, &OPTIONS, Scratch::NONE);
            assert_eq!(refused(step), 1);
        }
        let (long, short) = (pair(&[], width, height), pair(&[1], 0, 0));
        for (reference, target) in [(long, short), (short, long), (long, long)] {
            assert_eq!(refused(count(reference, target)), 1);
        }
        let mut stack = Asked::accepted(2);
        (stack.widths[1], stack.heights[1]) = (width, height);
        stack.percentiles[0] = NO_PERCENTILE;
        assert_eq!(refused(stack.answer()), 1);
    }
}

#[test]
fn refusal_2_wrong_length() {
    let (right, wrong) = (Frame::new(&[0; 6], 3, 2), Frame::new(&[0; 5], 3, 2));
    let short = Bitmap::new(&[0], 3, 2);
    assert_eq!(refused(from_rgb(&[0; 17], 3, 2, 6)), 2);
    assert_eq!(refused(from_rgb(&[0; 18], 3, 2, 7)), 2);
    assert_eq!(refused(shrink2(wrong, Shrink::Subsample, 1)), 2);
    assert_eq!(refused(shrink2(right, Shrink::Subsample, 2)), 2);
    assert_eq!(refused(shifted(wrong, Shift::ZERO, 6)), 2);
    assert_eq!(refused(shifted(right, Shift::ZERO, 5)), 2);
    assert_eq!(refused(threshold(wrong, 101)), 2);
    assert_eq!(refused(compute_bitmaps(wrong, 101, 4, [2, 2])), 2);
    assert_eq!(refused(compute_bitmaps(right, 101, 4, [1, 2])), 2);
    assert_eq!(refused(compute_bitmaps(right, 101, 4, [2, 3])), 2);
    assert_eq!(refused(get(short, 3, 0)), 2);
    assert_eq!(refused(set(short, 3, 0, false)), 2);
    assert_eq!(refused(count_ones(Bitmap::new(&[8], 3, 2))), 2);
    assert_eq!(refused(common_crop(&[1, 2, 3], 3, 2)), 2);
    assert_eq!(refused(pyramid(wrong, 6, Shrink::Average, 0)), 2);
    for (reference, target) in [(right, wrong), (wrong, right)] {
        assert_eq!(refused(shift(reference, target, Scratch::NONE)), 2);
    }
    for wrong in 0..4 {
        let words: Vec<&[u64]> = (0..4)
            .map(|bitmap| if bitmap == wrong { &[8][..] } else { &[0, 0] })
            .collect();
        let pair = |first: usize| Pair {
            threshold: words[first],
            exclusion: words[first + 1],
            width: 3,
            height: 2,
        };
        assert_eq!(refused(count(pair(0), pair(2))), 2);
    }

    let mut unequal = Asked::accepted(2);
    unequal.heights = vec![OVER; 3];
    assert_eq!(refused(unequal.answer()), 2);
    let mut samples = Asked::accepted(2);
    (samples.samples, samples.room.scratch) = (33, Scratch::NONE);
    assert_eq!(refused(samples.answer()), 2);
    let mut shifts = Asked::accepted(2);
    (shifts.room.shifts, shifts.room.scratch) = (3, Scratch::NONE);
    assert_eq!(refused(shifts.answer()), 2);
    let mut verdicts = Asked::accepted(2);
    (verdicts.room.verdicts, verdicts.reach) = (3, 65);
    assert_eq!(refused(verdicts.report()), 2);
}

#[test]
fn refusal_3_no_percentile() {
    // Of steps and stacks `percentiles.rs` has more.
    let frame = Frame::new(&[1, 2], 2, 1);
    let other = Frame::new(&[1, 2], 1, 2);
    for percentile in [NO_PERCENTILE, 255] {
        assert_eq!(refused(threshold(frame, percentile)), 3);
        assert_eq!(refused(compute_bitmaps(frame, percentile, 4, [1, 1])), 3);
        let [reference, target] = [frame, other].map(|frame| Exposure::new(frame, percentile));
        let step = step(reference, target, &OPTIONS, Scratch::NONE);
        assert_eq!(refused(step), 3);
        let mut stack = Asked::accepted(2);
        (stack.percentiles, stack.reference) = (vec![percentile; 2], 2);
        assert_eq!(refused(stack.answer()), 3);
    }
}

#[test]
fn refusal_4_sizes_differ() {
    let (wide, high) = (Frame::new(&[], 3, 2), Frame::new(&[], 2, 3));
    let step = shift(wide, high, Scratch::NONE);
    assert_eq!(step, Err(Refusal::new(4, &[3, 2, 2, 3])));
    let counted = count(pair(&[], 3, 2), pair(&[], 2, 3));
    assert_eq!(counted, Err(Refusal::new(4, &[3, 2, 2, 3])));

    // From 2 down to 0, then up: 0 comes before 3 and 4.
    let mut stack = Asked::accepted(5);
    (stack.reference, stack.samples) = (2, 0);
    (stack.widths[0], stack.heights[4]) = (7, 9);
    let first = Refusal::new(4, &[4, 4, 7, 4, 0]);
    assert_eq!(stack.answer(), Err(first));
    stack.widths[0] = 4;
    let next = Refusal::new(4, &[4, 4, 4, 9, 4]);
    assert_eq!(stack.answer(), Err(next));
}

#[test]
fn refusal_5_no_such_reference() {
    for (count, reference) in [(0, 0), (2, 2), (16, 4000)] {
        let mut stack = Asked::accepted(count);
        stack.reference = reference;
        if count > 0 {
            stack.widths[0] = 5;
        }
        let refusal = Refusal::new(5, &[reference, count]);
        assert_eq!(stack.answer(), Err(refusal));
    }
}

#[test]
fn refusal_6_too_many_frames() {
    assert_eq!(refused(Asked::accepted(17).answer()), 6);
    let mut widths = Asked::accepted(16);
    widths.widths.push(4);
    assert_eq!(refused(widths.answer()), 6);
    let mut heights = Asked::accepted(16);
    heights.heights.push(4);
    assert_eq!(refused(heights.answer()), 6);
}

#[test]
fn refusal_7_scratch_too_short() {
    let samples = [0; 16];
    let frame = Frame::new(&samples, 4, 4);
    assert_eq!(refused(pyramid(frame, 6, Shrink::Average, 3)), 7);
    for scratch in [
        Scratch {
            bytes: 7,
            words: 16,
        },
        Scratch {
            bytes: 8,
            words: 15,
        },
    ] {
        assert_eq!(refused(shift(frame, frame, scratch)), 7);
        let mut stack = Asked::accepted(2);
        stack.room.scratch = scratch;
        assert_eq!(refused(stack.answer()), 7);
        assert_eq!(refused(stack.report_with_floor(0)), 7);
    }
}

#[test]
fn refusal_8_padding_set() {
    assert_eq!(refused(count_ones(Bitmap::new(&[0, 8], 3, 2))), 8);
    let (clear, set) = (pair(&[0, 7], 3, 2), pair(&[8, 0], 3, 2));
    assert_eq!(refused(count(clear, set)), 8);
    assert_eq!(refused(count(set, clear)), 8);
    // A full last word has no padding.
    assert_eq!(count_ones(Bitmap::new(&[u64::MAX], 64, 1)), Ok(64));
}

#[test]
fn refusal_9_reach_too_far() {
    let mut stack = Asked::accepted(2);
    (stack.reach, stack.room.scratch) = (65, Scratch::NONE);
    assert_eq!(refused(stack.report()), 9);
}

#[test]
fn refusal_10_record_space_too_short() {
    // All but the eight shifts around the step are rivals when nothing need be compared.
    for (reach, rivals) in [(0, 1), (1, 1), (2, 17), (3, 41), (64, 16_633)] {
        let mut stack = Asked::accepted(3);
        stack.reach = reach;
        let exact = 20 * 2 * rivals;
        let short = Err(Refusal::new(10, &[2 * rivals]));
        for (space, answer) in [
            (0, short.clone()),
            (exact - 20, short.clone()),
            (exact - 1, short),
            (exact, Ok(())),
        ] {
            stack.room.records = space;
            assert_eq!(stack.report_with_floor(0), answer, "{reach} {space}");
        }
    }
}

#[test]
fn refusal_11_pixel_outside() {
    let bitmap = Bitmap::new(&[0, 0], 3, 2);
    for (x, y) in [(3, 0), (0, 2), (63, 1)] {
        assert_eq!(refused(get(bitmap, x, y)), 11);
        assert_eq!(refused(set(bitmap, x, y, true)), 11);
    }
}

#[test]
fn refusal_12_coordinate_outside() {
    let half = 1 << 30;
    assert_eq!(refused(Shift::new(half, 0).doubled()), 12);
    assert_eq!(refused(Shift::new(0, -half - 1).doubled()), 12);
    let lowest = Shift::new(i32::MIN, i32::MAX - 1);
    assert_eq!(Shift::new(-half, half - 1).doubled(), Ok(lowest));
    assert_eq!(refused(Shift::new(i32::MAX, 0).offset(1, 0)), 12);
    assert_eq!(refused(Shift::new(0, i32::MIN).offset(0, -1)), 12);
}

#[test]
fn rows_and_levels_are_empty_where_others_refuse() {
    let words = [1, 2];
    let bitmap = Bitmap::new(&words, 3, 2);
    assert_eq!((row(bitmap, 1), row_place(bitmap, 1)), (&[2][..], 1..2));
    for (width, height, y) in [(OVER, 1, 0), (3, 3, 1), (3, 2, 2), (0, 2, 1)] {
        let bitmap = Bitmap::new(&words, width, height);
        assert_eq!((row(bitmap, y), row_place(bitmap, y)), (&[][..], 0..0));
    }

    let samples = [5; 64];
    let scratch: Vec<u8> = (0..21).collect();
    let frame = Frame::new(&samples, 8, 8);
    for (number, in_scratch, part) in [(0, false, 0..64), (1, true, 0..16), (2, true, 16..20)] {
        let list = if in_scratch { &scratch } else { &samples[..] };
        assert_eq!(level(frame, 6, &scratch, number), &list[part.clone()]);
        let place = Place { in_scratch, part };
        assert_eq!(level_place(frame, 6, 20, number), place);
    }
    let nowhere = Place {
        in_scratch: false,
        part: 0..0,
    };
    for (frame, length, number) in [
        (frame, 20, 3),
        (frame, 19, 0),
        (frame, 19, 1),
        (Frame::new(&samples[1..], 8, 8), 20, 1),
        (Frame::new(&samples, OVER, 8), 20, 1),
    ] {
        assert_eq!(level(frame, 6, &scratch[..length], number), []);
        assert_eq!(level_place(frame, 6, length, number), nowhere);
    }
}

#[test]
fn the_scratch_of_a_step_is_just_enough() {
    let samples = [0; 65 * 5];
    let frame = Frame::new(&samples, 65, 5);
    // Two levels of 32 by 2 and 16 by 1, twice; four bitmaps of two words a row.
    let need = scratch(65, 5, 6).unwrap();
    assert_eq!((need.bytes, need.words), (160, 40));
    assert!(shift(frame, frame, need).is_ok());
    assert_eq!(scratch(0, 8192, 6), Ok(Scratch::NONE));
}
