//! Calls on shifts alone.

use naive::geometry::{self, Shift};
use naive::refusals::{COORDINATE_OUTSIDE, LONGEST_SIDE, SIDE_TOO_LONG, WRONG_LENGTH};
use trials::inputs::{Random, TOO_LONG, coordinate};
use trials::original;

use crate::cases::{Break, Case, Lent, accepted, agreed, refused, sizes};
use crate::line::{Answered, Line};

/// A shift to double or, with an offset, to move.
#[derive(Clone)]
struct Moving {
    shift: Shift,
    offset: Option<Shift>,
}

impl Case for Moving {
    fn answered(&self) -> Answered {
        let (shift, line) = (self.shift, Line::new().shift(self.shift));
        match self.offset {
            None => line.answer(agreed(shift.doubled(), || original::doubled(shift))),
            Some(offset) => {
                let naive = shift.offset(offset.x, offset.y);
                let original = || original::offset(shift, offset.x, offset.y);
                line.shift(offset).answer(agreed(naive, original))
            }
        }
    }
}

/// The farthest coordinates that can be doubled, and some between.
const DOUBLED: [i32; 8] = [-(1 << 30), 1 - (1 << 30), -64, -1, 0, 1, 63, (1 << 30) - 1];

pub fn doubled(_: &mut Random) -> Vec<String> {
    let doubling = |x, y| Moving {
        shift: Shift::new(x, y),
        offset: None,
    };
    let cases = DOUBLED.map(|x| DOUBLED.map(|y| doubling(x, y)));
    let breaks: [Break<Moving>; 6] = [
        (COORDINATE_OUTSIDE, |moving| moving.shift.x = 1 << 30),
        (COORDINATE_OUTSIDE, |moving| moving.shift.x = -(1 << 30) - 1),
        (COORDINATE_OUTSIDE, |moving| moving.shift.x = i32::MIN),
        (COORDINATE_OUTSIDE, |moving| moving.shift.y = 1 << 30),
        (COORDINATE_OUTSIDE, |moving| moving.shift.y = -(1 << 30) - 1),
        (COORDINATE_OUTSIDE, |moving| moving.shift.y = i32::MAX),
    ];
    let broken = refused(&doubling(5, -7), &breaks);
    [accepted(cases.into_iter().flatten()), broken].concat()
}

pub fn offset(_: &mut Random) -> Vec<String> {
    let moving = |x, y, right, down| Moving {
        shift: Shift::new(x, y),
        offset: Some(Shift::new(right, down)),
    };
    // Sums that meet either end of i32, and sums across the whole of it.
    let pairs = [
        (i32::MAX, 0),
        (i32::MAX - 1, 1),
        (1, i32::MAX - 1),
        (i32::MIN, 0),
        (i32::MIN + 1, -1),
        (-1, i32::MIN + 1),
        (i32::MIN, i32::MAX),
        (i32::MAX, i32::MIN),
        (3, -5),
        (0, 0),
    ];
    let cases = pairs.map(|(x, right)| pairs.map(|(y, down)| moving(x, y, right, down)));
    let breaks: [Break<Moving>; 4] = [
        (COORDINATE_OUTSIDE, |moving| moving.shift.x = i32::MAX),
        (COORDINATE_OUTSIDE, |moving| moving.shift.y = i32::MIN),
        (COORDINATE_OUTSIDE, |moving| {
            (moving.shift.x, moving.offset) = (i32::MIN, Some(Shift::new(i32::MIN, 0)));
        }),
        (COORDINATE_OUTSIDE, |moving| {
            (moving.shift.y, moving.offset) = (i32::MAX, Some(Shift::new(0, i32::MAX)));
        }),
    ];
    let broken = refused(&moving(5, -7, 1, -1), &breaks);
    [accepted(cases.into_iter().flatten()), broken].concat()
}

#[derive(Clone)]
struct Crop;

impl Case for Lent<i32, Crop> {
    fn answered(&self) -> Answered {
        let (shifts, width, height) = (&self.list, self.width, self.height);
        let naive = geometry::common_crop(shifts, width, height);
        let original = || original::common_crop(shifts, width, height);
        Line::new()
            .list(shifts)
            .numbers([width, height])
            .answer(agreed(naive, original))
    }
}

pub fn common_crop(random: &mut Random) -> Vec<String> {
    let sizes = [
        sizes(random),
        vec![(LONGEST_SIDE, LONGEST_SIDE), (LONGEST_SIDE, 1), (10, 8)],
    ]
    .concat();
    let mut cases = Vec::new();
    for size in sizes {
        for far in [false, true] {
            let mut shifts = Vec::new();
            for _ in 0..random.below(7) {
                shifts.extend([size.0, size.1].map(|side| match far {
                    true => coordinate(random, side),
                    false => random.between(-9, 9) as i32,
                }));
            }
            cases.push(Lent::new(shifts, size, Crop, &[]));
        }
    }
    // More frames than a stack may have, and one frame at either end of i32.
    let crowd = (0..40).map(|_| random.between(-5, 5) as i32).collect();
    cases.push(Lent::new(crowd, (64, 48), Crop, &[]));
    for ends in [vec![i32::MIN, i32::MAX], vec![i32::MAX, 0, i32::MIN, 0]] {
        cases.push(Lent::new(ends, (LONGEST_SIDE, LONGEST_SIDE), Crop, &[]));
    }

    let sound = Lent::new(vec![0, 0, 3, -2, -1, 1], (10, 8), Crop, &[]);
    let breaks: [Break<Lent<i32, Crop>>; 5] = [
        (SIDE_TOO_LONG, |crop| crop.width = TOO_LONG),
        (SIDE_TOO_LONG, |crop| crop.height = TOO_LONG),
        (SIDE_TOO_LONG, |crop| {
            (crop.width, crop.height) = (1 << 32, 1 << 32)
        }),
        (WRONG_LENGTH, |crop| _ = crop.list.pop()),
        (WRONG_LENGTH, |crop| crop.list = vec![4]),
    ];
    [accepted(cases), refused(&sound, &breaks)].concat()
}
