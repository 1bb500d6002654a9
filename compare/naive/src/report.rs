//! The report: which other shifts would have done as well as a frame's step.

use crate::align::{Exposure, Options, Scratch, Stack};
use crate::difference::counts;
use crate::geometry::{Crop, Shift, common_crop};
use crate::refusals::{
    FARTHEST_REACH, REACH_TOO_FAR, RECORD_SPACE_TOO_SHORT, Refusal, WRONG_LENGTH, refuse_if,
    refuse_with,
};
use crate::threshold::BitFrame;

/// What makes a shift a rival of a frame's step. The step itself can be one, a neighbour
/// shift cannot.
#[derive(Clone, Copy, Debug)]
pub struct Rivalry {
    /// How far from the step it may lie on either axis.
    pub reach: u32,
    /// How many pixels it must compare.
    pub floor: u32,
    /// In how many more than the step it may disagree.
    pub margin: u32,
}

impl Rivalry {
    /// How many rivals a frame can have: all shifts within reach but the eight neighbour
    /// shifts, which a reach of 0 does not meet.
    pub const fn most_rivals(&self) -> usize {
        match self.reach {
            0 => 1,
            reach => (2 * reach as usize + 1).pow(2) - 8,
        }
    }
}

/// Whether a shift is a neighbour shift of the step: another one, within one pixel of it
/// on both axes. Where a part is even it fits as well as the step, which says nothing
/// against the step.
fn is_neighbour_shift(step: Shift, shift: Shift) -> bool {
    shift != step && (shift.x - step.x).abs() <= 1 && (shift.y - step.y).abs() <= 1
}

/// The lengths of the lists that a caller lends to a report.
#[derive(Clone, Copy, Debug)]
pub struct Room {
    pub shifts: usize,
    pub verdicts: usize,
    pub scratch: Scratch,
    pub records: usize,
}

/// A rival of a frame, relative to its neighbour.
#[derive(Clone, Copy, Debug, PartialEq, Eq)]
pub struct Record {
    pub frame: u32,
    pub x: i32,
    pub y: i32,
    pub disagreeing: u32,
    pub compared: u32,
}

pub const RECORD_BYTES: usize = 20;

impl Record {
    pub fn bytes(&self) -> [u8; RECORD_BYTES] {
        let fields = [
            self.frame.to_le_bytes(),
            self.x.to_le_bytes(),
            self.y.to_le_bytes(),
            self.disagreeing.to_le_bytes(),
            self.compared.to_le_bytes(),
        ];
        fields.concat().try_into().expect("five fields of four")
    }
}

pub const REFERENCE: u8 = 0;
pub const WEAK: u8 = 1;
pub const ALONE: u8 = 2;
pub const CONTESTED: u8 = 3;

/// What an accepted report writes and returns; the record count is that of `records`.
#[derive(Clone, Debug, PartialEq, Eq)]
pub struct Report {
    pub shifts: Vec<i32>,
    pub verdicts: Vec<u8>,
    pub crop: Crop,
    pub records: Vec<Record>,
}

/// Report: 6, 2, 1, 3, 5, 4, 2, 9, 7, 10.
pub fn report(
    stack: Stack,
    options: &Options,
    rivalry: &Rivalry,
    room: Room,
) -> Result<Report, Refusal> {
    stack.check(room.shifts)?;
    refuse_if(room.verdicts != stack.count(), WRONG_LENGTH)?;
    refuse_if(rivalry.reach > FARTHEST_REACH, REACH_TOO_FAR)?;
    room.scratch.check(stack.scratch(options.bits))?;

    let steps = stack.steps(options);
    let mut verdicts = vec![REFERENCE; stack.count()];
    let mut records = Vec::new();
    let mut walk = stack.walk();
    walk.sort(); // records stand by frame
    for (frame, neighbour) in walk {
        let (verdict, rivals) = survey(&stack, frame, neighbour, steps[frame], options, rivalry);
        verdicts[frame] = verdict;
        records.extend(rivals);
    }
    refuse_with(
        RECORD_BYTES * records.len() > room.records,
        RECORD_SPACE_TOO_SHORT,
        &[records.len()],
    )?;

    let shifts = stack.shifts(&steps);
    let crop = common_crop(&shifts, stack.widths[0], stack.heights[0])?;
    Ok(Report {
        shifts,
        verdicts,
        crop,
        records,
    })
}

/// One frame's verdict and rivals, row by row; neighbour shifts are not looked at.
fn survey(
    stack: &Stack,
    frame: usize,
    neighbour: usize,
    step: Shift,
    options: &Options,
    rivalry: &Rivalry,
) -> (u8, Vec<Record>) {
    let cut = |number| {
        let Exposure { frame, percentile } = stack.exposure(number);
        BitFrame::of(frame, percentile, options.tolerance)
    };
    let (reference, target) = (cut(neighbour), cut(frame));
    let of_step = counts(&reference, &target, step);
    let most = of_step.disagreeing + u64::from(rivalry.margin);
    let floor = u64::from(rivalry.floor);

    let reach = rivalry.reach as i32;
    let mut rivals = Vec::new();
    for y in step.y - reach..=step.y + reach {
        for x in step.x - reach..=step.x + reach {
            let shift = Shift::new(x, y);
            if is_neighbour_shift(step, shift) {
                continue;
            }
            let found = counts(&reference, &target, shift);
            if found.compared >= floor && found.disagreeing <= most {
                rivals.push(Record {
                    frame: frame as u32,
                    x,
                    y,
                    disagreeing: found.disagreeing as u32,
                    compared: found.compared as u32,
                });
            }
        }
    }

    let only = matches!(rivals[..], [Record { x, y, .. }] if Shift::new(x, y) == step);
    let verdict = if of_step.compared < floor {
        WEAK
    } else if only {
        ALONE
    } else {
        CONTESTED
    };
    (verdict, rivals)
}
