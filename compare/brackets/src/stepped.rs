//! What a report has of one frame.

use naive::difference::Counts;
use naive::report::Report;
use port::{Record, Shift};

use crate::asked::Asked;
use crate::packed::Packed;

/// A frame that steps against another: any but the reference.
pub struct Stepped {
    pub frame: usize,
    /// The one that it steps against.
    pub on: usize,
    pub step: Shift,
    pub counts: Counts,
    /// Row by row, the step not among them.
    pub rivals: Vec<Record>,
}

pub fn shift_of(report: &Report, frame: usize) -> Shift {
    Shift::new(report.shifts[2 * frame], report.shifts[2 * frame + 1])
}

impl Stepped {
    /// None for the reference.
    pub fn of(asked: &Asked, report: &Report, frame: usize) -> Option<Self> {
        if asked.is_reference(frame) {
            return None;
        }
        let on = asked.neighbour(frame);
        let [shift, before] = [frame, on].map(|frame| shift_of(report, frame));
        let step = Shift::new(shift.x - before.x, shift.y - before.y);
        let records = report.records.iter().copied();
        let of_frame = records.filter(|record| record.frame as usize == frame);
        let (own, rivals): (Vec<_>, Vec<_>) =
            of_frame.partition(|record| Shift::new(record.x, record.y) == step);
        let counts = match own[..] {
            [record] => Counts {
                disagreeing: record.disagreeing.into(),
                compared: record.compared.into(),
            },
            // A step that is weak has no record.
            _ => Packed::of(asked, on).counts(&Packed::of(asked, frame), step),
        };
        Some(Self {
            frame,
            on,
            step,
            counts,
            rivals,
        })
    }

    /// How far a rival lies from the step on each axis.
    pub fn off(&self, rival: &Record) -> [u32; 2] {
        [rival.x.abs_diff(self.step.x), rival.y.abs_diff(self.step.y)]
    }

    /// The same on the longer axis.
    pub fn distance(&self, rival: &Record) -> u32 {
        let [right, down] = self.off(rival);
        right.max(down)
    }
}
