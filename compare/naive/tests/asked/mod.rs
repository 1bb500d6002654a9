//! Stacks that are asked for their shifts and for a report, of which a test breaks one thing or
//! another.

use naive::Refusal;
use naive::align::{Scratch, Stack, align_stack};
use naive::report::{Rivalry, Room, report};
use naive::stacksteps::{OPTIONS, PERCENTILE};

/// The number of a refusal without values.
pub fn refused<T: std::fmt::Debug>(answer: Result<T, Refusal>) -> u32 {
    let refusal = answer.unwrap_err();
    assert_eq!(refusal.values, [] as [u64; 0]);
    refusal.number
}

/// A stack of frames of these sizes, each frame as many samples as it needs.
pub struct Asked {
    pub samples: usize,
    pub widths: Vec<usize>,
    pub heights: Vec<usize>,
    pub percentiles: Vec<u8>,
    pub reference: usize,
    pub reach: u32,
    pub room: Room,
}

impl Asked {
    /// A stack of 4 by 4 frames that is accepted with nothing to spare.
    pub fn accepted(count: usize) -> Self {
        Self {
            samples: 16 * count,
            widths: vec![4; count],
            heights: vec![4; count],
            percentiles: vec![PERCENTILE; count],
            reference: 0,
            reach: 0,
            room: Room {
                shifts: 2 * count,
                verdicts: count,
                scratch: match count {
                    1 => Scratch::NONE,
                    _ => Scratch {
                        bytes: 8,
                        words: 16,
                    },
                },
                records: 0,
            },
        }
    }

    /// The answer of stack and report, which must refuse alike or both accept.
    pub fn answer(&self) -> Result<(), Refusal> {
        let samples = vec![0; self.samples];
        let room = self.room;
        let stack = self.stack(&samples);
        let plain = align_stack(stack, &OPTIONS, room.shifts, room.scratch);
        let full = self.report();
        assert_eq!(plain.map(|_| ()), full);
        full
    }

    fn stack<'a>(&'a self, samples: &'a [u8]) -> Stack<'a> {
        Stack {
            samples,
            widths: &self.widths,
            heights: &self.heights,
            percentiles: &self.percentiles,
            reference: self.reference,
        }
    }

    /// The answer of the report alone. With a floor past the frame it needs no record.
    pub fn report(&self) -> Result<(), Refusal> {
        self.report_with_floor(17)
    }

    pub fn report_with_floor(&self, floor: u32) -> Result<(), Refusal> {
        let samples = vec![0; self.samples];
        let rivalry = Rivalry {
            reach: self.reach,
            floor,
            margin: 0,
        };
        report(self.stack(&samples), &OPTIONS, &rivalry, self.room).map(|_| ())
    }
}
