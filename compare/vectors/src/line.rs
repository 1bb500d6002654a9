//! A case as one line of whole numbers: the input, then the answer.

use std::fmt::{Display, Write};

use naive::Refusal;
use naive::align::{Exposure, Options, Scratch, Stack, Step};
use naive::difference::Counts;
use naive::geometry::{Crop, Shift};
use naive::gray::Frame;
use naive::mosaic::Planes;
use naive::pgm::{Image, Laid};
use naive::refusals::RECORD_SPACE_TOO_SHORT;
use naive::report::{Record, Report};
use naive::shrink::Shrink;
use naive::threshold::Packed;

#[derive(Default)]
pub struct Line {
    text: String,
}

impl Line {
    pub fn new() -> Self {
        Self::default()
    }

    pub fn number(mut self, number: impl Display) -> Self {
        let blank = if self.text.is_empty() { "" } else { " " };
        write!(self.text, "{blank}{number}").expect("a string takes all");
        self
    }

    pub fn numbers(self, numbers: impl IntoIterator<Item = impl Display>) -> Self {
        numbers.into_iter().fold(self, Self::number)
    }

    /// A list, its length first.
    pub fn list(self, list: &[impl Display]) -> Self {
        self.number(list.len()).numbers(list)
    }

    /// A frame as a call takes it: samples, width, height.
    pub fn frame(self, frame: Frame) -> Self {
        self.list(frame.samples)
            .numbers([frame.width, frame.height])
    }

    /// A frame of a step, and after it its percentile.
    pub fn exposure(self, exposure: Exposure) -> Self {
        self.frame(exposure.frame).number(exposure.percentile)
    }

    pub fn stack(self, stack: Stack) -> Self {
        self.list(stack.samples)
            .list(stack.widths)
            .list(stack.heights)
            .list(stack.percentiles)
            .number(stack.reference)
    }

    pub fn shift(self, shift: Shift) -> Self {
        self.numbers([shift.x, shift.y])
    }

    pub fn options(self, options: &Options) -> Self {
        self.number(options.bits)
            .number(options.tolerance)
            .number(mode(options.shrink))
    }

    /// The lengths of the scratch, and how much of each the call leaves free in
    /// content: what it needs, or nothing where it is refused for anything but space.
    pub fn scratch<T>(
        self,
        lent: Scratch,
        answer: &Result<T, Refusal>,
        needed: impl FnOnce() -> Scratch,
    ) -> Self {
        let free = match answer {
            Err(refusal) if refusal.number != RECORD_SPACE_TOO_SHORT => Scratch::NONE,
            _ => needed(),
        };
        self.numbers([lent.bytes, lent.words, free.bytes, free.words])
    }

    /// Ends the line with 0 and the output, or with the refusal.
    pub fn answer<T: Output>(self, answer: Result<T, Refusal>) -> Answered {
        match answer {
            Ok(output) => Answered {
                status: 0,
                line: output.write(self.number(0)).text,
            },
            Err(refusal) => Answered {
                status: refusal.number,
                line: self.number(refusal.number).list(&refusal.values).text,
            },
        }
    }
}

/// A whole line, and the status that its answer begins with.
pub struct Answered {
    pub status: u32,
    pub line: String,
}

/// What an accepted call hands back, as numbers.
pub trait Output {
    fn write(&self, line: Line) -> Line;
}

impl<T: Display> Output for Vec<T> {
    fn write(&self, line: Line) -> Line {
        line.list(self)
    }
}

impl Output for u16 {
    fn write(&self, line: Line) -> Line {
        line.number(self)
    }
}

impl Output for u64 {
    fn write(&self, line: Line) -> Line {
        line.number(self)
    }
}

impl Output for bool {
    fn write(&self, line: Line) -> Line {
        line.number(u8::from(*self))
    }
}

impl Output for Shift {
    fn write(&self, line: Line) -> Line {
        line.shift(*self)
    }
}

impl Output for Crop {
    fn write(&self, line: Line) -> Line {
        line.numbers([self.x, self.y, self.width, self.height])
    }
}

impl Output for Packed {
    fn write(&self, line: Line) -> Line {
        line.list(&self.threshold).list(&self.exclusion)
    }
}

impl Output for Counts {
    fn write(&self, line: Line) -> Line {
        line.numbers([self.disagreeing, self.compared])
    }
}

impl Output for Step {
    fn write(&self, line: Line) -> Line {
        line.shift(self.shift).number(self.comparisons)
    }
}

impl Output for Report {
    fn write(&self, line: Line) -> Line {
        let bits = |r: &Record| [r.frame, r.x as u32, r.y as u32, r.disagreeing, r.compared];
        let fields: Vec<u32> = self.records.iter().flat_map(bits).collect();
        let line = line.list(&self.shifts).list(&self.verdicts);
        let line = self.crop.write(line);
        line.number(self.records.len()).list(&fields)
    }
}

impl Output for Image {
    fn write(&self, line: Line) -> Line {
        line.numbers([self.width, self.height, self.start, self.next])
    }
}

impl Output for Laid {
    fn write(&self, line: Line) -> Line {
        line.list(&self.widths)
            .list(&self.heights)
            .list(&self.samples)
            .number(self.next)
    }
}

impl Output for Planes {
    fn write(&self, line: Line) -> Line {
        let planes = self.in_order();
        line.list(&planes.map(|plane| plane.start))
            .list(&planes.map(|plane| plane.width))
            .list(&planes.map(|plane| plane.height))
    }
}

pub fn mode(shrink: Shrink) -> u8 {
    match shrink {
        Shrink::Average => 0,
        Shrink::Subsample => 1,
    }
}
