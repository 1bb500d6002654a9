//! A stack that owns its lists.

use std::fmt;

use naive::align::{Scratch, Stack};

use crate::inputs::Random;

#[derive(Clone)]
pub struct Frames {
    pub samples: Vec<u8>,
    pub widths: Vec<usize>,
    pub heights: Vec<usize>,
    pub percentiles: Vec<u8>,
    pub reference: usize,
}

impl Frames {
    /// Frames of one size that are all cut at one percentile.
    pub fn alike(
        frames: Vec<Vec<u8>>,
        (width, height): (usize, usize),
        percentile: u8,
        reference: usize,
    ) -> Self {
        Self {
            samples: frames.concat(),
            widths: vec![width; frames.len()],
            heights: vec![height; frames.len()],
            percentiles: vec![percentile; frames.len()],
            reference,
        }
    }

    pub fn stack(&self) -> Stack<'_> {
        Stack {
            samples: &self.samples,
            widths: &self.widths,
            heights: &self.heights,
            percentiles: &self.percentiles,
            reference: self.reference,
        }
    }

    /// One or two frames lose a row or a column; their samples stay.
    pub fn lose_rows_or_columns(&mut self, random: &mut Random) {
        for _ in 0..2 {
            let frame = random.below(self.widths.len());
            let sides = match random.one_in(2) {
                true => &mut self.widths,
                false => &mut self.heights,
            };
            sides[frame] = sides[frame].saturating_sub(1);
        }
    }

    /// Just what the stack needs; frames of other sizes are refused before it.
    pub fn scratch(&self, bits: u32) -> Scratch {
        match self.widths.len() {
            0 | 1 => Scratch::NONE,
            _ => Scratch::of_step(self.widths[0], self.heights[0], bits),
        }
    }
}

/// All but the samples.
impl fmt::Display for Frames {
    fn fmt(&self, f: &mut fmt::Formatter) -> fmt::Result {
        let (widths, heights) = (&self.widths, &self.heights);
        write!(f, "widths {widths:?}, heights {heights:?}, ")?;
        write!(f, "percentiles {:?}, ", self.percentiles)?;
        write!(f, "reference {}", self.reference)
    }
}
