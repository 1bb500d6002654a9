//! A frame's two bitmaps, packed and counted by the port.

use naive::difference::Counts;
use port::counts::disagreement;
use port::frames::compute_bitmaps;
use port::{Frame, Pair, Shift, words_needed};

use crate::asked::Asked;

pub struct Packed {
    threshold: Vec<u64>,
    exclusion: Vec<u64>,
    size: (usize, usize),
}

impl Packed {
    pub fn of(asked: &Asked, frame: usize) -> Self {
        let size = asked.size();
        let words = vec![0; words_needed(size.0, size.1)];
        let (mut threshold, mut exclusion) = (words.clone(), words);
        let status = compute_bitmaps(
            Frame::new(asked.samples(frame), size.0, size.1),
            asked.stack.percentiles[frame],
            asked.options.tolerance,
            &mut threshold,
            &mut exclusion,
        );
        assert_eq!(status, 0, "a frame of a stack is packed");
        Self {
            threshold,
            exclusion,
            size,
        }
    }

    /// How many of the pixels that can be compared lie below the cut, and how many above.
    pub fn sides(&self) -> [u32; 2] {
        let mut sides = [0; 2];
        for (threshold, exclusion) in self.threshold.iter().zip(&self.exclusion) {
            sides[0] += (exclusion & !threshold).count_ones();
            sides[1] += (exclusion & threshold).count_ones();
        }
        sides
    }

    fn pair(&self) -> Pair<'_> {
        Pair {
            threshold: &self.threshold,
            exclusion: &self.exclusion,
            width: self.size.0,
            height: self.size.1,
        }
    }

    /// With another frame as the target.
    pub fn counts(&self, target: &Packed, shift: Shift) -> Counts {
        let (mut disagreeing, mut compared) = (0, 0);
        let status = disagreement(
            self.pair(),
            target.pair(),
            shift,
            &mut disagreeing,
            &mut compared,
            &mut [0; 5],
        );
        assert_eq!(status, 0, "two frames of a stack are counted");
        Counts {
            disagreeing,
            compared,
        }
    }
}
