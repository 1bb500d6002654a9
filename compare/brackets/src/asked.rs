//! A stack and the terms that it is asked about with.

use port::{Options, Rivalry, Shrink, Stack};
use trials::advice;

use crate::bracket::Bracket;

/// What a user chose; the rest follows docs/TERMS.md.
#[derive(Default)]
pub struct Given {
    pub reference: usize,
    pub bits: Option<u32>,
    pub tolerance: Option<u8>,
    pub percentiles: Option<Vec<u8>>,
    pub is_subsampled: bool,
    pub reach: Option<u32>,
    pub floor: Option<u32>,
    pub margin: Option<u32>,
}

impl Given {
    /// The percentile of each frame; one stands for all.
    pub fn percentiles(&self, frames: usize) -> Result<Vec<u8>, String> {
        match self.percentiles.as_deref() {
            None => Ok(vec![advice::PERCENTILE; frames]),
            Some(&[one]) => Ok(vec![one; frames]),
            Some(each) if each.len() == frames => Ok(each.to_vec()),
            Some(each) => Err(format!("{} percentiles for {frames} frames", each.len())),
        }
    }

    pub fn asked<'a>(&self, bracket: &'a Bracket, percentiles: &'a [u8]) -> Asked<'a> {
        let (width, height) = (bracket.widths[0], bracket.heights[0]);
        let bits = self.bits.unwrap_or(advice::BITS);
        Asked {
            stack: Stack {
                samples: &bracket.samples,
                widths: &bracket.widths,
                heights: &bracket.heights,
                percentiles,
                reference: self.reference,
            },
            options: Options {
                bits,
                tolerance: self.tolerance.unwrap_or(advice::TOLERANCE),
                shrink: match self.is_subsampled {
                    true => Shrink::Subsample,
                    false => Shrink::Average,
                },
            },
            rivalry: Rivalry {
                reach: self.reach.unwrap_or(advice::reach(bits)),
                floor: self.floor.unwrap_or(advice::floor(width, height)),
                margin: self.margin.unwrap_or(advice::margin(width, height)),
            },
        }
    }
}

#[derive(Clone, Copy)]
pub struct Asked<'a> {
    pub stack: Stack<'a>,
    pub options: Options,
    pub rivalry: Rivalry,
}

impl<'a> Asked<'a> {
    pub fn frames(&self) -> usize {
        self.stack.widths.len()
    }

    /// The one size of a stack that is not refused.
    pub fn size(&self) -> (usize, usize) {
        (self.stack.widths[0], self.stack.heights[0])
    }

    /// The samples of a frame of such a stack.
    pub fn samples(&self, frame: usize) -> &'a [u8] {
        let (width, height) = self.size();
        &self.stack.samples[frame * width * height..][..width * height]
    }

    /// The frame that another one steps against, next to it on the reference's side.
    pub fn neighbour(&self, frame: usize) -> usize {
        match frame < self.stack.reference {
            true => frame + 1,
            false => frame - 1,
        }
    }

    /// How its frames are halved, in a word.
    pub fn halved(&self) -> &'static str {
        match self.options.shrink {
            Shrink::Average => "average",
            Shrink::Subsample => "subsample",
        }
    }

    pub fn is_reference(&self, frame: usize) -> bool {
        frame == self.stack.reference
    }
}

#[cfg(test)]
mod tests {
    use super::*;

    fn terms(given: Given, width: usize, height: usize) -> [u32; 4] {
        let bracket = Bracket {
            files: vec![],
            widths: vec![width],
            heights: vec![height],
            samples: vec![],
        };
        let asked = given.asked(&bracket, &[50]);
        let Rivalry {
            reach,
            floor,
            margin,
        } = asked.rivalry;
        [asked.options.bits, reach, floor, margin]
    }

    #[test]
    fn what_is_not_given_follows_the_page() {
        assert_eq!(terms(Given::default(), 64, 64), [3, 14, 256, 61]);
        assert_eq!(terms(Given::default(), 640, 480), [3, 14, 19_200, 4_608]);
        assert_eq!(
            terms(Given::default(), 8192, 8192),
            [3, 14, 4_194_304, 1_006_632]
        );
        assert_eq!(terms(Given::default(), 1, 1), [3, 14, 1, 0]);
        let with_bits = |bits| Given {
            bits: Some(bits),
            ..Given::default()
        };
        assert_eq!(terms(with_bits(0), 64, 64)[..2], [0, 2]);
        assert_eq!(terms(with_bits(2), 64, 64)[..2], [2, 6]);
        assert_eq!(terms(with_bits(4), 64, 64)[..2], [4, 30]);
        assert_eq!(terms(with_bits(6), 64, 64)[..2], [6, 64]);
        assert_eq!(terms(with_bits(u32::MAX), 64, 64)[1], 64);
    }

    #[test]
    fn one_percentile_stands_for_all() {
        let given = |list: &[u8]| Given {
            percentiles: Some(list.to_vec()),
            ..Given::default()
        };
        assert_eq!(Given::default().percentiles(3), Ok(vec![50; 3]));
        assert_eq!(given(&[17]).percentiles(2), Ok(vec![17; 2]));
        assert_eq!(given(&[17, 83]).percentiles(2), Ok(vec![17, 83]));
        assert_eq!(
            given(&[1, 2]).percentiles(3),
            Err("2 percentiles for 3 frames".into())
        );
    }
}
