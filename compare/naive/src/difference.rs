//! Counting where two frames are compared and where they disagree.

use crate::bitmap::Bitmap;
use crate::geometry::{Shift, source};
use crate::refusals::{
    PADDING_SET, Refusal, SIZES_DIFFER, WRONG_LENGTH, check_sides, refuse_if, refuse_with,
};
use crate::threshold::{BitFrame, Bits};

#[derive(Clone, Copy, Debug, PartialEq, Eq)]
pub struct Counts {
    pub disagreeing: u64,
    pub compared: u64,
}

/// Both counts of two frames of one size. The exclusion bits decide only whether a
/// pixel is compared; they never touch the threshold bits.
pub(crate) fn counts(reference: &BitFrame, target: &BitFrame, shift: Shift) -> Counts {
    let mut counts = Counts {
        disagreeing: 0,
        compared: 0,
    };
    for y in 0..reference.height {
        for x in 0..reference.width {
            let (Some(source_x), Some(source_y)) = (
                source(x, shift.x, target.width),
                source(y, shift.y, target.height),
            ) else {
                continue;
            };
            let (here, there) = (reference.at(x, y), target.at(source_x, source_y));
            if here.exclusion && there.exclusion {
                counts.compared += 1;
                counts.disagreeing += u64::from(here.threshold != there.threshold);
            }
        }
    }
    counts
}

/// A packed pair as a caller lends it: both bitmaps and the size they claim.
#[derive(Clone, Copy, Debug)]
pub struct Pair<'a> {
    pub threshold: &'a [u64],
    pub exclusion: &'a [u64],
    pub width: usize,
    pub height: usize,
}

impl<'a> Pair<'a> {
    fn bitmaps(&self) -> [Bitmap<'a>; 2] {
        [self.threshold, self.exclusion].map(|words| Bitmap::new(words, self.width, self.height))
    }

    fn unpacked(&self) -> BitFrame {
        let [threshold, exclusion] = self.bitmaps();
        BitFrame::new(self.width, self.height, |x, y| Bits {
            threshold: threshold.bit(x, y),
            exclusion: exclusion.bit(x, y),
        })
    }
}

/// Counting two packed pairs: 1, 4, 2, 8. As a step's, this 4 carries both sizes.
pub fn disagreement(reference: Pair, target: Pair, shift: Shift) -> Result<Counts, Refusal> {
    let size = |pair: Pair| [pair.width, pair.height];
    let sizes = [size(reference), size(target)];
    check_sides(sizes.as_flattened())?;
    refuse_with(sizes[0] != sizes[1], SIZES_DIFFER, sizes.as_flattened())?;

    let bitmaps = [reference.bitmaps(), target.bitmaps()].concat();
    let any = |broken: fn(&Bitmap) -> bool| bitmaps.iter().any(broken);
    refuse_if(any(|bitmap| !bitmap.is_whole()), WRONG_LENGTH)?;
    refuse_if(any(|bitmap| !bitmap.padding_is_clear()), PADDING_SET)?;

    Ok(counts(&reference.unpacked(), &target.unpacked(), shift))
}
