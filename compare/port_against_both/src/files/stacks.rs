//! Several images of a file as a stack.

use std::array;

use ::port::{Rivalry, Stack, files as port};
use naive::Refusal;
use naive::pgm::{Image, Laid, read_stack};
use naive::refusals::{
    HEADER_MALFORMED, MOST_FRAMES, SAMPLES_MISSING, TOO_MANY_FRAMES, WRONG_LENGTH,
};
use trials::frames::Frames;
use trials::inputs::{Random, options, size};
use trials::pgm::{FAULTS, faulty, file, image, image_of};
use trials::{Outcome, same, scenes};

use super::{answers, past, shown};
use crate::agreed;
use crate::lent::Lent;
use crate::search::wrong;
use crate::whole::as_lent;

/// What a caller passes: a file, the place of the first image, and the lengths of the lists.
#[derive(Clone, Copy)]
pub struct Asked<'a> {
    pub file: &'a [u8],
    pub at: usize,
    pub widths: usize,
    pub heights: usize,
    pub samples: usize,
}

impl<'a> Asked<'a> {
    /// Lists that are exact for these images.
    pub fn exact(file: &'a [u8], at: usize, images: &[Image]) -> Self {
        Self {
            file,
            at,
            widths: images.len(),
            heights: images.len(),
            samples: images.iter().map(|image| image.next - image.start).sum(),
        }
    }

    /// What these images of the file come to.
    pub fn made(&self, images: &[Image]) -> Laid {
        let samples = |image: &Image| &self.file[image.start..image.next];
        Laid {
            widths: images.iter().map(|image| image.width).collect(),
            heights: images.iter().map(|image| image.height).collect(),
            samples: images.iter().flat_map(samples).copied().collect(),
            next: images.last().map_or(self.at, |image| image.next),
        }
    }
}

/// What the port lays out, or the number of its refusal, which is what the naive reading has.
fn laid(random: &mut Random, asked: &Asked) -> Result<Result<Laid, u32>, String> {
    let file = Lent::holding(random, asked.file);
    let mut widths = Lent::room(random, asked.widths);
    let mut heights = Lent::room(random, asked.heights);
    let mut samples = Lent::room(random, asked.samples);
    let mut next = Lent::room(random, 1);
    let input = format!(
        "{}, widths {widths}, heights {heights}, samples {samples}",
        shown(file.list(), asked.at)
    );

    let status = port::read_stack(
        file.list(),
        asked.at,
        widths.list_mut(),
        heights.list_mut(),
        samples.list_mut(),
        next.one_mut(),
    );
    file.is_kept(&input)?;
    let written = Laid {
        widths: widths.after(&input, status)?,
        heights: heights.after(&input, status)?,
        samples: samples.after(&input, status)?,
        next: next.after(&input, status)?[0],
    };
    let Asked {
        widths,
        heights,
        samples,
        ..
    } = *asked;
    let naive = read_stack(file.list(), asked.at, widths, heights, samples);
    let original: Option<fn() -> Result<Laid, Refusal>> = None;
    agreed(&input, (status, written.clone()), naive, original)?;
    Ok(match status {
        0 => Ok(written),
        refused => Err(refused),
    })
}

pub fn lays(random: &mut Random, asked: &Asked, meant: &Result<Laid, u32>) -> Outcome {
    let found = laid(random, asked)?;
    let input = shown(asked.file, asked.at);
    same(input, ("port", &found), ("meant", meant))
}

/// One more than a stack may have.
pub const MOST_IMAGES: usize = MOST_FRAMES + 1;

/// One too many and, if there is one, one too few.
pub fn one_off(length: usize) -> impl Iterator<Item = usize> {
    [Some(length + 1), length.checked_sub(1)]
        .into_iter()
        .flatten()
}

/// Files of 1 to 17 images of any sizes: each image by itself, then all and some of them as a
/// stack, with lists that are exact, one short and one long, and at places past the file.
pub fn stack(random: &mut Random, case: usize) -> Outcome {
    let count = 1 + case % MOST_IMAGES;
    let (bytes, at, images) = file(random, count);
    let lent = Lent::holding(random, &bytes);
    let mut place = at;
    for image in &images {
        answers(random, &lent, place, Ok(*image))?;
        place = image.next;
    }

    let some = 1 + random.below(count);
    for images in [&images[..], &images[..some]] {
        let exact = Asked::exact(&bytes, at, images);
        let meant = |asked: Asked, else_meant| match asked.widths.max(asked.heights) {
            ..=MOST_FRAMES => else_meant,
            _ => Err(TOO_MANY_FRAMES),
        };
        let laid_out = Ok(exact.made(images));
        lays(random, &exact, &meant(exact, laid_out))?;
        for samples in one_off(exact.samples) {
            let asked = Asked { samples, ..exact };
            lays(random, &asked, &meant(asked, Err(WRONG_LENGTH)))?;
        }
        for heights in one_off(exact.heights) {
            let asked = Asked { heights, ..exact };
            lays(random, &asked, &meant(asked, Err(WRONG_LENGTH)))?;
        }
        for at in past(bytes.len()) {
            let asked = Asked { at, ..exact };
            lays(random, &asked, &meant(asked, Err(HEADER_MALFORMED)))?;
        }
        // An image more than the samples are for, or than there is.
        let asked = Asked {
            widths: exact.widths + 1,
            heights: exact.heights + 1,
            ..exact
        };
        _ = laid(random, &asked)?;
    }
    Ok(())
}

/// What the checks of a stack refuse, in their order: the lengths of widths and heights, that
/// of heights beside widths, those of an image, and the length of samples.
const CHECKS: [u32; 8] = [
    TOO_MANY_FRAMES,
    TOO_MANY_FRAMES,
    WRONG_LENGTH,
    FAULTS[0],
    FAULTS[1],
    FAULTS[2],
    FAULTS[3],
    WRONG_LENGTH,
];
/// Each check failing alone and with each other one.
pub const PAIRS: usize = CHECKS.len() * CHECKS.len();

pub fn stack_fault(random: &mut Random, case: usize) -> Outcome {
    let pair = [case % CHECKS.len(), case / CHECKS.len() % CHECKS.len()];
    let fails: [bool; CHECKS.len()] = array::from_fn(|check| pair.contains(&check));
    let [widths, heights, other_heights, .., samples] = fails;
    let faults: Vec<u32> = FAULTS
        .into_iter()
        .filter(|fault| pair.iter().any(|&check| CHECKS[check] == *fault))
        .collect();

    // Images in order, and then one with the faults. Those behind it are not looked at.
    let good = random.below(MOST_FRAMES - 1);
    let (mut bytes, at, mut images) = file(random, good);
    bytes.truncate(images.last().map_or(at, |image| image.next));
    match &faults[..] {
        [] => {
            let made = image(random);
            images.push(made.image(bytes.len()));
            bytes.extend(made.bytes);
        }
        faults => bytes.extend(faulty(random, faults)),
    }
    if !faults.contains(&HEADER_MALFORMED) && !faults.contains(&SAMPLES_MISSING) {
        let behind = random.pick(&FAULTS);
        bytes.extend(faulty(random, &[behind]));
    }

    let mut asked = Asked::exact(&bytes, at, &images);
    let count = good + 1;
    let over = |random: &mut Random| MOST_FRAMES + 1 + random.below(3);
    asked.widths = if widths { over(random) } else { count };
    asked.heights = match (heights, other_heights) {
        (true, _) => over(random),
        (false, true) => wrong(random, count),
        (false, false) => count,
    };
    if samples {
        asked.samples = match random.one_in(2) {
            true => asked.samples + 1 + random.below(9),
            false => asked.samples.checked_sub(1).unwrap_or(1),
        };
    }
    let first = pair[0].min(pair[1]);
    lays(random, &asked, &Err(CHECKS[first]))
}

/// Heights and samples of no length or some, at eleven places.
pub const NO_IMAGES: usize = 2 * 2 * 11;

/// No image: the place alone is looked at.
pub fn no_image(random: &mut Random, case: usize) -> Outcome {
    let (bytes, at, _) = file(random, case % 3);
    let length = bytes.len();
    let places = [&[0, at, length / 2][..], &past(length)].concat();
    let asked = Asked {
        file: &bytes,
        at: places[case / 4 % places.len()],
        widths: 0,
        heights: case % 2,
        samples: case / 2 % 2 * (1 + random.below(3)),
    };
    let meant = if asked.heights > 0 {
        Err(WRONG_LENGTH)
    } else if asked.at > length {
        Err(HEADER_MALFORMED)
    } else if asked.samples > 0 {
        Err(WRONG_LENGTH)
    } else {
        Ok(asked.made(&[]))
    };
    lays(random, &asked, &meant)
}

/// The frames of a scene in a file: what is read of it is aligned and reported as the frames
/// are that are lent as they were made.
pub fn bracket(random: &mut Random, _: usize) -> Outcome {
    let (width, height) = size(random, 30);
    let count = 1 + random.below(6);
    let frames = scenes::bracket(random, width, height, count);
    let mut bytes = vec![];
    for frame in &frames {
        let made = image_of(random, width, height);
        bytes.extend(&made.bytes[..made.header]);
        bytes.extend(frame);
    }
    let reference = random.below(count);
    let (options, percentile) = options(random);
    let made = Frames::alike(frames, (width, height), percentile, reference);
    let input = shown(&bytes, 0);
    let rivalry = Rivalry {
        reach: random.below(4) as u32,
        floor: 1,
        margin: random.pick(&[0, 5, u32::MAX]),
    };
    let asked = Asked {
        file: &bytes,
        at: 0,
        widths: count,
        heights: count,
        samples: made.samples.len(),
    };
    let read = laid(random, &asked)?;
    let Ok(read) = read else {
        return Err(format!("{input}: {read:?}"));
    };
    let read = Stack {
        widths: &read.widths,
        heights: &read.heights,
        samples: &read.samples,
        percentiles: &made.percentiles,
        reference: made.reference,
    };
    _ = as_lent(&input, ("read", read), made.stack(), &options, &rivalry)?;
    Ok(())
}
