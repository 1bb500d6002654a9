//! Stacks that are read from greymaps.

use naive::pgm;
use naive::refusals::{
    HEADER_MALFORMED, HIGHEST_VALUE_OTHER, LONGEST_SIDE, MOST_FRAMES, SAMPLES_MISSING,
    SIDE_TOO_LONG, TOO_MANY_FRAMES, WRONG_LENGTH,
};
use trials::inputs::Random;

use crate::cases::{Break, Case, accepted, refused, stated};
use crate::line::{Answered, Line};
use crate::netpbm::KEPT;
use crate::pgm::{Parts, SOUND, faults, small};

/// A file, the place of a stack in it, and the lengths of the lists that are lent.
#[derive(Clone)]
struct Laying {
    file: Vec<u8>,
    at: usize,
    widths: usize,
    heights: usize,
    samples: usize,
}

impl Laying {
    /// With lists for these images, the first of which stands at the place.
    fn of(file: Vec<u8>, at: usize, images: &[pgm::Image]) -> Self {
        Self {
            file,
            at,
            widths: images.len(),
            heights: images.len(),
            samples: images.iter().map(|image| image.next - image.start).sum(),
        }
    }
}

impl Case for Laying {
    fn answered(&self) -> Answered {
        let lengths = [self.widths, self.heights, self.samples];
        let [widths, heights, samples] = lengths;
        Line::new()
            .list(&self.file)
            .number(self.at)
            .numbers(lengths)
            .answer(pgm::read_stack(
                &self.file, self.at, widths, heights, samples,
            ))
    }
}

/// Three images part by part, how far they stand from where they are looked for, and the
/// lengths of the lists.
#[derive(Clone)]
struct Bracket {
    images: [Parts; 3],
    past: usize,
    lengths: [usize; 3],
}

impl Case for Bracket {
    fn answered(&self) -> Answered {
        let [widths, heights, samples] = self.lengths;
        let laying = Laying {
            file: self.images.each_ref().map(Parts::bytes).concat(),
            at: self.past,
            widths,
            heights,
            samples,
        };
        laying.answered()
    }
}

/// The checks of a stack: of the lists, of the first image, of the others, of one that is
/// not there, of the samples.
const STACK_BREAKS: [Break<Bracket>; 22] = [
    (TOO_MANY_FRAMES, |bracket| bracket.lengths[..2].fill(17)),
    (TOO_MANY_FRAMES, |bracket| bracket.lengths[0] = 17),
    (TOO_MANY_FRAMES, |bracket| bracket.lengths[1] = 17),
    (WRONG_LENGTH, |bracket| bracket.lengths[1] += 1),
    (WRONG_LENGTH, |bracket| bracket.lengths[1] -= 1),
    (WRONG_LENGTH, |bracket| bracket.lengths[0] = 0),
    (HEADER_MALFORMED, |bracket| bracket.past = usize::MAX),
    (HEADER_MALFORMED, |bracket| bracket.past = 1),
    (HEADER_MALFORMED, |bracket| bracket.images[0].last = "#"),
    (SIDE_TOO_LONG, |bracket| bracket.images[0].width = "8193"),
    (HIGHEST_VALUE_OTHER, |bracket| {
        bracket.images[0].highest = "256"
    }),
    (HEADER_MALFORMED, |bracket| bracket.images[2].magic = "\nP5"),
    (HEADER_MALFORMED, |bracket| bracket.images[1].magic = "P6"),
    (SIDE_TOO_LONG, |bracket| {
        bracket.images[2].width = "18446744073709551619"
    }),
    (SIDE_TOO_LONG, |bracket| bracket.images[1].height = "8193"),
    (HIGHEST_VALUE_OTHER, |bracket| {
        bracket.images[2].highest = "65535"
    }),
    (SAMPLES_MISSING, |bracket| {
        bracket.images[2].samples = "abcde"
    }),
    (HEADER_MALFORMED, |bracket| {
        bracket.lengths[..2]
            .iter_mut()
            .for_each(|length| *length += 1)
    }),
    (WRONG_LENGTH, |bracket| bracket.lengths[2] += 1),
    (WRONG_LENGTH, |bracket| bracket.lengths[2] -= 1),
    (WRONG_LENGTH, |bracket| bracket.lengths[2] = 0),
    (WRONG_LENGTH, |bracket| bracket.lengths[..2].fill(2)),
];

/// No image: any place up to the end is the place behind the last.
fn no_image() -> Vec<String> {
    let file = SOUND.bytes();
    let end = file.len();
    let mut cases = Vec::new();
    for at in [0, 7, end, end + 1, usize::MAX] {
        for samples in [0, 1] {
            let mut laying = Laying::of(file.clone(), at, &[]);
            laying.samples = samples;
            let status = match samples {
                _ if at > end => HEADER_MALFORMED,
                0 => 0,
                _ => WRONG_LENGTH,
            };
            cases.push((status, laying));
        }
    }
    stated(cases)
}

pub fn read_stack(random: &mut Random) -> Vec<String> {
    let mut cases = Vec::new();
    for count in (1..=MOST_FRAMES + 1).chain([2, 3, 4, 5]) {
        let (file, at, images) = small(random, count, 200 + 90 * count);
        let most = count.min(MOST_FRAMES);
        cases.push((0, Laying::of(file.clone(), at, &images[..most])));
        if count > MOST_FRAMES {
            cases.push((TOO_MANY_FRAMES, Laying::of(file, at, &images)));
        } else if count < 6 {
            let fewer = random.below(count);
            cases.push((0, Laying::of(file, at, &images[..fewer])));
        }
    }
    let (mut row, at, images) = small(random, 1, 60);
    row.truncate(images[0].next);
    row.extend(format!("P5 1 {LONGEST_SIDE} 255 {}", "0".repeat(LONGEST_SIDE)).bytes());
    let mut longest = Laying::of(row, at, &images);
    (longest.widths, longest.heights) = (2, 2);
    longest.samples += LONGEST_SIDE;
    cases.push((0, longest));
    for kept in &KEPT {
        let laying = Laying::of(kept.bytes.to_vec(), 0, &kept.images());
        cases.push((0, laying));
    }
    for (status, bytes) in faults(random) {
        let count = 1 + random.below(3);
        let (mut file, at, images) = small(random, count, 400);
        file.truncate(images[images.len() - 1].next);
        file.extend(bytes);
        let mut laying = Laying::of(file, at, &images);
        laying.widths += 1;
        laying.heights += 1;
        cases.push((status, laying));
    }
    let sound = Bracket {
        images: [SOUND, SOUND, SOUND],
        past: 0,
        lengths: [3, 3, 18],
    };
    [
        stated(cases),
        accepted([sound.clone()]),
        refused(&sound, &STACK_BREAKS),
        no_image(),
    ]
    .concat()
}
