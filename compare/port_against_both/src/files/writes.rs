//! Frames written as greymaps, and what is read of these again.

use ::port::{Frame, files as port};
use naive::Refusal;
use naive::pgm::{Image, Laid, write};
use naive::refusals::{LONGEST_SIDE, MOST_FRAMES, SIDE_TOO_LONG, WRONG_LENGTH};
use trials::inputs::{Random, SIZES_OVER};
use trials::pgm::{file, size};
use trials::{Outcome, same};

use super::stacks::{Asked, lays, one_off};
use super::{answers, shown};
use crate::agreed;
use crate::claims::{Claim, lengths_over};
use crate::lent::Lent;

/// A file, or the number of a refusal.
type Answer = Result<Vec<u8>, u32>;

/// What the port puts at the front of a buffer, or the number of its refusal, which is what
/// the naive reading has. All else stays as it was.
fn answer(
    samples: &Lent<u8>,
    (width, height): (usize, usize),
    file: &mut Lent<u8>,
    length: &mut Lent<usize>,
) -> Result<Answer, String> {
    let input = format!("{width} by {height}, samples {samples}, file {file}");
    let frame = Frame::new(samples.list(), width, height);
    let status = port::write_pgm(frame, file.list_mut(), length.one_mut());
    samples.is_kept(&input)?;
    let written = (
        length.after(&input, status)?[0],
        file.after(&input, status)?,
    );
    let filled = |front: Vec<u8>| {
        let rest = &file.list_before()[front.len()..];
        (front.len(), [&front, rest].concat())
    };
    let naive = write(frame, file.list().len());
    let original = None::<fn() -> Result<_, Refusal>>;
    let meant = naive.clone().map(filled);
    agreed(&input, (status, written), meant, original)?;
    Ok(naive.map_err(|refusal| refusal.number))
}

/// The same of a frame in any place, with a buffer of this length.
fn written(random: &mut Random, frame: Frame, room: usize) -> Result<Answer, String> {
    let samples = Lent::holding(random, frame.samples);
    let (mut file, mut length) = (Lent::room(random, room), Lent::room(random, 1));
    let size = (frame.width, frame.height);
    answer(&samples, size, &mut file, &mut length)
}

/// The port's answer, the naive one and the one that is meant are the same.
fn writes(random: &mut Random, frame: Frame, room: usize, meant: &Answer) -> Outcome {
    let found = written(random, frame, room)?;
    let Frame { width, height, .. } = frame;
    let input = format!("{width} by {height}, file of {room}");
    same(input, ("port", &found), ("meant", meant))
}

/// What the file of a frame is meant to be.
pub fn file_of(frame: Frame) -> Vec<u8> {
    let header = format!("P5\n{} {}\n255\n", frame.width, frame.height);
    [header.as_bytes(), frame.samples].concat()
}

/// Any frame, with a buffer that is exact, longer or one short.
pub fn frame(random: &mut Random, case: usize) -> Outcome {
    let claim = Claim::any(random, case, 60);
    let samples = claim.samples(random);
    let size = (claim.width, claim.height);
    let need = file_of(Frame::new(samples.list(), size.0, size.1)).len();
    let room = claim.scratch(random, need);
    let (mut file, mut length) = (Lent::room(random, room), Lent::room(random, 1));
    _ = answer(&samples, size, &mut file, &mut length)?;
    Ok(())
}

/// Sides of one to four digits at the ends of these lengths, and none.
const SIDES: [usize; 9] = [0, 1, 9, 10, 99, 100, 999, 1000, LONGEST_SIDE];
/// All pairs of them but the last: the largest frame is written above, and in `threads`.
const PAIRS_OF_SIDES: usize = SIDES.len() * SIDES.len() - 1;
/// The port copies blocks of 2,097,152 samples: one of them, one sample less and one more, two,
/// and one more than two; then usual sizes.
const OTHERS: [(usize, usize); 8] = [
    (2359, 889),
    (256, 8192),
    (5419, 387),
    (8192, 512),
    (2113, 1985),
    (64, 64),
    (640, 480),
    (1920, 1080),
];
pub const SIZES: usize = PAIRS_OF_SIDES + OTHERS.len();

/// Two sides, with buffers that are exact, longer, one short and empty.
pub fn sides(random: &mut Random, case: usize) -> Outcome {
    let (width, height) = match case.checked_sub(PAIRS_OF_SIDES) {
        Some(number) => OTHERS[number],
        None => (SIDES[case % SIDES.len()], SIDES[case / SIDES.len()]),
    };
    let samples = random.bytes(width * height);
    let frame = Frame::new(&samples, width, height);
    let meant = Ok(file_of(frame));
    let need = file_of(frame).len();
    for room in [need, need + 1, need + 2 + random.below(5000)] {
        writes(random, frame, room, &meant)?;
    }
    for room in [need - 1, 0] {
        writes(random, frame, room, &Err(WRONG_LENGTH))?;
    }
    Ok(())
}

/// Those within the limit.
pub const EVERY_SIDE: usize = LONGEST_SIDE + 1;

/// A side of any digits, as width and as height.
pub fn digits(random: &mut Random, case: usize) -> Outcome {
    for (width, height) in [(case, 0), (0, case)] {
        let frame = Frame::new(&[], width, height);
        let file = file_of(frame);
        writes(random, frame, file.len(), &Ok(file))?;
    }
    Ok(())
}

/// A side over the limit: with as many samples as the product says, if there can be so many, or
/// as it says in fewer bits, or any; each with a buffer that is exact, longer, short and empty.
pub fn over(random: &mut Random, case: usize) -> Outcome {
    let (width, height) = SIZES_OVER[case % SIZES_OVER.len()];
    for length in lengths_over(random, (width, height)) {
        let samples = random.bytes(length);
        let frame = Frame::new(&samples, width, height);
        let need = file_of(frame).len();
        for room in [need, need + 1 + random.below(50), need - 1, 0] {
            writes(random, frame, room, &Err(SIDE_TOO_LONG))?;
        }
    }
    Ok(())
}

/// Small frames: with every length of the buffer up to the file's and past it, and with
/// samples one too many, one too few, none and twice as many, each in a buffer that is exact for
/// the size, for the samples, longer, and empty.
pub fn lengths(random: &mut Random, _: usize) -> Outcome {
    let (width, height) = size(random);
    let area = width * height;
    let samples = random.bytes(2 * area + 1);
    let sound = Frame::new(&samples[..area], width, height);
    let file = file_of(sound);
    let header = file.len() - area;
    // Of a long one those about the ends of its header and its samples.
    let is_tried = |room: &usize| match file.len() {
        ..300 => true,
        length => *room < header + 9 || *room + 9 > length,
    };
    for room in (0..file.len() + 9).filter(is_tried) {
        let meant = if room < file.len() {
            Err(WRONG_LENGTH)
        } else {
            Ok(file.clone())
        };
        writes(random, sound, room, &meant)?;
    }

    let wrong = one_off(area).chain([0, 2 * area]);
    for length in wrong.filter(|&length| length != area) {
        let frame = Frame::new(&samples[..length], width, height);
        let exact = header + length;
        for room in [file.len(), exact, file.len().max(exact) + 9, 0] {
            writes(random, frame, room, &Err(WRONG_LENGTH))?;
        }
    }
    Ok(())
}

/// A frame's file among other bytes is read as an image of its size, with its samples.
fn reads(random: &mut Random, frame: Frame, file: &[u8], around: [&[u8]; 2]) -> Outcome {
    let [ahead, behind] = around;
    let all = Lent::holding(random, &[ahead, file, behind].concat());
    let (at, next) = (ahead.len(), ahead.len() + file.len());
    let image = Image {
        width: frame.width,
        height: frame.height,
        start: next - frame.samples.len(),
        next,
    };
    answers(random, &all, at, Ok(image))?;
    let samples = &all.list()[image.start..next];
    let input = shown(all.list(), at);
    same(input, ("read", samples), ("written", frame.samples))
}

/// Files of 1 to 16 images of any headers: each image is read, written in no more bytes than it
/// had, then read with its size and its samples, wherever it stands, and written as before. All
/// of them, one behind another in one buffer, are read as the same stack.
pub fn again(random: &mut Random, case: usize) -> Outcome {
    let (bytes, at, images) = file(random, 1 + case % MOST_FRAMES);
    let lent = Lent::holding(random, &bytes);
    let mut place = at;
    let mut frames = vec![];
    for &image in &images {
        answers(random, &lent, place, Ok(image))?;
        let samples = &bytes[image.start..image.next];
        let frame = Frame::new(samples, image.width, image.height);
        let had = image.next - place;
        let Ok(file) = written(random, frame, had)? else {
            let input = shown(&bytes, place);
            return Err(format!("{input}: does not fit into the {had} bytes it had"));
        };

        let [ahead, behind] = [(); 2].map(|()| {
            let length = random.below(40);
            random.bytes(length)
        });
        for around in [[&ahead[..], &behind], [&[], &[]]] {
            reads(random, frame, &file, around)?;
        }
        let start = file.len() - samples.len();
        let read = Frame::new(&file[start..], image.width, image.height);
        let room = file.len() + random.below(30);
        writes(random, read, room, &Ok(file.clone()))?;
        frames.push(frame);
        place = image.next;
    }
    let stack = Asked::exact(&bytes, at, &images).made(&images);
    stacked(random, &frames, &stack)
}

/// What the file of several frames is meant to be.
pub fn file_of_all(frames: &[Frame]) -> Vec<u8> {
    frames.iter().flat_map(|&frame| file_of(frame)).collect()
}

/// Writes frames into one file, each into the rest of it, and answers the place behind the last.
pub fn one_behind_another(frames: &[Frame], file: &mut [u8]) -> Result<usize, u32> {
    let mut next = 0;
    for &frame in frames {
        let mut length = 0;
        match port::write_pgm(frame, &mut file[next..], &mut length) {
            0 => next += length,
            refused => return Err(refused),
        }
    }
    Ok(next)
}

/// Frames written one behind another are read as the stack that they were.
fn stacked(random: &mut Random, frames: &[Frame], stack: &Laid) -> Outcome {
    let all = file_of_all(frames);
    let room = all.len() + random.below(60);
    let mut buffer = Lent::room(random, room);
    let input = format!("{} frames in one file", frames.len());
    let next = one_behind_another(frames, buffer.list_mut());
    same(&input, ("port", &next), ("meant", &Ok(all.len())))?;
    buffer.begins_with(&all, &input)?;
    let asked = Asked {
        file: buffer.list(),
        at: 0,
        widths: frames.len(),
        heights: frames.len(),
        samples: stack.samples.len(),
    };
    let meant = Laid {
        next: all.len(),
        ..stack.clone()
    };
    lays(random, &asked, &Ok(meant))
}

/// Sizes of which many have as many samples, or the same digits.
const ALIKE: [(usize, usize); 20] = [
    (0, 0),
    (0, 5),
    (5, 0),
    (0, 50),
    (1, 1),
    (2, 3),
    (3, 2),
    (1, 6),
    (6, 1),
    (1, 12),
    (12, 1),
    (2, 6),
    (6, 2),
    (3, 4),
    (4, 3),
    (1, 11),
    (11, 1),
    (11, 11),
    (1, 121),
    (121, 1),
];
/// Each size with the same samples, with another first one, and with another last one.
const FRAMES: usize = 3 * ALIKE.len();
pub const PAIRS: usize = FRAMES * FRAMES;

/// Two frames have the same file exactly if size and samples are the same.
pub fn pair(random: &mut Random, case: usize) -> Outcome {
    let made = [case % FRAMES, case / FRAMES % FRAMES].map(|number| {
        let (width, height) = ALIKE[number / 3];
        let mut samples: Vec<u8> = (0..width * height).map(|place| place as u8).collect();
        let other = match number % 3 {
            0 => None,
            1 => samples.first_mut(),
            _ => samples.last_mut(),
        };
        if let Some(sample) = other {
            *sample ^= 128;
        }
        (samples, width, height)
    });
    let mut files = vec![];
    for (samples, width, height) in &made {
        let frame = Frame::new(samples, *width, *height);
        let room = file_of(frame).len() + random.below(9);
        files.push(written(random, frame, room)?);
    }
    let alike = made[0] == made[1];
    let input = format!("{:?}", made);
    same(
        input,
        ("files", &(files[0] == files[1])),
        ("frames", &alike),
    )
}
