//! The images of greymap files. The original reads none, so the port is held to the naive
//! reading and to what images were made for.

pub mod headers;
pub mod stacks;
pub mod writes;

use naive::Refusal;
use naive::pgm::{Image, read};
use naive::refusals::{
    HEADER_MALFORMED, HIGHEST_VALUE_OTHER, LONGEST_SIDE, SAMPLES_MISSING, SIDE_TOO_LONG,
};
use port::files as port;
use trials::inputs::{Random, TOO_LONG};
use trials::pgm::{fault_sets, faulty, file};
use trials::{Outcome, same};

use crate::agreed;
use crate::lent::Lent;

/// An image, or the number of a refusal.
type Answer = Result<Image, u32>;

/// Room for the four numbers of an image, each between two words that stay.
struct Slots {
    all: [usize; 9],
    before: [usize; 9],
}

impl Slots {
    /// Full of something that hangs on the seed alone.
    fn new(seed: u64) -> Self {
        let mut random = Random::new(seed);
        let before = [(); 9].map(|()| random.word() as usize);
        Self {
            all: before,
            before,
        }
    }

    fn lent(&mut self) -> [&mut usize; 4] {
        let [_, width, _, height, _, start, _, next, _] = &mut self.all;
        [width, height, start, next]
    }

    /// The image that is written, if the call is accepted; nothing else has changed.
    fn after(&self, status: u32) -> Result<Image, String> {
        let changed: Vec<usize> = (0..self.all.len())
            .filter(|&place| self.all[place] != self.before[place])
            .filter(|place| status != 0 || place.is_multiple_of(2))
            .collect();
        if !changed.is_empty() {
            return Err(format!("status {status}, slots changed at {changed:?}"));
        }
        let [_, width, _, height, _, start, _, next, _] = self.all;
        Ok(Image {
            width,
            height,
            start,
            next,
        })
    }
}

/// The place, and what the file has there.
fn shown(file: &[u8], at: usize) -> String {
    const SHOWN: usize = 100;
    let rest = file.get(at..).unwrap_or_default();
    let (dots, length) = match rest.len() {
        ..=SHOWN => ("", rest.len()),
        _ => ("...", SHOWN),
    };
    let text = rest[..length].escape_ascii();
    format!("place {at} of {} bytes, {text}{dots}", file.len())
}

/// What the port reads at a place, which is what the naive reading has there.
fn answer(random: &mut Random, file: &Lent<u8>, at: usize) -> Result<Answer, String> {
    let input = shown(file.list(), at);
    let mut slots = Slots::new(random.word());
    let status = port::read_pgm(file.list(), at, slots.lent());
    file.is_kept(&input)?;
    let written = slots.after(status);
    let image = written.map_err(|wrong| format!("{input}: {wrong}"))?;
    let naive = read(file.list(), at);
    let original: Option<fn() -> Result<Image, Refusal>> = None;
    agreed(&input, (status, image), naive, original)?;
    Ok(match status {
        0 => Ok(image),
        refused => Err(refused),
    })
}

/// The port's answer, the naive one and the one that is meant are the same.
fn answers(random: &mut Random, file: &Lent<u8>, at: usize, meant: Answer) -> Outcome {
    let found = answer(random, file, at)?;
    let input = shown(file.list(), at);
    same(input, ("port", &found), ("meant", &meant))
}

/// Places at which nothing is left of a file of this length.
fn past(length: usize) -> [usize; 8] {
    let most = usize::MAX;
    let after = length + 1;
    [
        length,
        after,
        after + 1,
        1 << 32,
        1 << 63,
        most - 2,
        most - 1,
        most,
    ]
}

/// What damage puts in the place of a byte, beside that byte with one bit changed.
const TELLING: &[u8; 12] = b" \t\r\n#09P\x0b\x0c\x00\xff";
/// How far around an image it is looked for, and how many of its samples are damaged.
const NEAR: usize = 40;

/// An image as it was made, at each place near its own and past the file, cut at every byte,
/// and damaged at every byte of its header and its first samples.
pub fn image(random: &mut Random, _: usize) -> Outcome {
    let (bytes, at, images) = file(random, 1);
    let image = images[0];
    let whole = Lent::holding(random, &bytes);
    answers(random, &whole, at, Ok(image))?;
    for place in past(bytes.len()) {
        answers(random, &whole, place, Err(HEADER_MALFORMED))?;
    }
    for place in at.saturating_sub(NEAR)..bytes.len().min(at + NEAR) {
        _ = answer(random, &whole, place)?;
    }

    for end in at..=image.next {
        let meant = match end {
            _ if end < image.start => Err(HEADER_MALFORMED),
            _ if end < image.next => Err(SAMPLES_MISSING),
            _ => Ok(image),
        };
        // The rest stands behind the slice, for a reader that would look there.
        answers(random, &Lent::part_of(&bytes, 0..end), at, meant)?;
    }

    for place in at..image.next.min(image.start + NEAR) {
        let flips = (0..8).map(|bit| bytes[place] ^ (1 << bit));
        for byte in flips.chain(*TELLING) {
            let mut damaged = bytes.clone();
            damaged[place] = byte;
            let damaged = Lent::holding(random, &damaged);
            let found = answer(random, &damaged, at)?;
            if place >= image.start {
                let input = shown(damaged.list(), at);
                same(input, ("port", &found), ("meant", &Ok(image)))?;
            }
        }
    }
    Ok(())
}

/// Every fault alone and with all choices of later ones, in turn.
pub fn fault(random: &mut Random, case: usize) -> Outcome {
    let sets = fault_sets();
    let faults = &sets[case % sets.len()];
    let length = random.below(3) * random.below(20);
    let ahead = random.bytes(length);
    let bytes = [&ahead[..], &faulty(random, faults)].concat();
    let file = Lent::holding(random, &bytes);
    answers(random, &file, ahead.len(), Err(faults[0]))
}

const SIDES: [usize; 5] = [0, 1, LONGEST_SIDE - 1, LONGEST_SIDE, TOO_LONG];
/// How many bytes are left away at the end: none, one sample, all of them, and then the
/// header's last byte too.
const ENDS: usize = 4;
pub const LIMITS: usize = SIDES.len() * SIDES.len() * 2 * ENDS;
/// More samples than any trial has. The largest frame is read in `threads`.
const MANY: usize = 3 * LONGEST_SIDE;

/// The longest sides and longer ones, each with every choice of other faults.
pub fn limit(random: &mut Random, case: usize) -> Outcome {
    let mut rest = case;
    let mut one_of = |choices: usize| {
        let choice = rest % choices;
        rest /= choices;
        choice
    };
    let [width, height] = [(); 2].map(|()| SIDES[one_of(SIDES.len())]);
    let (highest, end) = ([255, 254][one_of(2)], one_of(ENDS));
    let header = format!("P5 {width} {height} {highest}\n");
    let (start, area) = (header.len(), width * height);
    let mut bytes = header.into_bytes();
    bytes.extend(random.bytes(area.min(MANY)));
    let left = match end {
        0 => bytes.len(),
        1 => start.max(bytes.len() - 1),
        2 => start,
        _ => start - 1,
    };
    bytes.truncate(left);

    let meant = if left < start {
        Err(HEADER_MALFORMED)
    } else if width.max(height) > LONGEST_SIDE {
        Err(SIDE_TOO_LONG)
    } else if highest != 255 {
        Err(HIGHEST_VALUE_OTHER)
    } else if left < start + area {
        Err(SAMPLES_MISSING)
    } else {
        Ok(Image {
            width,
            height,
            start,
            next: start + area,
        })
    };
    let file = Lent::holding(random, &bytes);
    answers(random, &file, 0, meant)
}

/// Every number of digits from 1 on.
pub const MOST_DIGITS: usize = 10_000;
const SOME_DIGITS: usize = 100;

/// As width, height and highest value a number behind zeros, one that is long, and one that
/// is small in fewer bits.
pub fn digits(random: &mut Random, case: usize) -> Outcome {
    let length = 1 + case % MOST_DIGITS;
    // Of long ones a place in turn, as the naive reading takes its time.
    let places = match length {
        ..=SOME_DIGITS => 0..3,
        _ => case % 3..case % 3 + 1,
    };
    for place in places {
        let small = match place {
            2 => 255,
            _ => random.pick(&[0, 1, 7, 8191, LONGEST_SIDE]),
        };
        let padded = format!("{small:0>length$}");
        number(random, place, &padded, Some(small))?;

        let first = char::from(b'1' + random.below(9) as u8);
        let others = (1..length.max(5)).map(|_| char::from(b'0' + random.below(10) as u8));
        let long: String = [first].into_iter().chain(others).collect();
        number(random, place, &long, None)?;

        let bits = random.pick(&[14, 16, 31, 32, 33, 63, 64, 65, 96, 126]);
        let wrapped = ((1 + random.below(3) as u128) << bits) + small as u128;
        number(random, place, &format!("{wrapped:0>length$}"), None)?;
    }
    Ok(())
}

/// An image without samples whose width, height or highest value is this number; `small`
/// where it is one that is read.
fn number(random: &mut Random, place: usize, digits: &str, small: Option<usize>) -> Outcome {
    let mut numbers = ["0", "0", "255"];
    numbers[place] = digits;
    let header = format!("P5 {}\n", numbers.join(" "));
    let meant = match (small, place) {
        (None, 2) => Err(HIGHEST_VALUE_OTHER),
        (None, _) => Err(SIDE_TOO_LONG),
        (Some(small), _) => Ok(Image {
            width: if place == 0 { small } else { 0 },
            height: if place == 1 { small } else { 0 },
            start: header.len(),
            next: header.len(),
        }),
    };
    let file = Lent::holding(random, header.as_bytes());
    answers(random, &file, 0, meant)
}
