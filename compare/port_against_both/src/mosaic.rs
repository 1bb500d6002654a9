//! Mosaics taken apart and put together. The original does neither, so the port is held to the
//! naive reading, and each way to the other.

pub mod planes;

use naive::Refusal;
use naive::mosaic as naive_mosaic;
use naive::refusals::{LONGEST_SIDE, SIDE_TOO_LONG, WRONG_LENGTH};
use port::mosaic as port;
use trials::inputs::{Random, SIZES_OVER};
use trials::{Outcome, same};

use crate::agreed;
use crate::claims::{Claim, lengths_over};
use crate::files::stacks::one_off;
use crate::lent::Lent;

type Size = (usize, usize);

/// What the port does with a list, its size and an output, and the naive reading with a list, its
/// size and the length of the output.
type ByPort = fn(&[u8], usize, usize, &mut [u8]) -> u32;
type ByNaive = fn(&[u8], usize, usize, usize) -> Result<Vec<u8>, Refusal>;

/// One of the two ways.
#[derive(Clone, Copy)]
struct Way {
    name: &'static str,
    port: ByPort,
    naive: ByNaive,
}

const APART: Way = Way {
    name: "apart",
    port: port::take_apart,
    naive: naive_mosaic::take_apart,
};
const TOGETHER: Way = Way {
    name: "together",
    port: port::put_together,
    naive: naive_mosaic::put_together,
};

impl Way {
    /// What the port puts in the output, or the number of its refusal, which is what the naive
    /// reading has. All else stays as it was.
    fn answer(
        self,
        (width, height): Size,
        list: &Lent<u8>,
        output: &mut Lent<u8>,
    ) -> Result<Result<Vec<u8>, u32>, String> {
        let name = self.name;
        let input = format!("{name}, {width} by {height}, list {list}, output {output}");
        let status = (self.port)(list.list(), width, height, output.list_mut());
        list.is_kept(&input)?;
        let written = output.after(&input, status)?;
        let naive = (self.naive)(list.list(), width, height, written.len());
        let original = None::<fn() -> Result<_, Refusal>>;
        agreed(&input, (status, written), naive.clone(), original)?;
        Ok(naive.map_err(|refusal| refusal.number))
    }

    /// What the port makes of a list that the size asks for.
    fn made(self, random: &mut Random, size: Size, list: &[u8]) -> Result<Vec<u8>, String> {
        let (list, mut output) = (Lent::holding(random, list), Lent::room(random, list.len()));
        let made = self.answer(size, &list, &mut output)?;
        made.map_err(|refused| format!("{} of {size:?} is refused by {refused}", self.name))
    }

    /// With a list and an output of these lengths the port refuses as is meant.
    fn refuses(
        self,
        random: &mut Random,
        size: Size,
        [list, output]: [usize; 2],
        meant: u32,
    ) -> Outcome {
        let (list, mut output) = (Lent::room(random, list), Lent::room(random, output));
        let found = self.answer(size, &list, &mut output)?;
        let input = format!("{}, {size:?}, list {list}, output {output}", self.name);
        same(input, ("port", &found), ("meant", &Err(meant)))
    }
}

pub fn take_apart(random: &mut Random, case: usize) -> Outcome {
    any(random, case, APART)
}

pub fn put_together(random: &mut Random, case: usize) -> Outcome {
    any(random, case, TOGETHER)
}

/// Any size, with lists that are exact, one short or one long.
fn any(random: &mut Random, case: usize, way: Way) -> Outcome {
    let claim = Claim::any(random, case, 60);
    // Noise: of a scene's samples many are alike.
    let samples = random.bytes(claim.area());
    let list = claim.list(random, samples);
    let mut output = claim.room(random, claim.area());
    _ = way.answer((claim.width, claim.height), &list, &mut output)?;
    Ok(())
}

const SIDES: [usize; 13] = [0, 1, 2, 3, 4, 5, 63, 64, 65, 127, 128, 129, LONGEST_SIDE];
/// All pairs of them but the last: the largest mosaic is tried above.
const PAIRS_OF_SIDES: usize = SIDES.len() * SIDES.len() - 1;
const OTHERS: [Size; 7] = [
    (101, 81),
    (640, 480),
    (641, 481),
    (1920, 1080),
    (1919, 1079),
    (LONGEST_SIDE - 1, 7),
    (7, LONGEST_SIDE - 1),
];
pub const SIZES: usize = PAIRS_OF_SIDES + OTHERS.len();

/// There and back both ways, with lists that are exact; and with either or both one long, one
/// short and empty.
pub fn sizes(random: &mut Random, case: usize) -> Outcome {
    let size = match case.checked_sub(PAIRS_OF_SIDES) {
        Some(number) => OTHERS[number],
        None => (SIDES[case % SIDES.len()], SIDES[case / SIDES.len()]),
    };
    let area = size.0 * size.1;
    let list = random.bytes(area);
    for (there, back) in [(APART, TOGETHER), (TOGETHER, APART)] {
        let made = there.made(random, size, &list)?;
        let again = back.made(random, size, &made)?;
        let input = format!("{size:?}, {} and back", there.name);
        same(input, ("port", &again), ("list", &list))?;

        let wrong = one_off(area).chain([0]);
        for wrong in wrong.filter(|&length| length != area) {
            for lengths in [[wrong, area], [area, wrong], [wrong, wrong]] {
                there.refuses(random, size, lengths, WRONG_LENGTH)?;
            }
        }
    }
    Ok(())
}

/// A side over the limit: with a list as long as the product says, or as it says in fewer bits,
/// or any; each with an output as long, one longer, shorter, and empty.
pub fn over(random: &mut Random, case: usize) -> Outcome {
    let size = SIZES_OVER[case % SIZES_OVER.len()];
    for length in lengths_over(random, size) {
        for output in [length, length + 1, length.saturating_sub(1), 0] {
            for way in [APART, TOGETHER] {
                way.refuses(random, size, [length, output], SIDE_TOO_LONG)?;
            }
        }
    }
    Ok(())
}

/// Every side within the limit, and sizes over it.
pub const LAYOUTS: usize = LONGEST_SIDE + 1 + SIZES_OVER.len();

/// A side as width and as height, beside any other.
pub fn layout(random: &mut Random, case: usize) -> Outcome {
    let other = match random.one_in(2) {
        true => random.pick(&SIDES),
        false => random.below(LONGEST_SIDE + 1),
    };
    let (width, height) = match case.checked_sub(LONGEST_SIDE + 1) {
        Some(number) => SIZES_OVER[number],
        None => (case, other),
    };
    for size in [(width, height), (height, width)] {
        lays(random, size)?;
    }
    Ok(())
}

/// Starts, widths and heights are the naive ones, in three lists apart and by name.
fn lays(random: &mut Random, (width, height): Size) -> Outcome {
    let input = format!("planes of {width} by {height}");
    let mut lists = [(); 3].map(|()| Lent::room(random, 4));
    let status = port::planes(width, height, lists.each_mut().map(Lent::array_mut));
    let mut written = [[0; 4]; 3];
    for (list, lent) in written.iter_mut().zip(&lists) {
        list.copy_from_slice(&lent.after(&input, status)?);
    }
    let by_name = port::layout(width, height);
    let naive = naive_mosaic::layout(width, height);
    let original = None::<fn() -> Result<_, Refusal>>;
    let found = (status, port::by_name(written));
    agreed(&input, found, naive.clone(), original)?;
    let meant = naive.map_err(|refusal| refusal.number);
    same(input, ("by name", &by_name), ("naive", &meant))
}
