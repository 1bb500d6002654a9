//! Greymaps made from the grammar of their headers, so that the answer is known by
//! construction, and such with faults of which the first is known.

use naive::pgm::Image;
use naive::refusals::{
    HEADER_MALFORMED, HIGHEST_VALUE_OTHER, LONGEST_SIDE, SAMPLES_MISSING, SIDE_TOO_LONG,
};

use crate::inputs::Random;

pub const WHITE: [u8; 4] = *b" \t\r\n";

/// The refusals of an image in the order of their checks.
pub const FAULTS: [u32; 4] = [
    HEADER_MALFORMED,
    SIDE_TOO_LONG,
    HIGHEST_VALUE_OTHER,
    SAMPLES_MISSING,
];

/// An image's bytes, its size and the length of its header.
#[derive(Clone, Debug)]
pub struct Made {
    pub bytes: Vec<u8>,
    pub width: usize,
    pub height: usize,
    pub header: usize,
}

impl Made {
    /// What a reader answers where the image stands at this place.
    pub fn image(&self, at: usize) -> Image {
        Image {
            width: self.width,
            height: self.height,
            start: at + self.header,
            next: at + self.bytes.len(),
        }
    }
}

/// Where a comment may have a carriage return: Netpbm ends it at one, so that it reads
/// the same only what has them at the end of a line.
#[derive(Clone, Copy, PartialEq)]
enum Returns {
    Anywhere,
    AtLineEnd,
}

/// From # through the line feed.
fn comment(random: &mut Random, returns: Returns) -> Vec<u8> {
    let mut inner = match random.below(8) {
        0 | 1 => Vec::new(),
        2 => b" P5 7 7 255 ".to_vec(),
        3 => random.byte().to_string().into_bytes(),
        4 => b"#".repeat(1 + random.below(3)),
        5 => b"\r9\r 5".to_vec(),
        6 => b"CREATOR: GIMP\r".to_vec(),
        _ => {
            let longest = if random.one_in(20) { 300 } else { 12 };
            let length = random.below(longest);
            random.bytes(length)
        }
    };
    inner.retain(|&byte| byte != b'\n' && (byte != b'\r' || returns == Returns::Anywhere));
    if returns == Returns::AtLineEnd && random.one_in(4) {
        inner.push(b'\r');
    }
    [b"#", &inner[..], b"\n"].concat()
}

/// White space before the highest value: bytes and comments, at least one of either.
fn gap(random: &mut Random, returns: Returns) -> Vec<u8> {
    let pieces = match random.below(40) {
        0 => 40 + random.below(200),
        1..20 => 1,
        _ => 1 + random.below(6),
    };
    let mut gap = Vec::new();
    for _ in 0..pieces {
        match random.one_in(3) {
            true => gap.extend(comment(random, returns)),
            false => gap.push(random.pick(&WHITE)),
        }
    }
    gap
}

/// A number's digits, behind zeros or not.
fn numeral(random: &mut Random, number: &str) -> Vec<u8> {
    let zeros = match random.below(40) {
        0 => 200 + random.below(400),
        1..10 => 1 + random.below(25),
        _ => 0,
    };
    ("0".repeat(zeros) + number).into_bytes()
}

/// Samples, often such that a reader may take their first for a part of the header.
fn samples(random: &mut Random, length: usize) -> Vec<u8> {
    let mut samples = match random.below(4) {
        0 => b"P5 2 1 255\n".repeat(length / 11 + 1),
        1 => b" \n#\r5\t".repeat(length / 6 + 1),
        _ => random.bytes(length),
    };
    samples.truncate(length);
    if let Some(first) = samples.first_mut()
        && random.one_in(2)
    {
        *first = random.pick(b"# \t\r\n05Px\x00\x0b");
    }
    samples
}

/// The parts of an image in their order.
struct Parts {
    magic: Vec<u8>,
    gaps: [Vec<u8>; 3],
    numerals: [Vec<u8>; 3],
    last: Vec<u8>,
    samples: Vec<u8>,
}

impl Parts {
    fn new(random: &mut Random, (width, height): (usize, usize), returns: Returns) -> Self {
        let numbers = [width, height, 255].map(|number| number.to_string());
        Self {
            magic: b"P5".to_vec(),
            gaps: [(); 3].map(|_| gap(random, returns)),
            numerals: numbers.map(|number| numeral(random, &number)),
            last: vec![random.pick(&WHITE)],
            samples: samples(random, width * height),
        }
    }

    /// The header's parts in their order.
    fn header(&mut self) -> [&mut Vec<u8>; 8] {
        let [first, second, third] = &mut self.gaps;
        let [width, height, highest] = &mut self.numerals;
        let (magic, last) = (&mut self.magic, &mut self.last);
        [magic, first, width, second, height, third, highest, last]
    }

    fn made(mut self, width: usize, height: usize) -> Made {
        let header = self.header().map(|part| &part[..]).concat();
        Made {
            header: header.len(),
            bytes: [header, self.samples].concat(),
            width,
            height,
        }
    }
}

/// An image of this size, which need not be small.
pub fn image_of(random: &mut Random, width: usize, height: usize) -> Made {
    Parts::new(random, (width, height), Returns::Anywhere).made(width, height)
}

/// The same; its header is one that Netpbm reads alike if no side is 0.
pub fn image_for_netpbm(random: &mut Random, width: usize, height: usize) -> Made {
    Parts::new(random, (width, height), Returns::AtLineEnd).made(width, height)
}

/// Sides of 0, 1, a few and, with the other one 0 or 1, the longest.
pub fn size(random: &mut Random) -> (usize, usize) {
    let mut sides = [(); 2].map(|_| match random.below(4) {
        0 => random.below(2),
        _ => random.below(14),
    });
    if random.one_in(24) {
        sides = [LONGEST_SIDE, random.below(2)];
        sides.rotate_right(random.below(2));
    }
    sides.into()
}

pub fn image(random: &mut Random) -> Made {
    let (width, height) = size(random);
    image_of(random, width, height)
}

/// A file with this many images, one directly behind another, and anything before and
/// behind them; the place of the first, and the answer for each.
pub fn file(random: &mut Random, count: usize) -> (Vec<u8>, usize, Vec<Image>) {
    let mut file = around(random);
    let at = file.len();
    let mut images = Vec::new();
    for _ in 0..count {
        let made = image(random);
        images.push(made.image(file.len()));
        file.extend(made.bytes);
    }
    file.extend(around(random));
    (file, at, images)
}

/// What may stand before and behind images: nothing, anything, an image's front.
fn around(random: &mut Random) -> Vec<u8> {
    match random.below(4) {
        0 | 1 => Vec::new(),
        2 => {
            let length = random.below(40);
            random.bytes(length)
        }
        _ => {
            let mut bytes = image_of(random, 2, 3).bytes;
            bytes.truncate(random.below(bytes.len() + 1));
            bytes
        }
    }
}

/// Numbers over the longest side, some of them small again in fewer bits.
const SIDES_OVER: [&str; 9] = [
    "8193",
    "8200",
    "10000",
    "65539",
    "4294967299",
    "18446744073709551615",
    "18446744073709551616",
    "18446744073709551619",
    "340282366920938463463374607431768211459",
];

/// Highest values that are not read, some of them 255 in fewer bits.
const OTHER_HIGHEST: [&str; 11] = [
    "0",
    "1",
    "25",
    "254",
    "256",
    "511",
    "2550",
    "65535",
    "65791",
    "4294967551",
    "18446744073709551871",
];

/// Every set of faults but the empty one, each in the order of the checks.
pub fn fault_sets() -> Vec<Vec<u32>> {
    let set = |together: usize| {
        let has = |fault: &usize| together >> fault & 1 == 1;
        let faults = (0..FAULTS.len()).filter(has);
        faults.map(|fault| FAULTS[fault]).collect()
    };
    (1..1 << FAULTS.len()).map(set).collect()
}

/// The bytes of an image with these faults, each one of [`FAULTS`]. The first of them in
/// that order is the answer where the slice ends with these bytes.
pub fn faulty(random: &mut Random, faults: &[u32]) -> Vec<u8> {
    let (width, height) = (1 + random.below(9), 1 + random.below(9));
    let mut parts = Parts::new(random, (width, height), Returns::Anywhere);
    if faults.contains(&SAMPLES_MISSING) {
        let left = random.pick(&[0, 1, width * height - 1]);
        parts.samples.truncate(left.min(width * height - 1));
    }
    if faults.contains(&HIGHEST_VALUE_OTHER) {
        let number = random.pick(&OTHER_HIGHEST);
        parts.numerals[2] = numeral(random, number);
    }
    if faults.contains(&SIDE_TOO_LONG) {
        let number = random.pick(&SIDES_OVER);
        parts.numerals[random.below(2)] = numeral(random, number);
    }
    match faults.contains(&HEADER_MALFORMED) {
        true => malformed(random, parts),
        false => parts.made(width, height).bytes,
    }
}

/// Bytes that no header has outside its comments.
const STRANGE: &[u8] = b"xP-+.,/:\x00\x0b\x0c\x1c\x85\xa0\xff";

/// The parts with a header that is cut short or has something that no header has.
fn malformed(random: &mut Random, mut parts: Parts) -> Vec<u8> {
    let place = random.below(7);
    let strange = random.pick(STRANGE);
    match random.below(6) {
        0 => {
            let magics: [&[u8]; 9] = [
                b"", b"P", b"5", b"P2", b"P6", b"p5", b" P5", b"\nP5", b"P05",
            ];
            parts.magic = random.pick(&magics).to_vec();
        }
        1 => parts.header()[place].push(strange),
        2 => *parts.header()[place + 1] = vec![strange],
        3 => parts.last = vec![b'#'],
        4 => {
            let mut made = parts.made(0, 0);
            made.bytes.truncate(random.below(made.header));
            return made.bytes;
        }
        _ => {
            // A comment that a carriage return would end, and no line feed does.
            let gap = 1 + 2 * random.below(3);
            parts.header()[gap].splice(..0, *b"#\r");
            let returned = |byte: u8| if byte == b'\n' { b'\r' } else { byte };
            let bytes = parts.made(0, 0).bytes;
            return bytes.into_iter().map(returned).collect();
        }
    }
    parts.made(0, 0).bytes
}
