//! Greymaps.

use std::iter;

use naive::pgm;
use naive::refusals::{
    HEADER_MALFORMED, HIGHEST_VALUE_OTHER, LONGEST_SIDE, SAMPLES_MISSING, SIDE_TOO_LONG,
};
use trials::inputs::Random;
use trials::pgm::{WHITE, fault_sets, faulty, file};

use crate::cases::{Break, Case, accepted, refused, stated};
use crate::line::{Answered, Line};
use crate::netpbm::KEPT;

/// A file and the place of an image in it.
#[derive(Clone)]
struct Reading {
    file: Vec<u8>,
    at: usize,
}

impl Case for Reading {
    fn answered(&self) -> Answered {
        Line::new()
            .list(&self.file)
            .number(self.at)
            .answer(pgm::read(&self.file, self.at))
    }
}

/// The image at the front of a text.
fn front(file: impl Into<Vec<u8>>) -> Reading {
    Reading {
        file: file.into(),
        at: 0,
    }
}

/// An image part by part, so that each can be broken by itself.
#[derive(Clone)]
pub struct Parts {
    pub magic: &'static str,
    pub gap: &'static str,
    pub width: &'static str,
    pub height: &'static str,
    pub highest: &'static str,
    pub last: &'static str,
    pub samples: &'static str,
}

pub const SOUND: Parts = Parts {
    magic: "P5",
    gap: "\n# 9 9\r\n",
    width: "3",
    height: "02",
    highest: "255",
    last: "\n",
    samples: "# \n5\x00\u{7f}",
};

impl Parts {
    pub fn bytes(&self) -> Vec<u8> {
        let sides = [self.width, self.height, self.highest].join(" ");
        let header = [self.magic, self.gap, &sides, self.last].concat();
        [header, self.samples.to_string()].concat().into_bytes()
    }
}

/// Parts, what stands before them, and how far from there they are looked for.
#[derive(Clone)]
struct Placed {
    before: &'static str,
    parts: Parts,
    past: usize,
}

impl Case for Placed {
    fn answered(&self) -> Answered {
        let reading = Reading {
            file: [self.before.as_bytes(), &self.parts.bytes()].concat(),
            at: self.before.len().saturating_add(self.past),
        };
        reading.answered()
    }
}

/// The checks of an image. A later one is broken in a part that no earlier one breaks.
const BREAKS: [Break<Placed>; 31] = [
    (HEADER_MALFORMED, |placed| placed.parts.last = ""),
    (HEADER_MALFORMED, |placed| placed.parts.last = "#"),
    (HEADER_MALFORMED, |placed| placed.parts.last = "#\n"),
    (HEADER_MALFORMED, |placed| placed.parts.last = "\x0b"),
    (HEADER_MALFORMED, |placed| placed.parts.last = "\x0c"),
    (HEADER_MALFORMED, |placed| placed.parts.magic = ""),
    (HEADER_MALFORMED, |placed| placed.parts.magic = "P"),
    (HEADER_MALFORMED, |placed| placed.parts.magic = "P2"),
    (HEADER_MALFORMED, |placed| placed.parts.magic = "P6"),
    (HEADER_MALFORMED, |placed| placed.parts.magic = " P5"),
    (HEADER_MALFORMED, |placed| placed.parts.gap = ""),
    (HEADER_MALFORMED, |placed| placed.parts.gap = "\x0b"),
    (HEADER_MALFORMED, |placed| placed.parts.gap = " -"),
    (HEADER_MALFORMED, |placed| placed.parts.height = "2 x"),
    (HEADER_MALFORMED, |placed| placed.parts.height = "+2"),
    (HEADER_MALFORMED, |placed| placed.parts.height = "2."),
    (HEADER_MALFORMED, |placed| placed.past = 1),
    (HEADER_MALFORMED, |placed| placed.past = usize::MAX),
    (SIDE_TOO_LONG, |placed| placed.parts.width = "8193"),
    (SIDE_TOO_LONG, |placed| placed.parts.width = "0009000"),
    (SIDE_TOO_LONG, |placed| {
        placed.parts.width = "18446744073709551619" // 2^64 + 3
    }),
    (SIDE_TOO_LONG, |placed| placed.parts.height = "4294967298"),
    (SIDE_TOO_LONG, |placed| placed.parts.height = "10000"),
    (HIGHEST_VALUE_OTHER, |placed| placed.parts.highest = "65535"),
    (HIGHEST_VALUE_OTHER, |placed| placed.parts.highest = "0"),
    (HIGHEST_VALUE_OTHER, |placed| placed.parts.highest = "254"),
    (HIGHEST_VALUE_OTHER, |placed| placed.parts.highest = "0256"),
    (HIGHEST_VALUE_OTHER, |placed| {
        placed.parts.highest = "18446744073709551871" // 2^64 + 255
    }),
    (SAMPLES_MISSING, |placed| placed.parts.samples = "abcde"),
    (SAMPLES_MISSING, |placed| placed.parts.samples = ""),
    (SAMPLES_MISSING, |placed| placed.parts.height = "8192"),
];

/// What is read, each a decision of the format.
const READ: [&str; 21] = [
    "P5 3 2 255\nabcdef",
    "P5 3 2 255\nabcdef and more",
    "P5\t3\r\r2\r\n255\tabcdef",
    "P5#c\n3#c\n2 255\nabcdef",
    "P5#\n3#\n2#\n255\nabcdef",
    "P5 #\r3\n2 2 255\nabcd",
    "P5 # P5 9 9 255\n#\r\n3 2 255\rabcdef",
    "P5 1#c\n2 255\nab",
    "P5 12#3\n1 255 ############",
    "P5 1 2 255\r\nx",
    "P5 1 1 255\n#",
    "P5 2 1 255  \n",
    "P5 2 1 255\t55",
    "P5 003 02 0255\nabcdef",
    "P5 0000000000000000000000003 2 00000000000000000000000255\nabcdef",
    "P5 0 0 255\n",
    "P5 0 2 255\n",
    "P5 2 000 255\nabc",
    "P5 8192 0 255\n",
    "P5 0 8192 255\n",
    "P5 1 1 255\nP5 1 1 255\nx",
];

/// What is refused for another reason than a broken part.
const REFUSED: [(u32, &str); 17] = [
    (HEADER_MALFORMED, ""),
    (HEADER_MALFORMED, "P5 9000 x"),
    (HEADER_MALFORMED, "P5 9000 2 255"),
    (HEADER_MALFORMED, "P5 9000 2 65535#\n"),
    (HEADER_MALFORMED, "P53 2 255\nabcdef"),
    (HEADER_MALFORMED, "P5 #c\r3 2 255\rabcdef"),
    (HEADER_MALFORMED, "P5 3 2 #255\nabcdef"),
    (HEADER_MALFORMED, "P5 3 2 # 255"),
    (HEADER_MALFORMED, "P5#"),
    (HEADER_MALFORMED, "P5 3 2\n"),
    (HEADER_MALFORMED, "P5 3 2 255x\nabcdef"),
    (SIDE_TOO_LONG, "P5 9000 2 65535\n"),
    (SIDE_TOO_LONG, "P5 8193 0 255\n"),
    (HIGHEST_VALUE_OTHER, "P5 3 2 65535\n"),
    (HIGHEST_VALUE_OTHER, "P5 1#c\n2 3 255\nab"),
    (SAMPLES_MISSING, "P5 3 2 255\nabcde"),
    (SAMPLES_MISSING, "P5 8192 8192 255\n"),
];

/// A made file within so many bytes.
pub fn small(random: &mut Random, count: usize, most: usize) -> (Vec<u8>, usize, Vec<pgm::Image>) {
    loop {
        let (bytes, at, images) = file(random, count);
        if bytes.len() <= most {
            return (bytes, at, images);
        }
    }
}

/// Every cut of a file with two images, and every place in it.
fn cuts_and_places() -> Vec<String> {
    let file = b"P5#\r\n1 2 255\r\nxP5 2#c\n1 255 ab";
    let images = [(0, 13, 15), (15, 28, 30)];
    let mut cases = Vec::new();
    for (at, start, next) in images {
        for end in at..=file.len() {
            let status = match end {
                _ if end < start => HEADER_MALFORMED,
                _ if end < next => SAMPLES_MISSING,
                _ => 0,
            };
            let file = file[..end].to_vec();
            cases.push((status, Reading { file, at }));
        }
    }
    let ends = [file.len() + 1, 1 << 32, usize::MAX];
    for at in (1..=file.len()).chain(ends).filter(|&at| at != 15) {
        let file = file.to_vec();
        cases.push((HEADER_MALFORMED, Reading { file, at }));
    }
    stated(cases)
}

/// Every set of faults, in few bytes made for it, and its refusal.
pub fn faults(random: &mut Random) -> Vec<(u32, Vec<u8>)> {
    let case = |faults: Vec<u32>| {
        let mut made = iter::repeat_with(|| faulty(random, &faults));
        let bytes = made.find(|bytes| bytes.len() < 300);
        (faults[0], bytes.expect("one is found"))
    };
    fault_sets().into_iter().map(case).collect()
}

pub fn read_pgm(random: &mut Random) -> Vec<String> {
    let mut cases: Vec<Reading> = READ.map(front).into();
    let zeros = "0".repeat(10_000);
    cases.push(front(format!("P5 1 1 {zeros}255\nx")));
    let row = "7".repeat(LONGEST_SIDE);
    cases.push(front(format!("P5 8192 1 255\n{row}")));
    for white in WHITE {
        for last in WHITE {
            let mut bytes = *b"P5 1 1 255 x";
            (bytes[2], bytes[4], bytes[6], bytes[10]) = (white, white, white, last);
            cases.push(front(bytes));
        }
    }
    for _ in 0..60 {
        let (file, at, _) = small(random, 1, 200);
        cases.push(Reading { file, at });
    }
    for kept in &KEPT[..4] {
        for at in kept.places() {
            let file = kept.bytes.to_vec();
            cases.push(Reading { file, at });
        }
    }
    let sound = Placed {
        before: "any P5 1",
        parts: SOUND,
        past: 0,
    };
    let faulty = [faults(random), faults(random)].concat().into_iter();
    [
        accepted(cases),
        stated(REFUSED.map(|(status, text)| (status, front(text)))),
        refused(&sound, &BREAKS),
        cuts_and_places(),
        stated(faulty.map(|(status, bytes)| (status, front(bytes)))),
    ]
    .concat()
}
