//! The frames that calls are timed on.

use port::refusals::LONGEST_SIDE;
use trials::inputs::Random;
use trials::scenes;

pub type Size = (usize, usize);

pub const SIZES: [Size; 5] = [
    (64, 64),
    (100, 80),
    (640, 480),
    (1920, 1080),
    (LONGEST_SIDE, 64),
];

#[derive(Clone, Copy, PartialEq, Eq)]
pub enum Kind {
    Noise,
    Pins,
    Flat,
}

impl Kind {
    pub const ALL: [Self; 3] = [Self::Noise, Self::Pins, Self::Flat];

    pub fn name(self) -> &'static str {
        match self {
            Self::Noise => "noise",
            Self::Pins => "pins",
            Self::Flat => "flat",
        }
    }
}

pub struct Input {
    pub size: Size,
    pub kind: Kind,
    pub samples: Vec<u8>,
}

impl Input {
    pub fn new(size: Size, kind: Kind) -> Self {
        let (width, height) = size;
        let samples = match kind {
            Kind::Noise => Random::new(1).bytes(width * height),
            Kind::Pins => scenes::pin_rows(width, height),
            Kind::Flat => vec![128; width * height],
        };
        Self {
            size,
            kind,
            samples,
        }
    }
}
