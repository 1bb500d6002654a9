//! What a table does not vary: how frames are taken, and the terms.

use trials::advice;
use trials::camera::Shot;
use trials::camera::scene::Scene;

use crate::ask::Terms;

/// The sides of all frames but the large ones.
const SIDE: usize = 64;

/// The frames that a cell counts, of 64 by 64 and of 256 by 256.
pub const COUNT: usize = 300;
pub const COUNT_LARGE: usize = 60;

pub const WELL_LIT: Shot = Shot {
    scene: Scene::Flat,
    width: SIDE,
    height: SIDE,
    tremble: 7,
    is_whole: false,
    noise: 2,
    exposures: &[8, 16],
    black: 0,
};
/// The dimmer frame is about half black, or more.
pub const DARK: Shot = Shot {
    exposures: &[4, 8],
    black: 30,
    ..WELL_LIT
};
/// The brighter frame is more than half white.
pub const BRIGHT: Shot = Shot {
    exposures: &[32, 64],
    ..WELL_LIT
};
/// Each light with the percentile that the page advises for it.
pub const LIGHTS: [(&str, Shot, u8); 3] = [
    ("well lit", WELL_LIT, advice::PERCENTILE),
    ("dark", DARK, advice::OF_BLACK),
    ("bright", BRIGHT, advice::OF_WHITE),
];

/// What the program `stacksteps` asks.
pub const PROGRAM: Terms = Terms {
    bits: 6,
    tolerance: advice::TOLERANCE,
    percentiles: [advice::PERCENTILE; 2],
    reach: 1,
    floor: 1,
    margin: 0,
};
/// What the page advises for a tremble of 7 and well lit frames of 64 by 64.
pub const ADVISED: Terms = Terms {
    bits: advice::BITS,
    reach: advice::reach(advice::BITS),
    floor: advice::floor(SIDE, SIDE),
    margin: advice::margin(SIDE, SIDE),
    ..PROGRAM
};

pub const PINS: [Scene; 5] = [
    Scene::Pins(5),
    Scene::Pins(8),
    Scene::Pins(12),
    Scene::Pins(16),
    Scene::Pins(24),
];
pub const TEXTURED: [Scene; 3] = [Scene::Pads, Scene::Rough, Scene::Board];
const EVEN: [Scene; 2] = [Scene::Corner, Scene::Edge];
/// Scenes that share a row.
pub const GROUPS: [(&str, &[Scene]); 3] =
    [("pins", &PINS), ("textured", &TEXTURED), ("even", &EVEN)];

pub fn all_scenes() -> Vec<Scene> {
    let (with_end, flat) = ([Scene::PinsWithEnd(8)], [Scene::Flat]);
    [&PINS[..], &with_end, &TEXTURED, &EVEN, &flat].concat()
}

/// Trembles with the bits that just hold them.
pub const TREMBLES: [(i64, u32); 3] = [(3, 2), (7, 3), (15, 4)];

/// Well lit frames that tremble by more or less.
pub fn trembling(tremble: i64) -> Shot {
    Shot {
        tremble,
        ..WELL_LIT
    }
}

pub fn shots(scenes: &[Scene], taken: Shot) -> Vec<Shot> {
    let of_scene = |&scene| Shot { scene, ..taken };
    scenes.iter().map(of_scene).collect()
}

pub fn moves_of(taken: &Shot) -> &'static str {
    match taken.is_whole {
        true => "whole pixels",
        false => "quarters",
    }
}
