//! Tables over the reach.

use trials::advice;
use trials::camera::Shot;
use trials::camera::scene::Scene;

use crate::ask::Terms;
use crate::given::*;
use crate::rows::{by_group, by_scene};
use crate::table::{of_verdicts, of_verdicts_summed};

/// At reach 1 only the step can be a rival: what is right there is the search's own doing.
const REACHES: [u32; 6] = [1, 4, 8, 14, 16, 32];
const HEAD: [&str; 7] = ["scene", "reach 1", "4", "8", "14", "16", "32"];

pub fn reach_of_program(seed: u64) -> String {
    let terms = REACHES.map(|reach| Terms { reach, ..PROGRAM });
    let rows = by_scene(&all_scenes(), WELL_LIT, &terms);
    of_verdicts_summed(&HEAD, rows, COUNT, seed)
}

pub fn reach(seed: u64) -> String {
    let terms = REACHES.map(|reach| Terms { reach, ..ADVISED });
    let rows = by_scene(&all_scenes(), WELL_LIT, &terms);
    of_verdicts_summed(&HEAD, rows, COUNT, seed)
}

pub fn large_frames(seed: u64) -> String {
    let terms = REACHES.map(|reach| Terms {
        reach,
        floor: advice::floor(256, 256),
        margin: advice::margin(256, 256),
        ..ADVISED
    });
    let taken = Shot {
        width: 256,
        height: 256,
        ..WELL_LIT
    };
    let scenes = [
        Scene::Pins(8),
        Scene::Pins(24),
        Scene::PinsWithEnd(8),
        Scene::Board,
        Scene::Corner,
    ];
    let rows = by_scene(&scenes, taken, &terms);
    of_verdicts(&HEAD, rows, COUNT_LARGE, seed)
}

/// Without a margin, so that the reach alone is seen.
pub fn reach_and_tremble(seed: u64) -> String {
    let head = [
        "frames",
        "reach 1",
        "half the tremble",
        "the tremble",
        "twice",
        "four times",
    ];
    let of_tremble = |(tremble, bits)| {
        let once = tremble as u32;
        let reaches = [1, once.div_ceil(2), once, 2 * once, 4 * once];
        let terms = reaches.map(|reach| Terms {
            bits,
            reach,
            margin: 0,
            ..ADVISED
        });
        let name = format!("tremble {tremble}, bits {bits}");
        by_group(&name, trembling(tremble), &terms)
    };
    let rows = TREMBLES.into_iter().flat_map(of_tremble).collect();
    of_verdicts(&head, rows, COUNT, seed)
}

/// Bits and the first reach are for a tremble of 3, which the lower half exceeds.
pub fn pitch(seed: u64) -> String {
    let terms = [6, 8, 12, 16, 24].map(|reach| Terms {
        bits: 2,
        reach,
        ..ADVISED
    });
    let mut rows = Vec::new();
    for tremble in [3, 7] {
        for mut row in by_scene(&PINS, trembling(tremble), &terms) {
            row.name = format!("tremble {tremble}: {}", row.name);
            rows.push(row);
        }
    }
    let head = ["frames", "reach 6", "8", "12", "16", "24"];
    of_verdicts(&head, rows, COUNT, seed)
}
