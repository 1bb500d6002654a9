//! Tables for one caller: the page's example, and anybody's own terms.

use trials::camera::Shot;
use trials::camera::scene::Scene;

use crate::ask::Terms;
use crate::given::*;
use crate::rows::{by_group, by_scene, row};
use crate::table::of_verdicts;

/// Terms and tremble of the caller's own, on every scene and in every light.
pub fn own(terms: Terms, tremble: i64, seed: u64) -> String {
    let mut rows = by_scene(&all_scenes(), trembling(tremble), &[terms]);
    for (light, taken, _) in &LIGHTS[1..] {
        let taken = Shot { tremble, ..*taken };
        rows.extend(by_group(light, taken, &[terms]));
    }
    of_verdicts(&["frames", "these terms"], rows, COUNT, seed)
}

/// Pins at a pitch of 8 and a tremble of 3, or more than was thought.
pub fn example(seed: u64) -> String {
    let advised = Terms {
        bits: 2,
        reach: 6,
        ..ADVISED
    };
    let terms = [
        PROGRAM,
        advised,
        Terms {
            margin: 0,
            ..advised
        },
        Terms {
            reach: 8,
            ..advised
        },
    ];
    let mut rows = Vec::new();
    for tremble in [3, 7] {
        for scene in [Scene::Pins(8), Scene::PinsWithEnd(8)] {
            let name = format!("tremble {tremble}: {}", scene.name());
            rows.push(row(name, shots(&[scene], trembling(tremble)), &terms));
        }
    }
    let head = [
        "frames",
        "the program's terms",
        "the example's",
        "with margin 0",
        "with reach 8",
    ];
    of_verdicts(&head, rows, COUNT, seed)
}
