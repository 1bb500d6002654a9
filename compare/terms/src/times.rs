//! How long a report takes. No two runs measure the same, so this is no table of the check.

use trials::advice;
use trials::camera::scene::Scene;
use trials::camera::{Bracket, Shot};
use trials::clock::processor_time;

use crate::ask::{Terms, ask};
use crate::given::{ADVISED, WELL_LIT, shots};
use crate::table::{brackets, markdown_head, markdown_row};

/// Milliseconds a frame, by size and scene.
pub fn times(seed: u64) -> String {
    let head = ["frame", "reach 1", "4", "8", "16", "32", "64"];
    let mut table = markdown_head(&head);
    for side in [64, 256, 1024] {
        for scene in [Scene::Board, Scene::Corner] {
            let (width, height) = (side, side);
            let taken = Shot {
                width,
                height,
                ..WELL_LIT
            };
            let bracket = brackets(&shots(&[scene], taken), 1, seed).remove(0);
            let cells = [1, 4, 8, 16, 32, 64].map(|reach| {
                let terms = Terms {
                    reach,
                    floor: advice::floor(width, height),
                    margin: advice::margin(width, height),
                    ..ADVISED
                };
                let least = least_time(&bracket, &terms) / 1e6;
                let decimals = if least < 10.0 { 2 } else { 0 };
                format!("{least:.decimals$}")
            });
            table += &markdown_row(&format!("{side} by {side}, {}", scene.name()), &cells);
        }
    }
    table
}

/// Nanoseconds, the least of at least five runs: other work can only add.
fn least_time(bracket: &Bracket, terms: &Terms) -> f64 {
    let start = processor_time();
    let (mut least, mut runs) = (f64::INFINITY, 0);
    while runs < 5 || processor_time() - start < 2e8 {
        let before = processor_time();
        ask(bracket, terms);
        least = least.min(processor_time() - before);
        runs += 1;
    }
    least
}
