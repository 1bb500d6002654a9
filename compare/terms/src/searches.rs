//! Tables over the terms of the search, and over the margin.

use trials::camera::Shot;

use crate::ask::Terms;
use crate::given::*;
use crate::rows::by_group;
use crate::table::of_verdicts;

pub fn bits(seed: u64) -> String {
    let of_tremble = |(tremble, _)| {
        let terms = [1, 2, 3, 4, 5, 6].map(|bits| Terms {
            bits,
            reach: 2 * tremble as u32,
            ..ADVISED
        });
        by_group(&format!("tremble {tremble}"), trembling(tremble), &terms)
    };
    let rows = TREMBLES.into_iter().flat_map(of_tremble).collect();
    let head = ["frames", "bits 1", "2", "3", "4", "5", "6"];
    of_verdicts(&head, rows, COUNT, seed)
}

pub fn tolerance(seed: u64) -> String {
    let terms = [0, 2, 4, 8, 16].map(|tolerance| Terms {
        tolerance,
        ..ADVISED
    });
    let of_noise = |noise| {
        let taken = Shot { noise, ..WELL_LIT };
        by_group(&format!("noise {noise}"), taken, &terms)
    };
    let rows = [2, 5, 10].into_iter().flat_map(of_noise).collect();
    let head = ["frames", "tolerance 0", "2", "4", "8", "16"];
    of_verdicts(&head, rows, COUNT, seed)
}

pub fn margin(seed: u64) -> String {
    let terms = [0, 20, 41, 61, 82].map(|margin| Terms { margin, ..ADVISED });
    let mut rows = Vec::new();
    for (is_whole, noises) in [(true, &[2, 10][..]), (false, &[0, 2, 5, 10])] {
        for &noise in noises {
            let taken = Shot {
                is_whole,
                noise,
                ..WELL_LIT
            };
            let name = format!("{}, noise {noise}", moves_of(&taken));
            rows.extend(by_group(&name, taken, &terms));
        }
    }
    let head = ["frames", "margin 0", "0.5 %", "1 %", "1.5 %", "2 %"];
    of_verdicts(&head, rows, COUNT, seed)
}
