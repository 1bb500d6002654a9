//! Tables about frames that are dark or bright.

use trials::camera::Shot;
use trials::camera::scene::Scene;

use crate::ask::Terms;
use crate::given::*;
use crate::rows::{by_light, row};
use crate::table::{brackets, markdown_head, markdown_row, of_verdicts};

pub fn floor(seed: u64) -> String {
    let floors = |percentile| -> Vec<Terms> {
        let of_floor = |floor| Terms {
            percentiles: [percentile; 2],
            floor,
            ..ADVISED
        };
        [1, 256, 512, 1024, 2048].map(of_floor).into()
    };
    let mut rows = by_light(floors);
    let flat = shots(&[Scene::Flat], WELL_LIT);
    rows.push(row("well lit: even, nothing".into(), flat, &floors(50)));
    let head = [
        "frames",
        "floor 1",
        "a sixteenth",
        "an eighth",
        "a quarter",
        "a half",
    ];
    of_verdicts(&head, rows, COUNT, seed)
}

const HEAD: [&str; 4] = ["frames", "percentile 17", "50", "83"];

fn over_percentile() -> Vec<Terms> {
    [17, 50, 83]
        .map(|percentile| cut_at([percentile; 2]))
        .into()
}

/// The first frame at one percentile, the second at another.
fn cut_at(percentiles: [u8; 2]) -> Terms {
    Terms {
        percentiles,
        ..ADVISED
    }
}

pub fn percentile(seed: u64) -> String {
    let rows = by_light(|_| over_percentile());
    of_verdicts(&HEAD, rows, COUNT, seed)
}

/// The first frame at its light's own percentile and the second at that or a little less, and
/// both at percentiles far apart.
pub fn percentiles_apart(seed: u64) -> String {
    let head = [
        "frames",
        "the same",
        "5 less",
        "10 less",
        "83 and 50",
        "50 and 17",
        "83 and 17",
    ];
    let pairs = |own: u8| -> Vec<Terms> {
        let near = [0, 5, 10].map(|less| [own, own - less]);
        let far = [[83, 50], [50, 17], [83, 17]];
        near.into_iter().chain(far).map(cut_at).collect()
    };
    of_verdicts(&head, by_light(pairs), COUNT, seed)
}

/// Textured parts from far too dim to far too bright, two neighbours of a bracket each.
pub fn exposure(seed: u64) -> String {
    let pairs: [(&str, &[i64]); 8] = [
        ("1/8 and 1/4", &[1, 2]),
        ("1/4 and 1/2", &[2, 4]),
        ("1/2 and 1", &[4, 8]),
        ("1 and 2", &[8, 16]),
        ("2 and 4", &[16, 32]),
        ("4 and 8", &[32, 64]),
        ("8 and 16", &[64, 128]),
        ("16 and 32", &[128, 256]),
    ];
    let of_pair = |(name, exposures): (&str, _)| {
        let taken = Shot {
            exposures,
            ..WELL_LIT
        };
        row(name.into(), shots(&TEXTURED, taken), &over_percentile())
    };
    let rows = pairs.map(of_pair).into();
    of_verdicts(&HEAD, rows, COUNT, seed)
}

/// Percent of all samples of a group's first frames, and of its second ones.
pub fn clipped(seed: u64) -> String {
    let head = [
        "frames",
        "first frame, samples at 0",
        "at 255",
        "second frame, at 0",
        "at 255",
    ];
    let mut table = markdown_head(&head);
    for (light, taken, _) in LIGHTS {
        for (group, scenes) in GROUPS {
            let brackets = brackets(&shots(scenes, taken), COUNT, seed);
            let area = taken.width * taken.height;
            let percent = |frame: usize, value: u8| {
                let samples = brackets
                    .iter()
                    .flat_map(|bracket| &bracket.frames[frame * area..][..area]);
                let found = samples.filter(|&&sample| sample == value).count();
                format!("{} %", (100 * found + COUNT * area / 2) / (COUNT * area))
            };
            let cells = [
                percent(0, 0),
                percent(0, 255),
                percent(1, 0),
                percent(1, 255),
            ];
            table += &markdown_row(&format!("{light}: {group}"), &cells);
        }
    }
    table
}
