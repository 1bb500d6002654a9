//! Which sentence of the command `hall` comes on which scene.

use brackets::sentences::{ALL, Remedy, Sentence};
use brackets::stepped::Stepped;
use trials::advice;
use trials::camera::scene::Scene;
use trials::camera::{Bracket, Shot};

use crate::ask::{Terms, ask, of_report};
use crate::given::*;
use crate::table::{Tally, brackets, markdown_head, markdown_row};

/// Those that can come with the advised terms on two frames.
fn columns() -> Vec<Sentence> {
    let others = [Sentence::FarApart, Sentence::NoReach, Sentence::Total];
    let mut columns = ALL.to_vec();
    columns.retain(|sentence| !others.contains(sentence));
    columns
}

/// A word or two for each.
fn short(sentence: Sentence) -> &'static str {
    match sentence {
        Sentence::OneSided { remedy, .. } => match remedy {
            Remedy::Lower => "percentile 17",
            Remedy::Higher => "percentile 83",
            Remedy::Light => "the light",
        },
        Sentence::TooFew => "too few",
        Sentence::NoFit => "no shift fits",
        Sentence::Near => "within three",
        Sentence::Pitch => "pitch",
        Sentence::Edge => "edge",
        Sentence::Others => "others",
        Sentence::FarApart | Sentence::NoReach | Sentence::Total => "",
    }
}

/// How many frames have which, all cut at the median.
pub fn sentences(seed: u64) -> String {
    let mut head = vec!["frames", "none: alone"];
    head.extend(columns().into_iter().map(short));
    let mut table = markdown_head(&head);
    for scene in all_scenes() {
        table += &row(&scene.name(), &[scene], WELL_LIT, seed);
    }
    let [_, (_, dark, _), (_, bright, _)] = LIGHTS;
    let farther = ("tremble 15", trembling(15));
    for (how, taken) in [("dark", dark), ("bright", bright), farther] {
        for (group, scenes) in GROUPS {
            table += &row(&format!("{how}: {group}"), scenes, taken, seed);
        }
    }
    table
}

fn row(name: &str, scenes: &[Scene], taken: Shot, seed: u64) -> String {
    let said = said(&brackets(&shots(scenes, taken), COUNT, seed));
    let count = |sentence| {
        said.iter()
            .filter(|said| **said == sentence)
            .count()
            .to_string()
    };
    let mut cells = vec![count(None)];
    cells.extend(columns().into_iter().map(|sentence| count(Some(sentence))));
    markdown_row(name, &cells)
}

const MEDIAN: Terms = Terms {
    percentiles: [advice::PERCENTILE; 2],
    ..ADVISED
};

/// What is said of each bracket's second frame, whichever of the two it is about.
fn said(brackets: &[Bracket]) -> Vec<Option<Sentence>> {
    let said = |bracket| {
        let said = of_report(bracket, &MEDIAN, |asked, report| {
            let stepped = Stepped::of(asked, report, 1)?;
            Sentence::of(asked, report, &stepped)
        });
        said.map(|sentence| match sentence {
            Sentence::OneSided { remedy, .. } => Sentence::OneSided { frame: 0, remedy },
            other => other,
        })
    };
    brackets.iter().map(said).collect()
}

/// Of the frames for which another percentile is named, the answers at it.
pub fn followed(seed: u64) -> String {
    let mut table = markdown_head(&[
        "frames",
        "percentile 17 named",
        "at it",
        "83 named",
        "at it",
    ]);
    for (light, taken, _) in &LIGHTS[1..] {
        for (group, scenes) in GROUPS {
            let brackets = brackets(&shots(scenes, *taken), COUNT, seed);
            let said = said(&brackets);
            let mut cells = Vec::new();
            for (remedy, percentile) in [
                (Remedy::Lower, advice::OF_WHITE),
                (Remedy::Higher, advice::OF_BLACK),
            ] {
                let sentence = Some(Sentence::OneSided { frame: 0, remedy });
                let terms = Terms {
                    percentiles: [percentile; 2],
                    ..ADVISED
                };
                let mut tally = Tally::default();
                let named = brackets.iter().zip(&said);
                let named = named.filter(|(_, said)| **said == sentence);
                let count = named.clone().count();
                named.for_each(|(bracket, _)| tally.add(&ask(bracket, &terms)[0]));
                cells.extend([count.to_string(), tally.cell()]);
            }
            table += &markdown_row(&format!("{light}: {group}"), &cells);
        }
    }
    table
}
