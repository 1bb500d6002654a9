//! Tables about the verdicts, all at the advised terms.

use trials::camera::Shot;
use trials::camera::scene::Scene;

use crate::ask::{Answer, Terms, Verdict, ask};
use crate::given::*;
use crate::table::{brackets, markdown_head, markdown_row, warned};

/// A verdict, with how far away the rivals of a contested step lie.
type Class = (&'static str, fn(&Answer) -> bool);

const CLASSES: [Class; 5] = [
    ("alone", is_alone),
    ("alone, two pixels off or more", |answer| {
        is_alone(answer) && !answer.is_next_door
    }),
    ("contested from 2 or 3 pixels away", |answer| {
        is_contested(answer) && answer.farthest <= 3
    }),
    ("from farther", |answer| {
        is_contested(answer) && answer.farthest > 3
    }),
    ("weak", |answer| answer.verdict == Verdict::Weak),
];

fn is_alone(answer: &Answer) -> bool {
    answer.verdict == Verdict::Alone
}

fn is_contested(answer: &Answer) -> bool {
    answer.verdict == Verdict::Contested
}

/// How many frames are of a class, and how many of these have the right step.
pub fn verdicts(seed: u64) -> String {
    let mut head = vec!["frames"];
    head.extend(CLASSES.map(|(name, _)| name));
    let mut table = markdown_head(&head);
    let mut all = Vec::new();
    let mut add = |name: &str, scenes: &[Scene], taken, percentile| {
        let terms = Terms {
            percentiles: [percentile; 2],
            ..ADVISED
        };
        let brackets = brackets(&shots(scenes, taken), COUNT, seed);
        let answers = brackets.iter().map(|bracket| ask(bracket, &terms)[0]);
        let answers: Vec<Answer> = answers.collect();
        table += &markdown_row(name, &cells(&answers));
        all.extend(answers);
    };
    for scene in all_scenes() {
        add(&scene.name(), &[scene], WELL_LIT, 50);
    }
    for (light, taken, percentile) in &LIGHTS[1..] {
        for (group, scenes) in GROUPS {
            add(&format!("{light}: {group}"), scenes, *taken, *percentile);
        }
    }
    table + &markdown_row("all", &cells(&all))
}

fn cells(answers: &[Answer]) -> [String; CLASSES.len()] {
    CLASSES.map(|(_, holds)| {
        let of_class = answers.iter().filter(|answer| holds(answer));
        let right = of_class.clone().filter(|answer| answer.is_right);
        format!("{} ({})", of_class.count(), right.count())
    })
}

/// Brackets of five frames, from dim to bright, the first of them the reference: whether
/// the total shift of the last is right.
pub fn totals(seed: u64) -> String {
    let head = [
        "brackets",
        "last frame alone",
        "its total wrong",
        "every frame alone",
        "last total wrong",
        "though every step is right",
    ];
    let mut table = markdown_head(&head);
    for is_whole in [true, false] {
        for (group, scenes) in GROUPS {
            let taken = Shot {
                is_whole,
                exposures: &[4, 8, 16, 32, 64],
                ..WELL_LIT
            };
            let [mut alone, mut alone_wrong] = [0; 2];
            let [mut all, mut all_wrong, mut by_rounding] = [0; 3];
            for bracket in brackets(&shots(scenes, taken), COUNT, seed) {
                let answers = ask(&bracket, &ADVISED);
                let last = answers.last().expect("five frames have four steps");
                let wrong = usize::from(!last.is_total_right);
                if is_alone(last) {
                    alone += 1;
                    alone_wrong += wrong;
                }
                if answers.iter().all(is_alone) {
                    all += 1;
                    all_wrong += wrong;
                    if answers.iter().all(|answer| answer.is_right) {
                        by_rounding += wrong;
                    }
                }
            }
            let [alone, all, by_rounding] = [alone, all, by_rounding].map(|n| n.to_string());
            let cells = [
                alone,
                warned(alone_wrong),
                all,
                warned(all_wrong),
                by_rounding,
            ];
            table += &markdown_row(&format!("{}: {group}", moves_of(&taken)), &cells);
        }
    }
    table
}
