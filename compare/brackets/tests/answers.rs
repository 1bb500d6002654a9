//! What the command says of brackets whose moves are known.

mod made;

use std::path::Path;

use made::*;
use trials::camera::Shot;
use trials::camera::scene::{FINE, Scene};

/// The move of each frame since the reference, in pixels.
fn totals(moves: &[[i64; 2]], reference: usize) -> Vec<[i64; 2]> {
    let mut at = [0; 2];
    let places = moves.iter().map(|moved| {
        at = [at[0] + moved[0] / FINE, at[1] + moved[1] / FINE];
        at
    });
    let places: Vec<_> = places.collect();
    let [x, y] = places[reference];
    places
        .iter()
        .map(|place| [place[0] - x, place[1] - y])
        .collect()
}

#[test]
fn known_moves_are_found_and_all_agree() {
    let folder = Folder::new("moves");
    let sizes = [(64, 64), (100, 80), (129, 65), (640, 480)];
    let scenes = [Scene::Pads, Scene::Rough, Scene::Board];
    for (number, (width, height)) in sizes.into_iter().enumerate() {
        for (kind, scene) in scenes.into_iter().enumerate() {
            let shot = Shot {
                scene,
                width,
                height,
                ..SHOT
            };
            let bracket = taken(&shot, 7 + number as u64);
            let file = folder.bracket("scene.pgm", &bracket);
            let reference = (number + kind) % 4;
            let chosen = reference.to_string();
            let mut arguments = vec!["--reference", &chosen];
            if kind == 0 {
                arguments.push("--subsample");
            }
            if width > 200 {
                arguments.push("--no-naive");
            }
            let fields = fields(&arguments, &[&file]);
            let naive = if width > 200 { "" } else { " naive" };
            assert_eq!(fields.one("agree"), format!("port original{naive}"));
            let of_naive = if width > 200 { "left_out" } else { "report" };
            assert_eq!(fields.one("naive"), of_naive);
            assert_eq!(fields.one("frames"), format!("4 {width} {height}"));
            for (frame, [x, y]) in totals(&bracket.moves, reference).into_iter().enumerate() {
                let verdict = if frame == reference {
                    "reference"
                } else {
                    "alone"
                };
                let at = format!("frame {frame} of {width} by {height}, scene {kind}");
                assert_eq!(fields.frame(frame), (x, y, verdict.into()), "{at}");
                assert_eq!(fields.says(frame), None, "{at}");
            }
        }
    }
}

#[test]
fn a_row_of_pins_has_rivals_at_one_pitch() {
    let folder = Folder::new("pins");
    for (pitch, seed) in [(5, 1), (8, 2), (12, 3)] {
        let shot = Shot {
            scene: Scene::Pins(pitch),
            exposures: &[8, 16],
            ..SHOT
        };
        let file = folder.bracket("pins.pgm", &taken(&shot, seed));
        let fields = fields(&[], &[&file]);
        assert_eq!(fields.one("agree"), "port original naive");
        assert_eq!(fields.frame(1).2, "contested");
        assert_eq!(
            fields.says(1).as_deref(),
            Some("one pitch away: a row of equal pins?")
        );
        let [x, y, disagreeing, _] = fields.step(1);
        let rivals = fields.rivals(1);
        for side in [-pitch, pitch] {
            let rival = rivals.iter().find(|rival| rival[..2] == [x + side, y]);
            let rival = rival.unwrap_or_else(|| panic!("pitch {pitch}: no rival {side} away"));
            assert!(rival[2] <= disagreeing + 61 && rival[3] >= 256);
        }
        let said = printed(&[], &[&file]);
        assert!(
            said.contains("; one pitch away: a row of equal pins?\n"),
            "{said}"
        );
    }
}

#[test]
fn clipped_frames_are_told_another_percentile() {
    let folder = Folder::new("clipped");
    let bright = Shot {
        scene: Scene::Corner,
        exposures: &[32, 64],
        ..SHOT
    };
    let dark = Shot {
        scene: Scene::Board,
        exposures: &[4, 8],
        black: 30,
        ..SHOT
    };
    for (shot, seed, percentile) in [(bright, 6, "17"), (dark, 1, "83")] {
        let bracket = taken(&shot, seed);
        let file = folder.bracket("clipped.pgm", &bracket);
        let at_median = fields(&[], &[&file]);
        assert_ne!(at_median.frame(1).2, "alone");
        let said = format!("nothing lies on one side of the cut: try percentile {percentile}");
        assert_eq!(at_median.says(1), Some(said));

        let fields = fields(&["--percentiles", percentile], &[&file]);
        assert_eq!(
            fields.one("percentiles"),
            format!("{percentile} {percentile}")
        );
        assert_eq!(fields.one("agree"), "port original naive");
        let [x, y] = totals(&bracket.moves, 0)[1];
        assert_eq!(fields.frame(1), (x, y, "alone".into()), "at {percentile}");
    }
}

#[test]
fn a_frame_where_nothing_is_seen_is_weak() {
    let folder = Folder::new("weak");
    let pads = taken(&SHOT, 5);
    let mut frames = images(&pads);
    frames[2] = image(&[7; 64 * 64], 64, 64);
    let file = folder.file("weak.pgm", &frames.concat());
    let fields = fields(&[], &[&file]);
    assert_eq!(fields.frame(1).2, "alone");
    for frame in [2, 3] {
        assert_eq!(fields.frame(frame).2, "weak");
        let said = "too few pixels to say: change the light or the percentile";
        assert_eq!(fields.says(frame).as_deref(), Some(said));
        assert_eq!(fields.step(frame)[2..], [0, 0]);
    }
}

/// With no floor a step that compares nothing is a rival of every other, and no match.
#[test]
fn a_step_that_compares_nothing_says_nothing() {
    let folder = Folder::new("nothing");
    let file = folder.file("even.pgm", &image(&[7; 64 * 64], 64, 64).repeat(2));
    let fields = fields(&["--floor", "0"], &[&file]);
    assert_eq!(fields.frame(1).2, "contested");
    let said = "too few pixels to say: change the light or the percentile";
    assert_eq!(fields.says(1).as_deref(), Some(said));
}

#[test]
fn a_total_rests_on_every_step() {
    let folder = Folder::new("total");
    let pads = taken(&SHOT, 5);
    let frames = images(&pads);
    let flat = image(&[7; 64 * 64], 64, 64);
    let all = [&flat, &frames[0], &frames[1], &frames[2]].map(Vec::clone);
    let file = folder.file("total.pgm", &all.concat());
    let fields = fields(&[], &[&file]);
    assert_eq!(fields.frame(1).2, "weak");
    for frame in [2, 3] {
        assert_eq!(fields.frame(frame).2, "alone");
        let said = "its total rests on a step that is not alone";
        assert_eq!(fields.says(frame).as_deref(), Some(said));
    }
}

#[test]
fn the_smallest_and_the_longest_frames() {
    let folder = Folder::new("sizes");
    for (width, height) in [(1, 1), (8192, 8), (8, 8192), (0, 0), (0, 5), (3, 0)] {
        let shot = Shot {
            scene: Scene::Rough,
            width: width.max(4),
            height: height.max(4),
            exposures: &[8, 8, 8],
            ..SHOT
        };
        let bracket = taken(&shot, 11);
        let samples = bracket.width * bracket.height;
        let cut = |number: usize| &bracket.frames[number * samples..][..width * height];
        let images = [0, 1, 2].map(|number| image(cut(number), width, height));
        let file = folder.file("size.pgm", &images.concat());
        let fields = fields(&[], &[&file]);
        assert_eq!(
            fields.one("agree"),
            "port original naive",
            "{width} by {height}"
        );
        assert_eq!(fields.one("frames"), format!("3 {width} {height}"));
        printed(
            &["--out", folder.path("out").to_str().expect("text")],
            &[&file],
        );
        std::fs::remove_dir_all(folder.path("out")).expect("it was written");
        if width == 8192 {
            for (frame, [x, y]) in totals(&bracket.moves, 0).into_iter().enumerate() {
                let (found_x, found_y, _) = fields.frame(frame);
                assert!(frame == 0 || y.abs() > 4 || (found_x, found_y) == (x, y));
            }
        }
    }
}

#[test]
fn frames_cut_apart_are_held_to_the_originals_parts() {
    let folder = Folder::new("parts");
    let bracket = taken(&SHOT, 5);
    let file = folder.bracket("parts.pgm", &bracket);
    let near = fields(&["--percentiles", "50,48,47,50"], &[&file]);
    assert_eq!(near.one("agree"), "port original_parts naive");
    for (frame, [x, y]) in totals(&bracket.moves, 0).into_iter().enumerate() {
        assert_eq!(near.frame(frame).0, x);
        assert_eq!(near.frame(frame).1, y);
    }
    let said = printed(&["--percentiles", "83,50,50,17"], &[&file]);
    let has = |line: &str| said.contains(line);
    assert!(
        has("port, original's parts and naive agree on every shift"),
        "{said}"
    );
    assert!(
        has("the original itself has one percentile for all frames"),
        "{said}"
    );
    assert!(has("cut more than 5 percent apart"), "{said}");
}

#[test]
fn many_files_or_one_are_the_same_bracket() {
    let folder = Folder::new("files");
    let bracket = taken(&SHOT, 9);
    let whole = folder.bracket("whole.pgm", &bracket);
    let images = images(&bracket);
    let first = folder.file("first part.pgm", &images[..2].concat());
    let third = folder.file("third.pgm", &images[2]);
    let last = folder.file("last.pgm", &images[3]);
    let without_files_and_times = |said: String| -> Vec<String> {
        let lines = said.lines().filter(|line| !line.starts_with("time "));
        lines
            .filter(|line| !line.starts_with("file "))
            .map(str::to_string)
            .collect()
    };
    let one = printed(&["--plain"], &[&whole]);
    let many = printed(&["--plain"], &[&first, &third, &last]);
    let named = format!(
        "file 0 2 {}\nfile 2 1 {}\nfile 3 1 {}\nframes 4 64 64\n",
        first.display(),
        third.display(),
        last.display()
    );
    assert!(many.starts_with(&named), "{many}");
    assert_eq!(without_files_and_times(one), without_files_and_times(many));
}

/// A second is passed by a naive report of two frames of 640 by 480.
#[test]
fn what_takes_long_is_told_of() {
    let folder = Folder::new("long");
    let shot = Shot {
        width: 640,
        height: 480,
        exposures: &[8, 16],
        ..SHOT
    };
    let file = folder.bracket("long.pgm", &taken(&shot, 1));
    let output = hall(&["--reach", "24"], &[&file]);
    assert!(output.status.success());
    let line = "hall: the naive reading's report, 1 s so far\n";
    assert!(
        text(&output.stderr).starts_with(line),
        "{}",
        text(&output.stderr)
    );
    assert!(text(&output.stdout).contains("port, original and naive agree on every shift"));
    let output = hall(&["--no-naive"], &[&file]);
    assert_eq!(text(&output.stderr), "");
    assert!(
        text(&output.stdout).contains("port and original agree on every shift; naive is left out")
    );
}

/// README's example, byte for byte but for the times.
#[test]
fn the_readme_shows_what_is_printed() {
    let root = Path::new(env!("CARGO_MANIFEST_DIR")).join("../..");
    let readme = std::fs::read_to_string(root.join("README.md")).expect("the page");
    let mut lines = readme.lines().map(str::trim_start);
    let command = lines.find(|line| line.starts_with("$ compare/hall "));
    let command = command.expect("the page has the command");
    let words: Vec<&str> = command.split(' ').collect();
    let shown: Vec<&str> = lines.take_while(|line| !line.is_empty()).collect();

    let folder = Folder::new("readme");
    let out = folder.path("out");
    let mut run = std::process::Command::new(env!("CARGO_BIN_EXE_hall"));
    run.current_dir(&root)
        .args(&words[2..words.len() - 1])
        .arg(&out);
    assert_eq!(words[words.len() - 2], "--out");
    let said = text(&run.output().expect("the command runs").stdout);
    let is_same_everywhere =
        |line: &&str| !line.starts_with("time:") && !line.starts_with("written:");
    let said: Vec<&str> = said.lines().filter(is_same_everywhere).collect();
    let shown: Vec<&str> = shown.into_iter().filter(is_same_everywhere).collect();
    assert_eq!(said, shown);

    let picture = readme
        .lines()
        .find_map(|line| line.trim().strip_prefix("![")?.split_once("]("));
    let (_, path) = picture.expect("the page has a picture");
    let kept = std::fs::read(root.join(path.trim_end_matches(')'))).expect("the picture");
    let name = path
        .trim_end_matches(')')
        .rsplit('/')
        .next()
        .expect("a name");
    let made = std::fs::read(out.join(name)).expect("the picture is made");
    assert!(kept == made, "{path} is not the picture that is made");
}
