//! What the command writes: frames as they lie on each other, and pictures.

mod made;

use std::fs;

use made::*;
use naive::geometry::{Shift, shifted};
use naive::gray::Frame;
use naive::pgm::read;

#[test]
fn frames_are_moved_and_cropped_and_every_window_is_drawn() {
    let folder = Folder::new("written");
    let bracket = taken(&SHOT, 5);
    let (width, height) = (bracket.width, bracket.height);
    let file = folder.bracket("pads.pgm", &bracket);
    let out = folder.path("out");
    let arguments = ["--reference", "1", "--out", out.to_str().expect("text")];
    let fields = fields(&arguments, &[&file]);
    assert_eq!(fields.one("written"), format!("7 {}", out.display()));
    let crop = fields.one("crop");
    let crop: Vec<usize> = crop
        .split(' ')
        .map(|side| side.parse().expect("a side"))
        .collect();
    assert!(crop[2] > 40 && crop[3] > 40);

    let mut names = Vec::new();
    for entry in fs::read_dir(&out).expect("the folder") {
        let name = entry.expect("an entry").file_name();
        names.push(name.into_string().expect("text"));
    }
    names.sort();
    let frames = [
        "frame_00.pgm",
        "frame_01.pgm",
        "frame_02.pgm",
        "frame_03.pgm",
    ];
    let windows = ["window_00.png", "window_02.png", "window_03.png"];
    assert_eq!(names, [&frames[..], &windows].concat());

    let mut first = None;
    for (number, name) in frames.iter().enumerate() {
        let written = fs::read(out.join(name)).expect("a frame");
        let image = read(&written, 0).expect("an image");
        assert_eq!([image.width, image.height], crop[2..]);
        assert_eq!(image.next, written.len());
        let samples = &bracket.frames[number * width * height..][..width * height];
        let (x, y, _) = fields.frame(number);
        let shift = Shift::new(x as i32, y as i32);
        let frame = Frame::new(samples, width, height);
        let moved = shifted(frame, shift, width * height).expect("a frame");
        let rows = moved.chunks(width).skip(crop[1]).take(crop[3]);
        let kept: Vec<u8> = rows
            .flat_map(|row| &row[crop[0]..][..crop[2]])
            .copied()
            .collect();
        assert!(written[image.start..] == kept[..], "{name}");

        // The scene stands still: frames of one exposure differ by noise alone.
        if number % 2 == 0 {
            let before = first.get_or_insert_with(|| kept.clone());
            let apart = kept
                .iter()
                .zip(before.iter())
                .map(|(one, other)| one.abs_diff(*other));
            assert!(apart.clone().filter(|apart| *apart > 16).count() < kept.len() / 50);
        }
    }
}

/// Two samples that no crop keeps together.
#[test]
fn an_empty_crop_has_no_frames() {
    let folder = Folder::new("empty");
    let pixels = [[0, 255], [255, 0]].map(|pair| image(&pair, 2, 1));
    let file = folder.file("pair.pgm", &pixels.concat().repeat(2));
    let out = folder.path("out");
    let arguments = ["--tolerance", "0", "--out", out.to_str().expect("text")];
    let said = printed(&arguments, &[&file]);
    assert!(
        said.contains("crop: empty, no place is covered by every frame\n"),
        "{said}"
    );
    assert!(
        said.ends_with(&format!("written: 3 files to {}\n", out.display())),
        "{said}"
    );
}
