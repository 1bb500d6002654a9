//! Greymaps that Netpbm's own programs made, and Netpbm asked where it is at hand.

use std::io::{self, ErrorKind, Write};
use std::iter;
use std::process::{Command, Output, Stdio};
use std::thread;

use naive::gray::Frame;
use naive::pgm::{Image, read, write};
use trials::inputs::Random;
use trials::pgm::{image_for_netpbm, size};

/// A file that is kept, with the images in it: width, height, start, next.
pub struct Kept {
    name: &'static str,
    pub bytes: &'static [u8],
    images: &'static [[usize; 4]],
}

const fn kept_as(name: &'static str, bytes: &'static [u8], images: &'static [[usize; 4]]) -> Kept {
    Kept {
        name,
        bytes,
        images,
    }
}

pub const KEPT: [Kept; 5] = [
    kept_as(
        "ramp.pgm",
        include_bytes!("../data/netpbm/ramp.pgm"),
        &[[16, 12, 13, 205]],
    ),
    kept_as(
        "noise.pgm",
        include_bytes!("../data/netpbm/noise.pgm"),
        &[[24, 10, 13, 253]],
    ),
    kept_as(
        "flat.pgm",
        include_bytes!("../data/netpbm/flat.pgm"),
        &[[5, 4, 11, 31]],
    ),
    kept_as(
        "sizes.pgm",
        include_bytes!("../data/netpbm/sizes.pgm"),
        &[[16, 12, 13, 205], [24, 10, 218, 458], [5, 4, 469, 489]],
    ),
    kept_as(
        "bracket.pgm",
        include_bytes!("../data/netpbm/bracket.pgm"),
        &[
            [32, 20, 13, 653],
            [32, 20, 666, 1306],
            [32, 20, 1319, 1959],
            [32, 20, 1972, 2612],
        ],
    ),
];

impl Kept {
    pub fn images(&self) -> Vec<Image> {
        let image = |&[width, height, start, next]: &[usize; 4]| Image {
            width,
            height,
            start,
            next,
        };
        self.images.iter().map(image).collect()
    }

    /// Where each image begins.
    pub fn places(&self) -> Vec<usize> {
        let (_, before) = self.images.split_last().expect("an image");
        let ends = before.iter().map(|&[_, _, _, next]| next);
        iter::once(0).chain(ends).collect()
    }
}

/// The kept files by name. Each is read as noted here.
pub fn kept() -> impl Iterator<Item = (&'static str, &'static [u8])> {
    KEPT.iter().map(|kept| {
        assert_read(kept.bytes, &kept.images());
        (kept.name, kept.bytes)
    })
}

/// The naive reading finds these images in a file, from its front to its end.
fn assert_read(file: &[u8], images: &[Image]) {
    let mut at = 0;
    for image in images {
        assert_eq!(read(file, at).as_ref(), Ok(image));
        at = image.next;
    }
    assert_eq!(at, file.len());
}

/// Files of 1 to 17 images, one behind another from the front to the end, that Netpbm
/// reads alike: no side of 0, no carriage return inside a comment.
fn made(random: &mut Random, files: usize) -> Vec<(Vec<u8>, Vec<Image>)> {
    let file = |number| {
        let (mut bytes, mut images) = (Vec::new(), Vec::new());
        for _ in 0..1 + number % 17 {
            let (width, height) = size(random);
            let made = image_for_netpbm(random, width.max(1), height.max(1));
            images.push(made.image(bytes.len()));
            bytes.extend(made.bytes);
        }
        (bytes, images)
    };
    (0..files).map(file).collect()
}

/// What a program answers to this standard input.
fn run(program: &str, arguments: &[&str], input: &[u8]) -> io::Result<Output> {
    let mut child = Command::new(program)
        .args(arguments)
        .stdin(Stdio::piped())
        .stdout(Stdio::piped())
        .stderr(Stdio::piped())
        .spawn()?;
    let mut stdin = child.stdin.take().expect("it is piped");
    thread::scope(|scope| {
        // A program that has read enough may be gone before all is written.
        scope.spawn(move || _ = stdin.write_all(input));
        child.wait_with_output()
    })
}

/// A line of `pamfile -allimages` for each image.
fn sizes_text(images: &[Image]) -> String {
    let line = |(number, image): (usize, &Image)| {
        let (width, height) = (image.width, image.height);
        format!("-:\tImage {number}:\tPGM raw, {width} by {height}  maxval 255\n")
    };
    images.iter().enumerate().map(line).collect()
}

/// The images as they are written, and as Netpbm writes them.
fn written(file: &[u8], images: &[Image]) -> Vec<u8> {
    let image = |image: &Image| {
        let samples = &file[image.start..image.next];
        let frame = Frame::new(samples, image.width, image.height);
        write(frame, usize::MAX).expect("it has been read")
    };
    images.iter().flat_map(image).collect()
}

/// Whether Netpbm finds these images in a file, by size and by sample.
fn same(file: &[u8], images: &[Image]) -> io::Result<bool> {
    let found = run("pamfile", &["-allimages", "-"], file)?;
    let copied = run("pamtopnm", &[], file)?;
    let same = found.stdout == sizes_text(images).as_bytes()
        && found.status.success()
        && copied.stdout == written(file, images)
        && copied.status.success();
    if !same {
        println!("Netpbm reads another way: {}", file.escape_ascii());
        println!("expected {images:?}");
        println!("pamfile: {}", found.stdout.escape_ascii());
        println!("pamfile: {}", found.stderr.escape_ascii());
        println!("pamtopnm: {}", copied.stderr.escape_ascii());
    }
    Ok(same)
}

/// Whether Netpbm makes of a file's first image what we write of it, and leaves that as it is.
fn same_written(file: &[u8], first: Image) -> io::Result<bool> {
    let ours = written(file, &[first]);
    for given in [&file[..first.next], &ours] {
        let theirs = run("pgmtopgm", &[], given)?;
        if theirs.stdout != ours || !theirs.status.success() {
            println!("Netpbm writes another way: {}", given.escape_ascii());
            println!("expected {}", ours.escape_ascii());
            println!("pgmtopgm: {}", theirs.stdout.escape_ascii());
            println!("pgmtopgm: {}", theirs.stderr.escape_ascii());
            return Ok(false);
        }
    }
    Ok(true)
}

/// Holds the kept files and so many made ones against the naive reading and Netpbm.
pub fn check(random: &mut Random, files: usize) -> io::Result<bool> {
    if let Err(error) = run("pamfile", &["--version"], &[])
        && error.kind() == ErrorKind::NotFound
    {
        println!("no pamfile: Netpbm is not asked");
        return Ok(true);
    }
    let kept = KEPT.iter().map(|kept| (kept.bytes.to_vec(), kept.images()));
    let all: Vec<_> = kept.chain(made(random, files)).collect();
    for (file, images) in &all {
        assert_read(file, images);
        if !same(file, images)? || !same_written(file, images[0])? {
            return Ok(false);
        }
    }
    let images: usize = all.iter().map(|(_, images)| images.len()).sum();
    let files = all.len();
    print!("Netpbm reads {images} images of {files} files alike and writes them as we do; ");
    println!("of {files} it leaves what we write as it is");
    Ok(true)
}
