//! Folders, files and brackets for the tests of the command, and its answers as fields.
#![allow(dead_code)] // each test program takes what it needs

use std::fs;
use std::path::{Path, PathBuf};
use std::process::{Command, Output, Stdio};

use naive::gray::Frame;
use trials::camera::scene::Scene;
use trials::camera::{Bracket, Shot};
use trials::inputs::Random;

/// A folder that goes when the test ends.
pub struct Folder(PathBuf);

impl Folder {
    pub fn new(test: &str) -> Self {
        let path = std::env::temp_dir().join(format!("hall-{}-{test}", std::process::id()));
        fs::create_dir(&path).expect("a folder");
        Self(path)
    }

    pub fn path(&self, name: &str) -> PathBuf {
        self.0.join(name)
    }

    pub fn file(&self, name: &str, bytes: &[u8]) -> PathBuf {
        let path = self.path(name);
        fs::write(&path, bytes).expect("a file");
        path
    }

    /// A bracket as one file.
    pub fn bracket(&self, name: &str, bracket: &Bracket) -> PathBuf {
        self.file(name, &images(bracket).concat())
    }
}

impl Drop for Folder {
    fn drop(&mut self) {
        fs::remove_dir_all(&self.0).expect("the folder goes");
    }
}

pub fn image(samples: &[u8], width: usize, height: usize) -> Vec<u8> {
    naive::pgm::write(Frame::new(samples, width, height), usize::MAX).expect("a frame")
}

pub fn images(bracket: &Bracket) -> Vec<Vec<u8>> {
    let frames = bracket.frames.chunks(bracket.width * bracket.height);
    let image = |samples| image(samples, bracket.width, bracket.height);
    frames.map(image).collect()
}

/// Well lit frames that lie whole pixels apart.
pub const SHOT: Shot = Shot {
    scene: Scene::Pads,
    width: 64,
    height: 64,
    tremble: 7,
    is_whole: true,
    noise: 2,
    exposures: &[8, 16, 8, 16],
    black: 0,
};

pub fn taken(shot: &Shot, seed: u64) -> Bracket {
    shot.taken(&mut Random::new(seed))
}

pub fn hall(arguments: &[&str], files: &[&Path]) -> Output {
    let mut command = Command::new(env!("CARGO_BIN_EXE_hall"));
    command.args(files).args(arguments).stdin(Stdio::null());
    command.output().expect("the command runs")
}

pub fn text(bytes: &[u8]) -> String {
    String::from_utf8(bytes.to_vec()).expect("text")
}

/// What a run that has to succeed prints.
pub fn printed(arguments: &[&str], files: &[&Path]) -> String {
    let output = hall(arguments, files);
    let (said, errors) = (text(&output.stdout), text(&output.stderr));
    assert!(output.status.success(), "{said}{errors}");
    said
}

/// The fields of a run that has to succeed, line by line.
pub fn fields(arguments: &[&str], files: &[&Path]) -> Fields {
    let arguments = [&["--plain"], arguments].concat();
    let said = printed(&arguments, files);
    let line = |line: &str| line.split(' ').map(str::to_string).collect();
    Fields(said.lines().map(line).collect())
}

pub struct Fields(Vec<Vec<String>>);

impl Fields {
    /// All lines of a word, without it.
    pub fn all(&self, word: &str) -> Vec<&[String]> {
        let lines = self.0.iter().filter(|line| line[0] == word);
        lines.map(|line| &line[1..]).collect()
    }

    pub fn one(&self, word: &str) -> String {
        let all = self.all(word);
        assert_eq!(all.len(), 1, "one line of {word}");
        all[0].join(" ")
    }

    /// Shift and verdict of a frame.
    pub fn frame(&self, frame: usize) -> (i64, i64, String) {
        let line = self.all("frame")[frame];
        assert_eq!(line[0], frame.to_string());
        let number = |at: usize| line[at].parse().expect("a number");
        (number(1), number(2), line[3].clone())
    }

    /// Step of a frame that is not the reference, and both its counts.
    pub fn step(&self, frame: usize) -> [i64; 4] {
        let line = self.all("frame")[frame];
        [5, 6, 7, 8].map(|at| line[at].parse().expect("a number"))
    }

    /// Each rival of a frame and both its counts.
    pub fn rivals(&self, frame: usize) -> Vec<[i64; 4]> {
        let of_frame = |line: &&&[String]| line[0] == frame.to_string();
        let numbers = |line: &[String]| [1, 2, 3, 4].map(|at| line[at].parse().expect("a number"));
        let lines = self.all("rival");
        lines
            .iter()
            .filter(of_frame)
            .map(|line| numbers(line))
            .collect()
    }

    /// What is said of a frame, if anything.
    pub fn says(&self, frame: usize) -> Option<String> {
        let all = self.all("says");
        let line = all.iter().find(|line| line[0] == frame.to_string())?;
        Some(line[2..].join(" "))
    }
}
