//! What is written: each frame as it lies on the others, cropped, and a picture of each window.

use std::fs::{self, File};
use std::io::{self, Write};
use std::path::{Path, PathBuf};

use naive::report::Report;
use port::Frame;
use port::files::write_pgm;
use port::moves::shifted;

use crate::asked::Asked;
use crate::names::in_one_line;
use crate::picture;
use crate::stepped::{Stepped, shift_of};

/// A folder that this run made, or found empty. What is written to it goes again unless all
/// is.
pub struct Folder {
    path: PathBuf,
    is_own: bool,
    written: Vec<PathBuf>,
    is_whole: bool,
}

impl Folder {
    pub fn open(path: &Path) -> Result<Self, String> {
        let named = |why: io::Error| format!("{}: {why}", in_one_line(path));
        let is_own = match fs::create_dir(path) {
            Ok(()) => true,
            Err(why) if why.kind() == io::ErrorKind::AlreadyExists => false,
            Err(why) => return Err(named(why)),
        };
        if !is_own && fs::read_dir(path).map_err(named)?.next().is_some() {
            let path = in_one_line(path);
            return Err(format!(
                "{path}: is not empty, and nothing in it is written over"
            ));
        }
        Ok(Self {
            path: path.to_path_buf(),
            is_own,
            written: Vec::new(),
            is_whole: false,
        })
    }

    pub fn path(&self) -> &Path {
        &self.path
    }

    /// Writes all files, or says which could not be and leaves none.
    pub fn write(&mut self, files: &[(String, Vec<u8>)]) -> Result<(), String> {
        for (name, bytes) in files {
            let path = self.path.join(name);
            let failed = |why: io::Error| format!("{}: {why}", in_one_line(&path));
            // What somebody else has put there meanwhile stays.
            let mut file = File::create_new(&path).map_err(failed)?;
            self.written.push(path.clone());
            file.write_all(bytes).map_err(failed)?;
        }
        self.is_whole = true;
        Ok(())
    }
}

impl Drop for Folder {
    fn drop(&mut self) {
        if self.is_whole {
            return;
        }
        // Nothing more can be done about what cannot be removed.
        for path in &self.written {
            _ = fs::remove_file(path);
        }
        if self.is_own {
            _ = fs::remove_dir(&self.path);
        }
    }
}

/// All files by name. An empty crop has no frames.
pub fn files(asked: &Asked, report: &Report) -> Vec<(String, Vec<u8>)> {
    let mut files = Vec::new();
    if report.crop.width * report.crop.height > 0 {
        for frame in 0..asked.frames() {
            files.push((
                format!("frame_{frame:02}.pgm"),
                cropped(asked, report, frame),
            ));
        }
    }
    for frame in 0..asked.frames() {
        if let Some(stepped) = Stepped::of(asked, report, frame) {
            let picture = picture::of_frame(asked, report, &stepped);
            files.push((format!("window_{frame:02}.png"), picture));
        }
    }
    files
}

/// The file of a frame, moved by its shift and cut to the crop.
fn cropped(asked: &Asked, report: &Report, frame: usize) -> Vec<u8> {
    let (width, height) = asked.size();
    let mut moved = vec![0; width * height];
    let samples = Frame::new(asked.samples(frame), width, height);
    assert_eq!(
        shifted(samples, shift_of(report, frame), &mut moved),
        0,
        "a frame is moved"
    );

    let crop = &report.crop;
    let [x, y, wide, high] = [crop.x, crop.y, crop.width, crop.height].map(|side| side as usize);
    let rows = moved.chunks(width).skip(y).take(high);
    let samples: Vec<u8> = rows.flat_map(|row| &row[x..][..wide]).copied().collect();
    let (mut file, mut length) = (vec![0; samples.len() + 17], 0);
    let status = write_pgm(Frame::new(&samples, wide, high), &mut file, &mut length);
    assert_eq!(status, 0, "a frame is written");
    file.truncate(length);
    file
}

#[cfg(test)]
mod tests {
    use super::*;

    #[test]
    fn what_somebody_else_has_put_there_stays() {
        let path = std::env::temp_dir().join(format!("hall-out-{}", std::process::id()));
        let files = ["one", "two"].map(|name| (name.to_string(), b"ours".to_vec()));
        let mut folder = Folder::open(&path).expect("a new folder");
        fs::write(path.join("two"), "theirs").expect("a file");
        let why = folder.write(&files).expect_err("one is there");
        assert!(why.ends_with("two: File exists (os error 17)"), "{why}");
        drop(folder);
        assert!(!path.join("one").exists());
        assert_eq!(fs::read(path.join("two")).expect("theirs"), b"theirs");
        assert!(Folder::open(&path).is_err_and(|why| why.contains("is not empty")));
        fs::remove_dir_all(&path).expect("the folder goes");
    }
}
