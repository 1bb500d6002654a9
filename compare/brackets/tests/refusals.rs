//! What the command says of files, terms and folders that it cannot take, and that nothing is
//! written then.

mod made;

use std::fs;
use std::path::Path;
use std::process::{Command, Stdio};

use made::*;
use trials::camera::Shot;

/// Status 2, nothing on standard output, and this on standard error.
fn refused(arguments: &[&str], files: &[&Path], why: &str) {
    let output = hall(arguments, files);
    assert_eq!(text(&output.stderr), format!("hall: {why}\n"));
    assert_eq!(text(&output.stdout), "");
    assert_eq!(output.status.code(), Some(2));
}

/// The same with an output folder, which is not there before and not after.
fn refused_and_unwritten(folder: &Folder, arguments: &[&str], files: &[&Path], why: &str) {
    let out = folder.path("out");
    let to = ["--out", out.to_str().expect("text")];
    refused(arguments, files, why);
    refused(&[arguments, &to].concat(), files, why);
    assert!(!out.exists(), "{why}");
}

#[test]
fn a_file_that_cannot_be_read() {
    let folder = Folder::new("unread");
    let whole = folder.file("whole.pgm", &image(&[1, 2, 3, 4], 2, 2));
    let missing = folder.path("missing.pgm");
    let why = format!(
        "{}: No such file or directory (os error 2)",
        missing.display()
    );
    refused_and_unwritten(&folder, &[], &[&whole, &missing], &why);

    let malformed =
        "a PGM header malformed or cut short, or a place past the file's end (refusal 13)";
    let short = "fewer samples than the header promises (refusal 15)";
    let cases: [(&[u8], usize, String); 7] = [
        (b"", 0, format!("{malformed}: the file ends at byte 0")),
        (
            b"P2 1 1 255 7",
            0,
            format!("{malformed}: no header goes on with \"2\" at byte 1"),
        ),
        (
            b"P5 1 1 255 aP5 1 1 255",
            12,
            format!("{malformed}: the file ends at byte 22"),
        ),
        (
            b"P5 1 1 255 a\nP5 1 1 255 b",
            12,
            format!("{malformed}: no header goes on with a line feed at byte 12"),
        ),
        (
            b"P5 8193 1 255 a",
            0,
            "a side over 8,192 (refusal 1)".into(),
        ),
        (
            b"P5 1 1 65535 ab",
            0,
            "a highest value other than 255 (refusal 14)".into(),
        ),
        (
            b"P5 2 2 255 abc",
            0,
            format!("{short}: the file ends at byte 14"),
        ),
    ];
    for (bytes, at, why) in cases {
        let broken = folder.file("broken.pgm", bytes);
        let name = broken.display();
        let why = format!("{name}: the image at byte {at} cannot be read: {why}");
        refused_and_unwritten(&folder, &[], &[&whole, &broken], &why);
    }
}

#[test]
fn a_bracket_that_is_none() {
    let folder = Folder::new("none");
    let two = [image(&[1; 12], 4, 3), image(&[1; 12], 3, 4)].concat();
    let unequal = folder.file("unequal.pgm", &two);
    let name = unequal.display();
    let why = format!(
        "sizes differ (refusal 4): frame 1, {name} at byte 23, is 3 by 4, the one next to it 4 by 3"
    );
    refused_and_unwritten(&folder, &[], &[&unequal], &why);
    let why = format!(
        "sizes differ (refusal 4): frame 0, {name} at byte 0, is 4 by 3, the one next to it 3 by 4"
    );
    refused_and_unwritten(&folder, &["--reference", "1"], &[&unequal], &why);

    let equal = |frames: usize| folder.file("equal.pgm", &image(&[1; 12], 4, 3).repeat(frames));
    let (name, at) = (folder.path("equal.pgm"), 16 * 23);
    let name = name.display();
    let why = format!("{name}: the image at byte {at} is one too many: over 16 frames (refusal 6)");
    refused_and_unwritten(&folder, &[], &[&equal(17)], &why);
    let mut with_line_feed = image(&[1; 12], 4, 3).repeat(16);
    with_line_feed.push(b'\n');
    let file = folder.file("equal.pgm", &with_line_feed);
    let why = format!(
        "{name}: the image at byte {at} cannot be read: a PGM header malformed or cut short, or a \
         place past the file's end (refusal 13): no header goes on with a line feed at byte {at}"
    );
    refused_and_unwritten(&folder, &[], &[&file], &why);
    printed(&[], &[&equal(16)]);
    let equal = equal(2);
    let why = "no such reference (refusal 5): 2 of 2 frames, which count from 0";
    refused_and_unwritten(&folder, &["--reference", "2"], &[&equal], why);
    let why = "a percentile over 100 (refusal 3)";
    refused_and_unwritten(&folder, &["--percentiles", "50,101"], &[&equal], why);
    let why = "3 percentiles for 2 frames";
    refused_and_unwritten(&folder, &["--percentiles", "50,50,50"], &[&equal], why);
    let why = "a reach over 64 (refusal 9)";
    refused_and_unwritten(&folder, &["--reach", "65"], &[&equal], why);
    printed(&["--reach", "64", "--bits", "4294967295"], &[&equal]);
}

#[test]
fn words_that_cannot_be_read() {
    let output = hall(&["--rech", "2", "a.pgm"], &[]);
    let errors = text(&output.stderr);
    assert!(
        errors.starts_with("hall: there is no option --rech\nusage: hall FILE.pgm..."),
        "{errors}"
    );
    assert_eq!(output.status.code(), Some(2));
    let output = hall(&["--help"], &[]);
    assert!(text(&output.stdout).starts_with("usage: hall FILE.pgm..."));
    assert_eq!(output.status.code(), Some(0));
}

#[test]
fn a_folder_that_cannot_be_written() {
    let folder = Folder::new("unwritten");
    let file = folder.bracket("pads.pgm", &taken(&SHOT, 5));
    let below_a_file = file.join("out");
    let why = format!("{}: Not a directory (os error 20)", below_a_file.display());
    refused(
        &["--out", below_a_file.to_str().expect("text")],
        &[&file],
        &why,
    );
    let why = format!("{}: Not a directory (os error 20)", file.display());
    refused(&["--out", file.to_str().expect("text")], &[&file], &why);

    let before = fs::read(&file).expect("the bracket");
    let inner = folder.path("");
    let why = format!(
        "{}: is not empty, and nothing in it is written over",
        inner.display()
    );
    refused(&["--out", inner.to_str().expect("text")], &[&file], &why);
    assert_eq!(fs::read_dir(&inner).expect("a folder").count(), 1);
    assert_eq!(fs::read(&file).expect("the bracket"), before);
}

/// A file may have 8 kB: frames fit, pictures do not. Then nothing is left of either.
#[test]
fn a_disk_that_fills_up() {
    let folder = Folder::new("full");
    let file = folder.bracket("pads.pgm", &taken(&SHOT, 5));
    for is_own in [true, false] {
        let out = folder.path("out");
        if !is_own {
            fs::create_dir(&out).expect("a folder");
        }
        let mut command = Command::new("bash");
        let limited = "trap '' XFSZ && ulimit -f 6 && exec \"$@\"";
        command.args(["-c", limited, "bash", env!("CARGO_BIN_EXE_hall")]);
        let output = command
            .arg(&file)
            .arg("--out")
            .arg(&out)
            .output()
            .expect("bash runs");
        let why = format!(
            "hall: {}/window_01.png: File too large (os error 27)\n",
            out.display()
        );
        assert_eq!(text(&output.stderr), why);
        assert!(text(&output.stdout).contains("crop: "));
        assert_eq!(output.status.code(), Some(2));
        assert_eq!(out.exists(), !is_own);
    }
    assert_eq!(
        fs::read_dir(folder.path("out")).expect("a folder").count(),
        0
    );
}

/// A name that would begin a line of its own does not.
#[test]
fn a_name_stands_in_one_line() {
    let folder = Folder::new("name");
    let file = folder.file("a\nframe 1.pgm", &image(&[1, 2], 2, 1));
    let fields = fields(&[], &[&file]);
    assert!(fields.one("file").ends_with("a\\nframe 1.pgm"));
    assert_eq!(fields.all("frame").len(), 1);
}

/// Work goes on where nobody hears how long it takes.
#[test]
fn progress_that_cannot_be_told_is_left_out() {
    let folder = Folder::new("deaf");
    let bracket = Shot {
        width: 640,
        height: 480,
        exposures: &[8, 16],
        ..SHOT
    };
    let file = folder.bracket("pads.pgm", &taken(&bracket, 5));
    let full = fs::OpenOptions::new().write(true).open("/dev/full");
    let mut command = Command::new(env!("CARGO_BIN_EXE_hall"));
    command
        .arg(&file)
        .args(["--reach", "24"])
        .stderr(full.expect("Linux has it"));
    let output = command.output().expect("the command runs");
    assert!(text(&output.stdout).contains("; naive "));
    assert_eq!(output.status.code(), Some(0));
}

#[test]
fn an_output_that_fails_is_told() {
    let folder = Folder::new("output");
    let file = folder.bracket("pads.pgm", &taken(&SHOT, 5));
    let full = fs::OpenOptions::new()
        .write(true)
        .open("/dev/full")
        .expect("Linux has it");
    let mut command = Command::new(env!("CARGO_BIN_EXE_hall"));
    let command = command
        .arg(&file)
        .stdout(Stdio::from(full))
        .stderr(Stdio::piped());
    let output = command.output().expect("the command runs");
    let why = "hall: the output is not complete: No space left on device (os error 28)\n";
    assert_eq!(text(&output.stderr), why);
    assert_eq!(output.status.code(), Some(2));
}
