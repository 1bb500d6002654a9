//! What the command is asked for.

use std::ffi::OsString;
use std::path::PathBuf;
use std::str::FromStr;

use crate::asked::Given;

pub const USAGE: &str = "\
usage: hall FILE.pgm... [--reference K] [--bits B] [--tolerance T] [--percentiles P,..]
            [--subsample] [--reach R] [--floor F] [--margin M] [--out DIR] [--plain] [--no-naive]

Aligns the frames of one or more PGM files (P5) by the proved port, by the original in Rust
and, up to a size where that takes seconds, by a naive reading, says whether all agree on every
shift, and prints the report. Frames count from 0 in the order of the files, which is to be that
of their exposures.

  --reference K       the frame that the others are laid on (0)
  --bits B            a step goes up to 2^B - 1 pixels, of 0 as of 1 (3, for a tremble of 7)
  --tolerance T       samples within T of the cut are not compared (4)
  --percentiles P,..  where each frame is cut: one for all, or one for each (50)
  --subsample         frames are halved by the upper left sample, not by the mean of four
  --reach R           how far from a step a rival may lie (twice 2^B - 1, at most 64)
  --floor F           how many pixels it compares at least (a sixteenth of the frame's)
  --margin M          in how many more than the step it may disagree (1.5 % of the frame's)
  --out DIR           writes each frame moved and cropped, and for each but the reference a
                      picture of how much each shift within reach disagrees, to a new or empty
                      folder
  --plain             prints fields for a program
  --no-naive          leaves the naive reading out

An option that is given twice counts as it was given last.

Exit status: 0 if all agree, 1 if not, 2 if that could not be found out, or not all was printed
or written.
compare/README.md says more, docs/TERMS.md how to choose the numbers.
";

pub struct Arguments {
    pub files: Vec<PathBuf>,
    pub given: Given,
    pub out: Option<PathBuf>,
    pub is_plain: bool,
    pub has_naive: bool,
}

pub enum Wanted {
    Help,
    Run(Arguments),
}

/// Reads the words behind the command's name; else says what is wrong with them.
pub fn read(words: impl Iterator<Item = OsString>) -> Result<Wanted, String> {
    let mut arguments = Arguments {
        files: Vec::new(),
        given: Given::default(),
        out: None,
        is_plain: false,
        has_naive: true,
    };
    let given = &mut arguments.given;
    let mut words = words.peekable();
    let mut only_files = false;
    while let Some(word) = words.next() {
        let option = word
            .to_str()
            .filter(|word| !only_files && (word.starts_with("--") || *word == "-h"));
        let Some(option) = option else {
            arguments.files.push(word.into());
            continue;
        };
        let mut value = || words.next().ok_or(format!("{option} takes a value"));
        match option {
            "--" => only_files = true,
            "--help" | "-h" => return Ok(Wanted::Help),
            "--plain" => arguments.is_plain = true,
            "--no-naive" => arguments.has_naive = false,
            "--subsample" => given.is_subsampled = true,
            "--out" => arguments.out = Some(value()?.into()),
            "--reference" => given.reference = number(option, value()?)?,
            "--bits" => given.bits = Some(number(option, value()?)?),
            "--tolerance" => given.tolerance = Some(number(option, value()?)?),
            "--reach" => given.reach = Some(number(option, value()?)?),
            "--floor" => given.floor = Some(number(option, value()?)?),
            "--margin" => given.margin = Some(number(option, value()?)?),
            "--percentiles" => given.percentiles = Some(list(option, value()?)?),
            _ => return Err(format!("there is no option {option}")),
        }
    }
    match arguments.files.is_empty() {
        true => Err("no file is named".into()),
        false => Ok(Wanted::Run(arguments)),
    }
}

/// The whole numbers that an option can hold.
trait Whole: FromStr {
    const MOST: u64;
}

impl Whole for u8 {
    const MOST: u64 = u8::MAX as u64;
}

impl Whole for u32 {
    const MOST: u64 = u32::MAX as u64;
}

impl Whole for usize {
    const MOST: u64 = usize::MAX as u64;
}

fn number<T: Whole>(option: &str, word: OsString) -> Result<T, String> {
    let read = word.to_str().and_then(|word| word.parse().ok());
    read.ok_or_else(|| {
        let (word, most) = (word.display(), T::MOST);
        format!("{option} takes a whole number from 0 to {most}, not {word}")
    })
}

fn list(option: &str, word: OsString) -> Result<Vec<u8>, String> {
    let read = word.to_str().and_then(|word| {
        let entries = word.split(',').map(|entry| entry.parse().ok());
        entries.collect()
    });
    read.ok_or_else(|| {
        let word = word.display();
        format!("{option} takes whole numbers from 0 to 100 with commas between them, not {word}")
    })
}

#[cfg(test)]
mod tests {
    use super::*;

    fn asked(words: &str) -> Result<Wanted, String> {
        read(words.split_whitespace().map(OsString::from))
    }

    #[test]
    fn every_option_has_its_place() {
        let words = "a.pgm --reference 1 --bits 2 --tolerance 3 --percentiles 4,5 --subsample \
                     --reach 6 --floor 7 --margin 8 --out d --plain --no-naive b.pgm -- --c.pgm";
        let Ok(Wanted::Run(arguments)) = asked(words) else {
            panic!("not read");
        };
        let given = arguments.given;
        assert_eq!(
            arguments.files,
            ["a.pgm", "b.pgm", "--c.pgm"].map(PathBuf::from)
        );
        assert_eq!(
            (given.reference, given.bits, given.tolerance),
            (1, Some(2), Some(3))
        );
        assert_eq!(
            (given.percentiles, given.is_subsampled),
            (Some(vec![4, 5]), true)
        );
        assert_eq!(
            (given.reach, given.floor, given.margin),
            (Some(6), Some(7), Some(8))
        );
        assert_eq!(arguments.out, Some("d".into()));
        assert!(arguments.is_plain && !arguments.has_naive);
    }

    #[test]
    fn what_is_wrong_is_said() {
        let cases = [
            ("", "no file is named"),
            ("a --reach", "--reach takes a value"),
            (
                "a --reach x",
                "--reach takes a whole number from 0 to 4294967295, not x",
            ),
            (
                "a --tolerance 256",
                "--tolerance takes a whole number from 0 to 255, not 256",
            ),
            (
                "a --margin -1",
                "--margin takes a whole number from 0 to 4294967295, not -1",
            ),
            (
                "a --percentiles 1,,2",
                "--percentiles takes whole numbers from 0 to 100 with commas between them, not 1,,2",
            ),
            ("a --rech 2", "there is no option --rech"),
        ];
        for (words, why) in cases {
            assert_eq!(asked(words).err().as_deref(), Some(why));
        }
        assert!(matches!(asked("--help"), Ok(Wanted::Help)));
    }
}
