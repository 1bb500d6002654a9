//! The frames of PGM files, one file after another, read by the port.

use std::fs::File;
use std::io::Read;
use std::path::{Path, PathBuf};

use port::files::read_pgm;
use port::refusals::{HEADER_MALFORMED, MOST_FRAMES, SAMPLES_MISSING, TOO_MANY_FRAMES};

use crate::names::in_one_line;
use crate::refused::words;

/// Frames as a stack lends them, and where they are from.
pub struct Bracket {
    /// The name of each file, and the byte where each of its images begins.
    pub files: Vec<(String, Vec<usize>)>,
    pub widths: Vec<usize>,
    pub heights: Vec<usize>,
    pub samples: Vec<u8>,
}

impl Bracket {
    /// All images of all files. Else which file cannot be read, at which byte, and why.
    pub fn read(paths: &[PathBuf]) -> Result<Self, String> {
        let mut bracket = Self {
            files: Vec::new(),
            widths: Vec::new(),
            heights: Vec::new(),
            samples: Vec::new(),
        };
        for path in paths {
            let name = in_one_line(path);
            let images = bracket.add(path).map_err(|why| format!("{name}: {why}"))?;
            bracket.files.push((name, images));
        }
        Ok(bracket)
    }

    /// The images of one more file, of which there is at least one; where they begin.
    fn add(&mut self, path: &Path) -> Result<Vec<usize>, String> {
        let begin = self.samples.len();
        let mut opened = File::open(path).map_err(|why| why.to_string())?;
        let read = opened.read_to_end(&mut self.samples);
        let length = read.map_err(|why| why.to_string())?;

        // The samples of each image close up to those before it, over the headers.
        let (mut at, mut end, mut images) = (0, begin, Vec::new());
        while at == 0 || at < length {
            let file = &self.samples[begin..];
            let [mut width, mut height, mut start, mut next] = [0; 4];
            let image = [&mut width, &mut height, &mut start, &mut next];
            match read_pgm(file, at, image) {
                0 => (),
                refusal => return Err(unread(file, at, refusal)),
            }
            if self.widths.len() == MOST_FRAMES {
                let words = words(TOO_MANY_FRAMES);
                return Err(format!(
                    "the image at byte {at} is one too many: {words} (refusal {TOO_MANY_FRAMES})"
                ));
            }
            self.widths.push(width);
            self.heights.push(height);
            self.samples.copy_within(begin + start..begin + next, end);
            end += next - start;
            images.push(at);
            at = next;
        }
        self.samples.truncate(end);
        Ok(images)
    }

    /// Where a frame is from.
    pub fn place(&self, frame: usize) -> String {
        let of_file = |(name, images): &(String, Vec<usize>)| {
            let of_image = |at: &usize| format!("{name} at byte {at}");
            images.iter().map(of_image).collect::<Vec<_>>()
        };
        let mut places = self.files.iter().flat_map(of_file);
        places.nth(frame).unwrap_or_default()
    }
}

/// Why there is no image at a place of a file.
fn unread(file: &[u8], at: usize, refusal: u32) -> String {
    let found = match refusal {
        HEADER_MALFORMED => match break_of_header(&file[at..]) {
            Some(length) => match file.get(at + length) {
                Some(byte) => format!(
                    ": no header goes on with {} at byte {}",
                    shown(*byte),
                    at + length
                ),
                None => format!(": the file ends at byte {}", file.len()),
            },
            None => String::new(),
        },
        SAMPLES_MISSING => format!(": the file ends at byte {}", file.len()),
        _ => String::new(),
    };
    let words = words(refusal);
    format!("the image at byte {at} cannot be read: {words} (refusal {refusal}){found}")
}

fn shown(byte: u8) -> String {
    match byte {
        b'\n' => "a line feed".into(),
        b' ' => "a blank".into(),
        b'!'..=b'~' => format!("\"{}\"", char::from(byte)),
        _ => format!("{byte:#04x}"),
    }
}

/// How far a header that is none is looked at.
const FARTHEST_LOOK: usize = 1 << 16;

/// How many bytes of a text could still become a header, where that ends soon. The port is
/// asked about shorter and longer fronts: a front of one that could is one that could.
fn break_of_header(text: &[u8]) -> Option<usize> {
    let (mut could, mut could_not) = (0, text.len().min(FARTHEST_LOOK) + 1);
    if could_not <= text.len() && may_become_header(&text[..could_not - 1]) {
        return None;
    }
    while could + 1 < could_not {
        let middle = could + (could_not - could) / 2;
        match may_become_header(&text[..middle]) {
            true => could = middle,
            false => could_not = middle,
        }
    }
    Some(could)
}

/// Whether some text behind this one makes it begin with a header: what is left of a whole
/// one, or a line feed before it, where a comment is open.
fn may_become_header(front: &[u8]) -> bool {
    const WHOLE: &[u8] = b"P5 1 1 1 ";
    let is_header = |text: Vec<u8>| {
        let mut unused = [0; 4];
        read_pgm(&text, 0, unused.each_mut()) != HEADER_MALFORMED
    };
    (0..=WHOLE.len()).any(|from| {
        let rest = &WHOLE[from..];
        is_header([front, rest].concat()) || is_header([front, b"\n", rest].concat())
    })
}

#[cfg(test)]
mod tests {
    use super::*;

    fn breaks(text: &[u8]) -> String {
        let mut unused = [0; 4];
        let refusal = read_pgm(text, 0, unused.each_mut());
        unread(text, 0, refusal)
    }

    #[test]
    fn the_byte_that_no_header_has_is_named() {
        let cases: [(&[u8], &str); 12] = [
            (b"", "the file ends at byte 0"),
            (b"P", "the file ends at byte 1"),
            (b"P6 1 1 255 abc", "no header goes on with \"6\" at byte 1"),
            (
                b"\nP5 1 1 255 a",
                "no header goes on with a line feed at byte 0",
            ),
            (b"P5x", "no header goes on with \"x\" at byte 2"),
            (
                b"P5 3,2 255 abcdef",
                "no header goes on with \",\" at byte 4",
            ),
            (b"P5 # comment", "the file ends at byte 12"),
            (b"P5#c\n3 2#", "the file ends at byte 9"),
            (b"P5#c\n3 2#\n\0", "no header goes on with 0x00 at byte 10"),
            (b"P5 3 2 255", "the file ends at byte 10"),
            (b"P5 3 2 255#", "no header goes on with \"#\" at byte 10"),
            (b"P5 3 2\n-255 ", "no header goes on with \"-\" at byte 7"),
        ];
        for (text, found) in cases {
            let said = breaks(text);
            let words = "the image at byte 0 cannot be read: a PGM header malformed or cut short, \
                         or a place past the file's end (refusal 13)";
            assert_eq!(said, format!("{words}: {found}"), "{text:?}");
        }
    }

    #[test]
    fn a_long_comment_is_looked_at_up_to_a_point() {
        let comment = |length: usize, end: &str| format!("P5 #{}{end}", "c".repeat(length));
        assert!(breaks(comment(1000, "\nx").as_bytes()).ends_with("with \"x\" at byte 1005"));
        assert!(breaks(comment(1 << 17, "\nx").as_bytes()).ends_with("(refusal 13)"));
    }

    #[test]
    fn other_refusals_are_told_by_their_words() {
        let cases: [(&[u8], &str); 3] = [
            (b"P5 8193 1 255 ", "a side over 8,192 (refusal 1)"),
            (
                b"P5 1 1 65535 ab",
                "a highest value other than 255 (refusal 14)",
            ),
            (
                b"P5 2 2 255 abc",
                "fewer samples than the header promises (refusal 15): the file ends at byte 14",
            ),
        ];
        for (text, why) in cases {
            assert_eq!(
                breaks(text),
                format!("the image at byte 0 cannot be read: {why}")
            );
        }
    }
}
