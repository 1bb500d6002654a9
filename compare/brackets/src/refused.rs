//! What the numbers of refusals mean, in the words of `mtb.h`.

use port::Values;
use port::refusals::{NO_SUCH_REFERENCE, SIZES_DIFFER};

use crate::bracket::Bracket;

const MTB_H: &str = include_str!("../../../crates/mtb_c/mtb.h");

/// The comment that stands beside a number in the list of statuses.
pub fn words(number: u32) -> &'static str {
    let list = MTB_H.split("enum mtb_status {").nth(1);
    let list = list.and_then(|list| list.split("};").next());
    let of_line = |line: &'static str| {
        let (_, rest) = line.split_once(" = ")?;
        let digits = rest.split(|c: char| !c.is_ascii_digit()).next()?;
        let (_, comment) = rest.split_once("/* ")?;
        (digits.parse() == Ok(number)).then(|| comment.trim_end_matches("*/").trim_end())
    };
    let mut lines = list.into_iter().flat_map(str::lines);
    lines.find_map(of_line).unwrap_or("refused")
}

/// The same with the number, and with the values that come with it.
pub fn sentence(number: u32, values: &Values, bracket: &Bracket) -> String {
    let told = match number {
        SIZES_DIFFER => {
            let &[width, height, other_width, other_height, frame] = values;
            let place = bracket.place(frame);
            format!(
                ": frame {frame}, {place}, is {other_width} by {other_height}, the one next to it \
                 {width} by {height}"
            )
        }
        NO_SUCH_REFERENCE => {
            let [reference, frames, ..] = values;
            let plural = if *frames == 1 { "" } else { "s" };
            format!(": {reference} of {frames} frame{plural}, which count from 0")
        }
        _ => String::new(),
    };
    format!("{} (refusal {number}){told}", words(number))
}

#[cfg(test)]
mod tests {
    use super::*;

    #[test]
    fn every_number_has_words_of_its_own() {
        let all: Vec<&str> = (1..=15).map(words).collect();
        assert_eq!(all[0], "a side over 8,192");
        assert_eq!(
            all[12],
            "a PGM header malformed or cut short, or a place past the file's end"
        );
        assert_eq!(all[14], "fewer samples than the header promises");
        for (at, words) in all.iter().enumerate() {
            assert!(!words.is_empty() && !all[..at].contains(words), "{words}");
        }
        assert_eq!(words(99), "refused");
    }

    #[test]
    fn values_are_told() {
        let bracket = Bracket {
            files: vec![("one".into(), vec![0]), ("two".into(), vec![0, 653])],
            widths: vec![],
            heights: vec![],
            samples: vec![],
        };
        assert_eq!(
            sentence(4, &[32, 20, 31, 20, 2], &bracket),
            "sizes differ (refusal 4): frame 2, two at byte 653, is 31 by 20, the one next to it \
             32 by 20"
        );
        assert_eq!(
            sentence(5, &[1, 1, 0, 0, 0], &bracket),
            "no such reference (refusal 5): 1 of 1 frame, which count from 0"
        );
    }
}
