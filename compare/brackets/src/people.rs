//! The report as lines for people.

use naive::report::Report;
use port::{ALONE, CONTESTED, REFERENCE, Record, Shift, WEAK};

use crate::answers::{Answers, ITS_PARTS, Naive, ORIGINAL, PORT};
use crate::asked::Asked;
use crate::bracket::Bracket;
use crate::sentences::Sentence;
use crate::stepped::{Stepped, shift_of};

/// How many rivals a frame's line names.
const NAMED: usize = 10;

pub fn text(bracket: &Bracket, asked: &Asked, answers: &Answers) -> String {
    let mut text = files(bracket, asked);
    text += &terms(asked);
    text += &agreement(answers);
    for frame in 0..asked.frames() {
        text += &of_frame(asked, &answers.report, frame);
    }
    let crop = &answers.report.crop;
    text += &match crop.width * crop.height {
        0 => "crop: empty, no place is covered by every frame\n".into(),
        _ => format!(
            "crop: {} by {} from column {} and row {} on\n",
            crop.width, crop.height, crop.x, crop.y
        ),
    };
    text + &times(answers)
}

/// A line a file: which frames are its own.
fn files(bracket: &Bracket, asked: &Asked) -> String {
    let (width, height) = asked.size();
    let (mut text, mut first) = (String::new(), 0);
    for (name, images) in &bracket.files {
        let count = images.len();
        text += &match count {
            1 => format!("{name}: frame {first}"),
            _ => format!("{name}: frames {first} to {}", first + count - 1),
        };
        text += &format!(", {width} by {height}\n");
        first += count;
    }
    text
}

fn terms(asked: &Asked) -> String {
    let (stack, options, rivalry) = (asked.stack, asked.options, asked.rivalry);
    let percentiles = match stack.percentiles {
        all if trials::original::has_one(all) => format!("percentile {}", all[0]),
        each => {
            let each: Vec<String> = each.iter().map(u8::to_string).collect();
            format!("percentiles {}", each.join(","))
        }
    };
    format!(
        "terms: reference {}, bits {}, tolerance {}, {percentiles}, {}, reach {}, floor {}, margin {}\n",
        stack.reference,
        options.bits,
        options.tolerance,
        asked.halved(),
        rivalry.reach,
        grouped(rivalry.floor.into()),
        grouped(rivalry.margin.into())
    )
}

fn agreement(answers: &Answers) -> String {
    if let Some(difference) = answers.difference() {
        return format!("NOT THE SAME: {difference}\n");
    }
    let by: Vec<&str> = answers.told.iter().map(|told| told.by).collect();
    let (last, first) = by.split_last().expect("the port answers");
    let mut line = format!("{} and {last} agree on every shift", first.join(", "));
    line += match answers.naive {
        Naive::Report => ", port and naive on every verdict, rival and the crop too",
        Naive::Shifts => "; naive's report would take too long",
        Naive::None => "; naive would take too long",
        Naive::LeftOut => "; naive is left out",
    };
    if by.contains(&ITS_PARTS) {
        line += "; the original itself has one percentile for all frames";
    }
    line + "\n"
}

pub fn verdict(verdict: u8) -> &'static str {
    match verdict {
        REFERENCE => "reference",
        WEAK => "weak",
        ALONE => "alone",
        CONTESTED => "contested",
        _ => "unknown",
    }
}

fn of_frame(asked: &Asked, report: &Report, frame: usize) -> String {
    let Some(stepped) = Stepped::of(asked, report, frame) else {
        return format!("frame {frame}: reference\n");
    };
    let (shift, step) = (shift_of(report, frame), stepped.step);
    let mut line = format!("frame {frame}: shift {}", pair(shift));
    if step != shift {
        line += &format!(" ({} from frame {})", pair(step), stepped.on);
    }
    let verdict = verdict(report.verdicts[frame]);
    let [disagreeing, compared] =
        [stepped.counts.disagreeing, stepped.counts.compared].map(grouped);
    line += &format!(" {verdict}, {disagreeing} of {compared} compared disagree");
    line += &nearest(&stepped);
    if let Some(sentence) = Sentence::of(asked, report, &stepped) {
        line += &match sentence.about(frame) {
            own if own == frame => format!("; {sentence}"),
            other => format!("; of frame {other} {sentence}"),
        };
    }
    line + "\n"
}

/// The rivals that lie nearest, and how many more there are.
fn nearest(stepped: &Stepped) -> String {
    let mut rivals: Vec<&Record> = stepped.rivals.iter().collect();
    rivals.sort_by_key(|rival| {
        let [right, down] = stepped.off(rival);
        (stepped.distance(rival), right * right + down * down)
    });
    let named = rivals.iter().take(NAMED);
    let named: Vec<String> = named
        .map(|rival| pair(Shift::new(rival.x, rival.y)))
        .collect();
    let named = named.join(" ");
    match rivals.len() {
        0 => String::new(),
        1 => format!("; rival {named}"),
        2..=NAMED => format!("; rivals {named}"),
        more => format!(
            "; rivals {named} and {} more",
            grouped((more - NAMED) as u64)
        ),
    }
}

pub fn pair(shift: Shift) -> String {
    format!("{},{}", shift.x, shift.y)
}

/// A number with a comma before every three digits.
pub fn grouped(number: u64) -> String {
    let digits = number.to_string();
    let mut grouped = String::new();
    for (at, digit) in digits.chars().enumerate() {
        if at > 0 && (digits.len() - at).is_multiple_of(3) {
            grouped.push(',');
        }
        grouped.push(digit);
    }
    grouped
}

fn times(answers: &Answers) -> String {
    let of_port = answers.times.iter().find(|(by, _)| *by == PORT);
    let each = answers.times.iter().map(|(by, time)| {
        let said = format!("{by} {}", readable(*time));
        match of_port {
            Some((_, port)) if *by == ORIGINAL && *port >= 1e3 => {
                format!("{said}, {:.1} times the port's", time / port)
            }
            _ => said,
        }
    });
    format!("time: {}\n", each.collect::<Vec<_>>().join("; "))
}

/// Nanoseconds in a unit that has one to three digits before the point.
fn readable(nanoseconds: f64) -> String {
    match nanoseconds {
        ..1e6 => format!("{:.0} µs", nanoseconds / 1e3),
        ..1e9 => format!("{:.1} ms", nanoseconds / 1e6),
        _ => format!("{:.1} s", nanoseconds / 1e9),
    }
}

#[cfg(test)]
mod tests {
    use super::*;

    #[test]
    fn numbers_are_readable() {
        assert_eq!(
            [0, 999, 1_000, 67_108_864].map(grouped),
            ["0", "999", "1,000", "67,108,864"]
        );
        assert_eq!(readable(1_234.0), "1 µs");
        assert_eq!(readable(2_345_678.0), "2.3 ms");
        assert_eq!(readable(12_345_678_901.0), "12.3 s");
    }
}
