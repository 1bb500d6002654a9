//! The report as fields for a program: a line is a word and what it announces, blanks
//! between; a text that may have blanks stands last.

use std::fmt::Write;

use crate::answers::{Answers, Naive};
use crate::asked::Asked;
use crate::bracket::Bracket;
use crate::people::verdict;
use crate::sentences::Sentence;
use crate::stepped::{Stepped, shift_of};

pub fn text(bracket: &Bracket, asked: &Asked, answers: &Answers) -> String {
    let mut text = String::new();
    put(&mut text, bracket, asked, answers).expect("a string takes all");
    text
}

fn put(
    text: &mut String,
    bracket: &Bracket,
    asked: &Asked,
    answers: &Answers,
) -> Result<(), std::fmt::Error> {
    let mut first = 0;
    for (name, images) in &bracket.files {
        writeln!(text, "file {first} {} {name}", images.len())?;
        first += images.len();
    }
    let (width, height) = asked.size();
    writeln!(text, "frames {} {width} {height}", asked.frames())?;
    let (stack, options, rivalry) = (asked.stack, asked.options, asked.rivalry);
    writeln!(text, "reference {}", stack.reference)?;
    writeln!(text, "bits {}", options.bits)?;
    writeln!(text, "tolerance {}", options.tolerance)?;
    write!(text, "percentiles")?;
    for percentile in stack.percentiles {
        write!(text, " {percentile}")?;
    }
    writeln!(text, "\nhalved {}", asked.halved())?;
    writeln!(text, "reach {}", rivalry.reach)?;
    writeln!(text, "floor {}", rivalry.floor)?;
    writeln!(text, "margin {}", rivalry.margin)?;
    match answers.difference() {
        None => {
            let by: Vec<String> = answers.told.iter().map(|told| one_word(told.by)).collect();
            writeln!(text, "agree {}", by.join(" "))?;
        }
        Some(difference) => writeln!(text, "differ {difference}")?,
    }

    let of_naive = match answers.naive {
        Naive::Report => "report",
        Naive::Shifts => "shifts",
        Naive::None => "too_long",
        Naive::LeftOut => "left_out",
    };
    writeln!(text, "naive {of_naive}")?;

    let report = &answers.report;
    for frame in 0..asked.frames() {
        let (shift, verdict) = (shift_of(report, frame), verdict(report.verdicts[frame]));
        write!(text, "frame {frame} {} {} {verdict}", shift.x, shift.y)?;
        let Some(stepped) = Stepped::of(asked, report, frame) else {
            writeln!(text)?;
            continue;
        };
        let (step, counts) = (stepped.step, stepped.counts);
        writeln!(
            text,
            " {} {} {} {} {} {}",
            stepped.on,
            step.x,
            step.y,
            counts.disagreeing,
            counts.compared,
            stepped.rivals.len()
        )?;
        for rival in &stepped.rivals {
            writeln!(
                text,
                "rival {frame} {} {} {} {}",
                rival.x, rival.y, rival.disagreeing, rival.compared
            )?;
        }
        if let Some(sentence) = Sentence::of(asked, report, &stepped) {
            writeln!(text, "says {frame} {} {sentence}", sentence.about(frame))?;
        }
    }
    let crop = &report.crop;
    writeln!(
        text,
        "crop {} {} {} {}",
        crop.x, crop.y, crop.width, crop.height
    )?;
    for (by, nanoseconds) in &answers.times {
        writeln!(text, "time {} {:.3}", one_word(by), nanoseconds / 1e6)?;
    }
    Ok(())
}

fn one_word(by: &str) -> String {
    by.replace("'s ", "_")
}
