//! Trials of calls on seeded inputs, and what is said where two answers differ.

use std::fmt::{Debug, Display};
use std::process::ExitCode;

use crate::inputs::Random;

/// Nothing where all agreed, else the input and the answers.
pub type Outcome = Result<(), String>;

/// A call, how many inputs it is tried on, and the trial of one. The number of the
/// case is there for what has to be gone through in turn.
pub struct Call {
    name: &'static str,
    cases: usize,
    check: fn(&mut Random, usize) -> Outcome,
}

pub const fn call(
    name: &'static str,
    cases: usize,
    check: fn(&mut Random, usize) -> Outcome,
) -> Call {
    Call { name, cases, check }
}

const USUAL_SEED: u64 = 20_030_601;

/// Tries every call with the seed of the command line, or the usual one, up to the
/// first disagreement. `who` says who agreed.
pub fn run(calls: &[Call], who: &str) -> ExitCode {
    let seed = match std::env::args().nth(1).map(|seed| seed.parse()) {
        None => USUAL_SEED,
        Some(Ok(seed)) => seed,
        Some(Err(_)) => {
            eprintln!("the seed has to be a whole number");
            return ExitCode::FAILURE;
        }
    };

    let mut total = 0;
    for (number, call) in calls.iter().enumerate() {
        for case in 0..call.cases {
            // Every case has a stream of its own, so it can be told apart by its number.
            let stream = Random::new(seed ^ ((number as u64) << 48)).word();
            let mut random = Random::new(stream.wrapping_add(case as u64));
            if let Err(difference) = (call.check)(&mut random, case) {
                println!("{}: seed {seed}, case {case}: {difference}", call.name);
                return ExitCode::FAILURE;
            }
        }
        println!("{:19} {:5} cases agreed", call.name, call.cases);
        total += call.cases;
    }
    println!("total {total} cases agreed: {who}");
    ExitCode::SUCCESS
}

/// Agreement of two answers to one input, each with the name of its side.
pub fn same<T: PartialEq + Debug + ?Sized>(
    input: impl Display,
    one: (&str, &T),
    other: (&str, &T),
) -> Outcome {
    if one.1 == other.1 {
        return Ok(());
    }
    let texts = [one.1, other.1].map(|answer| format!("{answer:?}"));
    let alike = texts[0].bytes().zip(texts[1].bytes());
    let first = alike.take_while(|(one, other)| one == other).count();
    // Answers may be long: some of it before they part, more after.
    let shown = |text: &str| -> String {
        let skipped = first.saturating_sub(100);
        let dots = if skipped > 0 { "..." } else { "" };
        let part = text.chars().skip(skipped).take(600);
        dots.chars().chain(part).collect()
    };
    Err(format!(
        "{input}\n  {:8} {}\n  {:8} {}",
        one.0,
        shown(&texts[0]),
        other.0,
        shown(&texts[1])
    ))
}
