//! Two commits beside each other, from the plain lines of many runs of each: what every
//! case takes before and after, which goals it gains or loses, and which calls are to be
//! timed again.

use crate::frames;
use crate::table::{self, Entry};
use crate::{Timed, below, call_of, calls};

/// A case that is slower than this is named, and its call timed again.
const SLOWER: f64 = 0.98;

/// Whether a goal is missed before and after.
const LOST: [bool; 2] = [false, true];
const WON: [bool; 2] = [true, false];

/// A case as one plain line: call, width, height, kind, goal, original, port.
pub fn plain(timed: &Timed) -> String {
    let ((width, height), [original, port]) = (timed.size, timed.times);
    let (call, kind, goal) = (&timed.call, &timed.kind, timed.goal);
    format!("{call}\t{width}\t{height}\t{kind}\t{goal}\t{original:.3}\t{port:.3}")
}

fn parsed(line: &str) -> Option<Timed> {
    let fields: Vec<&str> = line.split('\t').collect();
    let [call, width, height, kind, goal, original, port] = fields[..] else {
        return None;
    };
    let above_zero = |field: &str| {
        let number: Option<f64> = field.parse().ok();
        number.filter(|number| number.is_finite() && *number > 0.0)
    };
    let named = |field: &str| (!field.is_empty()).then(|| field.to_owned());
    Some(Timed {
        call: named(call)?,
        goal: above_zero(goal)?,
        size: (width.parse().ok()?, height.parse().ok()?),
        kind: named(kind)?,
        times: [above_zero(original)?, above_zero(port)?],
        opencv: None,
    })
}

/// The cases of a side in the order of its first run, each with the times of all its runs.
fn side(name: &str, text: &str) -> Result<Vec<Timed>, String> {
    let mut cases: Vec<(Timed, [Vec<f64>; 2])> = Vec::new();
    for (number, line) in (1..).zip(text.lines()) {
        let Some(timed) = parsed(line) else {
            return Err(format!("{name}, line {number} is no timed case: {line}"));
        };
        let runs = timed.times.map(|time| vec![time]);
        match cases.iter_mut().find(|(known, _)| known.is_case(&timed)) {
            Some((_, known)) => known
                .iter_mut()
                .zip(runs)
                .for_each(|(all, one)| all.extend(one)),
            None => cases.push((timed, runs)),
        }
    }
    let merged = cases.into_iter().map(|(timed, runs)| Timed {
        times: runs.map(quarter),
        ..timed
    });
    Ok(merged.collect())
}

/// The time within which a quarter of the runs stay. The least one hangs on a few that were
/// lucky in where their memory lay, the middle one on other work on the machine.
fn quarter(mut runs: Vec<f64>) -> f64 {
    runs.sort_by(f64::total_cmp);
    runs[(runs.len() - 1) / 4]
}

/// A case that both sides have.
struct Both {
    before: Timed,
    after: Timed,
}

impl Both {
    fn ratio(&self) -> f64 {
        self.before.times[1] / self.after.times[1]
    }

    /// As far as the three printed decimals tell.
    fn is_slower(&self) -> bool {
        below(self.ratio(), SLOWER, 3)
    }

    /// Before and after, by the goal that the case has now.
    fn misses(&self) -> [bool; 2] {
        [&self.before, &self.after].map(|side| side.is_below(self.after.goal))
    }
}

impl Entry for Both {
    fn case(&self) -> &Timed {
        &self.after
    }

    fn heads(&self) -> String {
        format!("{:>13}{:>12}{:>8}", "before", "after", "ratio")
    }

    fn figures(&self) -> String {
        let [before, after] =
            [&self.before, &self.after].map(|side| table::nanoseconds(side.times[1]));
        let mark = if self.is_slower() { "<" } else { " " };
        format!("{before:>13}{after:>12}{:>7.3}{mark}", self.ratio())
    }
}

/// Two sides, merged.
pub struct Beside {
    cases: Vec<Both>,
    /// Cases that one side lacks.
    only_before: Vec<Timed>,
    only_after: Vec<Timed>,
}

/// Merges the plain lines of all runs before and of all runs after.
pub fn merged(before: &str, after: &str) -> Result<Beside, String> {
    let (mut before, mut after) = (side("before", before)?, side("after", after)?);
    // The original is the same on both sides, so both are held to its lesser time.
    for one in &mut before {
        if let Some(other) = after.iter_mut().find(|other| other.is_case(one)) {
            let lesser = one.times[0].min(other.times[0]);
            (one.times[0], other.times[0]) = (lesser, lesser);
        }
    }
    for side in [&mut before, &mut after] {
        side.extend(frames::packing_alone(side));
    }

    let mut cases = Vec::new();
    let mut only_after = Vec::new();
    for after in after {
        match before.iter().position(|before| before.is_case(&after)) {
            Some(place) => cases.push(Both {
                before: before.remove(place),
                after,
            }),
            None => only_after.push(after),
        }
    }
    Ok(Beside {
        cases,
        only_before: before,
        only_after,
    })
}

impl Beside {
    /// The tables, and below them what they come to.
    pub fn said(&self) -> String {
        let ratios = self.cases.iter().map(Both::ratio);
        let mut text = table::tables(&self.cases);
        text += &format!("\ncases timed on both sides: {}\n", self.cases.len());
        if !self.cases.is_empty() {
            let mean = ratios.clone().sum::<f64>() / self.cases.len() as f64;
            let least = ratios.fold(f64::INFINITY, f64::min);
            text += &format!("mean ratio {mean:.3}, least {least:.3}\n");
        }
        for (head, lacking) in [
            ("timed before alone", &self.only_before),
            ("timed after alone", &self.only_after),
        ] {
            text += &listed(head, lacking.iter().map(Timed::case_name));
        }

        let slower = self.cases.iter().filter(|case| case.is_slower());
        text += &listed(
            &format!("below {SLOWER}"),
            slower.map(|case| format!("{}, ratio {:.3}", case.after.case_name(), case.ratio())),
        );
        for (head, misses) in [
            ("goal met before and missed now", LOST),
            ("goal missed before and met now", WON),
        ] {
            let such = self.cases.iter().filter(|case| case.misses() == misses);
            text += &listed(
                head,
                such.map(|Both { before, after }| {
                    let (case, goal, peer) = (after.case_name(), after.goal, after.peer());
                    let [before, after] = [before, after].map(Timed::ratio);
                    format!(
                        "{case}, goal {goal}, {peer} to port {before:.2} before, {after:.2} now"
                    )
                }),
            );
        }
        text
    }

    /// The calls that have a loss, in their order. The more runs, the less hangs on chance:
    /// a loss by chance mostly goes, and a true one stays.
    pub fn again(&self) -> Result<Vec<&'static str>, String> {
        let mut with_loss = Vec::new();
        for case in &self.cases {
            let Some(call) = call_of(&case.after.call) else {
                return Err(format!("of no call: {}", case.after.case_name()));
            };
            if case.is_slower() || case.misses() == LOST {
                with_loss.push(call);
            }
        }
        let names = calls().map(|(name, ..)| *name);
        Ok(names.filter(|name| with_loss.contains(name)).collect())
    }
}

/// A line for each, or one that says that there are none.
fn listed(head: &str, items: impl Iterator<Item = String>) -> String {
    let lines: String = items.map(|item| format!("{head}: {item}\n")).collect();
    if lines.is_empty() {
        format!("{head}: none\n")
    } else {
        lines
    }
}

#[cfg(test)]
mod tests;
