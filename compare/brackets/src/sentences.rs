//! What a frame's line ends with: the sentence of docs/TERMS.md that applies to it.

use std::fmt;

use naive::report::Report;
use port::{ALONE, CONTESTED, Record, WEAK};
use trials::advice;

use crate::asked::Asked;
use crate::packed::Packed;
use crate::stepped::Stepped;

/// They stand in docs/TERMS.md word for word.
#[derive(Clone, Copy, Debug, PartialEq, Eq)]
pub enum Sentence {
    /// What can be compared of a frame, or of the one that it steps against, lies all above
    /// its cut or all below.
    OneSided {
        frame: usize,
        remedy: Remedy,
    },
    FarApart,
    TooFew,
    NoFit,
    Near,
    Pitch,
    Edge,
    Others,
    NoReach,
    Total,
}

#[derive(Clone, Copy, Debug, PartialEq, Eq)]
pub enum Remedy {
    Lower,
    Higher,
    Light,
}

pub const ALL: [Sentence; 12] = [
    Sentence::OneSided {
        frame: 0,
        remedy: Remedy::Lower,
    },
    Sentence::OneSided {
        frame: 0,
        remedy: Remedy::Higher,
    },
    Sentence::OneSided {
        frame: 0,
        remedy: Remedy::Light,
    },
    Sentence::FarApart,
    Sentence::TooFew,
    Sentence::NoFit,
    Sentence::Near,
    Sentence::Pitch,
    Sentence::Edge,
    Sentence::Others,
    Sentence::NoReach,
    Sentence::Total,
];

impl fmt::Display for Sentence {
    fn fmt(&self, f: &mut fmt::Formatter) -> fmt::Result {
        f.write_str(match self {
            Sentence::OneSided { remedy, .. } => match remedy {
                Remedy::Lower => "nothing lies on one side of the cut: try percentile 17",
                Remedy::Higher => "nothing lies on one side of the cut: try percentile 83",
                Remedy::Light => "nothing lies on one side of the cut: change the light",
            },
            Sentence::FarApart => "cut more than 5 percent apart: two frames disagree where they match",
            Sentence::TooFew => "too few pixels to say: change the light or the percentile",
            Sentence::NoFit => "no shift fits: did it move farther than the bits reach?",
            Sentence::Near => "all rivals lie within three pixels of the step",
            Sentence::Pitch => "one pitch away: a row of equal pins?",
            Sentence::Edge => "every shift along an edge fits: an even part?",
            Sentence::Others => {
                "other shifts fit as well: take another exposure, or a window that has texture or the end of a row in it"
            }
            Sentence::NoReach => "at this reach no other shift is looked at",
            Sentence::Total => "its total rests on a step that is not alone",
        })
    }
}

impl Sentence {
    /// The first that applies to a frame, if one does.
    pub fn of(asked: &Asked, report: &Report, stepped: &Stepped) -> Option<Self> {
        let of_pair = [stepped.frame, stepped.on];
        let percentiles = of_pair.map(|frame| asked.stack.percentiles[frame]);
        let is_far_apart = percentiles[0].abs_diff(percentiles[1]) > advice::MOST_APART;
        let verdict = report.verdicts[stepped.frame];
        if verdict == ALONE {
            return if asked.rivalry.reach <= 1 {
                Some(Sentence::NoReach)
            } else if is_far_apart {
                Some(Sentence::FarApart)
            } else {
                rests_on_others(asked, report, stepped.on).then_some(Sentence::Total)
            };
        }
        let one_sided = |frame| {
            let remedy = remedy(asked, frame)?;
            Some(Sentence::OneSided { frame, remedy })
        };
        if let Some(found) = of_pair.into_iter().find_map(one_sided) {
            return Some(found);
        }
        match verdict {
            _ if is_far_apart => Some(Sentence::FarApart),
            WEAK => Some(Sentence::TooFew),
            CONTESTED => Some(contested(stepped, asked.rivalry.reach)),
            _ => None,
        }
    }

    /// The frame that a sentence on another is about.
    pub fn about(self, frame: usize) -> usize {
        match self {
            Sentence::OneSided { frame, .. } => frame,
            _ => frame,
        }
    }
}

/// Whether a frame from this one to the reference is not alone.
fn rests_on_others(asked: &Asked, report: &Report, mut at: usize) -> bool {
    while !asked.is_reference(at) {
        if report.verdicts[at] != ALONE {
            return true;
        }
        at = asked.neighbour(at);
    }
    false
}

/// What to do about a frame whose pixels that can be compared all lie on one side of its
/// cut; nothing if they do not, or if there are none.
fn remedy(asked: &Asked, frame: usize) -> Option<Remedy> {
    let percentile = asked.stack.percentiles[frame];
    let [below, above] = Packed::of(asked, frame).sides();
    match (below > 0, above > 0) {
        (true, false) if percentile > advice::OF_WHITE => Some(Remedy::Lower),
        (false, true) if percentile < advice::OF_BLACK => Some(Remedy::Higher),
        (true, false) | (false, true) => Some(Remedy::Light),
        _ => None,
    }
}

/// A contested step by how well it fits, and then by where its rivals lie.
fn contested(stepped: &Stepped, reach: u32) -> Sentence {
    let Stepped { counts, rivals, .. } = stepped;
    if counts.compared == 0 {
        return Sentence::TooFew;
    }
    if advice::NO_MATCH * counts.disagreeing >= counts.compared {
        return Sentence::NoFit;
    }
    let is_near = |rival| stepped.distance(rival) <= advice::NEAR;
    if rivals.iter().all(is_near) {
        return Sentence::Near;
    }
    let apart = apart(stepped, reach);
    let is_along = |rival: &&Record| stepped.off(rival).into_iter().any(|off| off <= 1);
    match &apart[..] {
        [] => Sentence::Edge,
        some if some.iter().any(is_along) => Sentence::Pitch,
        _ => Sentence::Others,
    }
}

/// The rivals that no run of rivals, each next to the one before, joins to the step or to
/// the shifts next to it.
fn apart(stepped: &Stepped, reach: u32) -> Vec<&Record> {
    let Stepped { step, rivals, .. } = stepped;
    let reach = reach as i32;
    let side = 2 * reach + 1;
    let place = |x: i32, y: i32| {
        let (column, row) = (x - step.x + reach, y - step.y + reach);
        let is_inside = (0..side).contains(&column) && (0..side).contains(&row);
        is_inside.then(|| (row * side + column) as usize)
    };
    let mut waiting = vec![false; (side * side) as usize];
    for rival in rivals {
        waiting[place(rival.x, rival.y).expect("a rival within reach")] = true;
    }
    let around = |x: i32, y: i32| {
        let offsets = (-1..=1).flat_map(|down| (-1..=1).map(move |right| (right, down)));
        offsets.map(move |(right, down)| (x + right, y + down))
    };
    let mut joined: Vec<(i32, i32)> = around(step.x, step.y).collect();
    while let Some((x, y)) = joined.pop() {
        for (x, y) in around(x, y) {
            if let Some(at) = place(x, y)
                && waiting[at]
            {
                waiting[at] = false;
                joined.push((x, y));
            }
        }
    }
    let is_left = |rival: &&Record| waiting[place(rival.x, rival.y).expect("within reach")];
    rivals.iter().filter(is_left).collect()
}

#[cfg(test)]
mod tests {
    use naive::difference::Counts;
    use port::Shift;

    use super::*;

    const TERMS: &str = include_str!("../../../docs/TERMS.md");

    #[test]
    fn every_sentence_stands_in_the_page() {
        for sentence in ALL {
            assert!(TERMS.contains(&format!("| {sentence} |")), "{sentence}");
        }
    }

    fn of(disagreeing: u64, rivals: &[(i32, i32)]) -> Sentence {
        let record = |&(x, y): &(i32, i32)| Record {
            frame: 1,
            x,
            y,
            disagreeing: 0,
            compared: 0,
        };
        let stepped = Stepped {
            frame: 1,
            on: 0,
            step: Shift::new(5, -3),
            counts: Counts {
                disagreeing,
                compared: 1000,
            },
            rivals: rivals.iter().map(record).collect(),
        };
        contested(&stepped, 14)
    }

    #[test]
    fn a_contested_step_is_told_by_where_its_rivals_lie() {
        assert_eq!(of(0, &[(7, -3), (5, -6)]), Sentence::Near);
        assert_eq!(of(0, &[(13, -3), (-3, -3)]), Sentence::Pitch);
        assert_eq!(of(0, &[(6, 5)]), Sentence::Pitch);
        assert_eq!(of(0, &[(7, -3), (8, -4), (9, -5)]), Sentence::Edge);
        assert_eq!(of(0, &[(7, -3), (9, -5)]), Sentence::Others);
        assert_eq!(of(0, &[(7, -3), (9, -3)]), Sentence::Pitch);
        assert_eq!(of(199, &[(13, -3)]), Sentence::Pitch);
        assert_eq!(of(200, &[(13, -3)]), Sentence::NoFit);
    }
}
