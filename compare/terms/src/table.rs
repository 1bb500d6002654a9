//! Tables of counts: a row is what is photographed, a column a choice of terms.

use trials::camera::{Bracket, Shot};
use trials::inputs::Random;

use crate::ask::{Answer, Terms, Verdict, ask};

/// A row's name, what is photographed for it, in equal shares, and the terms of its columns.
pub struct Row {
    pub name: String,
    pub shots: Vec<Shot>,
    pub terms: Vec<Terms>,
}

/// How many frames had each answer.
#[derive(Clone, Default)]
pub struct Tally {
    alone_right: usize,
    alone_wrong: usize,
    contested: usize,
    weak: usize,
}

impl Tally {
    pub fn add(&mut self, answer: &Answer) {
        *match (answer.verdict, answer.is_right) {
            (Verdict::Alone, true) => &mut self.alone_right,
            (Verdict::Alone, false) => &mut self.alone_wrong,
            (Verdict::Contested, _) => &mut self.contested,
            (Verdict::Weak, _) => &mut self.weak,
        } += 1;
    }

    pub fn cell(&self) -> String {
        let wrong = warned(self.alone_wrong);
        let (right, contested, weak) = (self.alone_right, self.contested, self.weak);
        format!("{right} / {wrong} / {contested} / {weak}")
    }
}

/// A number that should be 0 stands out where it is not.
pub fn warned(number: usize) -> String {
    match number {
        0 => "0".into(),
        _ => format!("**{number}**"),
    }
}

/// The brackets of a row. Each shot starts from the seed, so that shots which differ only
/// in exposure or noise have the same scenes and moves.
pub fn brackets(shots: &[Shot], count: usize, seed: u64) -> Vec<Bracket> {
    let each = count / shots.len();
    assert_eq!(each * shots.len(), count, "the shares are not equal");
    let of_shot = |shot: &Shot| -> Vec<Bracket> {
        let mut random = Random::new(seed);
        (0..each).map(|_| shot.taken(&mut random)).collect()
    };
    shots.iter().flat_map(of_shot).collect()
}

/// Every cell counts the same number of brackets, of two frames each.
pub fn of_verdicts(head: &[&str], rows: Vec<Row>, count: usize, seed: u64) -> String {
    with_sums(head, rows, count, seed).0
}

/// The same, and a last row for all brackets together.
pub fn of_verdicts_summed(head: &[&str], rows: Vec<Row>, count: usize, seed: u64) -> String {
    let (table, sums) = with_sums(head, rows, count, seed);
    table + &markdown_row("all", &cells(&sums))
}

fn with_sums(head: &[&str], rows: Vec<Row>, count: usize, seed: u64) -> (String, Vec<Tally>) {
    let mut table = markdown_head(head);
    let mut sums = vec![Tally::default(); head.len() - 1];
    for row in rows {
        let brackets = brackets(&row.shots, count, seed);
        let mut tallies = vec![Tally::default(); row.terms.len()];
        for (column, terms) in row.terms.iter().enumerate() {
            for bracket in &brackets {
                let answer = ask(bracket, terms)[0];
                tallies[column].add(&answer);
                sums[column].add(&answer);
            }
        }
        table += &markdown_row(&row.name, &cells(&tallies));
    }
    (table, sums)
}

fn cells(tallies: &[Tally]) -> Vec<String> {
    tallies.iter().map(Tally::cell).collect()
}

pub fn markdown_head(head: &[&str]) -> String {
    format!("| {} |\n|{}\n", head.join(" | "), "---|".repeat(head.len()))
}

pub fn markdown_row(name: &str, cells: &[String]) -> String {
    format!("| {name} | {} |\n", cells.join(" | "))
}
