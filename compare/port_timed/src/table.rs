//! A table for each call: a row for each size, some columns for each kind of input.

use crate::Timed;

/// What stands in a table for a case.
pub trait Entry {
    fn case(&self) -> &Timed;
    /// The heads of its columns.
    fn heads(&self) -> String;
    /// Its figures, each as wide as its head.
    fn figures(&self) -> String;
}

/// The tables of all calls, in the order of the cases, each with an empty line before it.
pub fn tables(all: &[impl Entry]) -> String {
    let mut calls: Vec<&str> = Vec::new();
    for entry in all {
        let call = entry.case().call.as_str();
        if !calls.contains(&call) {
            calls.push(call);
        }
    }
    calls.into_iter().map(|call| table(call, all)).collect()
}

fn table<E: Entry>(call: &str, all: &[E]) -> String {
    let of_call: Vec<&E> = all
        .iter()
        .filter(|entry| entry.case().call == call)
        .collect();
    let mut kinds: Vec<&E> = Vec::new();
    for entry in &of_call {
        if kinds.iter().all(|kind| !alike(*kind, *entry)) {
            kinds.push(entry);
        }
    }

    let goals = of_call.iter().map(|entry| entry.case().goal);
    let goal = match (
        goals.clone().fold(f64::INFINITY, f64::min),
        goals.fold(0.0, f64::max),
    ) {
        (least, most) if least == most => format!("{least}"),
        (least, most) => format!("{least} to {most}"),
    };
    let mut text = format!("\n{:32}", format!("{call}, goal {goal}"));
    for entry in &kinds {
        let columns = entry.heads().len();
        text += &format!("{:>columns$}", entry.case().kind);
    }
    text += &format!("\n{:32}", "");
    for entry in &kinds {
        text += &entry.heads();
    }
    text += "\n";

    for row in of_call.chunk_by(|one, next| one.case().size == next.case().size) {
        let (width, height) = row[0].case().size;
        text += &format!("{:32}", format!("{width}x{height}"));
        for kind in &kinds {
            text += &match row.iter().find(|entry| alike(**entry, *kind)) {
                Some(entry) => entry.figures(),
                None => " ".repeat(kind.heads().len()),
            };
        }
        text += "\n";
    }
    text
}

fn alike(one: &impl Entry, other: &impl Entry) -> bool {
    one.case().kind == other.case().kind
}

/// Tenths only where they say something.
pub fn nanoseconds(time: f64) -> String {
    let tenths = if time < 100.0 { 1 } else { 0 };
    format!("{time:.tenths$}")
}
