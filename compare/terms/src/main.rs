//! How often the report's verdicts are right, by the terms that it is asked with: the
//! tables of docs/TERMS.md. Prints them; with `--seed N` those of another seed; with
//! `--check` holds the page against them, with `--write` puts them into it. Names after
//! that choose tables. With `--terms` and seven numbers prints a table of the caller's own
//! terms, with `--time` how long a report takes.

mod ask;
mod example;
mod given;
mod lights;
mod page;
mod reaches;
mod rows;
mod searches;
mod sentences;
mod table;
mod times;
mod verdicts;

use std::process::ExitCode;
use std::{env, fs};

use ask::Terms;

/// The page's.
const SEED: u64 = 20_030_602;

/// A table's name, and the table that a seed gives.
type Table = (&'static str, fn(u64) -> String);

const TABLES: [Table; 18] = [
    ("reach-of-program", reaches::reach_of_program),
    ("reach", reaches::reach),
    ("reach-and-tremble", reaches::reach_and_tremble),
    ("pitch", reaches::pitch),
    ("bits", searches::bits),
    ("floor", lights::floor),
    ("margin", searches::margin),
    ("tolerance", searches::tolerance),
    ("percentile", lights::percentile),
    ("percentiles-apart", lights::percentiles_apart),
    ("exposure", lights::exposure),
    ("clipped", lights::clipped),
    ("large-frames", reaches::large_frames),
    ("example", example::example),
    ("verdicts", verdicts::verdicts),
    ("totals", verdicts::totals),
    ("sentences", sentences::sentences),
    ("followed", sentences::followed),
];

fn main() -> ExitCode {
    let arguments: Vec<String> = env::args().skip(1).collect();
    let arguments: Vec<&str> = arguments.iter().map(String::as_str).collect();
    let done = match arguments[..] {
        ["--time"] => {
            print!("{}", page::marked("times", &times::times(SEED)));
            Ok(())
        }
        ["--terms", ref numbers @ ..] => print_own(numbers),
        ["--seed", seed, ref names @ ..] => match seed.parse() {
            Ok(seed) => print_tables(names, seed),
            Err(_) => Err(format!("{seed} is no seed")),
        },
        ["--check", ref names @ ..] => hold_page(names, false),
        ["--write", ref names @ ..] => hold_page(names, true),
        ref names => print_tables(names, SEED),
    };
    match done {
        Ok(()) => ExitCode::SUCCESS,
        Err(why) => {
            eprintln!("{why}");
            ExitCode::FAILURE
        }
    }
}

/// The tables that are named, or all.
fn named(names: &[&str]) -> Result<Vec<Table>, String> {
    let known = TABLES.map(|(name, _)| name);
    if let Some(other) = names.iter().find(|name| !known.contains(name)) {
        return Err(format!("no table {other}; there are {}", known.join(", ")));
    }
    let is_named = |table: &Table| names.is_empty() || names.contains(&table.0);
    Ok(TABLES.into_iter().filter(is_named).collect())
}

fn print_tables(names: &[&str], seed: u64) -> Result<(), String> {
    for (name, table) in named(names)? {
        println!("{}", page::marked(name, &table(seed)));
    }
    Ok(())
}

/// A table of the terms that the numbers give, for frames that tremble by the last.
fn print_own(numbers: &[&str]) -> Result<(), String> {
    let most = [u32::MAX, 255, 100, 64, u32::MAX, u32::MAX, 64];
    let read = |(text, most): (&&str, u32)| text.parse().ok().filter(|&number| number <= most);
    let read: Option<Vec<u32>> = numbers.iter().zip(most).map(read).collect();
    let (Some(read), true) = (read, numbers.len() == most.len()) else {
        return Err(
            "--terms takes bits, tolerance (to 255), percentile (to 100), reach (to 64), \
             floor, margin and tremble (to 64)"
                .into(),
        );
    };
    let terms = Terms {
        bits: read[0],
        tolerance: read[1] as u8,
        percentiles: [read[2] as u8; 2],
        reach: read[3],
        floor: read[4],
        margin: read[5],
    };
    print!("{}", example::own(terms, read[6].into(), SEED));
    Ok(())
}

/// Holds the page against tables, or writes them there.
fn hold_page(names: &[&str], is_written: bool) -> Result<(), String> {
    let path = page::path();
    let failed = |why| format!("{}: {why}", path.display());
    let mut text = fs::read_to_string(&path).map_err(failed)?;
    let tables = named(names)?;
    let mut differing = Vec::new();
    for (name, table) in &tables {
        let with = page::with(&text, name, &table(SEED));
        let with = with.ok_or_else(|| format!("the page has no place for the table {name}"))?;
        if with != text {
            differing.push(*name);
        }
        text = with;
    }
    let count = tables.len();
    match (differing.is_empty(), is_written) {
        (true, _) => println!("{count} tables stand in the page as made"),
        (false, true) => {
            fs::write(&path, text).map_err(failed)?;
            println!("written: {}", differing.join(", "));
        }
        (false, false) => return Err(format!("not as made: {}", differing.join(", "))),
    }
    Ok(())
}
