//! Port, original and naive on a bracket of PGM files, and the report of it. `--help` says
//! what can be asked.

use std::env;
use std::io::{self, Write};
use std::process::ExitCode;

use brackets::answers::{self, Answers};
use brackets::arguments::{self, Arguments, USAGE, Wanted};
use brackets::bracket::Bracket;
use brackets::names::in_one_line;
use brackets::out::{self, Folder};
use brackets::watch::watched;
use brackets::{people, plain, sources};

fn main() -> ExitCode {
    let words = || env::args_os().skip(1);
    let done = sources::build_if_changed(words()).and_then(|()| match arguments::read(words()) {
        Ok(Wanted::Help) => print(USAGE).map(|()| true),
        Ok(Wanted::Run(arguments)) => run(&arguments),
        Err(why) => Err(format!("{why}\n{USAGE}")),
    });
    match done {
        Ok(true) => ExitCode::SUCCESS,
        Ok(false) => ExitCode::from(1),
        Err(why) => {
            // Where that cannot be said either, the status says it.
            _ = writeln!(io::stderr(), "hall: {why}");
            ExitCode::from(2)
        }
    }
}

/// Whether all agree.
fn run(arguments: &Arguments) -> Result<bool, String> {
    let bracket = watched("reading", || Bracket::read(&arguments.files))?;
    let percentiles = arguments.given.percentiles(bracket.widths.len())?;
    let asked = arguments.given.asked(&bracket, &percentiles);
    answers::check(&asked, &bracket)?;
    let mut folder = match &arguments.out {
        Some(path) => Some(Folder::open(path)?),
        None => None,
    };
    let answers = Answers::of(&asked, arguments.has_naive);
    let text = watched("what is said of each frame", || match arguments.is_plain {
        true => plain::text(&bracket, &asked, &answers),
        false => people::text(&bracket, &asked, &answers),
    });
    print(&text)?;
    if let Some(folder) = &mut folder {
        let files = watched("the pictures", || out::files(&asked, &answers.report));
        watched("writing", || folder.write(&files))?;
        let (count, path) = (files.len(), in_one_line(folder.path()));
        print(&match arguments.is_plain {
            true => format!("written {count} {path}\n"),
            false if count == 1 => format!("written: 1 file to {path}\n"),
            false => format!("written: {count} files to {path}\n"),
        })?;
    }
    Ok(answers.difference().is_none())
}

fn print(text: &str) -> Result<(), String> {
    let mut out = io::stdout().lock();
    let written = out.write_all(text.as_bytes()).and_then(|()| out.flush());
    written.map_err(|why| format!("the output is not complete: {why}"))
}
