//! Writes the vectors into `data/` and into the inputs of the programs that replay
//! them, or, with `--check`, makes them in memory and holds them against the files
//! there. With `--netpbm` holds greymaps against Netpbm, where that is at hand.

mod bitmaps;
mod brackets;
mod cases;
mod images;
mod line;
mod matches;
mod mosaics;
mod neighbours;
mod netpbm;
mod pgm;
mod pgm_stacks;
mod pgm_writes;
mod planes;
mod programs;
mod reports;
mod shifts;
mod stacks;
mod steps;
mod unequal;

use std::collections::{BTreeMap, BTreeSet};
use std::io;
use std::path::{Path, PathBuf};
use std::process::ExitCode;
use std::{env, fs};

use naive::gray::Frame;
use trials::inputs::Random;

/// Fixed, since the files are kept.
const SEED: u64 = 20_030_602;

/// A file's name and the lines of its call. `crates/try_vectors` knows a call by its
/// place here, from 1 on.
type Calls = [(&'static str, fn(&mut Random) -> Vec<String>); 24];

const CALLS: Calls = [
    ("from_rgb", images::from_rgb),
    ("shrink2", images::shrink2),
    ("shifted", images::shifted),
    ("threshold", images::threshold),
    ("compute_bitmaps", images::compute_bitmaps),
    ("pyramid", images::pyramid),
    ("level", images::level),
    ("get", bitmaps::get),
    ("set", bitmaps::set),
    ("count_ones", bitmaps::count_ones),
    ("row", bitmaps::row),
    ("disagreement", bitmaps::disagreement),
    ("doubled", shifts::doubled),
    ("offset", shifts::offset),
    ("common_crop", shifts::common_crop),
    ("shift", steps::shift),
    ("align_stack", stacks::align_stack),
    ("report", reports::report),
    ("read_pgm", pgm::read_pgm),
    ("read_stack", pgm_stacks::read_stack),
    ("write_pgm", pgm_writes::write_pgm),
    ("take_apart", mosaics::take_apart),
    ("put_together", mosaics::put_together),
    ("planes", mosaics::planes),
];

type Files = BTreeMap<PathBuf, Vec<u8>>;

/// What the program that replays all calls reads and prints, by path below the crates:
/// every line of a call after the call's number, which is its place in the table, and
/// how many lines agree.
fn replayed(files: &Files) -> Files {
    let (mut input, mut cases) = (String::new(), 0);
    for (number, (call, _)) in (1..).zip(CALLS) {
        let lines = &files[&PathBuf::from(format!("{call}.txt"))];
        for line in str::from_utf8(lines).expect("numbers").lines() {
            input += &format!("{number} {line}\n");
            cases += 1;
        }
    }
    let mut inputs = BTreeMap::new();
    let room = 6 * 512 * 1024;
    insert(
        &mut inputs,
        "try_vectors",
        room,
        input.into_bytes(),
        agree(cases),
    );
    inputs
}

fn agree(cases: usize) -> Vec<u8> {
    format!("{cases} cases agree\n").into_bytes()
}

/// `room` is what the program's `main` reads at most.
fn insert(inputs: &mut Files, program: &str, room: usize, input: Vec<u8>, output: Vec<u8>) {
    assert!(input.len() < room, "{program} reads too much");
    inputs.insert(Path::new(program).join("stdin"), input);
    inputs.insert(Path::new(program).join("stdout"), output);
}

/// The same for `stacksteps`, which has the printed example, and for the program that
/// runs all of its pairs: for each a line with the lengths of input and output, then
/// both.
fn stacksteps_inputs(files: &Files) -> Files {
    let pairs: Vec<(&[u8], &[u8])> = files
        .iter()
        .filter(|(file, _)| file.extension().is_some_and(|end| end == "stdin"))
        .map(|(file, input)| (&input[..], &files[&file.with_extension("stdout")][..]))
        .collect();
    let mut all = Vec::new();
    for (input, output) in &pairs {
        all.extend(format!("{} {}\n", input.len(), output.len()).into_bytes());
        all.extend([*input, *output].concat());
    }
    let example = |end| files[&Path::new("stacksteps/example").with_extension(end)].clone();
    let mut inputs = BTreeMap::new();
    let room = 512 * 1024;
    insert(&mut inputs, "try_stacksteps", room, all, agree(pairs.len()));
    insert(
        &mut inputs,
        "stacksteps",
        8 * 64 * 64 + 1,
        example("stdin"),
        example("stdout"),
    );
    inputs
}

/// The same for the program that aligns a bracket from a file, writes it and reads it back: the
/// frames of `workshop` as images, each with another kind of header, and behind them as they are.
fn bracket_input(files: &Files) -> Files {
    const HEADERS: [&[u8]; 4] = [
        b"P5\n64 64\n255\n",
        b"P5\n# CREATOR: GIMP PNM Filter Version 1.1\n64 64\n255\n",
        b"P5#\r2\n0064#\n64\t000255\r",
        b"P5 64 64 255 ",
    ];
    let workshop = |end| &files[&Path::new("stacksteps/workshop").with_extension(end)][..];
    let frames = workshop("stdin");
    let mut input = Vec::new();
    for (header, frame) in HEADERS.iter().zip(frames.chunks(64 * 64)) {
        input.extend([header, frame].concat());
    }
    let had = input.len();
    input.extend(frames);
    let alike = ["shifts", "report"].map(|what| format!("{what} as of the frames lent directly\n"));
    let written = frames.chunks(64 * 64).map(|samples| {
        let file = naive::pgm::write(Frame::new(samples, 64, 64), usize::MAX);
        file.expect("a frame").len()
    });
    let back = format!(
        "read back from {} bytes, of {had}\n",
        written.sum::<usize>()
    );
    let output = [
        workshop("stdout"),
        alike.concat().as_bytes(),
        back.as_bytes(),
    ]
    .concat();
    let mut inputs = BTreeMap::new();
    insert(&mut inputs, "try_pgm", 3 * frames.len(), input, output);
    inputs
}

/// The same for the program that aligns the planes of two mosaics.
fn planes_input() -> Files {
    let (input, output) = planes::input_and_output(&mut Random::new(SEED));
    let mut inputs = BTreeMap::new();
    insert(&mut inputs, "try_mosaic", input.len() + 1, input, output);
    inputs
}

/// All files by their path below the data folder, and the number of cases in them.
fn made() -> (Files, usize) {
    let mut files = BTreeMap::new();
    let mut cases = 0;
    for (number, (name, lines)) in CALLS.iter().enumerate() {
        let lines = lines(&mut Random::new(SEED + number as u64));
        cases += lines.len();
        let text = lines.join("\n") + "\n";
        files.insert(PathBuf::from(format!("{name}.txt")), text.into_bytes());
    }
    let pairs = programs::stacksteps_pairs(&mut Random::new(SEED));
    for (name, text) in programs::farther_texts(&pairs) {
        cases += 1;
        files.insert(Path::new("stacksteps").join(name), text.into_bytes());
    }
    for (name, input, output) in pairs {
        cases += 1;
        let file = Path::new("stacksteps").join(name);
        files.insert(file.with_extension("stdin"), input);
        files.insert(file.with_extension("stdout"), output.into_bytes());
    }
    for (name, bytes) in netpbm::kept() {
        cases += 1;
        files.insert(Path::new("netpbm").join(name), bytes.to_vec());
    }
    cases += 1;
    let board = planes::file(&mut Random::new(SEED));
    files.insert(Path::new("mosaics").join("board.pgm"), board);
    for (name, bytes) in brackets::files(&mut Random::new(SEED)) {
        cases += 1;
        files.insert(Path::new("brackets").join(name), bytes);
    }
    (files, cases)
}

/// All files below a folder, by their path in it.
fn found(folder: &Path) -> io::Result<Files> {
    let mut files = BTreeMap::new();
    for entry in fs::read_dir(folder)? {
        let path = entry?.path();
        let name = PathBuf::from(path.file_name().expect("an entry has a name"));
        if path.is_dir() {
            let inner = found(&path)?.into_iter();
            files.extend(inner.map(|(file, bytes)| (name.join(file), bytes)));
        } else {
            files.insert(name, fs::read(path)?);
        }
    }
    Ok(files)
}

fn write(folder: &Path, files: &Files) -> io::Result<()> {
    for (file, bytes) in files {
        fs::write(folder.join(file), bytes)?;
    }
    Ok(())
}

fn run(check: bool) -> io::Result<bool> {
    let here = Path::new(env!("CARGO_MANIFEST_DIR"));
    let (folder, crates) = (here.join("data"), here.join("../../crates"));
    let (files, cases) = made();
    let mut inputs = replayed(&files);
    inputs.extend(stacksteps_inputs(&files));
    inputs.extend(bracket_input(&files));
    inputs.extend(planes_input());
    if !check {
        for inner in ["stacksteps", "netpbm", "mosaics", "brackets"] {
            fs::create_dir_all(folder.join(inner))?;
        }
        write(&folder, &files)?;
        write(&crates, &inputs)?;
    }
    let found = found(&folder)?;
    let mut differing = BTreeSet::from_iter(files.keys().chain(found.keys()));
    differing.retain(|file| files.get(*file) != found.get(*file));
    for (file, bytes) in &inputs {
        if fs::read(crates.join(file))? != *bytes {
            differing.insert(file);
        }
    }
    for file in &differing {
        println!("{} differs from what is made", file.display());
    }
    if differing.is_empty() {
        println!("{cases} vectors stand as made");
    }
    Ok(differing.is_empty())
}

fn main() -> ExitCode {
    let arguments: Vec<String> = env::args().skip(1).collect();
    let arguments: Vec<&str> = arguments.iter().map(String::as_str).collect();
    let held = match arguments[..] {
        [] => run(false),
        ["--check"] => run(true),
        ["--netpbm"] => netpbm::check(&mut Random::new(SEED), 300),
        _ => {
            eprintln!("usage: vectors [--check | --netpbm]");
            return ExitCode::FAILURE;
        }
    };
    match held {
        Ok(true) => ExitCode::SUCCESS,
        Ok(false) => ExitCode::FAILURE,
        Err(error) => {
            eprintln!("{error}");
            ExitCode::FAILURE
        }
    }
}
