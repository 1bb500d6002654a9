//! Whether what the command was built of is as it was. `compare/hall` has it looked after
//! here, as that takes a shell and its tools longer than a report.

use std::env;
use std::ffi::OsString;
use std::fs;
use std::os::unix::fs::MetadataExt;
use std::os::unix::process::CommandExt;
use std::path::Path;
use std::process::Command;

/// Goes over to the command that builds this program, if the list that it names is not as
/// files stand. Comes back where there is nothing to build, or says why it cannot go.
pub fn build_if_changed(arguments: impl Iterator<Item = OsString>) -> Result<(), String> {
    let [list, command] = ["HALL_SOURCES", "HALL_COMMAND"].map(env::var_os);
    let (Some(list), Some(command)) = (list, command) else {
        return Ok(());
    };
    if are_as_listed(list.as_ref()) {
        return Ok(());
    }
    let mut again = Command::new(&command);
    let why = again.args(arguments).env("HALL_BUILD", "1").exec();
    Err(format!("{}: {why}", command.display()))
}

/// A line of the list is a file or a folder as `find` prints it: when its contents or its place
/// were last changed, how long it is, its number on the disk, and its path from the folder of
/// the comparison. No checkout sets that time back, so that contents need not be read.
fn are_as_listed(list: &Path) -> bool {
    let root = list.parent().map(|folder| folder.join("../.."));
    let (Some(root), Ok(lines)) = (root, fs::read_to_string(list)) else {
        return false;
    };
    let is_as_listed = |line| is_as_listed(line, &root) == Some(true);
    !lines.is_empty() && lines.lines().all(is_as_listed)
}

fn is_as_listed(line: &str, root: &Path) -> Option<bool> {
    let mut words = line.splitn(4, ' ');
    let (seconds, parts) = words.next()?.split_once('.')?;
    let [length, number] = [words.next()?, words.next()?].map(|word| word.parse().ok());
    let stands = fs::metadata(root.join(words.next()?)).ok()?;
    let is_same_time =
        seconds.parse() == Ok(stands.ctime()) && parts.get(..9)?.parse() == Ok(stands.ctime_nsec());
    Some(is_same_time && length == Some(stands.size()) && number == Some(stands.ino()))
}
