//! Names of files as they are printed.

use std::path::Path;

/// A name in one line: what would end the line, or steer a terminal, is written with a
/// backslash.
pub fn in_one_line(path: &Path) -> String {
    let name = path.display().to_string();
    let letters = name.chars().map(|letter| match letter.is_control() {
        true => letter.escape_default().to_string(),
        false => letter.to_string(),
    });
    letters.collect()
}
