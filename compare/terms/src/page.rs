//! The page with the tables, each between `<!-- NAME -->` and `<!-- end -->`.

use std::path::PathBuf;

const END: &str = "<!-- end -->\n";

pub fn path() -> PathBuf {
    PathBuf::from(env!("CARGO_MANIFEST_DIR")).join("../../docs/TERMS.md")
}

fn start(name: &str) -> String {
    format!("<!-- {name} -->\n")
}

/// A table as the page has it.
pub fn marked(name: &str, table: &str) -> String {
    start(name) + table + END
}

/// The page with this table in its place, or nothing where it has no such place.
pub fn with(page: &str, name: &str, table: &str) -> Option<String> {
    let (before, rest) = page.split_once(&start(name))?;
    let (_, after) = rest.split_once(END)?;
    Some(before.to_string() + &marked(name, table) + after)
}
