//! Lives that were written by hand, each for something that random lives seldom show.

use crate::lives::{directed, Fact};
use oracle::life::Life;
use oracle::parse::parse;
use std::fs;
use std::io;
use std::path::{Path, PathBuf};

/// Where they stand in the repository, a file for each and nothing else.
pub const FOLDER: &str = "tools/definitions/lives";

/// What is to be proved of each, in the order of their names.
pub fn facts(root: &Path) -> io::Result<Vec<Fact>> {
    let files = fs::read_dir(root.join(FOLDER))?;
    let files: io::Result<Vec<PathBuf>> = files.map(|file| Ok(file?.path())).collect();
    let mut files = files?;
    files.sort();
    files.iter().map(|file| fact(file)).collect()
}

fn fact(file: &Path) -> io::Result<Fact> {
    let text = fs::read_to_string(file)?;
    let bad = |what: String| io::Error::other(format!("{}:{what}", file.display()));
    let lives = parse(&text).map_err(|error| bad(error.to_string()))?;
    let one = <[Life; 1]>::try_from(lives);
    let [life] = one.map_err(|lives| bad(format!(" {} lives, not one", lives.len())))?;
    let name = file.file_stem().unwrap_or_default().to_string_lossy();
    Ok(directed(&name, life))
}
