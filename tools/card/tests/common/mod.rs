//! What more than one file of tests needs.

#![allow(dead_code)]

use card::functions::{proved, Functions, INDEPENDENT};
use oracle::life::Life;
use oracle::runtime_core::Receipt;
use std::fs;
use std::path::{Path, PathBuf};
use tester::host::Stage;
use wire::machine::Machine;

/// Every implementation there is in this build, with its name.
pub fn implementations() -> Vec<(&'static str, Functions)> {
    let proved = proved().map(|functions| ("proved", functions));
    [("independent", INDEPENDENT)]
        .into_iter()
        .chain(proved)
        .collect()
}

/// Everything in this build that runs a life.
pub fn stages() -> Vec<Box<dyn Stage>> {
    let rust: Box<dyn Stage> = Box::new(Machine::default());
    [rust].into_iter().chain(tester::host::proved()).collect()
}

pub fn root() -> PathBuf {
    Path::new(env!("CARGO_MANIFEST_DIR")).join("../..")
}

/// The stored lives of a folder. What they set is left out: no record of a host sets anything, and
/// it is their receipts that are wanted.
pub fn stored_lives(folder: &str) -> Vec<(String, Vec<Life>)> {
    let files = fs::read_dir(root().join(folder)).expect("the folder");
    let files = files.map(|file| file.expect("a file").path());
    let lives = files.filter(|path| path.extension().is_some_and(|end| end == "life"));
    lives
        .map(|path| {
            let text = fs::read_to_string(&path).expect("a text");
            let kept: Vec<&str> = text.lines().filter(|l| !l.starts_with("set ")).collect();
            let lives = wire::lives::read(&kept.join("\n")).expect("lives");
            (path.display().to_string(), lives)
        })
        .collect()
}

/// The receipts of the lives of a text.
pub fn receipts_of(text: &str, stage: &mut dyn Stage) -> Vec<Receipt> {
    let lives = wire::lives::read(text).expect("lives");
    card::filing::receipts(lives, stage).expect("output records")
}
