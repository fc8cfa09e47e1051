//! Times the proved code beside the Rust original, and that of the card beside plain Rust, in one run: all tables, or those
//! that are named.

mod card;
mod functions;
mod host;
mod lent;
mod lives;
mod plain;
mod ring;
mod steps;

use std::env::args;
use std::hint::black_box;
use std::process::ExitCode;
use std::time::Instant;

type Table = fn() -> Result<(), String>;

const TABLES: [(&str, Table); 6] = [
    ("ring", ring::table),
    ("lives", lives::table),
    ("lent", lent::table),
    ("host", functions::table),
    ("steps", steps::table),
    ("card", card::table),
];

/// The nanoseconds of the work, and what it gives.
fn timed<T>(work: impl FnOnce() -> T) -> (f64, T) {
    let start = Instant::now();
    let answer = black_box(work());
    (start.elapsed().as_nanos() as f64, answer)
}

fn tables(named: &[String]) -> Result<(), String> {
    if let Some(name) = named
        .iter()
        .find(|name| TABLES.iter().all(|(known, _)| known != name))
    {
        return Err(format!("there is no table {name}"));
    }
    let wanted = TABLES
        .iter()
        .filter(|(name, _)| named.is_empty() || named.iter().any(|named| named == name));
    for (at, (_, table)) in wanted.enumerate() {
        if at > 0 {
            println!();
        }
        table()?;
    }
    Ok(())
}

fn main() -> ExitCode {
    let named: Vec<String> = args().skip(1).collect();
    match tables(&named) {
        Ok(()) => ExitCode::SUCCESS,
        Err(message) => {
            eprintln!("{message}");
            ExitCode::FAILURE
        }
    }
}
