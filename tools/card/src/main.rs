//! The program: writes and shows card files, compares the proved code with the independent one, and
//! writes the vectors of `crates/card_main`.

use card::compare::compare;
use card::filing::receipts;
use card::format::Rule;
use card::functions::{proved, Functions, INDEPENDENT, READ};
use card::options::{Command, USAGE};
use card::show;
use card::vectors::vectors;
use oracle::runtime_core::Receipt;
use std::fs::{self, OpenOptions};
use std::io::{self, Write};
use std::path::Path;
use std::process::ExitCode;
use std::time::Instant;
use tester::host::Stage;
use wire::machine::Machine;

const NOT_PROVED: &str = "this build has no proved card: the independent code writes and reads";
const NO_PROVED: &str = "this build has no proved card: build it with `--features proved`";
const NO_RUNTIME: &str =
    "this build has no proved runtime: build it with `--features host`, or say --rust";
const NO_CARD: &str = "what was written or read is not as the format has it";
const NO_RECORD: &str = "the runtime's answer is no output record";

fn main() -> ExitCode {
    let Some(command) = Command::read(std::env::args().skip(1)) else {
        eprint!("{USAGE}");
        return ExitCode::from(2);
    };
    match perform(&command) {
        Ok(true) => ExitCode::SUCCESS,
        Ok(false) => ExitCode::FAILURE,
        Err(error) => {
            eprintln!("card: {error}");
            ExitCode::from(2)
        }
    }
}

/// Whether nothing was refused and nothing differs.
fn perform(command: &Command) -> io::Result<bool> {
    match command {
        Command::Write {
            life,
            file,
            append,
            rust,
        } => {
            let stage = stage(*rust)?;
            write(life, file, *append, &functions(*rust), stage)
        }
        Command::Show { file, csv, rust } => shown(file, *csv, &functions(*rust)),
        Command::Compare { seed, records } => compared(*seed, *records),
        Command::Vectors { folder } => stored(folder),
    }
}

/// The proved functions, if they are there and wanted.
fn functions(rust: bool) -> Functions {
    match proved().filter(|_| !rust) {
        Some(functions) => functions,
        None => {
            if !rust {
                eprintln!("card: {NOT_PROVED}");
            }
            INDEPENDENT
        }
    }
}

/// What runs the lives.
fn stage(rust: bool) -> io::Result<Box<dyn Stage>> {
    if rust {
        return Ok(Box::new(Machine::default()));
    }
    tester::host::proved().ok_or_else(|| io::Error::other(NO_RUNTIME))
}

/// Adds the receipts of a life to a card that reads to its end; another stays as it was.
fn write(
    life: &Path,
    file: &Path,
    append: bool,
    functions: &Functions,
    mut stage: Box<dyn Stage>,
) -> io::Result<bool> {
    let (kept, mut card) = match append {
        true => named(file, fs::read(file)).map(|card| (card.len(), card))?,
        false => (0, begun(file, functions)?),
    };
    let reading = functions.read_all(&card).ok_or_else(no_card)?;
    if reading.answer != READ {
        say(&format!("{}\n", show::last_line(&reading)))?;
        return Ok(false);
    }
    for receipt in filed(life, stage.as_mut())? {
        functions.add(&receipt, &mut card).ok_or_else(no_card)?;
    }
    // What does not read to its end is not written.
    let reading = functions.read_all(&card).ok_or_else(no_card)?;
    if reading.answer != READ {
        return Err(no_card());
    }
    add(file, &card[kept..])?;
    say(&format!("{}\n", show::last_line(&reading)))?;
    Ok(true)
}

/// A card without receipts, for a file that is new or empty: none is written over.
fn begun(file: &Path, functions: &Functions) -> io::Result<Vec<u8>> {
    if fs::metadata(file).is_ok_and(|known| known.len() > 0) {
        let there = "it is there already; --append adds to it";
        return named(file, Err(io::Error::other(there)));
    }
    let mut card = Vec::new();
    functions.add_head(&mut card).ok_or_else(no_card)?;
    Ok(card)
}

/// The receipts of the lives of a text.
fn filed(life: &Path, stage: &mut dyn Stage) -> io::Result<Vec<Receipt>> {
    let text = named(life, fs::read_to_string(life))?;
    let lives = wire::lives::read(&text)
        .map_err(|error| io::Error::other(format!("{}:{error}", life.display())))?;
    receipts(lives, stage).ok_or_else(|| io::Error::other(NO_RECORD))
}

/// One write at the end: what stood in the file is not touched, whatever happens.
fn add(file: &Path, bytes: &[u8]) -> io::Result<()> {
    let opened = OpenOptions::new().append(true).create(true).open(file);
    named(file, opened.and_then(|mut opened| opened.write_all(bytes)))
}

/// The error with the file's name.
fn named<T>(file: &Path, result: io::Result<T>) -> io::Result<T> {
    result.map_err(|error| io::Error::other(format!("{}: {error}", file.display())))
}

fn no_card() -> io::Error {
    io::Error::other(NO_CARD)
}

fn shown(file: &Path, csv: bool, functions: &Functions) -> io::Result<bool> {
    let bytes = named(file, fs::read(file))?;
    let reading = functions.read_all(&bytes).ok_or_else(no_card)?;
    let sound = reading.answer == READ;
    if !csv {
        say(&show::card(&reading))?;
        return Ok(sound);
    }
    say(&show::csv(&reading.receipts))?;
    // The table is for a spreadsheet, which should not get this line.
    if !sound {
        eprintln!("{}", show::last_line(&reading));
    }
    Ok(sound)
}

fn compared(seed: u64, records: u64) -> io::Result<bool> {
    let functions = proved().ok_or_else(|| io::Error::other(NO_PROVED))?;
    let began = Instant::now();
    let result = compare(functions, seed, records);
    for (rule, count) in Rule::ALL.into_iter().zip(result.refused) {
        let hole = if count == 0 { "  HOLE" } else { "" };
        let (number, text) = (rule.number(), rule.text());
        say(&format!("{number}  {text:<34}{count:>10}{hole}\n"))?;
    }
    say(&format!("  0  {:<34}{:>10}\n", "accepted", result.accepted))?;
    for difference in &result.shown {
        say(&format!("FAILED {difference}\n"))?;
    }
    let seconds = began.elapsed().as_secs_f32();
    say(&format!("seed {seed}, {records} records, {seconds:.1} s\n"))?;
    let (passed, failed) = (result.passed, result.failed);
    say(&format!("{passed} passed, {failed} failed\n"))?;
    Ok(failed == 0 && passed > 0)
}

fn stored(folder: &Path) -> io::Result<bool> {
    let vectors = vectors();
    for (name, text) in [("stdin", vectors.stdin), ("stdout", vectors.stdout)] {
        let file = folder.join(name);
        named(&file, fs::write(&file, text))?;
    }
    Ok(true)
}

/// Prints the text. That the reader has gone is no failure.
fn say(text: &str) -> io::Result<()> {
    match io::stdout().write_all(text.as_bytes()) {
        Err(error) if error.kind() == io::ErrorKind::BrokenPipe => Ok(()),
        result => result,
    }
}
