//! The arguments.

use std::path::PathBuf;

pub const USAGE: &str = "\
usage: card write LIFE FILE [--append] [--rust]
       card show FILE [--csv] [--rust]
       card compare [--seed S] [--records N]
       card vectors DIR
  write     runs the lives of a text (tools/oracle) and writes the receipts of all their record
            items, in order, to a new card file
  show      tells a card file in words
  compare   holds the proved writer and reader against independent ones
  vectors   writes the files stdin and stdout of crates/card_main into a folder that is there
  --append      adds to a card that reads to its end; any other stays as it was
  --csv         a table for a spreadsheet
  --rust        the Rust original and the independent writer and reader in place of the proved code
  --seed S      which random receipts and bytes (1)
  --records N   how many (20000)
";

#[derive(Clone, Debug, PartialEq, Eq)]
pub enum Command {
    Write {
        life: PathBuf,
        file: PathBuf,
        append: bool,
        rust: bool,
    },
    Show {
        file: PathBuf,
        csv: bool,
        rust: bool,
    },
    Compare {
        seed: u64,
        records: u64,
    },
    Vectors {
        folder: PathBuf,
    },
}

/// Each argument that was given.
#[derive(Default)]
struct Given {
    files: Vec<PathBuf>,
    append: Option<()>,
    csv: Option<()>,
    rust: Option<()>,
    seed: Option<u64>,
    records: Option<u64>,
}

impl Command {
    /// None where the arguments are not as the usage says.
    pub fn read(arguments: impl IntoIterator<Item = String>) -> Option<Self> {
        let mut arguments = arguments.into_iter();
        let name = arguments.next()?;
        let given = Given::read(arguments)?;
        let compares = given.seed.is_some() || given.records.is_some();
        let rust = given.rust.is_some();
        let plain = given.append.is_none() && given.csv.is_none() && !rust;
        match (name.as_str(), <[PathBuf; 2]>::try_from(given.files)) {
            ("write", Ok([life, file])) if given.csv.is_none() && !compares => Some(Self::Write {
                life,
                file,
                append: given.append.is_some(),
                rust,
            }),
            ("show", Err(files)) if given.append.is_none() && !compares => Some(Self::Show {
                file: one(files)?,
                csv: given.csv.is_some(),
                rust,
            }),
            ("compare", Err(files)) if plain => files.is_empty().then_some(Self::Compare {
                seed: given.seed.unwrap_or(1),
                records: given.records.unwrap_or(20_000),
            }),
            ("vectors", Err(files)) if plain && !compares => Some(Self::Vectors {
                folder: one(files)?,
            }),
            _ => None,
        }
    }
}

impl Given {
    fn read(mut arguments: impl Iterator<Item = String>) -> Option<Self> {
        let mut given = Self::default();
        while let Some(name) = arguments.next() {
            match name.as_str() {
                "--append" => once(&mut given.append, ())?,
                "--csv" => once(&mut given.csv, ())?,
                "--rust" => once(&mut given.rust, ())?,
                "--seed" => once(&mut given.seed, arguments.next()?.parse().ok()?)?,
                "--records" => once(&mut given.records, arguments.next()?.parse().ok()?)?,
                file if !file.starts_with('-') => given.files.push(file.into()),
                _ => return None,
            }
        }
        Some(given)
    }
}

/// None if there are none or several.
fn one(mut files: Vec<PathBuf>) -> Option<PathBuf> {
    let file = files.pop()?;
    files.is_empty().then_some(file)
}

/// None if the option was given before.
fn once<T>(slot: &mut Option<T>, value: T) -> Option<()> {
    slot.replace(value).is_none().then_some(())
}
