//! The arguments.

use std::path::PathBuf;

pub const USAGE: &str = "\
usage: wire compare --seed S --calls N [--threads T] [--counters]
       wire step --seed S --calls N [--threads T]
       wire count --seed S --calls N [--threads T] [--counters]
       wire vectors --seed S --lives N DIR
       wire check DIR
       wire encode LIFE DIR
  compare   runs random lives of at least N calls on the proved code and compares with the Rust
  step      the same lives record by record and call by call over lent words, with readings between
  count     makes and counts these lives, and compares nothing
  vectors   writes stored vectors of at most N lives into a new or empty folder
  check     runs stored vectors on the proved code
  encode    writes the lives of a text (tools/oracle) and the Rust's answers, with a snapshot after
            each call and every reading at the end of the last life, into a new or empty folder
  --seed S      which random lives
  --threads T   how many threads (as many as there are processors)
  --counters    most lives set a counter near the top of 64 bits (in the build with counters)
";

#[derive(Clone, Debug, PartialEq, Eq)]
pub enum Command {
    Compare(Many),
    Step(Many),
    Count(Many),
    Vectors {
        seed: u64,
        lives: u64,
        folder: PathBuf,
    },
    Check {
        folder: PathBuf,
    },
    Encode {
        life: PathBuf,
        folder: PathBuf,
    },
}

/// Which random lives, and how they are run.
#[derive(Clone, Copy, Debug, PartialEq, Eq)]
pub struct Many {
    pub seed: u64,
    pub calls: u64,
    pub threads: Option<usize>,
    pub counters: bool,
}

/// Each argument that was given.
#[derive(Default)]
struct Given {
    seed: Option<u64>,
    calls: Option<u64>,
    lives: Option<u64>,
    threads: Option<u64>,
    counters: Option<()>,
    folder: Option<PathBuf>,
}

impl Command {
    /// None where the arguments are not as the usage says.
    pub fn read(arguments: impl IntoIterator<Item = String>) -> Option<Self> {
        let mut arguments = arguments.into_iter();
        let name = arguments.next()?;
        if name == "encode" {
            return Self::encode(arguments);
        }
        let given = Given::read(arguments)?;
        match name.as_str() {
            "compare" => Some(Self::Compare(given.many()?)),
            "step" => {
                let many = given.many().filter(|many| !many.counters);
                many.map(Self::Step)
            }
            "count" => Some(Self::Count(given.many()?)),
            "vectors" => given.vectors(),
            "check" => given.check(),
            _ => None,
        }
    }
}

impl Command {
    fn encode(mut arguments: impl Iterator<Item = String>) -> Option<Self> {
        let life = arguments.next()?.into();
        let folder = arguments.next()?.into();
        let rest = arguments.next();
        rest.is_none().then_some(Self::Encode { life, folder })
    }
}

impl Given {
    fn read(mut arguments: impl Iterator<Item = String>) -> Option<Self> {
        let mut given = Self::default();
        while let Some(name) = arguments.next() {
            match name.as_str() {
                "--seed" => number(&mut given.seed, arguments.next()?)?,
                "--calls" => number(&mut given.calls, arguments.next()?)?,
                "--lives" => number(&mut given.lives, arguments.next()?)?,
                "--threads" => number(&mut given.threads, arguments.next()?)?,
                "--counters" => once(&mut given.counters, ())?,
                folder if !folder.starts_with('-') => once(&mut given.folder, folder.into())?,
                _ => return None,
            }
        }
        Some(given)
    }

    fn many(self) -> Option<Many> {
        let Self {
            seed: Some(seed),
            calls: Some(calls),
            lives: None,
            threads,
            counters,
            folder: None,
        } = self
        else {
            return None;
        };
        let threads = match threads {
            Some(0) => return None,
            Some(threads) => Some(usize::try_from(threads).ok()?),
            None => None,
        };
        Some(Many {
            seed,
            calls,
            threads,
            counters: counters.is_some(),
        })
    }

    fn vectors(self) -> Option<Command> {
        let Self {
            seed: Some(seed),
            calls: None,
            lives: Some(lives),
            threads: None,
            counters: None,
            folder: Some(folder),
        } = self
        else {
            return None;
        };
        Some(Command::Vectors {
            seed,
            lives,
            folder,
        })
    }

    fn check(self) -> Option<Command> {
        let Self {
            seed: None,
            calls: None,
            lives: None,
            threads: None,
            counters: None,
            folder: Some(folder),
        } = self
        else {
            return None;
        };
        Some(Command::Check { folder })
    }
}

fn number(slot: &mut Option<u64>, text: String) -> Option<()> {
    once(slot, text.parse().ok()?)
}

/// None if the option was given before.
fn once<T>(slot: &mut Option<T>, value: T) -> Option<()> {
    slot.replace(value).is_none().then_some(())
}
