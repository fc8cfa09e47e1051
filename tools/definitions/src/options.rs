//! The arguments.

use std::path::PathBuf;

pub const USAGE: &str = "\
usage: tools/definitions/run [--seed S] [--lives N] [--calls M] [--keep DIR] [--plant]
  --seed S    which random lives (1)
  --lives N   how many of them (300), beside those of tools/definitions/lives
  --calls M   the most calls of a usual life (20); one life in twenty is a long one
  --keep DIR  a new or empty folder for the facts, the lives and what the prover said
  --plant     change one number in one expected output: the run must fail with that life
";

#[derive(Clone, Debug, PartialEq, Eq)]
pub struct Options {
    pub seed: u64,
    pub lives: u64,
    pub calls: u64,
    pub keep: Option<PathBuf>,
    pub plant: bool,
    /// The repository; `run` gives it.
    pub root: PathBuf,
}

impl Options {
    /// None where the arguments are not as the usage says.
    pub fn read(arguments: impl IntoIterator<Item = String>) -> Option<Self> {
        let [mut seed, mut lives, mut calls] = [None; 3];
        let [mut keep, mut root] = [None, None];
        let mut plant = false;
        let mut arguments = arguments.into_iter();
        while let Some(name) = arguments.next() {
            match name.as_str() {
                "--seed" => number(&mut seed, arguments.next()?)?,
                "--lives" => number(&mut lives, arguments.next()?)?,
                "--calls" => number(&mut calls, arguments.next()?)?,
                "--keep" => once(&mut keep, PathBuf::from(arguments.next()?))?,
                "--root" => once(&mut root, PathBuf::from(arguments.next()?))?,
                "--plant" if !plant => plant = true,
                _ => return None,
            }
        }
        let options = Self {
            seed: seed.unwrap_or(1),
            lives: lives.unwrap_or(300),
            calls: calls.unwrap_or(20),
            keep,
            plant,
            root: root.unwrap_or_else(|| PathBuf::from(".")),
        };
        (options.lives > 0 && options.calls > 0).then_some(options)
    }
}

fn number(slot: &mut Option<u64>, text: String) -> Option<()> {
    once(slot, text.parse().ok()?)
}

/// None if the option was given before.
fn once<T>(slot: &mut Option<T>, value: T) -> Option<()> {
    slot.replace(value).is_none().then_some(())
}
