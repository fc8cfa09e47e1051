//! The arguments.

use crate::campaign::Campaign;
use crate::plant::Plant;
use std::path::PathBuf;

pub const USAGE: &str = "\
usage: tester run LIFE [--svg FILE] [--rust] [--counters]
       tester cuts|faults|counters|clock [--seed S] [--lives N] [--threads T] [--svg FILE] [--rust]
  run       runs the lives of a file and prints each as a timeline
  cuts      a mains cut after every item of a life, then a new life that tries the same orders
  faults    a driver that fails at every place in turn, while the PC and the panel hold leases
  counters  counters at the end of 64 bits (in the build with counters)
  clock     a clock that steps back inside an emergency stop
  --seed S      which random lives (1)
  --lives N     how many lives to begin from
  --threads T   how many threads (as many as there are processors)
  --svg FILE    a picture: of the life, of the first trial that failed, or of a sample
  --rust        the Rust original in place of the proved code
  --counters    LIFE sets counters (in the build with counters)
";

#[derive(Clone, Debug, PartialEq, Eq)]
pub struct Command {
    pub task: Task,
    pub svg: Option<PathBuf>,
    /// Runs the Rust in place of the proved code.
    pub rust: bool,
    /// Runs the Rust with a planted fault, to try the campaigns.
    pub plant: Option<Plant>,
}

#[derive(Clone, Debug, PartialEq, Eq)]
pub enum Task {
    Run {
        file: PathBuf,
        counters: bool,
    },
    Campaign {
        campaign: Campaign,
        seed: u64,
        lives: u64,
        threads: Option<usize>,
    },
}

#[derive(Default)]
struct Given {
    file: Option<PathBuf>,
    svg: Option<PathBuf>,
    seed: Option<u64>,
    lives: Option<u64>,
    threads: Option<usize>,
    plant: Option<Plant>,
    rust: Option<()>,
    counters: Option<()>,
}

impl Command {
    /// None where the arguments are not as the usage says.
    pub fn read(arguments: impl IntoIterator<Item = String>) -> Option<Self> {
        let mut arguments = arguments.into_iter();
        let name = arguments.next()?;
        let given = Given::read(arguments)?;
        let (svg, rust, plant) = (given.svg.clone(), given.rust.is_some(), given.plant);
        let task = match Campaign::named(&name) {
            Some(campaign) => given.campaign(campaign)?,
            None if name == "run" => given.run()?,
            None => return None,
        };
        Some(Self {
            task,
            svg,
            rust,
            plant,
        })
    }
}

impl Given {
    fn read(mut arguments: impl Iterator<Item = String>) -> Option<Self> {
        let mut given = Self::default();
        while let Some(name) = arguments.next() {
            match name.as_str() {
                "--seed" => once(&mut given.seed, arguments.next()?.parse().ok()?)?,
                "--lives" => once(&mut given.lives, arguments.next()?.parse().ok()?)?,
                "--threads" => once(&mut given.threads, arguments.next()?.parse().ok()?)?,
                "--svg" => once(&mut given.svg, arguments.next()?.into())?,
                "--plant" => once(&mut given.plant, Plant::named(&arguments.next()?)?)?,
                "--rust" => once(&mut given.rust, ())?,
                "--counters" => once(&mut given.counters, ())?,
                file if !file.starts_with('-') || file == "-" => {
                    once(&mut given.file, file.into())?;
                }
                _ => return None,
            }
        }
        Some(given)
    }

    fn run(self) -> Option<Task> {
        let Self {
            file: Some(file),
            seed: None,
            lives: None,
            threads: None,
            counters,
            ..
        } = self
        else {
            return None;
        };
        Some(Task::Run {
            file,
            counters: counters.is_some(),
        })
    }

    fn campaign(self, campaign: Campaign) -> Option<Task> {
        if self.file.is_some() || self.counters.is_some() || self.threads == Some(0) {
            return None;
        }
        Some(Task::Campaign {
            campaign,
            seed: self.seed.unwrap_or(1),
            lives: self.lives.unwrap_or(campaign.default_lives()),
            threads: self.threads,
        })
    }
}

/// None if the option was given before.
fn once<T>(slot: &mut Option<T>, value: T) -> Option<()> {
    slot.replace(value).is_none().then_some(())
}
