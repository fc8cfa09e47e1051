//! Which lives are run: the oracle's random ones, each with what is put into it, by the seed and
//! the number of the life alone.

use crate::play::{Cut, Plan, Weaving};
use crate::weave::Amount;
use definitions::vary::vary;
use oracle::generate::{Generator, Style};
use oracle::life::{Counter, Life};
use oracle::parse::{parse, ParseError};
use oracle::prng::Prng;
use oracle::runtime_core::MAX_CAPABILITIES;

/// One life in so many has more calls, one is varied as the definitions' are, and one lists so
/// many capabilities that their number does not fit in a byte.
const LONG_EVERY: u64 = 4;
const VARIED_EVERY: u64 = 16;
const CROWDED_EVERY: u64 = 1000;

/// The most calls of a usual life, and of a longer one. The generator's calm lives have three to
/// five times as many.
const USUAL_CALLS: u64 = 16;
const LONG_CALLS: u64 = 40;

/// With counters, one life in so many is like those without; the others are made to set one.
const ORDINARY_EVERY: u64 = 5;

/// The most calls of a life with everything put in everywhere.
const MOST_WITH_EVERYTHING: usize = 6;

/// The lives of a text. No record sets the count of rejections, so a line that does is bad here.
pub fn read(text: &str) -> Result<Vec<Life>, ParseError> {
    let lives = parse(text)?;
    let count = Counter::InvalidCount.name();
    let sets_it = |line: &str| line.split_whitespace().take(2).eq(["set", count]);
    match text.lines().position(sets_it) {
        None => Ok(lives),
        Some(index) => Err(ParseError {
            line: index + 1,
            message: format!("no record sets `{count}`"),
        }),
    }
}

/// The lives of a seed.
#[derive(Clone, Copy, Debug)]
pub struct Lives {
    pub seed: u64,
    /// Most of them set a counter.
    pub counters: bool,
}

impl Lives {
    pub fn plan(&self, number: u64) -> Plan {
        let life = self.life(number);
        let mut rng = Prng::new(!self.seed, number);
        let short = life.steps.len() <= MOST_WITH_EVERYTHING;
        let amount = rng.weighted([
            (90, Amount::Few),
            (8, Amount::Many),
            (2, Amount::Everything),
        ]);
        let cut = rng.percent(20).then(|| Cut {
            step: rng.index(life.steps.len() + 1),
            wait: rng.draw(),
        });
        let weaving = Weaving {
            seed: self.seed,
            number,
            amount: match amount {
                Amount::Everything if !short => Amount::Many,
                _ => amount,
            },
            cut,
            ahead: rng.percent(25),
        };
        Plan { life, weaving }
    }

    pub fn life(&self, number: u64) -> Life {
        let mut life = self.generated(number);
        if number % VARIED_EVERY == VARIED_EVERY - 1 {
            // Other random numbers than those of its plan.
            let number = number ^ (1 << 63);
            vary(&mut life, &mut Prng::new(!self.seed, number));
        }
        let records = &mut life.start.capabilities;
        if number % CROWDED_EVERY == CROWDED_EVERY - 1 && !records.is_empty() {
            let few = Prng::new(self.seed, number).range(0, MAX_CAPABILITIES as u64);
            let count = usize::from(u8::MAX) + 1 + few as usize;
            *records = records.iter().copied().cycle().take(count).collect();
        }
        life
    }

    fn generated(&self, number: u64) -> Life {
        let mut generator = Generator {
            seed: self.seed,
            calls: USUAL_CALLS,
            counters: self.counters,
        };
        let ordinary = !self.counters || number.is_multiple_of(ORDINARY_EVERY);
        if ordinary && !number.is_multiple_of(LONG_EVERY) {
            return generator.life(number);
        }
        generator.calls = LONG_CALLS;
        if ordinary {
            return generator.life(number);
        }
        // The first one of that style, of those that have this number among others.
        let style = |index: u64| generator.style(&mut Prng::new(self.seed, index));
        let mut indexes = (0u64..).map(|n| (n << 32) + number);
        let index = indexes.find(|index| style(*index) == Style::Counters);
        generator.life(index.unwrap_or(number))
    }
}
