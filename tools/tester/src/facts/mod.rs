//! What has to hold of every log, whatever the driver and the clock do: the parts of demand 3, and
//! what the campaigns are about. Each fact is judged by inputs and outputs alone.

mod counters;
mod execute;
mod items;

use crate::log::{lives, Entry, Life};

/// A place of a log that breaks a fact.
#[derive(Clone, Debug, PartialEq, Eq)]
pub struct Broken {
    /// The number of the entry in the log.
    pub at: usize,
    pub why: String,
}

/// How often a fact was looked at, and where it does not hold.
#[derive(Clone, Debug, Default, PartialEq, Eq)]
pub struct Verdict {
    pub checked: u64,
    pub broken: Vec<Broken>,
}

impl Verdict {
    /// Looks at one place; an objection breaks the fact there.
    fn judge(&mut self, at: usize, objection: Option<String>) {
        self.checked += 1;
        self.broken.extend(objection.map(|why| Broken { at, why }));
    }
}

/// A fact with its name and the function that looks for it.
#[derive(Clone, Copy)]
pub struct Fact {
    pub name: &'static str,
    pub judge: fn(&[Life]) -> Verdict,
}

/// Every fact, in the order in which they are reported.
pub const FACTS: [Fact; 10] = [
    Fact {
        name: "no order reaches execute twice, over all lives",
        judge: execute::once,
    },
    Fact {
        name: "execute comes only inside its own submission",
        judge: execute::in_its_submission,
    },
    Fact {
        name: "execute comes only after a good observation",
        judge: execute::after_observation,
    },
    Fact {
        name: "a live lease of the principal covers each execute",
        judge: execute::under_lease,
    },
    Fact {
        name: "each used axis had a good startup fallback",
        judge: items::startup,
    },
    Fact {
        name: "no item comes again but as a reminder, 111 or 113",
        judge: items::no_repeat,
    },
    Fact {
        name: "a trip reaches every used axis, failures passed over",
        judge: items::whole_rounds,
    },
    Fact {
        name: "receipt numbers rise by 1 and stay at the top",
        judge: counters::receipts,
    },
    Fact {
        name: "epoch and lease numbers never fall, nothing past the top",
        judge: counters::hold,
    },
    Fact {
        name: "the last tick never goes back, an earlier time trips 18",
        judge: counters::clock,
    },
];

/// One verdict for each fact.
pub fn judge(log: &[Entry]) -> Vec<Verdict> {
    let lives = lives(log);
    FACTS.iter().map(|fact| (fact.judge)(&lives)).collect()
}
