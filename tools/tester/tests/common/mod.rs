//! What several tests need.

#![allow(dead_code)]

use tester::facts::{judge, Verdict, FACTS};
use tester::host::converse;
use tester::log::Entry;
use wire::machine::Running;
use wire::play::Plan;

/// The lives of a text on the Rust, as a host sees them.
pub fn log(text: &str) -> Vec<Entry> {
    let lives = oracle::parse::parse(text).expect("lives");
    let plans: Vec<Plan> = lives.into_iter().map(Plan::plain).collect();
    converse(&mut Running::default(), &plans)
}

/// The verdict of the fact with these words in its name.
pub fn verdict(name: &str, log: &[Entry]) -> Verdict {
    let place = FACTS.iter().position(|fact| fact.name.contains(name));
    judge(log)[place.expect("a fact of that name")].clone()
}
