//! A planted difference: one number of one expected output is changed.

use crate::lives::Fact;
use oracle::prng::Prng;

#[derive(Clone, Debug, PartialEq, Eq)]
pub struct Planted {
    /// The place of the fact.
    pub fact: usize,
    /// The place of the output in it.
    pub output: usize,
    pub before: String,
}

/// Changes a fact, which is false then; none if no output has a number.
pub fn plant(facts: &mut [Fact], seed: u64) -> Option<Planted> {
    let mut rng = Prng::new(seed, u64::MAX);
    let mut places = Vec::new();
    for (fact, f) in facts.iter().enumerate() {
        let outputs = f.outputs.iter().enumerate();
        places.extend(outputs.filter_map(|(n, o)| (!numbers(o).is_empty()).then_some((fact, n))));
    }
    let (fact, output) = rng.pick(&places)?;
    let term = &mut facts[fact].outputs[output];
    let (from, to) = rng.pick(&numbers(term))?;
    let next = term[from..to].parse::<u128>().ok()? + 1;
    let before = term.clone();
    term.replace_range(from..to, &next.to_string());
    Some(Planted {
        fact,
        output,
        before,
    })
}

/// Where the decimal numbers of a term stand.
pub fn numbers(term: &str) -> Vec<(usize, usize)> {
    let mut places: Vec<(usize, usize)> = Vec::new();
    for (at, _) in term.match_indices(|c: char| c.is_ascii_digit()) {
        match places.last_mut() {
            Some((_, end)) if *end == at => *end += 1,
            _ => places.push((at, at + 1)),
        }
    }
    places
}
