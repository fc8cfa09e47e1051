//! Facts: determinism for a seed, lengths, counts, the planted difference, the scratch crate.

use definitions::choose::choose;
use definitions::counts::Counts;
use definitions::lives::{self, is_long, Fact};
use definitions::plant::{numbers, plant};
use definitions::scratch;
use oracle::life::{Call, Counter};

const CALLS: u64 = 10;

fn facts(seed: u64, lives: u64) -> Vec<Fact> {
    lives::facts(seed, lives, CALLS)
}

fn number(fact: &Fact) -> u64 {
    fact.label.parse().expect("the number of a random life")
}

#[test]
fn a_seed_determines_the_facts() {
    let (first, again) = (facts(1, 15), facts(1, 15));
    assert_eq!(first, again);
    assert_eq!(scratch::modules(&first), scratch::modules(&again));
    assert_ne!(first, facts(2, 15));
}

#[test]
fn lives_are_short_but_for_the_long_ones() {
    for fact in facts(3, 60) {
        if is_long(number(&fact)) {
            assert!(fact.reached.over_replay() && fact.reached.over_ring());
        } else {
            assert!(fact.life.steps.len() <= 20, "{}", fact.life);
        }
    }
}

#[test]
fn lives_that_reach_something_new_come_first() {
    let choice = choose(9, 40, CALLS);
    assert_eq!((choice.new.len(), choice.others.len()), (30, 10));
    let mut numbers: Vec<u64> = facts(9, 40).iter().map(number).collect();
    numbers.dedup();
    assert_eq!(numbers.len(), 40);
    let both = choice.new.iter().chain(&choice.others);
    assert!(both.clone().all(|n| numbers.contains(n)));
    assert_eq!(choose(9, 1, CALLS).new.len(), 1);
}

#[test]
fn each_counter_is_set_alone_in_some_life() {
    if !oracle::HAS_COUNTERS {
        return;
    }
    for (turn, counter) in Counter::EXHAUSTIBLE.into_iter().enumerate() {
        let life = lives::life(8, 20 * turn as u64 + 9, CALLS);
        let steps = life.steps.iter();
        let sets: Vec<Counter> = steps
            .filter_map(|step| match step.call {
                Call::Set { counter, .. } => Some(counter),
                _ => None,
            })
            .collect();
        assert_eq!(sets, [counter]);
    }
}

#[test]
fn whole_books_are_known_where_counters_are() {
    for fact in facts(4, 40) {
        assert_eq!(fact.books.is_empty(), !oracle::HAS_COUNTERS);
        let Some(last) = fact.books.last() else {
            continue;
        };
        assert_eq!(last.place + 1, fact.outputs.len());
        let rising = fact.books.windows(2).all(|two| two[0].place < two[1].place);
        assert!(rising, "{:?}", fact.books);
        for seen in &fact.books[..fact.books.len() - 1] {
            assert!(seen.book.is_some() && seen.awaited.is_some());
            assert!(fact.outputs[seen.place].starts_with("Hands"));
        }
    }
}

#[test]
fn a_planted_difference_is_one_number_of_one_output() {
    let before = facts(5, 12);
    for seed in 0..20 {
        let mut after = before.clone();
        let planted = plant(&mut after, seed).expect("there are numbers");
        let mut changed = Vec::new();
        for (n, (old, new)) in before.iter().zip(&after).enumerate() {
            let outputs = old.outputs.iter().zip(&new.outputs).enumerate();
            let differing = outputs.filter(|(_, (a, b))| a != b);
            changed.extend(differing.map(|(place, (a, b))| (n, place, a.clone(), b.clone())));
        }
        let [(n, place, old, new)] = changed.as_slice() else {
            panic!("{changed:?}");
        };
        assert_eq!((*n, *place), (planted.fact, planted.output));
        let digits = |s: &str| numbers(s).len();
        assert_eq!(digits(old), digits(new));
        assert_eq!(
            old.replace(char::is_numeric, ""),
            new.replace(char::is_numeric, "")
        );
    }
}

#[test]
fn numbers_of_a_term() {
    let term = "Polled 18446744073709551615 (pos 7)";
    let found: Vec<&str> = numbers(term)
        .into_iter()
        .map(|(a, b)| &term[a..b])
        .collect();
    assert_eq!(found, ["18446744073709551615", "7"]);
}

#[test]
fn each_life_has_its_declarations() {
    let facts = facts(6, 45);
    let modules = scratch::modules(&facts);
    assert_eq!(modules.len(), 3);
    let text: String = modules.into_iter().map(|(_, body)| body).collect();
    for fact in &facts {
        let name = fact.name();
        assert_eq!(text.matches(&format!("\n{name} :\n")).count(), 1, "{name}");
        assert_eq!(text.matches(&format!("\n{name} = refl\n")).count(), 1);
    }
}

#[test]
fn counts_add_up() {
    let facts = facts(7, 60);
    let counts = Counts::of(&facts);
    assert_eq!(counts.lives, 60);
    assert_eq!(counts.outputs, counts.inputs + counts.lives);
    let starts = ["started", "101", "102", "103", "104", "105"];
    let started: u64 = starts.iter().map(|name| counts.get("start", name)).sum();
    assert!(started > 40 && started <= 60, "{started}");
    assert!(counts.get("lives with", "over 64 receipts") >= 3);
    for kind in ["out of place", "call", "reading in a wait"] {
        assert!(!counts.holes().any(|(group, _)| group == kind), "{kind}");
    }
    let printed = counts.to_string();
    assert!(!printed.contains("NOT EXPECTED"), "{printed}");
}
