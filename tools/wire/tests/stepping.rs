//! Stepping over lent words: it passes what is right, and sees what is not.

use std::sync::atomic::Ordering;
use std::sync::Arc;
use wire::batch::{Batch, Run};
use wire::compare::{compare, Request, LIVES};
use wire::engine::Engine;
use wire::format::layout::InputKind;
use wire::format::{Input, INPUT_WORDS};
use wire::host::{plain, Asked, FIRST, ITEM, STATE_WORDS};
use wire::lent::{Lent, Spoil};
use wire::lives::Lives;
use wire::machine::{Flaw, Machine};
use wire::malformed;
use wire::play::{play, Plan};
use wire::report;
use wire::shrink::shrink;
use wire::stepping::{Stepping, Tally};

fn request(seed: u64, calls: u64) -> Request {
    Request {
        lives: Lives {
            seed,
            counters: false,
        },
        calls,
        threads: 2,
    }
}

/// With the engine that runs the same inputs whole, if there is one.
fn stepping(spoil: Spoil, whole: Option<Flaw>, tally: &Arc<Tally>) -> Box<dyn Engine> {
    let host = Box::new(Lent::new(spoil));
    let whole = whole.map(|flaw| Box::new(Machine(flaw)) as Box<dyn Engine>);
    Box::new(Stepping::new(host, whole, tally.clone()))
}

/// What is printed of the first life in which something is wrong.
fn seen(spoil: Spoil, whole: Option<Flaw>) -> Option<String> {
    let mut engine = stepping(spoil, whole, &Arc::default());
    let lives = request(4, 0).lives;
    (0..40).find_map(|batch| {
        let numbers = batch * LIVES..(batch + 1) * LIVES;
        let plans: Vec<Plan> = numbers.map(|number| lives.plan(number)).collect();
        let mut batch = Batch::default();
        play(&plans, &mut batch);
        let run = Run::of(engine.as_mut(), &batch.input, batch.demanded.len());
        let place = run.difference(&batch.demanded)?;
        let life = batch.ends.iter().position(|end| place < *end)?;
        let shrunk = shrink(engine.as_mut(), &plans[..=life]);
        Some(report::smallest(&shrunk.expect("the difference is there")))
    })
}

#[test]
fn what_is_right_passes_and_everything_is_looked_at() {
    let tally = Arc::default();
    let request = request(1, 5000);
    let make = || Some(stepping(Spoil::None, Some(Flaw::None), &tally));
    let summary = compare(&request, &make);
    let mut engine = stepping(Spoil::None, Some(Flaw::None), &tally);
    let text = report::failures(&summary.failures, &request, engine.as_mut());
    assert_eq!(summary.failed, 0, "{text}");
    assert!(summary.passed >= summary.counts.lives);
    let shown = tally.to_string();
    assert!(!shown.contains("HOLE"), "{shown}");
    let by = [&tally.by_record, &tally.by_function].map(|n| n.load(Ordering::Relaxed));
    assert!(by.iter().all(|n| *n > 10_000), "{shown}");
}

/// Each fault, with what is printed of it.
const SPOILS: [(Spoil, &str); 17] = [
    (
        Spoil::Flaw(Flaw::Epoch),
        "rolthai_item tells: item: record ",
    ),
    (Spoil::Flaw(Flaw::OtherReply), "demanded         item: "),
    (Spoil::Reads, "a reading by its record: word 2 goes from "),
    (Spoil::Refuses, ": word 2 goes from "),
    (Spoil::Malformed, "malformed, words "),
    (
        Spoil::Polls,
        "or not number 0; run whole: the poll saw a raise, or not number 1",
    ),
    (
        Spoil::Leased,
        "seen             answered: lease granted or renewed id ",
    ),
    (
        Spoil::Settled,
        "seen             answered: the order was settled boot_id ",
    ),
    (
        Spoil::Refusal,
        "answered: the call was refused number 1 Bound; run whole: ",
    ),
    (Spoil::Named, "Lease(1) by its name tells: "),
    (Spoil::Item, "rolthai_item tells: "),
    (Spoil::Short, " of 2463 words: "),
    (Spoil::First, " with another first word: "),
    (Spoil::Room, " with room for 25: "),
    (Spoil::Slice, "Acquire([0, 0, 0, 0, 0, 0, 0, 0, 0, 0]): "),
    (Spoil::Listed, "demanded         "),
    (Spoil::Behind, "words behind the record are written"),
];

#[test]
fn what_is_wrong_is_seen() {
    for (spoil, part) in SPOILS {
        let text = seen(spoil, Some(Flaw::None)).unwrap_or_default();
        assert!(text.contains(part), "{spoil:?}\n{text}");
    }
}

/// What the Rust demands is enough to see a wrong answer.
#[test]
fn a_wrong_answer_is_seen_beside_the_rust_alone() {
    let text = seen(Spoil::Polls, None).unwrap_or_default();
    let part = "word 1, number   demanded 1, got 0";
    assert!(text.contains(part) && !text.contains("seen "), "{text}");
    let text = seen(Spoil::Leased, None).unwrap_or_default();
    assert!(text.contains("word 2, id       demanded "), "{text}");
}

#[test]
fn another_answer_by_the_byte_entry_is_seen() {
    let text = seen(Spoil::None, Some(Flaw::Epoch)).unwrap_or_default();
    let part = "; run whole: item: record number 0 ";
    assert!(text.contains(part), "{text}");
    assert!(text.contains("got              no output record"), "{text}");
}

#[test]
fn nothing_is_seen_where_nothing_is_wrong() {
    assert_eq!(seen(Spoil::None, Some(Flaw::None)), None);
}

/// A life that fails leaves those after it to be judged by themselves.
#[test]
fn the_lives_around_a_failing_one_pass() {
    let request = request(4, 2000);
    let make = || Some(stepping(Spoil::Polls, Some(Flaw::None), &Arc::default()));
    let summary = compare(&request, &make);
    assert!(summary.failed > 0 && summary.passed > summary.failed);
}

#[test]
fn a_call_or_a_reply_has_its_function() {
    for kind in malformed::kinds() {
        let mut words = [0; INPUT_WORDS];
        words[0] = kind.number();
        let is_fed = matches!(Input::of(&words), Input::Call(_) | Input::Reply(_));
        assert_eq!(Asked::of(&words).is_some(), is_fed, "{kind:?}");
    }
}

#[test]
fn the_arguments_of_a_function_are_the_words_of_its_record() {
    let mut words = [0; INPUT_WORDS];
    words[..6].copy_from_slice(&[22, 1, 2, 3, 4, 5]);
    let renew = Asked::Renew {
        owner: 2,
        lease: 3,
        renewal: 4,
        duration_ms: 5,
        time: 1,
    };
    assert_eq!(Asked::of(&words), Some(renew));
    // A word above its field is no argument, but it can stand in a slice.
    words[5] = 1 << 32;
    assert_eq!(Asked::of(&words), None);
    words = [1 << 40; INPUT_WORDS];
    words[0] = InputKind::Submit.number();
    assert_eq!(Asked::of(&words), Some(Asked::Submit(&[1 << 40; 15])));
    words[0] = InputKind::Acquire.number();
    assert_eq!(Asked::of(&words), None);
}

#[test]
fn the_numbers_without_more_words() {
    let first = |number| plain(number).map(|words| [words[0], words[1]]);
    assert_eq!(first(2), Some([2, 0]));
    assert_eq!(first(33), Some([33, 0]));
    assert_eq!(first(38), Some([33, 1]));
    assert_eq!(first(103), Some([3, 103]));
    assert_eq!(first(112), Some([5, 112]));
    for other in [0, 1, 3, 5, ITEM, 35, 36, 37, 65, 66, 100, 106, 111, 113] {
        assert_eq!(first(other), None, "{other}");
    }
}

#[cfg(feature = "host")]
#[test]
fn the_archive_says_how_many_words() {
    assert_eq!(wire::ffi::size(), STATE_WORDS);
}

/// The functions that the archive exports, their library, and the two lists of them that are written by hand.
const EXPORTS: &str = include_str!("../../../crates/host_c/src/lib.rt");
const CRATE: &str = include_str!("../../../crates/host/src/lib.rt");
const HEADER: &str = include_str!("../../../bindings/c/rolthai.h");
const DECLARED: &str = include_str!("../src/ffi.rs");

#[test]
fn every_function_is_declared_for_c_and_for_rust() {
    let exported = EXPORTS.lines().filter_map(|line| {
        let name = line.strip_prefix("pub extern \"C\" fn ")?;
        name.split_once('(').map(|(name, _)| name)
    });
    let exported: Vec<&str> = exported.collect();
    assert_eq!(exported.len(), 31);
    for name in exported {
        assert!(HEADER.contains(&format!(" {name}(")), "{name}");
        assert!(DECLARED.contains(&format!("fn {name}(")), "{name}");
    }
    assert!(HEADER.contains(&format!("#define ROLTHAI_WORDS {STATE_WORDS}u ")));
    assert!(HEADER.contains(&format!("    ROLTHAI_ITEM = {ITEM}, ")));
    let after = |line: &'static str| line.strip_prefix("const FIRST: u64 = ");
    let first = CRATE.lines().find_map(after);
    let first = first.map(|digits| digits.replace('_', ""));
    assert_eq!(first, Some(format!("{FIRST:#x};")));
}
