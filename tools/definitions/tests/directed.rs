//! The directed lives: each shows what it was written for, and is compared at every place.
#![cfg(feature = "counters")]

use definitions::directed;
use definitions::lives::Fact;
use std::fs;
use std::path::{Path, PathBuf};

fn root() -> PathBuf {
    Path::new(env!("CARGO_MANIFEST_DIR")).join("../..")
}

fn facts() -> Vec<Fact> {
    directed::facts(&root()).expect("the lives can be read")
}

fn named(name: &str) -> Fact {
    let mut facts = facts().into_iter();
    let found = facts.find(|fact| fact.name() == format!("life-{name}"));
    found.unwrap_or_else(|| panic!("there is no life {name}"))
}

/// What stands in the outputs of each life that the Rust demands, in this order.
const SHOWN: [(&str, &[&str]); 8] = [
    (
        "failed-expiry",
        &[
            "ItemFallback 0 Reason.LeaseExpired",
            "ItemFallback 0 Reason.Driver",
            "ItemFallback 1 Reason.Driver",
            "ItemFallback 0 Reason.StreamExpired",
            "ItemFallback 0 Reason.Driver",
            "ItemFallback 1 Reason.Driver",
            "ItemFallback 0 Reason.Precondition",
            "ItemFallback 0 Reason.Driver",
            "ItemFallback 1 Reason.Driver",
        ],
    ),
    (
        "held-count",
        &["Answers (Leased", "ItemFallback 0 Reason.InvalidStorm"],
    ),
    (
        "largest-limit",
        &["ItemFallback 0 Reason.InvalidStorm", "Reason.Faulted"],
    ),
    (
        "lower-axis",
        &[
            "Refused Reason.Authority",
            "Refused Reason.Authority",
            "Answers (Leased",
        ],
    ),
    (
        "second-parameter",
        &["ItemExecute 1", "reason = Reason.Verification"],
    ),
    (
        "stale-and-early",
        &["reason = Reason.Stale", "reason = Reason.TooEarly"],
    ),
    ("unsound-and-used", &["StartRefused 103"]),
    ("used-before-unsound", &["StartRefused 104"]),
];

#[test]
fn each_life_shows_what_it_was_written_for() {
    let facts = facts();
    let names: Vec<String> = facts.iter().map(Fact::name).collect();
    assert_eq!(names, SHOWN.map(|(name, _)| format!("life-{name}")));
    for (fact, (name, parts)) in facts.iter().zip(SHOWN) {
        let mut outputs = fact.outputs.iter();
        for part in parts {
            assert!(outputs.any(|o| o.contains(part)), "{name}: {part}");
        }
    }
}

#[test]
fn each_file_begins_with_what_it_is_for() {
    for file in fs::read_dir(root().join(directed::FOLDER)).expect("a folder") {
        let file = file.expect("a file").path();
        let text = fs::read_to_string(&file).expect("a text");
        assert!(text.starts_with("# "), "{}", file.display());
    }
}

#[test]
fn a_file_with_two_lives_or_none_is_refused() {
    let root = std::env::temp_dir().join(format!("directed-{}", std::process::id()));
    let folder = root.join(directed::FOLDER);
    fs::create_dir_all(&folder).expect("a folder");
    let life = "life\nprofile\nstart boot_id 42 now 0 flags 0\n";
    let read = |text: &str| {
        fs::write(folder.join("some.life"), text).expect("a file");
        directed::facts(&root).map_err(|error| error.to_string())
    };
    assert_eq!(read(life).map(|facts| facts.len()), Ok(1));
    let two = read(&life.repeat(2)).expect_err("two lives");
    assert!(two.ends_with("some.life: 2 lives, not one"), "{two}");
    let none = read("profile\n").expect_err("no life");
    assert!(none.contains("some.life:1: a life without"), "{none}");
    fs::remove_dir_all(&root).expect("it was made here");
}

#[test]
fn the_book_is_compared_at_every_place() {
    for fact in facts() {
        let places: Vec<usize> = fact.books.iter().map(|seen| seen.place).collect();
        let all: Vec<usize> = (0..fact.outputs.len()).collect();
        assert_eq!(places, all, "{}", fact.name());
        assert!(fact.script.turns().all(|turn| !turn.woven));
    }
}

/// The counts of rejections that the books of a life have, one after the other.
fn counts(name: &str) -> Vec<String> {
    let books = named(name).books;
    let fields = books.into_iter().filter_map(|seen| seen.book).flatten();
    let counts = fields.filter(|(field, _)| *field == "invalid_count");
    let mut counts: Vec<String> = counts.map(|(_, count)| count).collect();
    counts.dedup();
    counts
}

#[test]
fn the_count_of_rejections_ends_at_the_top_of_16_bits() {
    assert_eq!(counts("largest-limit"), ["0", "65534", "65535"]);
    assert_eq!(counts("held-count"), ["0", "65535"]);
}
