//! Records as text: the kind and the fields by their names. Any words can be shown.

use super::input::InputWords;
use super::layout::{Field, InputKind, OutputKind, Type};
use super::output::OutputWords;
use super::word::{Word, CLASSES, DECISIONS, REASONS, STATES};
use oracle::show::reason_text;
use std::fmt::Write;

/// An input record: its kind, then each field with its name.
pub fn input(words: &InputWords) -> String {
    input_with(words, |_| true)
}

/// The same without the fields that are 0.
pub fn brief_input(words: &InputWords) -> String {
    input_with(words, |word| word != 0)
}

/// An output record: its kind, then each field with its name.
pub fn output(words: &OutputWords) -> String {
    output_with(words, |_| true)
}

/// The same without the fields that are 0.
pub fn brief_output(words: &OutputWords) -> String {
    output_with(words, |word| word != 0)
}

fn input_with(words: &InputWords, wanted: impl Fn(u64) -> bool) -> String {
    let Some(kind) = InputKind::of(words[0]).filter(|kind| kind.fits(words)) else {
        return format!("malformed, words {}", numbers(words));
    };
    let mut text = kind.name().to_string();
    for (n, word) in words.iter().enumerate().skip(1) {
        add_field(&mut text, kind.field(n), *word, &wanted);
    }
    text
}

fn output_with(words: &OutputWords, wanted: impl Fn(u64) -> bool) -> String {
    let Some(kind) = OutputKind::of(words[0]).filter(|kind| kind.fits(words)) else {
        return format!("no output record, words {}", numbers(words));
    };
    let mut text = kind.name().to_string();
    let none = kind.shows_or_not() && words[1] == 0;
    let last = if none { 2 } else { words.len() };
    for (n, word) in words[..last].iter().enumerate().skip(1) {
        add_field(&mut text, kind.field(n), *word, &wanted);
    }
    text
}

fn add_field(text: &mut String, field: Option<Field>, word: u64, wanted: &impl Fn(u64) -> bool) {
    if let Some(field) = field.filter(|_| wanted(word)) {
        // Writing to a text never fails.
        let _ = write!(text, " {} {}", field.name, value(field.of, word));
    }
}

/// A word as its type reads it; as a number where the type can't hold it.
pub fn value(of: Type, word: u64) -> String {
    let place = usize::try_from(word).unwrap_or(usize::MAX);
    let named = match of {
        Type::I32 if of.holds(word) => return <i32 as Word>::of(word).to_string(),
        Type::Reason => {
            return REASONS
                .get(place)
                .map_or(word.to_string(), |r| reason_text(*r).into())
        }
        Type::Class => CLASSES.get(place).map(|c| format!("{c:?}")),
        Type::State => STATES.get(place).map(|s| format!("{s:?}")),
        Type::Decision => DECISIONS.get(place).map(|d| format!("{d:?}")),
        _ => None,
    };
    named.map_or(word.to_string(), |name| format!("{word} {name}"))
}

/// The words of two output records that differ: name, demanded, got.
pub fn differences(demanded: &OutputWords, got: &OutputWords) -> Vec<[String; 3]> {
    let kind = OutputKind::of(demanded[0]);
    let pairs = demanded.iter().zip(got).enumerate();
    let differing = pairs.filter(|(_, (demanded, got))| demanded != got);
    let row = |n: usize, words: [u64; 2]| {
        let field = kind.and_then(|kind| kind.field(n));
        let name = match (n, field) {
            (0, _) => "word 0, the kind".into(),
            (_, Some(field)) => format!("word {n}, {}", field.name),
            (_, None) => format!("word {n}, unused"),
        };
        let of = field.map_or(Type::U64, |field| field.of);
        let [demanded, got] = words.map(|word| value(of, word));
        [name, demanded, got]
    };
    differing
        .map(|(n, (demanded, got))| row(n, [*demanded, *got]))
        .collect()
}

/// All words; zeros at the end are left out.
pub fn numbers(words: &[u64]) -> String {
    let used = words
        .iter()
        .rposition(|word| *word != 0)
        .map_or(1, |n| n + 1);
    let texts: Vec<String> = words[..used].iter().map(u64::to_string).collect();
    texts.join(" ")
}
