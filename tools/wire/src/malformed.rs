//! Records that are answered 64: of an unknown kind, with a word above what its field can hold,
//! or with a word that the kind does not use.

use crate::format::layout::{InputKind, Type};
use crate::format::{InputWords, INPUT_WORDS};
use oracle::prng::Prng;

/// A kind above 32 bits has the number of a tick below them.
const UNKNOWN_KINDS: [u64; 10] = [0, 3, 15, 25, 36, 47, 58, 97, 16 + (1 << 32), u64::MAX];

/// The kinds of the ordinary entry.
pub fn kinds() -> impl Iterator<Item = InputKind> {
    let all = InputKind::ALL.iter().copied();
    all.filter(|kind| *kind != InputKind::Set)
}

/// A record of the kind with this in all its fields.
fn filled(kind: InputKind, word: u64) -> InputWords {
    let mut words = [0; INPUT_WORDS];
    words[0] = kind.number();
    words[1..=kind.fields().len()].fill(word);
    words
}

/// Every unknown kind, and of every kind each field that can be wrong and the first and the last
/// word that it does not use. In the ordinary entry `set` is an unknown kind too.
pub fn all(counters: bool) -> Vec<InputWords> {
    let unknown = UNKNOWN_KINDS.into_iter();
    let set = (!counters).then_some(InputKind::Set.number());
    let unknown = unknown.chain(set).map(|number| {
        let mut words = [0; INPUT_WORDS];
        words[0] = number;
        words
    });
    let wrong = kinds().flat_map(|kind| {
        let used = kind.fields().len();
        let places = (1..=used + 1).chain([INPUT_WORDS - 1]);
        let places = places.filter(|n| *n < INPUT_WORDS);
        places.filter_map(move |n| wrong_at(filled(kind, 1), n))
    });
    // What is not read has to fit its field too.
    let unread = kinds().flat_map(|kind| {
        let words = filled(kind, 0);
        let unread = (1..=kind.fields().len()).filter(move |n| !kind.reads(*n, &words));
        unread.filter_map(move |n| wrong_at(words, n))
    });
    unknown.chain(wrong).chain(unread).collect()
}

/// The record with the least wrong word there; none if no word is wrong.
fn wrong_at(mut words: InputWords, place: usize) -> Option<InputWords> {
    words[place] = least_wrong(InputKind::of(words[0])?, place)?;
    Some(words)
}

/// The least word that does not go there; none if any does.
fn least_wrong(kind: InputKind, word: usize) -> Option<u64> {
    match kind.field(word) {
        Some(field) => field.of.range().1.checked_add(1),
        None => Some(1),
    }
}

/// A sound record with one word made wrong; none if it can't be.
pub fn spoiled(mut words: InputWords, rng: &mut Prng) -> Option<InputWords> {
    let kind = InputKind::of(words[0])?;
    let place = rng.range(1, INPUT_WORDS as u64 - 1) as usize;
    let least = least_wrong(kind, place)?;
    // An i32 with its sign in the upper bits is one of them.
    let signed = kind.field(place).filter(|f| f.of == Type::I32);
    let below_zero = signed.map_or(least, |_| u64::MAX);
    let any = rng.range(least, u64::MAX);
    words[place] = rng.one_of([least, any, below_zero, least | (1 << 63)]);
    Some(words)
}

/// A record of an unknown kind, with anything behind it.
pub fn unknown(rng: &mut Prng) -> InputWords {
    let mut words = [0; INPUT_WORDS];
    words[0] = rng.one_of(UNKNOWN_KINDS);
    if rng.percent(50) {
        words[1..].fill_with(|| rng.draw());
    }
    words
}
