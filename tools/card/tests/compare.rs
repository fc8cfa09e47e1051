//! The comparison: over each implementation, what it reaches, and that it finds planted faults.

mod common;

use card::compare::{compare, Comparison};
use card::format::{entry, Entry, Rule, HEAD, LENGTHS};
use card::functions::{Functions, INDEPENDENT, READ};
use card::words::{receipt, receipt_bytes, RECEIPT_BYTES};
use common::implementations;
use oracle::runtime_core::Receipt;

/// A part of the comparison passes, whatever is compared.
fn passes(part: impl Fn(&mut Comparison)) {
    for (name, functions) in implementations() {
        let mut comparison = Comparison::new(functions);
        part(&mut comparison);
        assert_eq!(comparison.failed, 0, "{name}: {:?}", comparison.shown);
        assert!(comparison.passed > 0, "{name}");
    }
}

#[test]
fn heads_and_rooms() {
    passes(|comparison| {
        comparison.heads();
        comparison.rooms(1);
    });
}

#[test]
fn all_single_field_receipts() {
    passes(Comparison::single_fields);
}

#[test]
fn random_receipts() {
    passes(|comparison| comparison.receipts(1, 20_000));
}

#[test]
fn words_that_are_no_receipt() {
    passes(Comparison::words);
}

#[test]
fn every_place() {
    passes(|comparison| comparison.places(1));
}

#[test]
fn every_cut_of_a_file() {
    passes(|comparison| comparison.cuts(1));
}

#[test]
fn every_length() {
    passes(Comparison::lengths);
}

#[test]
fn every_change_of_a_byte() {
    passes(|comparison| comparison.changes(1));
}

#[test]
fn random_bytes() {
    passes(|comparison| comparison.noise(1, 20_000));
}

/// A rule that never refuses is not tested.
#[test]
fn every_rule_refuses() {
    for (name, functions) in implementations() {
        let whole = compare(functions, 2, 2000);
        assert_eq!(whole.failed, 0, "{name}: {:?}", whole.shown);
        for (rule, count) in Rule::ALL.into_iter().zip(whole.refused) {
            println!("{name}: {count:>8} {}", rule.text());
            assert!(count > 0, "{name}: {}", rule.text());
        }
        assert!(whole.accepted > 0, "{name}");
    }
}

// Planted faults ----------------------------------------------------------------------------------

/// Writes another receipt's record in place of the one that was asked for.
fn write_other(words: &[u8], card: &mut [u8], other: fn(&mut Receipt)) -> usize {
    let Some(mut receipt) = receipt(words) else {
        return 0;
    };
    other(&mut receipt);
    (INDEPENDENT.write)(&receipt_bytes(&receipt), card)
}

fn sum_of_the_body(words: &[u8], card: &mut [u8]) -> usize {
    let written = (INDEPENDENT.write)(words, card);
    if written > 0 {
        let length = card[0];
        let end = &mut card[written - 2..written];
        let sum = u16::from_le_bytes([end[0], end[1]]) - u16::from(length);
        end.copy_from_slice(&sum.to_le_bytes());
    }
    written
}

fn first_of_pair(words: &[u8], card: &mut [u8]) -> usize {
    write_other(words, card, |receipt| {
        if receipt.observed[0] == 0 {
            receipt.observed = [0; 2];
        }
    })
}

fn exchanged(words: &[u8], card: &mut [u8]) -> usize {
    write_other(words, card, |receipt| {
        std::mem::swap(&mut receipt.requested, &mut receipt.observed);
    })
}

fn high_byte_first(words: &[u8], card: &mut [u8]) -> usize {
    write_other(words, card, |receipt| {
        receipt.capability = receipt.capability.swap_bytes();
    })
}

fn writes_beyond(words: &[u8], card: &mut [u8]) -> usize {
    let written = (INDEPENDENT.write)(words, card);
    if let Some(beyond) = card.get_mut(written).filter(|_| written > 0) {
        *beyond = 0;
    }
    written
}

/// Answers a record that this rule refuses with another number.
fn read_other(card: &[u8], at: usize, words: &mut [u8], rule: Rule, answer: u32) -> u32 {
    let is_record = at >= HEAD.len() && words.len() >= RECEIPT_BYTES;
    let refused = entry(card.get(at..).unwrap_or_default()) == Entry::Refused(rule);
    match is_record && refused {
        true => answer,
        false => (INDEPENDENT.read)(card, at, words),
    }
}

macro_rules! accepts {
    ($($name:ident $rule:ident;)*) => {
        $(fn $name(card: &[u8], at: usize, words: &mut [u8]) -> u32 {
            read_other(card, at, words, Rule::$rule, READ)
        })*
    };
}

accepts! {
    accepts_length Length;
    accepts_sum Sum;
    accepts_bits Bits;
    accepts_missing Missing;
    accepts_zero Zero;
    accepts_left_over LeftOver;
    accepts_decision Decision;
    accepts_reason Reason;
}

/// Tests a bound of the length before the end of the file.
fn length_first(card: &[u8], at: usize, words: &mut [u8], broken: fn(usize) -> bool) -> u32 {
    match card.get(at) {
        Some(length) if broken((*length).into()) => {
            read_other(card, at, words, Rule::PastEnd, Rule::Length.number())
        }
        _ => (INDEPENDENT.read)(card, at, words),
    }
}

fn least_first(card: &[u8], at: usize, words: &mut [u8]) -> u32 {
    length_first(card, at, words, |length| length < *LENGTHS.start())
}

fn most_first(card: &[u8], at: usize, words: &mut [u8]) -> u32 {
    length_first(card, at, words, |length| length > *LENGTHS.end())
}

fn three_bytes_of_head(card: &[u8], at: usize, words: &mut [u8]) -> u32 {
    match (at, card.get(..HEAD.len())) {
        (0..=3, Some(head)) if head[..3] == HEAD[..3] => READ,
        _ => (INDEPENDENT.read)(card, at, words),
    }
}

fn hands_out_refused(card: &[u8], at: usize, words: &mut [u8]) -> u32 {
    let answer = (INDEPENDENT.read)(card, at, words);
    if answer == Rule::Sum.number() {
        words[0] = 1;
    }
    answer
}

fn reads_beyond(card: &[u8], at: usize, words: &mut [u8]) -> u32 {
    let answer = (INDEPENDENT.read)(card, at, words);
    if let Some(beyond) = words.get_mut(RECEIPT_BYTES).filter(|_| answer == READ) {
        *beyond = 0;
    }
    answer
}

fn long_head(card: &mut [u8]) -> usize {
    match card.len() {
        0..=4 => 0,
        _ => (INDEPENDENT.head)(card),
    }
}

fn planted() -> [(&'static str, Functions); 19] {
    let head = |head| Functions {
        head,
        ..INDEPENDENT
    };
    let write = |write| Functions {
        write,
        ..INDEPENDENT
    };
    let read = |read| Functions {
        read,
        ..INDEPENDENT
    };
    [
        ("five bytes for the head", head(long_head)),
        ("a sum without the length byte", write(sum_of_the_body)),
        ("a pair's bit by its first number", write(first_of_pair)),
        ("requested and observed exchanged", write(exchanged)),
        ("a field high byte first", write(high_byte_first)),
        ("a byte behind the record", write(writes_beyond)),
        ("any length", read(accepts_length)),
        ("any sum", read(accepts_sum)),
        ("bit 22", read(accepts_bits)),
        ("missing bytes", read(accepts_missing)),
        ("a present zero", read(accepts_zero)),
        ("bytes left over", read(accepts_left_over)),
        ("any decision", read(accepts_decision)),
        ("any reason", read(accepts_reason)),
        ("L below 4 before 122", read(least_first)),
        ("L above 126 before 122", read(most_first)),
        ("three bytes of the head", read(three_bytes_of_head)),
        ("a refused receipt", read(hands_out_refused)),
        ("a byte behind the receipt", read(reads_beyond)),
    ]
}

#[test]
fn planted_faults_are_found() {
    assert_eq!(compare(INDEPENDENT, 3, 200).failed, 0);
    for (name, faulty) in planted() {
        let comparison = compare(faulty, 3, 200);
        assert!(comparison.failed > 0, "not found: {name}");
        assert!(!comparison.shown.is_empty(), "not shown: {name}");
    }
}
