//! A receipt as a host has it: the 24 words of docs/WIRE.md, "A receipt".

use oracle::runtime_core::Receipt;
use wire::format::layout::OutputKind;
use wire::format::word::{get_words, put_words, WORD_BYTES};
use wire::format::{Output, OUTPUT_WORDS};

pub const RECEIPT_WORDS: usize = 24;
pub const RECEIPT_BYTES: usize = RECEIPT_WORDS * WORD_BYTES;

pub type Words = [u64; RECEIPT_WORDS];

/// The words before those of the receipt, in a record that holds one.
const BEFORE: usize = OUTPUT_WORDS - RECEIPT_WORDS;

pub fn bytes(words: &Words) -> Vec<u8> {
    let mut bytes = Vec::with_capacity(RECEIPT_BYTES);
    put_words(words, &mut bytes);
    bytes
}

pub fn receipt_bytes(receipt: &Receipt) -> Vec<u8> {
    let record = Output::Settled(*receipt).words();
    let mut bytes = Vec::with_capacity(RECEIPT_BYTES);
    put_words(&record[BEFORE..], &mut bytes);
    bytes
}

/// None for another number of bytes, a word above its field, and a decision or reason without
/// number.
pub fn receipt(bytes: &[u8]) -> Option<Receipt> {
    if bytes.len() != RECEIPT_BYTES {
        return None;
    }
    let words: Words = get_words(bytes);
    let mut record = [0; OUTPUT_WORDS];
    record[0] = OutputKind::Settled.number();
    record[BEFORE..].copy_from_slice(&words);
    match Output::of(&record) {
        Some(Output::Settled(receipt)) => Some(receipt),
        _ => None,
    }
}
