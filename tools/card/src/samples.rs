//! Receipts and files to try: by the words of a receipt, so that every value of every field can come
//! up.

use crate::format::{sum, AROUND, HEAD, LENGTHS};
use crate::words::{bytes, receipt, Words, RECEIPT_WORDS};
use oracle::prng::Prng;
use oracle::runtime_core::Receipt;
use wire::format::layout::{Type, RECEIPT};

/// The largest word that the field of each word holds.
pub fn tops() -> Words {
    std::array::from_fn(|n| RECEIPT[n].of.range().1)
}

/// Every field at its top.
pub fn full() -> Receipt {
    made(&tops())
}

/// Each field 0, 1, the top of its type or anything; a signed number also at its two ends. One
/// receipt in three has every field, others have few.
pub fn random(rng: &mut Prng) -> Receipt {
    let tops = tops();
    let zeros = rng.one_of([0, 40, 80]);
    let words = std::array::from_fn(|n| match rng.below(4) {
        _ if rng.percent(zeros) => 0,
        0 => 1,
        1 if RECEIPT[n].of == Type::I32 => rng.one_of([0x7fff_ffff, 0x8000_0000]),
        1 | 2 => tops[n],
        _ => rng.range(1, tops[n]),
    });
    made(&words)
}

pub fn randoms(rng: &mut Prng, count: usize) -> Vec<Receipt> {
    (0..count).map(|_| random(rng)).collect()
}

/// Receipts in which one word alone is not 0: each once as 1 and once at its top. So each of the 22
/// fields stands alone, and each half of a pair too.
pub fn single_fields() -> Vec<Receipt> {
    let tops = tops();
    let alone = |n: usize, word: u64| made(&with([0; RECEIPT_WORDS], n, word));
    let both = |n: usize| [alone(n, 1), alone(n, tops[n])];
    (0..RECEIPT_WORDS).flat_map(both).collect()
}

/// Receipts in which one word alone is 0, the others once 1 and once at their tops; and those in
/// which none is.
pub fn all_but_one() -> Vec<Receipt> {
    let full = [[1; RECEIPT_WORDS], tops()];
    let but = |n: usize| full.map(|words| made(&with(words, n, 0)));
    let full = full.iter().map(made);
    (0..RECEIPT_WORDS).flat_map(but).chain(full).collect()
}

fn with(mut words: Words, n: usize, word: u64) -> Words {
    words[n] = word;
    words
}

/// Words that are no receipt's: each in turn above its field, the others 0 or at their tops.
pub fn too_large() -> Vec<Words> {
    let tops = tops();
    let narrow = (0..RECEIPT_WORDS).filter(|n| tops[*n] < u64::MAX);
    narrow
        .flat_map(|n| {
            let above = [tops[n] + 1, tops[n] + 256, 1 << 32, u64::MAX];
            let above = above.into_iter().filter(move |word| *word > tops[n]);
            above.flat_map(move |word| [[0; RECEIPT_WORDS], tops].map(|w| with(w, n, word)))
        })
        .collect()
}

/// The receipt of words that fit.
///
/// # Panics
/// If they don't.
fn made(words: &Words) -> Receipt {
    receipt(&bytes(words)).expect("each word fits its field")
}

/// Sets the sum of the record that begins at a place right, if it ends inside the file. So the rules
/// after the sum are reached.
pub fn repair(file: &mut [u8], at: usize) {
    let Some(record) = file.get_mut(at..) else {
        return;
    };
    let Some(length) = record.first().map(|length| usize::from(*length)) else {
        return;
    };
    if record.len() >= length + AROUND {
        let sum = sum(&record[..=length]);
        record[length + 1..length + AROUND].copy_from_slice(&sum.to_le_bytes());
    }
}

/// A head and anything: most often with a length that may be, and with no bit above the fields.
pub fn noise(rng: &mut Prng) -> Vec<u8> {
    let count = rng.index(300);
    let mut file = HEAD.to_vec();
    file.extend((0..count).map(|_| rng.draw() as u8));
    if count > 4 && rng.percent(75) {
        let most = (count as u64).min(*LENGTHS.end() as u64);
        file[4] = rng.range(*LENGTHS.start() as u64, most) as u8;
        // A few fields: with many, their bytes would always be missing.
        for byte in &mut file[5..8] {
            *byte &= rng.draw() as u8 & rng.draw() as u8;
        }
        file[7] &= 0x3f;
        file[8] = 0;
    }
    file
}
