//! Receipts on a memory card (docs/CARD.md): the proved writer and reader of libcard.a, linked as a host links them, beside
//! plain ones in Rust. Both sides are out of line, and lent the same slices: a receipt's 24 words, and the card.
//! The receipts are those of the oracle's random lives, by their decision and as they come.

use crate::plain::{self, AROUND, END, HEAD, LONGEST, READ, RECEIPT_BYTES, WORDS};
use crate::timed;
use oracle::driver::Item;
use oracle::generate::Generator;
use oracle::run::{run_life, Options};
use runtime_core::{Decision, Receipt};
use std::hint::black_box;
use wire::format::layout::RECEIPT;
use wire::format::Output;

#[rustfmt::skip]
extern "C" {
    fn rolthai_card_write(receipt: *const u8, receipt_len: usize, card: *mut u8, card_len: usize) -> usize;
    fn rolthai_card_read(card: *const u8, card_len: usize, at: usize, receipt: *mut u8, receipt_len: usize) -> u32;
}

/// The records of a row.
const RECORDS: usize = 1_000;
const ROUNDS: usize = 1_000;
const SEED: u64 = 1;
/// The ratio to stay within.
const LIMIT: f64 = 2.0;

type Lent = [u8; RECEIPT_BYTES];

// SAFETY, for both: each pointer is that of a slice, with its length, and the one that is written to overlaps no other. The
// functions keep none, and have no condition on lengths, bytes and places.
#[inline]
fn proved_write(receipt: &[u8], card: &mut [u8]) -> usize {
    let (words, words_len) = (receipt.as_ptr(), receipt.len());
    unsafe { rolthai_card_write(words, words_len, card.as_mut_ptr(), card.len()) }
}

#[inline]
fn proved_read(card: &[u8], at: usize, receipt: &mut [u8]) -> u32 {
    let (room, room_len) = (receipt.as_mut_ptr(), receipt.len());
    unsafe { rolthai_card_read(card.as_ptr(), card.len(), at, room, room_len) }
}

// the receipts -----------------------------------------------------------------------------------------------------------

/// Those that random lives hand out, in their order.
fn handed_out() -> impl Iterator<Item = Receipt> {
    let lives = Generator::new(SEED);
    let calls = (0..).flat_map(move |n| run_life(&lives.life(n), Options::default()).calls);
    calls
        .flat_map(|call| call.items)
        .filter_map(|logged| match logged.item {
            Item::Record { receipt } => Some(receipt),
            _ => None,
        })
}

fn lent(words: &[u64]) -> Lent {
    let mut lent = [0; RECEIPT_BYTES];
    for (bytes, word) in lent.as_chunks_mut().0.iter_mut().zip(words) {
        *bytes = word.to_le_bytes();
    }
    lent
}

fn of(receipt: Receipt) -> Lent {
    let words = Output::Settled(receipt).words();
    lent(&words[words.len() - WORDS..])
}

/// The first of those that are wanted.
fn sample(wanted: impl Fn(&Receipt) -> bool) -> Vec<Lent> {
    let wanted = handed_out().filter(wanted);
    wanted.take(RECORDS).map(of).collect()
}

fn decided(decision: Decision) -> Vec<Lent> {
    sample(|receipt| receipt.decision == decision)
}

/// The largest word of each field.
fn tops() -> Vec<u64> {
    RECEIPT.iter().map(|field| field.of.range().1).collect()
}

fn rows() -> [(&'static str, Vec<Lent>); 8] {
    [
        ("grants and renewals", decided(Decision::Control)),
        ("fallbacks", decided(Decision::Fallback)),
        ("executed orders", decided(Decision::Executed)),
        ("rejected orders", decided(Decision::Rejected)),
        ("failed orders", decided(Decision::Failed)),
        ("all, as they come", sample(|_| true)),
        ("every field set", vec![lent(&tops()); RECORDS]),
        ("no field set", vec![lent(&[0; WORDS]); RECORDS]),
    ]
}

// the same answers and bytes ---------------------------------------------------------------------------------------------

/// Fails unless both write the same, with this much room.
fn same_write(receipt: &[u8], room: usize) -> Result<(), String> {
    let [mut a, mut b] = [[0xA5; LONGEST + 1]; 2];
    let answers = [
        proved_write(receipt, &mut a[..room]),
        plain::write(receipt, &mut b[..room]),
    ];
    if answers[0] != answers[1] || a != b {
        return Err(format!(
            "{receipt:?} with room {room}: written {answers:?}, {a:?} and {b:?}"
        ));
    }
    Ok(())
}

/// Fails unless both read the same at a place.
fn same_read(card: &[u8], at: usize, room: usize) -> Result<(), String> {
    let [mut a, mut b] = [[0xA5; RECEIPT_BYTES + 1]; 2];
    let answers = [
        proved_read(card, at, &mut a[..room]),
        plain::read(card, at, &mut b[..room]),
    ];
    if answers[0] != answers[1] || a != b {
        return Err(format!(
            "{card:?} at {at}, room {room}: read {answers:?}, {a:?} and {b:?}"
        ));
    }
    Ok(())
}

/// Sets the sum of a record right, so that the rules after it are reached.
fn repair(record: &mut [u8]) {
    let body = record.len() - 2;
    let sum: u16 = record[..body].iter().map(|byte| u16::from(*byte)).sum();
    record[body..].copy_from_slice(&sum.to_le_bytes());
}

/// A receipt's words, with every room, and with each word changed.
fn compared_words(receipt: &Lent) -> Result<(), String> {
    for room in 0..=LONGEST + 1 {
        same_write(receipt, room)?;
    }
    for len in [0, 191] {
        same_write(&receipt[..len], LONGEST)?;
    }
    for (at, top) in tops().into_iter().enumerate() {
        for word in [0, 1, top, top.saturating_add(1), top << 8, u64::MAX] {
            let mut other = *receipt;
            other[8 * at..8 * at + 8].copy_from_slice(&word.to_le_bytes());
            same_write(&other, LONGEST)?;
        }
    }
    Ok(())
}

/// A card of one record, with every cut, and with each byte changed, the sum as it was and set right.
fn compared_record(card: &[u8]) -> Result<(), String> {
    for at in 0..=card.len() + 1 {
        same_read(card, at, RECEIPT_BYTES)?;
    }
    for cut in 0..=card.len() {
        same_read(&card[..cut], 0, 0)?;
        for room in [0, RECEIPT_BYTES - 1, RECEIPT_BYTES + 1] {
            same_read(&card[..cut], HEAD.len(), room)?;
        }
    }
    for at in 0..card.len() {
        for byte in 0..=u8::MAX {
            let mut other = card.to_vec();
            other[at] = byte;
            same_read(&other, 0, 0)?;
            same_read(&other, HEAD.len(), RECEIPT_BYTES)?;
            repair(&mut other[HEAD.len()..]);
            same_read(&other, HEAD.len(), RECEIPT_BYTES)?;
        }
    }
    Ok(())
}

/// The card of the receipts, after both have written and read every one of them alike.
fn compared(name: &str, receipts: &[Lent]) -> Result<Vec<u8>, String> {
    let mut card = HEAD.to_vec();
    for receipt in receipts {
        same_write(receipt, LONGEST)?;
        let mut record = [0; LONGEST];
        let written = plain::write(receipt, &mut record);
        card.extend(&record[..written]);
    }
    let mut at = HEAD.len();
    for receipt in receipts {
        same_read(&card, at, RECEIPT_BYTES)?;
        let mut read = [0; RECEIPT_BYTES];
        if plain::read(&card, at, &mut read) != READ || read != *receipt {
            return Err(format!("{name}: {receipt:?} is read as {read:?}"));
        }
        at += usize::from(card[at]) + AROUND;
    }
    let first = &card[..HEAD.len() + usize::from(card[HEAD.len()]) + AROUND];
    compared_record(first)?;
    compared_words(&receipts[0])?;
    Ok(card)
}

// the times --------------------------------------------------------------------------------------------------------------

/// The receipts of a row, their card, and room to write it again.
struct Row {
    receipts: Vec<Lent>,
    card: Vec<u8>,
    room: Vec<u8>,
}

impl Row {
    /// Nanoseconds of a record, when all are written; fails unless they are those of the card.
    fn write(&mut self, write: impl Fn(&[u8], &mut [u8]) -> usize) -> Result<f64, String> {
        let Self {
            receipts,
            card,
            room,
        } = self;
        room[HEAD.len()..].fill(0);
        let (time, end) = timed(|| {
            receipts.iter().fold(HEAD.len(), |at, receipt| {
                at + write(black_box(receipt), black_box(&mut room[at..]))
            })
        });
        if room[..end] != *card {
            return Err("what was written when it was timed is another card".to_owned());
        }
        Ok(time / RECORDS as f64)
    }

    /// The same when the card is read from record to record; fails unless that ends at its end.
    fn read(&self, read: impl Fn(&[u8], usize, &mut [u8]) -> u32) -> Result<f64, String> {
        let (card, mut receipt, mut at) = (&self.card[..], [0; RECEIPT_BYTES], HEAD.len());
        let (time, answer) = timed(|| loop {
            let answer = read(black_box(card), at, black_box(&mut receipt));
            if answer != READ {
                return answer;
            }
            at += usize::from(card[at]) + AROUND;
        });
        if (answer, at) != (END, card.len()) {
            return Err(format!("{answer} at {at}, when the reading was timed"));
        }
        Ok(time / RECORDS as f64)
    }
}

/// The least nanoseconds of a record: written by the proved code and by the Rust, and read.
fn measured(row: &mut Row) -> Result<[[f64; 2]; 2], String> {
    let mut least = [[f64::MAX; 2]; 2];
    for _ in 0..ROUNDS {
        let times = [
            [row.write(proved_write)?, row.write(plain::write)?],
            [row.read(proved_read)?, row.read(plain::read)?],
        ];
        for (least, time) in least.iter_mut().flatten().zip(times.iter().flatten()) {
            *least = least.min(*time);
        }
    }
    Ok(least)
}

/// Nanoseconds and megabytes a second of a record of so many bytes, on both sides, and the ratio.
fn shown([proved, rust]: [f64; 2], bytes: f64) -> String {
    let [fast, rust_fast] = [proved, rust].map(|time| 1000.0 * bytes / time);
    let ratio = proved / rust;
    format!("{proved:>9.1} {fast:>6.0} {rust:>8.1} {rust_fast:>6.0} {ratio:>6.2}")
}

/// Prints a line for each row; fails if the two sides differ in an answer or a byte.
pub fn table() -> Result<(), String> {
    println!("a record on a card, {RECORDS} of a kind, best of {ROUNDS}; limit {LIMIT}");
    let others = format!(
        "{:>6} {:>8} {:>6} {:>6}",
        "MB/s", "Rust ns", "MB/s", "ratio"
    );
    let [name, bytes, write, read] = ["", "bytes", "write ns", "read ns"];
    println!("{name:<30} {bytes:>6} {write:>9} {others} {read:>9} {others}");
    for (name, receipts) in rows() {
        let card = compared(name, &receipts)?;
        let bytes = (card.len() - HEAD.len()) as f64 / RECORDS as f64;
        let room = [&card[..], &[0; LONGEST]].concat();
        let mut row = Row {
            receipts,
            card,
            room,
        };
        let [write, read] = measured(&mut row)?.map(|times| shown(times, bytes));
        println!("{name:<30} {bytes:>6.1} {write} {read}");
    }
    Ok(())
}
