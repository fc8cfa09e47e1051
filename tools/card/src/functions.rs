//! The functions of the card that a host calls, as values: what they are does not matter to those
//! who call them.

use crate::format::{entry, record, Entry, Rule, AROUND, HEAD, LONGEST};
use crate::words::{self, RECEIPT_BYTES};
use oracle::runtime_core::Receipt;

/// The answers of `read` that are no refusals.
pub const READ: u32 = 0;
pub const END: u32 = 1;
pub const NO_ROOM: u32 = 2;

#[derive(Clone, Copy)]
pub struct Functions {
    /// Writes the head: 4, or 0 where there is no room.
    pub head: fn(card: &mut [u8]) -> usize,
    /// Writes the record of a receipt's words: its bytes, or 0 where there is no room and where
    /// the words are no receipt's.
    pub write: fn(receipt: &[u8], card: &mut [u8]) -> usize,
    /// Reads the head (a place below 4) or a record.
    pub read: fn(card: &[u8], at: usize, receipt: &mut [u8]) -> u32,
}

/// [`crate::format`] as a host would call it.
pub const INDEPENDENT: Functions = Functions { head, write, read };

/// The proved functions; none in a build without them.
pub const fn proved() -> Option<Functions> {
    #[cfg(feature = "proved")]
    return Some(crate::proved::FUNCTIONS);
    #[cfg(not(feature = "proved"))]
    None
}

fn put(bytes: &[u8], card: &mut [u8]) -> usize {
    match card.get_mut(..bytes.len()) {
        Some(room) => {
            room.copy_from_slice(bytes);
            bytes.len()
        }
        None => 0,
    }
}

fn head(card: &mut [u8]) -> usize {
    put(&HEAD, card)
}

fn write(receipt: &[u8], card: &mut [u8]) -> usize {
    words::receipt(receipt).map_or(0, |receipt| put(&record(&receipt), card))
}

fn read(card: &[u8], at: usize, receipt: &mut [u8]) -> u32 {
    if at < HEAD.len() {
        let sound = card.starts_with(&HEAD);
        return if sound { READ } else { Rule::Head.number() };
    }
    let Some(room) = receipt.get_mut(..RECEIPT_BYTES) else {
        return NO_ROOM;
    };
    match entry(card.get(at..).unwrap_or_default()) {
        Entry::End => END,
        Entry::Accepted(receipt, _) => {
            room.copy_from_slice(&words::receipt_bytes(&receipt));
            READ
        }
        Entry::Refused(rule) => rule.number(),
    }
}

/// What a whole file was read to.
#[derive(Clone, Debug, PartialEq, Eq)]
pub struct Reading {
    pub receipts: Vec<Receipt>,
    /// 0 at the end of the file, else 121, 122 or 123.
    pub answer: u32,
    /// The byte where the reading ended.
    pub at: usize,
}

impl Functions {
    /// The head, then record by record until one is not accepted. None if what is handed out is no
    /// receipt, or a receipt's room is not enough: no sound functions do that.
    pub fn read_all(&self, file: &[u8]) -> Option<Reading> {
        let mut words = [0; RECEIPT_BYTES];
        let mut reading = Reading {
            receipts: Vec::new(),
            answer: (self.read)(file, 0, &mut words),
            at: 0,
        };
        if reading.answer != READ {
            return Some(reading);
        }
        reading.at = HEAD.len();
        loop {
            match (self.read)(file, reading.at, &mut words) {
                READ => reading.receipts.push(words::receipt(&words)?),
                END => return Some(reading),
                NO_ROOM => return None,
                refusal => {
                    reading.answer = refusal;
                    return Some(reading);
                }
            }
            reading.at += usize::from(*file.get(reading.at)?) + AROUND;
        }
    }

    /// Adds the head to a file. None if it was not written.
    pub fn add_head(&self, file: &mut Vec<u8>) -> Option<()> {
        add(file, &|room| (self.head)(room))
    }

    /// Adds the record of a receipt to a file. None if it was not written.
    pub fn add(&self, receipt: &Receipt, file: &mut Vec<u8>) -> Option<()> {
        let words = words::receipt_bytes(receipt);
        add(file, &|room| (self.write)(&words, room))
    }
}

/// Lends room for the longest record, and keeps of it what was written.
fn add(file: &mut Vec<u8>, write: &dyn Fn(&mut [u8]) -> usize) -> Option<()> {
    let before = file.len();
    file.resize(before + LONGEST, 0);
    let written = write(&mut file[before..]);
    file.truncate(before + written);
    (written > 0).then_some(())
}
