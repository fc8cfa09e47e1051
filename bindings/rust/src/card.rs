//! Receipts on a memory card (docs/CARD.md), by the archive that `tools/archives card` writes: the feature `card`.
//!
//! ```no_run
//! # let file = [0; 4];
//! use rolthai::card::{has_head, read, Entry, HEAD_BYTES};
//!
//! assert!(has_head(&file));
//! let mut at = HEAD_BYTES;
//! while let Entry::Receipt(receipt, next) = read(&file, at) {
//!     println!("receipt {}", receipt.receipt_id);
//!     at = next;
//! }
//! ```

use crate::words::{self, RECEIPT};
use crate::{raw, Receipt, OUT_WORDS};

/// The head of a card.
pub const HEAD_BYTES: usize = 4;
/// The longest record.
pub const RECORD_BYTES: usize = 129;

/// The head is wrong or short.
pub const NO_HEAD: u32 = 121;
/// The record ends past the card: after a power cut, its last one.
pub const PAST_END: u32 = 122;
/// Another rule of the record is broken.
pub const UNSOUND: u32 = 123;

/// What stands at a place of a card.
#[derive(Clone, Copy, Debug, PartialEq, Eq)]
pub enum Entry {
    /// .. and the place after its record.
    Receipt(Receipt, usize),
    /// The card ends here, or before.
    End,
    /// `NO_HEAD`, `PAST_END` or `UNSOUND`.
    Refused(u32),
}

/// Writes the head at the beginning of `card`: its bytes, or none where there is no room.
pub fn head(card: &mut [u8]) -> Option<usize> {
    // SAFETY: a slice as its pointer and its length; the function does not keep it, and has no condition on what it holds.
    written(unsafe { raw::rolthai_card_head(card.as_mut_ptr(), card.len()) })
}

/// Writes the record of a receipt at the beginning of `card`: its bytes, or none where there is no room.
pub fn write(receipt: &Receipt, card: &mut [u8]) -> Option<usize> {
    let lent = words::receipt_words(receipt).map(u64::to_le_bytes);
    let lent = lent.as_flattened();
    let (card, card_len) = (card.as_mut_ptr(), card.len());
    // SAFETY: as in `head`; `lent` is another slice.
    written(unsafe { raw::rolthai_card_write(lent.as_ptr(), lent.len(), card, card_len) })
}

fn written(bytes: usize) -> Option<usize> {
    (bytes > 0).then_some(bytes)
}

/// Whether this is a card: what begins otherwise is none.
pub fn has_head(card: &[u8]) -> bool {
    answer(card, 0, &mut []) == 0
}

/// What stands at a place: `HEAD_BYTES`, or that after a record. A lower one is the head's: `NO_HEAD`, or the first record.
pub fn read(card: &[u8], at: usize) -> Entry {
    if at < HEAD_BYTES && !has_head(card) {
        return Entry::Refused(NO_HEAD);
    }
    let at = at.max(HEAD_BYTES);
    let mut lent = [[0; 8]; RECEIPT];
    match answer(card, at, lent.as_flattened_mut()) {
        0 => {
            let mut out = [0; OUT_WORDS];
            out[OUT_WORDS - RECEIPT..].copy_from_slice(&lent.map(u64::from_le_bytes));
            let next = at + usize::from(card[at]) + 3;
            // A decision or reason that this crate has no name for is one without number.
            words::receipt(&out).map_or(Entry::Refused(UNSOUND), |r| Entry::Receipt(r, next))
        }
        1 => Entry::End,
        number => Entry::Refused(number),
    }
}

fn answer(card: &[u8], at: usize, receipt: &mut [u8]) -> u32 {
    let (room, room_len) = (receipt.as_mut_ptr(), receipt.len());
    // SAFETY: as in `head`, for two slices.
    unsafe { raw::rolthai_card_read(card.as_ptr(), card.len(), at, room, room_len) }
}
