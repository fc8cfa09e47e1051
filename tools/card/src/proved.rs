//! The C functions of the proved archive. The only unsafe code of this tool.

use crate::functions::Functions;

pub const FUNCTIONS: Functions = Functions { head, write, read };

#[rustfmt::skip]
extern "C" {
    fn rolthai_card_head(card: *mut u8, card_len: usize) -> usize;
    fn rolthai_card_write(receipt: *const u8, receipt_len: usize, card: *mut u8, card_len: usize) -> usize;
    fn rolthai_card_read(card: *const u8, card_len: usize, at: usize, receipt: *mut u8, receipt_len: usize) -> u32;
}

// SAFETY, for all of them: each pointer is that of a slice, with its length, and the one that is
// written to overlaps no other. The functions read and write inside them and keep none; they have
// no condition on lengths, bytes and places.

fn head(card: &mut [u8]) -> usize {
    // SAFETY: see above.
    unsafe { rolthai_card_head(card.as_mut_ptr(), card.len()) }
}

fn write(receipt: &[u8], card: &mut [u8]) -> usize {
    let (words, words_len) = (receipt.as_ptr(), receipt.len());
    // SAFETY: see above.
    unsafe { rolthai_card_write(words, words_len, card.as_mut_ptr(), card.len()) }
}

fn read(card: &[u8], at: usize, receipt: &mut [u8]) -> u32 {
    let (room, room_len) = (receipt.as_mut_ptr(), receipt.len());
    // SAFETY: see above.
    unsafe { rolthai_card_read(card.as_ptr(), card.len(), at, room, room_len) }
}
