//! A plain writer and reader of a card's records (docs/CARD.md) in Rust, as a host could have them in place of the proved
//! ones: lent the same slices, with the same bytes and answers. No allocation, no unsafe code.

use std::array;

pub const WORDS: usize = 24;
pub const RECEIPT_BYTES: usize = 8 * WORDS;
pub const HEAD: &[u8] = b"RCT1";
/// The longest record, and its body.
pub const LONGEST: usize = 129;
const LONGEST_BODY: usize = 126;
/// What stands around a body: the length byte and the sum.
pub const AROUND: usize = 3;
/// The bytes of the map, and how many of its bits stand for fields.
const MAP: usize = 4;
const FIELDS: u32 = 22;
/// How many there are, numbered from 0.
const DECISIONS: u64 = 5;
const REASONS: u64 = 28;

/// The answers of a reading.
pub const READ: u32 = 0;
pub const END: u32 = 1;
const NO_ROOM: u32 = 2;
const NO_HEAD: u32 = 121;
const PAST_END: u32 = 122;
const UNSOUND: u32 = 123;

type Words = [u64; WORDS];

/// At most 127 bytes, so it fits.
fn sum(bytes: &[u8]) -> u16 {
    bytes.iter().map(|byte| u16::from(*byte)).sum()
}

// writing ----------------------------------------------------------------------------------------------------------------

/// The words of a receipt; none where they are no receipt's.
fn words_of(receipt: &[u8]) -> Option<Words> {
    let receipt: &[u8; RECEIPT_BYTES] = receipt.try_into().ok()?;
    let (bytes, _) = receipt.as_chunks();
    let words: Words = array::from_fn(|n| u64::from_le_bytes(bytes[n]));
    let halves = [2, 15, 16, 17, 18, 19, 20];
    let fit = halves.iter().all(|n| words[*n] <= u64::from(u32::MAX))
        && words[6] <= u64::from(u16::MAX)
        && words[7] <= u64::from(u8::MAX)
        && words[9] < DECISIONS
        && words[10] < REASONS
        && words[22] <= 1
        && words[23] <= 1;
    fit.then_some(words)
}

/// The fields in their order, each as one number and with how many bytes it takes.
#[inline]
fn each(words: &Words, mut field: impl FnMut(u64, usize)) {
    let pair = |at: usize| words[at] | words[at + 1] << 32;
    field(words[0], 8);
    field(words[1], 8);
    field(words[2], 4);
    field(words[3], 8);
    field(words[4], 8);
    field(words[5], 8);
    field(words[6], 2);
    field(words[7], 1);
    field(words[8], 8);
    field(words[9], 1);
    field(words[10], 2);
    field(words[11], 8);
    field(words[12], 8);
    field(words[13], 8);
    field(words[14], 8);
    field(pair(15), 8);
    field(pair(17), 8);
    field(words[19], 4);
    field(words[20], 4);
    field(words[21], 8);
    field(words[22], 0);
    field(words[23], 0);
}

/// The map, and the length of the body.
fn plan(words: &Words) -> (u32, usize) {
    let (mut map, mut bit, mut length) = (0, 1, MAP);
    each(words, |number, width| {
        if number != 0 {
            map |= bit;
            length += width;
        }
        bit <<= 1;
    });
    (map, length)
}

/// As `rolthai_card_write`.
#[inline(never)]
pub fn write(receipt: &[u8], card: &mut [u8]) -> usize {
    let Some(words) = words_of(receipt) else {
        return 0;
    };
    let (map, length) = plan(&words);
    let Some(record) = card.get_mut(..length + AROUND) else {
        return 0;
    };
    record[0] = length as u8;
    record[1..=MAP].copy_from_slice(&map.to_le_bytes());
    let mut at = 1 + MAP;
    each(&words, |number, width| {
        if number != 0 {
            record[at..at + width].copy_from_slice(&number.to_le_bytes()[..width]);
            at += width;
        }
    });
    let sum = sum(&record[..at]);
    record[at..].copy_from_slice(&sum.to_le_bytes());
    record.len()
}

// reading ----------------------------------------------------------------------------------------------------------------

/// What is left of a body: the bits of the fields to come, and their bytes.
struct Reader<'a> {
    map: u32,
    bytes: &'a [u8],
}

impl Reader<'_> {
    fn yes_no(&mut self) -> bool {
        let stands = self.map & 1 == 1;
        self.map >>= 1;
        stands
    }

    /// A field of so many bytes; none if they are missing, or are 0.
    fn field<const N: usize>(&mut self) -> Option<u64> {
        if !self.yes_no() {
            return Some(0);
        }
        let (field, rest) = self.bytes.split_first_chunk::<N>()?;
        self.bytes = rest;
        let mut bytes = [0; 8];
        bytes[..N].copy_from_slice(field);
        let number = u64::from_le_bytes(bytes);
        (number != 0).then_some(number)
    }

    fn pair(&mut self) -> Option<[u64; 2]> {
        let number = self.field::<8>()?;
        Some([number & u64::from(u32::MAX), number >> 32])
    }

    fn words(&mut self) -> Option<Words> {
        let mut words = [0; WORDS];
        words[0] = self.field::<8>()?;
        words[1] = self.field::<8>()?;
        words[2] = self.field::<4>()?;
        words[3] = self.field::<8>()?;
        words[4] = self.field::<8>()?;
        words[5] = self.field::<8>()?;
        words[6] = self.field::<2>()?;
        words[7] = self.field::<1>()?;
        words[8] = self.field::<8>()?;
        words[9] = self.field::<1>()?;
        words[10] = self.field::<2>()?;
        words[11] = self.field::<8>()?;
        words[12] = self.field::<8>()?;
        words[13] = self.field::<8>()?;
        words[14] = self.field::<8>()?;
        [words[15], words[16]] = self.pair()?;
        [words[17], words[18]] = self.pair()?;
        words[19] = self.field::<4>()?;
        words[20] = self.field::<4>()?;
        words[21] = self.field::<8>()?;
        words[22] = u64::from(self.yes_no());
        words[23] = u64::from(self.yes_no());
        let sound = self.bytes.is_empty() && words[9] < DECISIONS && words[10] < REASONS;
        sound.then_some(words)
    }
}

/// The words of a whole record, whose body has so many bytes; none if a rule is broken.
fn words_in(record: &[u8], length: usize) -> Option<Words> {
    if length > LONGEST_BODY {
        return None;
    }
    let (summed, end) = record.split_at(1 + length);
    if sum(summed).to_le_bytes() != end {
        return None;
    }
    let (map, bytes) = summed[1..].split_first_chunk::<MAP>()?;
    let map = u32::from_le_bytes(*map);
    if map >> FIELDS != 0 {
        return None;
    }
    Reader { map, bytes }.words()
}

/// As `rolthai_card_read`.
#[inline(never)]
pub fn read(card: &[u8], at: usize, receipt: &mut [u8]) -> u32 {
    if at < HEAD.len() {
        return if card.starts_with(HEAD) {
            READ
        } else {
            NO_HEAD
        };
    }
    let Some(receipt) = receipt.first_chunk_mut::<RECEIPT_BYTES>() else {
        return NO_ROOM;
    };
    let rest = card.get(at..).unwrap_or_default();
    let Some(length) = rest.first().map(|length| usize::from(*length)) else {
        return END;
    };
    let Some(record) = rest.get(..length + AROUND) else {
        return PAST_END;
    };
    let Some(words) = words_in(record, length) else {
        return UNSOUND;
    };
    for (bytes, word) in receipt.as_chunks_mut().0.iter_mut().zip(words) {
        *bytes = word.to_le_bytes();
    }
    READ
}
