//! The card file, from the text of the request and `model.rs` alone. Nothing here is taken from the
//! proved code, so that a misreading would have to be made twice to go unseen.

use oracle::runtime_core::{Decision, Reason, Receipt};
use std::ops::RangeInclusive;
use wire::format::word::{DECISIONS, REASONS};

/// "A card file begins with the four fixed bytes".
pub const HEAD: [u8; 4] = [0x52, 0x43, 0x54, 0x31];

/// "L is 4 to 126".
pub const LENGTHS: RangeInclusive<usize> = 4..=126;

/// What stands around a body: the length byte and the sum.
pub const AROUND: usize = 3;

/// The longest record.
pub const LONGEST: usize = *LENGTHS.end() + AROUND;

/// The bits of the map that stand for fields; "bits 22 to 31 are 0".
const FIELDS: u32 = 22;

/// What is refused, each rule by itself: the file says no more than the number.
#[derive(Clone, Copy, Debug, PartialEq, Eq, PartialOrd, Ord)]
pub enum Rule {
    Head,
    PastEnd,
    Length,
    Sum,
    Bits,
    Missing,
    Zero,
    LeftOver,
    Decision,
    Reason,
}

impl Rule {
    pub const ALL: [Self; 10] = [
        Self::Head,
        Self::PastEnd,
        Self::Length,
        Self::Sum,
        Self::Bits,
        Self::Missing,
        Self::Zero,
        Self::LeftOver,
        Self::Decision,
        Self::Reason,
    ];

    /// The answer.
    pub const fn number(self) -> u32 {
        match self {
            Self::Head => 121,
            Self::PastEnd => 122,
            _ => 123,
        }
    }

    pub const fn text(self) -> &'static str {
        match self {
            Self::Head => "a wrong or short head",
            Self::PastEnd => "a record that ends past the file",
            Self::Length => "a length outside 4 to 126",
            Self::Sum => "another sum",
            Self::Bits => "a bit of 22 to 31",
            Self::Missing => "bytes of a field missing",
            Self::Zero => "a zero that is there",
            Self::LeftOver => "bytes left over",
            Self::Decision => "a decision without number",
            Self::Reason => "a reason without number",
        }
    }
}

// Writing -----------------------------------------------------------------------------------------

/// The map and the fields of a body, field by field.
#[derive(Default)]
struct Writer {
    map: u32,
    bit: u32,
    fields: Vec<u8>,
}

impl Writer {
    /// "A bit stands exactly when its field is not zero or false, and only those fields follow".
    fn field(&mut self, bytes: &[u8]) {
        if bytes.iter().any(|byte| *byte != 0) {
            self.map |= 1 << self.bit;
            self.fields.extend_from_slice(bytes);
        }
        self.bit += 1;
    }

    /// "a pair is one field of eight bytes, first number in front".
    fn pair(&mut self, [first, second]: [i32; 2]) {
        let bytes = [first.to_le_bytes(), second.to_le_bytes()].concat();
        self.field(&bytes);
    }

    /// "the two yes/no fields take no bytes".
    fn yes_no(&mut self, yes: bool) {
        self.map |= u32::from(yes) << self.bit;
        self.bit += 1;
    }
}

/// The fields in the order of `Receipt` in `model.rs`.
fn body(r: &Receipt) -> Vec<u8> {
    let mut writer = Writer::default();
    writer.field(&r.boot_id.to_le_bytes());
    writer.field(&r.principal.to_le_bytes());
    writer.field(&r.safety_flags.to_le_bytes());
    writer.field(&r.receipt_id.to_le_bytes());
    writer.field(&r.action_id.to_le_bytes());
    writer.field(&r.sequence.to_le_bytes());
    writer.field(&r.capability.to_le_bytes());
    writer.field(&r.resource.to_le_bytes());
    writer.field(&r.lease_id.to_le_bytes());
    writer.field(&(r.decision as u8).to_le_bytes());
    writer.field(&(r.reason as u16).to_le_bytes());
    writer.field(&r.epoch.to_le_bytes());
    writer.field(&r.received_at.to_le_bytes());
    writer.field(&r.admitted_at.to_le_bytes());
    writer.field(&r.executed_at.to_le_bytes());
    writer.pair(r.requested);
    writer.pair(r.observed);
    writer.field(&r.pre_state.to_le_bytes());
    writer.field(&r.post_state.to_le_bytes());
    writer.field(&r.original_receipt.to_le_bytes());
    writer.yes_no(r.dispatched);
    writer.yes_no(r.observed_valid);
    [&writer.map.to_le_bytes(), &writer.fields[..]].concat()
}

/// "the sum of length byte and body"; at most 126 + 126 * 255, so it fits its two bytes.
pub fn sum(length_and_body: &[u8]) -> u16 {
    length_and_body.iter().map(|byte| u16::from(*byte)).sum()
}

/// The record of a receipt.
pub fn record(receipt: &Receipt) -> Vec<u8> {
    let body = body(receipt);
    let mut record = vec![body.len() as u8];
    record.extend(body);
    record.extend(sum(&record).to_le_bytes());
    record
}

/// The file of receipts.
pub fn card(receipts: &[Receipt]) -> Vec<u8> {
    let records = receipts.iter().flat_map(record);
    HEAD.into_iter().chain(records).collect()
}

// Reading -----------------------------------------------------------------------------------------

/// What stands where a record may begin.
#[derive(Clone, Copy, Debug, PartialEq, Eq)]
pub enum Entry {
    End,
    /// A receipt, and how many bytes its record has.
    Accepted(Receipt, usize),
    Refused(Rule),
}

/// What is left of a body: the bits of the fields to come, and their bytes.
struct Reader<'a> {
    map: u32,
    bytes: &'a [u8],
}

impl Reader<'_> {
    fn yes_no(&mut self) -> bool {
        let stands = self.map & 1 == 1;
        self.map >>= 1;
        stands
    }

    fn field<const N: usize>(&mut self) -> Result<[u8; N], Rule> {
        if !self.yes_no() {
            return Ok([0; N]);
        }
        let (field, rest) = self.bytes.split_first_chunk().ok_or(Rule::Missing)?;
        self.bytes = rest;
        match field.iter().any(|byte| *byte != 0) {
            true => Ok(*field),
            false => Err(Rule::Zero),
        }
    }

    fn pair(&mut self) -> Result<[i32; 2], Rule> {
        let [a, b, c, d, e, f, g, h] = self.field()?;
        Ok([[a, b, c, d], [e, f, g, h]].map(i32::from_le_bytes))
    }

    fn decision(&mut self) -> Result<Decision, Rule> {
        let number = u8::from_le_bytes(self.field()?);
        let decision = DECISIONS.into_iter().find(|d| *d as u8 == number);
        decision.ok_or(Rule::Decision)
    }

    fn reason(&mut self) -> Result<Reason, Rule> {
        let number = u16::from_le_bytes(self.field()?);
        let reason = REASONS.into_iter().find(|r| *r as u16 == number);
        reason.ok_or(Rule::Reason)
    }

    /// In the order of `Receipt` in `model.rs`; each field in its type's width.
    fn receipt(&mut self) -> Result<Receipt, Rule> {
        Ok(Receipt {
            boot_id: u64::from_le_bytes(self.field()?),
            principal: u64::from_le_bytes(self.field()?),
            safety_flags: u32::from_le_bytes(self.field()?),
            receipt_id: u64::from_le_bytes(self.field()?),
            action_id: u64::from_le_bytes(self.field()?),
            sequence: u64::from_le_bytes(self.field()?),
            capability: u16::from_le_bytes(self.field()?),
            resource: u8::from_le_bytes(self.field()?),
            lease_id: u64::from_le_bytes(self.field()?),
            decision: self.decision()?,
            reason: self.reason()?,
            epoch: u64::from_le_bytes(self.field()?),
            received_at: u64::from_le_bytes(self.field()?),
            admitted_at: u64::from_le_bytes(self.field()?),
            executed_at: u64::from_le_bytes(self.field()?),
            requested: self.pair()?,
            observed: self.pair()?,
            pre_state: u32::from_le_bytes(self.field()?),
            post_state: u32::from_le_bytes(self.field()?),
            original_receipt: u64::from_le_bytes(self.field()?),
            dispatched: self.yes_no(),
            observed_valid: self.yes_no(),
        })
    }
}

/// The receipt of the record that begins here, whose length byte says L.
fn accepted(bytes: &[u8], length: usize) -> Result<Receipt, Rule> {
    let record = bytes.get(..length + AROUND).ok_or(Rule::PastEnd)?;
    if !LENGTHS.contains(&length) {
        return Err(Rule::Length);
    }
    let (summed, end) = record.split_at(length + 1);
    if sum(summed).to_le_bytes() != end {
        return Err(Rule::Sum);
    }
    let (map, bytes) = summed[1..].split_first_chunk().ok_or(Rule::Length)?;
    let map = u32::from_le_bytes(*map);
    if map >> FIELDS != 0 {
        return Err(Rule::Bits);
    }
    let mut reader = Reader { map, bytes };
    let receipt = reader.receipt()?;
    match reader.bytes.is_empty() {
        true => Ok(receipt),
        false => Err(Rule::LeftOver),
    }
}

/// What stands at the beginning of these bytes, which go on to the end of the file.
pub fn entry(bytes: &[u8]) -> Entry {
    let Some(length) = bytes.first().map(|length| usize::from(*length)) else {
        return Entry::End;
    };
    match accepted(bytes, length) {
        Ok(receipt) => Entry::Accepted(receipt, length + AROUND),
        Err(rule) => Entry::Refused(rule),
    }
}

/// What a file holds.
#[derive(Clone, Debug, PartialEq, Eq)]
pub struct Contents {
    pub receipts: Vec<Receipt>,
    /// What ended the reading; none at the end of the file.
    pub refused: Option<Rule>,
    /// The byte where it ended.
    pub at: usize,
}

/// "A refused record hands out nothing and ends the reading; those before it stand".
pub fn read(file: &[u8]) -> Contents {
    let mut contents = Contents {
        receipts: Vec::new(),
        refused: None,
        at: 0,
    };
    if !file.starts_with(&HEAD) {
        contents.refused = Some(Rule::Head);
        return contents;
    }
    contents.at = HEAD.len();
    loop {
        match entry(&file[contents.at..]) {
            Entry::End => return contents,
            Entry::Accepted(receipt, bytes) => {
                contents.receipts.push(receipt);
                contents.at += bytes;
            }
            Entry::Refused(rule) => {
                contents.refused = Some(rule);
                return contents;
            }
        }
    }
}
