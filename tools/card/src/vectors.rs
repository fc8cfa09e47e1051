//! The vectors of `crates/card_main`: card files as lines of digits, and what that program has to
//! print of them. The answers come from [`INDEPENDENT`], never from the proved functions.

use crate::digits::hex;
use crate::document::tails;
use crate::format::{record, AROUND, HEAD};
use crate::functions::{END, INDEPENDENT, READ};
use crate::samples::{full, single_fields};
use crate::words::{receipt_bytes, Words};
use oracle::runtime_core::Receipt;
use wire::format::word::get_words;

/// The head and the two records of case C.
const CARD_C: &[u8] = include_bytes!("../../../examples/c.card");

/// What goes into the program, and what has to come out.
pub struct Vectors {
    pub stdin: String,
    pub stdout: String,
}

/// A card file in parts: the head, then what stands after it. A line has a space between two.
type File = Vec<Vec<u8>>;

/// The program has room for 1,024 bytes of a file and 16,384 of all lines.
pub fn vectors() -> Vectors {
    let files = files();
    Vectors {
        stdin: files.iter().map(line).collect(),
        stdout: files.iter().map(|file| printed(&file.concat())).collect(),
    }
}

fn files() -> Vec<File> {
    let (grant, order) = case_c();
    // Wrong and short heads; a head alone; case C.
    let mut files = vec![
        Vec::new(),
        vec![HEAD[..3].to_vec()],
        vec![b"RCT2".to_vec(), grant.to_vec()],
        card(&[]),
        card(&[grant, order]),
    ];
    files.extend(tails().iter().map(|tail| card(&[&tail.bytes])));
    // Each field alone, and all at their tops.
    files.push(card_of(&single_fields()));
    files.push(card_of(&[full()]));
    // A cut inside a record; a refused record between two others.
    files.push(card(&[grant, &order[..order.len() / 2]]));
    files.push(card(&[grant, &[0; 3], order]));
    files
}

fn case_c() -> (&'static [u8], &'static [u8]) {
    let records = &CARD_C[HEAD.len()..];
    records.split_at(size(records[0]))
}

/// How many bytes a record has, by its length byte.
fn size(length: u8) -> usize {
    usize::from(length) + AROUND
}

fn card(parts: &[&[u8]]) -> File {
    let parts = [&HEAD[..]].into_iter().chain(parts.iter().copied());
    parts.map(<[u8]>::to_vec).collect()
}

fn card_of(receipts: &[Receipt]) -> File {
    let records: Vec<Vec<u8>> = receipts.iter().map(record).collect();
    let records: Vec<&[u8]> = records.iter().map(Vec::as_slice).collect();
    card(&records)
}

fn line(file: &File) -> String {
    let parts = file.iter().filter(|part| !part.is_empty());
    let parts: Vec<String> = parts.map(|part| hex(part)).collect();
    parts.join(" ") + "\n"
}

/// What is printed of a file: its receipts, then the answer that ended the reading, and the place.
///
/// # Panics
/// If what was handed out is no receipt.
fn printed(file: &[u8]) -> String {
    let reading = INDEPENDENT.read_all(file).expect("receipts");
    let mut text = String::new();
    let mut at = HEAD.len();
    for receipt in &reading.receipts {
        let next = at + size(file[at]);
        text += &said(receipt, &file[at..next]);
        at = next;
    }
    let answer = match reading.answer {
        READ => END,
        refusal => refusal,
    };
    text + &format!("{answer} at {}\n", reading.at)
}

/// A receipt by its words, and whether it is written as the bytes that it was read from.
fn said(receipt: &Receipt, bytes: &[u8]) -> String {
    let words: Words = get_words(&receipt_bytes(receipt));
    let words: String = words.iter().map(|word| format!(" {word}")).collect();
    let same = match record(receipt) == bytes {
        true => "same",
        false => "other",
    };
    format!("receipt{words} {same}\n")
}
