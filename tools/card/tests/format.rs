//! The format by its vectors, those of docs/CARD.md among them, for each implementation.

mod common;

use card::digits::unhex;
use card::document::{rows, tails, Tail, DOCUMENT};
use card::format::{card, entry, read, record, Contents, Entry, Rule, HEAD, LONGEST};
use card::functions::{END, READ};
use card::samples::{full, randoms, single_fields};
use card::words::{bytes, receipt, receipt_bytes, RECEIPT_BYTES, RECEIPT_WORDS};
use common::{implementations, receipts_of, stages, stored_lives};
use oracle::prng::Prng;
use oracle::runtime_core::{Decision, Reason, Receipt};
use wire::format::layout::RECEIPT;

const CASE_C: &str = include_str!("../../../examples/c.life");
const CARD_C: &[u8] = include_bytes!("../../../examples/c.card");

/// The grant of case A, as the request's page has it.
const GRANT: &str = "2f 0b0f0000 2a00000000000000 0700000000000000 0100000000000000 \
                     0100000000000000 03 1800 0200000000000000 9900";

/// The blocks of indented lines after a heading, up to the next heading.
fn blocks(heading: &str) -> Vec<String> {
    let (_, rest) = DOCUMENT.split_once(heading).expect("the heading");
    let section = rest.split("\n## ").next().unwrap_or(rest);
    let parts = section
        .split("\n\n")
        .filter(|part| part.starts_with("    "));
    parts.map(String::from).collect()
}

fn blank() -> Receipt {
    receipt(&bytes(&[0; RECEIPT_WORDS])).expect("a receipt")
}

#[test]
fn the_grant_of_case_a() {
    let grant = Receipt {
        boot_id: 42,
        principal: 7,
        receipt_id: 1,
        lease_id: 1,
        decision: Decision::Control,
        reason: Reason::LeaseGranted,
        epoch: 2,
        ..blank()
    };
    assert_eq!(record(&grant), unhex(GRANT));
    for (name, functions) in implementations() {
        let mut file = Vec::new();
        functions.add(&grant, &mut file).expect("room");
        assert_eq!(file, unhex(GRANT), "{name}");
    }
}

#[test]
fn case_c_has_151_bytes() {
    assert_eq!(CARD_C.len(), 151);
    let worked: Vec<u8> = blocks("## Worked bytes")
        .iter()
        .flat_map(|b| unhex(b))
        .collect();
    assert_eq!(CARD_C, [&HEAD[..], &worked].concat());
    for mut stage in stages() {
        let receipts = receipts_of(CASE_C, stage.as_mut());
        assert_eq!(receipts.len(), 2);
        for (name, functions) in implementations() {
            let mut file = Vec::new();
            functions.add_head(&mut file).expect("room");
            for receipt in &receipts {
                functions.add(receipt, &mut file).expect("room");
            }
            assert_eq!(file, CARD_C, "{name}");
            let reading = functions.read_all(&file).expect("a card");
            let read = (&reading.receipts, reading.answer, reading.at);
            assert_eq!(read, (&receipts, READ, 151), "{name}");
        }
    }
}

/// The table of fields: each field alone has its bit and its bytes.
#[test]
fn the_documents_fields() {
    let rows = rows("So a record has 7 to 129 bytes.");
    assert_eq!(rows.len(), 22);
    let mut alone = single_fields().into_iter();
    let mut names = RECEIPT.iter().map(|field| field.name);
    for row in rows {
        let (bit, field, width) = (row[0], row[1], row[2]);
        let bit: u32 = bit.parse().expect("a bit");
        let width: usize = width.parse().expect("a number of bytes");
        // A pair is two words, and each word comes up twice.
        let is_pair = matches!(field, "requested" | "observed");
        for half in 0..=usize::from(is_pair) {
            let name = names.next().expect("a word");
            let of_pair = is_pair && name == format!("{field}{half}");
            assert!(name == field || of_pair, "{field}: {name}");
            for _ in 0..2 {
                let record = record(&alone.next().expect("a receipt"));
                assert_eq!(record[1..5], (1u32 << bit).to_le_bytes(), "{field}");
                assert_eq!(record.len(), 7 + width, "{field}");
            }
        }
    }
    assert!(alone.next().is_none() && names.next().is_none());
}

/// The table of answers: what stands after the records of case C.
#[test]
fn the_documents_answers() {
    let tails = tails();
    assert!(tails.len() > 20);
    for Tail { bytes, answer, why } in tails {
        let file = [CARD_C, &bytes].concat();
        for (name, functions) in implementations() {
            let got = (functions.read)(&file, CARD_C.len(), &mut [0; RECEIPT_BYTES]);
            assert_eq!(got, answer, "{name}: {why}");
            let reading = functions.read_all(&file).expect("answers");
            let ended = if answer == END { READ } else { answer };
            let sound = answer == READ;
            assert_eq!(reading.answer, ended, "{name}: {why}");
            assert_eq!(reading.receipts.len(), 2 + usize::from(sound), "{name}");
        }
    }
}

#[test]
fn each_rule_refuses_its_own() {
    let wide = format!("fe {}", "00".repeat(256));
    for (text, rule) in [
        ("ff 00 00 00", Rule::PastEnd),
        ("00 00", Rule::PastEnd),
        ("00 00 00", Rule::Length),
        ("03 000000 0300", Rule::Length),
        (&wide, Rule::Length),
        ("04 00000000 0500", Rule::Sum),
        ("04 00000000 0401", Rule::Sum),
        ("04 00004000 4400", Rule::Bits),
        ("05 80000000 00 8500", Rule::Zero),
        ("0c 00800000 00000000 00000000 8c00", Rule::Zero),
        ("04 80000000 8400", Rule::Missing),
        ("05 00000000 01 0600", Rule::LeftOver),
        ("05 00020000 05 0c00", Rule::Decision),
        ("05 00020000 ff 0601", Rule::Decision),
        ("06 00040000 1c00 2600", Rule::Reason),
        ("06 00040000 0101 0c00", Rule::Reason),
        ("06 00040000 ffff 0802", Rule::Reason),
    ] {
        assert_eq!(entry(&unhex(text)), Entry::Refused(rule), "{text}");
    }
    for file in ["", "52", "524354", "52435432", "00435431"] {
        assert_eq!(read(&unhex(file)).refused, Some(Rule::Head), "{file}");
    }
    let alone = read(&HEAD);
    let sound = Contents {
        receipts: Vec::new(),
        refused: None,
        at: 4,
    };
    assert_eq!(alone, sound);
}

#[test]
fn a_pair_is_zero_only_if_both_are() {
    let bytes = unhex("0c 00800000 ffffffff 00000000 8804");
    let asked = Receipt {
        requested: [-1, 0],
        ..blank()
    };
    assert_eq!(entry(&bytes), Entry::Accepted(asked, bytes.len()));
    assert_eq!(record(&asked), bytes);
}

#[test]
fn the_shortest_and_the_longest() {
    assert_eq!(record(&blank()).len(), 7);
    let record = record(&full());
    assert_eq!((record[0], record.len()), (126, LONGEST));
    assert_eq!(record[1..5], [0xff, 0xff, 0x3f, 0]);
}

/// A cut anywhere leaves the receipts whose records are whole; 122 but at the end of one.
#[test]
fn every_cut_leaves_what_is_before_it() {
    let receipts = randoms(&mut Prng::new(18, 0), 12);
    let file = card(&receipts);
    let mut ends = vec![HEAD.len()];
    ends.extend(receipts.iter().map(|receipt| record(receipt).len()));
    (1..ends.len()).for_each(|n| ends[n] += ends[n - 1]);
    for (name, functions) in implementations() {
        for cut in 0..=file.len() {
            let reading = functions.read_all(&file[..cut]).expect("answers");
            let whole = ends.iter().filter(|end| **end <= cut).count();
            let (answer, at) = match whole {
                0 => (121, 0),
                _ if ends[whole - 1] == cut => (READ, cut),
                _ => (122, ends[whole - 1]),
            };
            assert_eq!((reading.answer, reading.at), (answer, at), "{name} {cut}");
            assert_eq!(reading.receipts, receipts[..whole.saturating_sub(1)]);
        }
    }
}

/// The receipts of every stored life, on everything that runs lives.
#[test]
fn the_stored_lives_come_back() {
    let mut lives = stored_lives("examples");
    lives.extend(stored_lives("tools/definitions/lives"));
    assert!(lives.len() >= 11);
    let mut filed = 0;
    for mut stage in stages() {
        for (file, lives) in &lives {
            let receipts = card::filing::receipts(lives.clone(), stage.as_mut());
            let receipts = receipts.expect("output records");
            filed += receipts.len();
            for (name, functions) in implementations() {
                let mut bytes = HEAD.to_vec();
                for receipt in &receipts {
                    functions.add(receipt, &mut bytes).expect("room");
                }
                assert_eq!(bytes, card(&receipts), "{name} {file}");
                let reading = functions.read_all(&bytes).expect("a card");
                assert_eq!(reading.receipts, receipts, "{name} {file}");
                assert_eq!(reading.answer, READ, "{name} {file}");
            }
        }
    }
    assert!(filed > 100, "{filed} receipts");
}

/// The words of a receipt are read again from their bytes.
#[test]
fn words_and_back() {
    for sample in randoms(&mut Prng::new(18, 1), 1000) {
        let words = receipt_bytes(&sample);
        assert_eq!(words.len(), RECEIPT_BYTES);
        assert_eq!(receipt(&words), Some(sample));
        assert_eq!(receipt(&words[1..]), None);
    }
}

#[test]
fn what_the_tool_prints_of_case_c() {
    let shown = card::show::card(&implementations()[0].1.read_all(CARD_C).expect("a card"));
    let blocks = blocks("## The tool");
    let printed = blocks.last().expect("the lines").lines();
    let printed: Vec<&str> = printed.map(str::trim_start).collect();
    assert_eq!(shown.trim_end(), printed.join("\n"));
}
