//! The card by its wrapper: the bytes and answers of docs/CARD.md, receipts there and back, what is refused, and no room.

use rolthai::card::{has_head, head, read, write, Entry, HEAD_BYTES, RECORD_BYTES};
use rolthai::card::{NO_HEAD, PAST_END, UNSOUND};
use rolthai::raw::rolthai_card_write;
use rolthai::{Decision, Item, Reason, Receipt, Stage, OUT_WORDS, RECORD_WORDS, WORDS};

const DOCUMENT: &str = include_str!("../../../docs/CARD.md");
const HEADER: &str = include_str!("../../c/rolthai.h");
const CARD_C: &[u8] = include_bytes!("../../../examples/c.card");

/// Fields in their order, each cut to its type.
fn receipt(mut word: impl FnMut() -> u64) -> Receipt {
    Receipt {
        boot_id: word(),
        principal: word(),
        safety_flags: word() as u32,
        receipt_id: word(),
        action_id: word(),
        sequence: word(),
        capability: word() as u16,
        resource: word() as u8,
        lease_id: word(),
        decision: Decision::of(word().min(4)).unwrap(),
        reason: Reason::of(word().min(27)).unwrap(),
        epoch: word(),
        received_at: word(),
        admitted_at: word(),
        executed_at: word(),
        requested: [word() as i32, word() as i32],
        observed: [word() as i32, word() as i32],
        pre_state: word() as u32,
        post_state: word() as u32,
        original_receipt: word(),
        dispatched: word() & 1 == 1,
        observed_valid: word() & 1 == 1,
    }
}

/// One word alone, and all but that one: each as 1, at its top and negative; then numbers of all sizes.
fn samples() -> Vec<Receipt> {
    let mut made = vec![receipt(|| 0), receipt(|| 1), receipt(|| u64::MAX)];
    for n in 0..24 {
        for value in [1, u64::MAX, i32::MIN as u32 as u64 + 1] {
            for (there, others) in [(value, 0), (0, value)] {
                let mut words = [others; 24];
                words[n] = there;
                let mut words = words.into_iter();
                made.push(receipt(|| words.next().unwrap()));
            }
        }
    }
    let mut seed: u64 = 1;
    made.extend((0..2000).map(|_| {
        receipt(|| {
            seed = seed.wrapping_mul(0x5851_f42d_4c95_7f2d).wrapping_add(1);
            let mixed = seed ^ (seed >> 29);
            mixed >> (mixed % 67).min(63)
        })
    }));
    made
}

fn written(receipt: &Receipt) -> Vec<u8> {
    let mut room = [0; RECORD_BYTES];
    let n = write(receipt, &mut room).expect("room for every record");
    room[..n].to_vec()
}

fn unhex(text: &str) -> Vec<u8> {
    let digits: Vec<u8> = text.bytes().filter(u8::is_ascii_hexdigit).collect();
    let digit = |d: u8| char::from(d).to_digit(16).unwrap() as u8;
    let pairs = digits.chunks(2);
    pairs.map(|d| 16 * digit(d[0]) + digit(d[1])).collect()
}

/// The grant of case A and the order of case C, as the document has their bytes.
fn worked() -> [Vec<u8>; 2] {
    let (_, section) = DOCUMENT.split_once("## Worked bytes").unwrap();
    let section = section.split("\n## ").next().unwrap();
    let mut blocks = section.split("\n\n").filter(|b| b.starts_with("    "));
    [(); 2].map(|()| unhex(blocks.next().unwrap()))
}

fn grant() -> Receipt {
    Receipt {
        boot_id: 42,
        principal: 7,
        receipt_id: 1,
        lease_id: 1,
        decision: Decision::Control,
        reason: Reason::LeaseGranted,
        epoch: 2,
        ..receipt(|| 0)
    }
}

fn order() -> Receipt {
    Receipt {
        boot_id: 42,
        principal: 7,
        receipt_id: 2,
        action_id: 1,
        sequence: 1,
        capability: 1,
        lease_id: 1,
        epoch: 2,
        admitted_at: 10,
        executed_at: 10,
        requested: [300, -50],
        observed: [300, -50],
        dispatched: true,
        observed_valid: true,
        ..receipt(|| 0)
    }
}

#[test]
fn the_worked_bytes() {
    let mut file = vec![0; HEAD_BYTES];
    assert_eq!(head(&mut file), Some(HEAD_BYTES));
    for (receipt, bytes) in [grant(), order()].iter().zip(worked()) {
        assert_eq!(written(receipt), bytes);
        file.extend(bytes);
    }
    assert_eq!(file, CARD_C);
    assert!(has_head(&file));
    assert_eq!(read(&file, 4), Entry::Receipt(grant(), 54));
    assert_eq!(read(&file, 54), Entry::Receipt(order(), 151));
    assert_eq!(read(&file, 151), Entry::End);
}

/// The table: what is answered of bytes at the end of a card.
#[test]
fn the_answers_of_the_document() {
    let (_, table) = DOCUMENT.split_once("Bytes at the end of a card").unwrap();
    let table = table.lines().skip_while(|line| !line.starts_with('|'));
    let rows = table.take_while(|line| line.starts_with('|')).skip(2);
    let mut seen = Vec::new();
    for row in rows {
        let cells: Vec<&str> = row.split('|').map(str::trim).collect();
        let (tail, answer) = (unhex(cells[1]), cells[2].parse().unwrap());
        let file = [CARD_C, &tail].concat();
        match read(&file, CARD_C.len()) {
            Entry::Receipt(receipt, next) => {
                assert_eq!((answer, next), (0, file.len()), "{row}");
                assert_eq!(written(&receipt), tail, "{row}");
            }
            Entry::End => assert_eq!(answer, 1, "{row}"),
            Entry::Refused(number) => assert_eq!(answer, number, "{row}"),
        }
        seen.push(answer);
    }
    assert_eq!(seen.len(), 24);
    assert!([0, 1, PAST_END, UNSOUND].iter().all(|n| seen.contains(n)));
}

#[test]
fn receipts_come_back() {
    let samples = samples();
    let mut file = CARD_C[..HEAD_BYTES].to_vec();
    let mut longest = 0;
    for receipt in &samples {
        let record = written(receipt);
        longest = longest.max(record.len());
        file.extend(record);
    }
    let mut at = HEAD_BYTES;
    for receipt in &samples {
        let next = at + written(receipt).len();
        assert_eq!(read(&file, at), Entry::Receipt(*receipt, next));
        at = next;
    }
    assert_eq!(read(&file, at), Entry::End);
    assert_eq!(longest, RECORD_BYTES);
}

/// Every cut of a record, and every other byte in it.
#[test]
fn a_cut_and_an_altered_byte() {
    for at in [4, 54] {
        let next = at + usize::from(CARD_C[at]) + 3;
        for cut in at + 1..next {
            assert_eq!(read(&CARD_C[..cut], at), Entry::Refused(PAST_END), "{cut}");
        }
        for place in at + 1..next {
            let mut file = CARD_C.to_vec();
            file[place] ^= 1;
            assert_eq!(read(&file, at), Entry::Refused(UNSOUND), "{place}");
        }
    }
}

#[test]
fn heads() {
    for n in 0..HEAD_BYTES {
        assert!(!has_head(&CARD_C[..n]));
        let mut file = CARD_C.to_vec();
        file[n] ^= 1;
        assert!(!has_head(&file));
        assert_eq!(read(&file, n), Entry::Refused(NO_HEAD));
        // Below the first record stands the head, and then that record.
        assert_eq!(read(CARD_C, n), Entry::Receipt(grant(), 54));
    }
    assert_eq!(read(&CARD_C[..HEAD_BYTES], 0), Entry::End);
}

#[test]
fn places_past_the_end() {
    for at in [152, 1 << 32, usize::MAX] {
        assert_eq!(read(CARD_C, at), Entry::End);
    }
    assert_eq!(read(&[], HEAD_BYTES), Entry::End);
}

/// Nothing is written where there is no room, and no byte after what is written.
#[test]
fn no_room() {
    for n in 0..8 {
        let mut room = [7; 8];
        let there = (n >= HEAD_BYTES).then_some(HEAD_BYTES);
        assert_eq!(head(&mut room[..n]), there);
        assert!(room[there.unwrap_or(0)..].iter().all(|byte| *byte == 7));
    }
    for receipt in [grant(), order(), receipt(|| 0), receipt(|| u64::MAX)] {
        let record = written(&receipt);
        for n in 0..=RECORD_BYTES + 1 {
            let mut room = [7; RECORD_BYTES + 1];
            let there = (n >= record.len()).then_some(record.len());
            assert_eq!(write(&receipt, &mut room[..n]), there);
            let (front, rest) = room.split_at(there.unwrap_or(0));
            assert!(front == &record[..front.len()] && rest.iter().all(|byte| *byte == 7));
        }
    }
}

/// The words of a record item, lent as they are, and the receipt that the wrapper makes of them.
#[test]
fn the_words_of_an_item() {
    let mut words = [0; WORDS];
    let mut stage = Stage::lend(&mut words);
    let mut out = [0; OUT_WORDS];
    let any = [i32::MIN as u32 as u64, i32::MAX as u64];
    for given in [
        &[1, 2, 0, 2][..],
        &[2, 42, 0, 0, 50, 250, 2000, 1000, 32, 1],
        &[34, 1],
        &[21, 0, 7, 0, 4, 2000, any[0], any[1], any[0], any[1]],
    ] {
        let mut record = [0; RECORD_WORDS];
        record[..given.len()].copy_from_slice(given);
        out = stage.step(&record).unwrap();
    }
    let mut room = [0; RECORD_BYTES];
    let (lent, card) = (out[2..].as_ptr().cast(), room.as_mut_ptr());
    // SAFETY: 24 words have 192 bytes, and `room` is another array.
    let n = unsafe { rolthai_card_write(lent, 192, card, RECORD_BYTES) };
    assert_eq!(stage.item(), Ok(Item::Record(grant())));
    assert_eq!(room[..n], worked()[0]);
}

#[test]
fn the_header_has_the_same_numbers() {
    let has = |text: String| assert!(HEADER.lines().any(|l| l.starts_with(&text)), "{text}");
    has(format!("#define ROLTHAI_CARD_HEAD_BYTES {HEAD_BYTES}u"));
    has(format!("#define ROLTHAI_CARD_RECORD_BYTES {RECORD_BYTES}u"));
    has("#define ROLTHAI_RECEIPT_BYTES 192u".to_string());
    has("    ROLTHAI_CARD_READ = 0,".to_string());
    has("    ROLTHAI_CARD_END = 1,".to_string());
    has("    ROLTHAI_CARD_NO_ROOM = 2,".to_string());
    has(format!("    ROLTHAI_CARD_NO_HEAD = {NO_HEAD},"));
    has(format!("    ROLTHAI_CARD_PAST_END = {PAST_END},"));
    has(format!("    ROLTHAI_CARD_UNSOUND = {UNSOUND} "));
}
