//! Holds the functions of a card, whichever they are, against [`INDEPENDENT`]: answers, what they
//! write, and that they alter nothing else. And that they are inverse to each other, by themselves.

use crate::digits::hex;
use crate::format::{self, entry, record, Entry, Rule, AROUND, HEAD, LONGEST};
use crate::functions::{Functions, INDEPENDENT, READ};
use crate::samples::{all_but_one, noise, random, randoms, repair, single_fields, too_large};
use crate::words::{self, RECEIPT_BYTES};
use oracle::prng::Prng;
use oracle::runtime_core::Receipt;

/// What stands in lent bytes before a call, and has to stand there after it.
const UNTOUCHED: u8 = 0xa5;

/// Lent bytes beyond what is written.
const BEYOND: usize = 8;

/// How many records have every byte changed.
const CHANGED: usize = 10;

/// How many differences are shown.
const SHOWN: usize = 3;

/// What came of a comparison.
pub struct Comparison {
    given: Functions,
    pub passed: u64,
    pub failed: u64,
    /// The first differences.
    pub shown: Vec<String>,
    pub accepted: u64,
    /// How often each rule refused.
    pub refused: [u64; Rule::ALL.len()],
}

/// All of it. A rule that never refused was not compared, so it has failed.
pub fn compare(given: Functions, seed: u64, records: u64) -> Comparison {
    let mut comparison = Comparison::new(given);
    comparison.heads();
    comparison.single_fields();
    comparison.receipts(seed, records);
    comparison.rooms(seed);
    comparison.words();
    comparison.places(seed);
    comparison.cuts(seed);
    comparison.lengths();
    comparison.changes(seed);
    comparison.noise(seed, records);
    for (rule, count) in Rule::ALL.into_iter().zip(comparison.refused) {
        comparison.check(count > 0, &|| format!("never refused: {}", rule.text()));
    }
    comparison
}

impl Comparison {
    pub const fn new(given: Functions) -> Self {
        Self {
            given,
            passed: 0,
            failed: 0,
            shown: Vec::new(),
            accepted: 0,
            refused: [0; Rule::ALL.len()],
        }
    }

    fn check(&mut self, holds: bool, what: &dyn Fn() -> String) {
        if holds {
            self.passed += 1;
            return;
        }
        self.failed += 1;
        if self.shown.len() < SHOWN {
            self.shown.push(what());
        }
    }

    /// The head, with every room about its size.
    pub fn heads(&mut self) {
        for room in 0..=HEAD.len() + BEYOND {
            let [mut demanded, mut got] = [(); 2].map(|()| vec![UNTOUCHED; room]);
            let number = (INDEPENDENT.head)(&mut demanded);
            let answer = (self.given.head)(&mut got);
            self.check((number, &demanded) == (answer, &got), &|| {
                format!("head, room {room}: demanded {number}, got {answer}")
            });
        }
    }

    /// Words, written into lent bytes.
    pub fn write(&mut self, words: &[u8], room: usize) {
        let [mut demanded, mut got] = [(); 2].map(|()| [UNTOUCHED; LONGEST + BEYOND]);
        let number = (INDEPENDENT.write)(words, &mut demanded[..room]);
        let answer = (self.given.write)(words, &mut got[..room]);
        self.check((number, demanded) == (answer, got), &|| {
            let bytes = |answer: usize, from: &[u8]| hex(&from[..answer.min(room)]);
            format!(
                "write {}, room {room}\n  demanded {number}: {}\n  got      {answer}: {}",
                hex(words),
                bytes(number, &demanded),
                bytes(answer, &got)
            )
        });
    }

    /// What stands at a place, read into lent bytes. What is accepted is written again: that has to
    /// be the record itself.
    pub fn read(&mut self, card: &[u8], at: usize, room: usize) {
        let [mut demanded, mut got] = [(); 2].map(|()| [UNTOUCHED; RECEIPT_BYTES + BEYOND]);
        let number = (INDEPENDENT.read)(card, at, &mut demanded[..room]);
        let answer = (self.given.read)(card, at, &mut got[..room]);
        self.count(card, at, number);
        self.check((number, demanded) == (answer, got), &|| {
            let from = &card[at.min(card.len())..];
            let (demanded, got) = (hex(&demanded[..room]), hex(&got[..room]));
            let from = hex(&from[..from.len().min(LONGEST)]);
            format!(
                "read at {at} of {}: {from}\n  demanded {number}: {demanded}\n  got      {answer}: {got}",
                card.len()
            )
        });
        if answer == READ && at >= HEAD.len() {
            self.write_again(card, at, &got[..RECEIPT_BYTES]);
        }
    }

    fn write_again(&mut self, card: &[u8], at: usize, words: &[u8]) {
        let mut again = [UNTOUCHED; LONGEST];
        let written = (self.given.write)(words, &mut again);
        let record = card.get(at..).and_then(|from| from.get(..written));
        let length = card.get(at).map(|length| usize::from(*length) + AROUND);
        let same = record == again.get(..written) && length == Some(written);
        self.check(same, &|| {
            format!("read at {at} and written again: {written} bytes, others")
        });
    }

    /// Counts an answer: a refusal by the rule that is behind it.
    fn count(&mut self, card: &[u8], at: usize, number: u32) {
        let is_record = at >= HEAD.len();
        let rule = match entry(card.get(at..).unwrap_or_default()) {
            _ if !is_record => Rule::Head,
            Entry::Refused(rule) => rule,
            _ => {
                self.accepted += u64::from(number == READ);
                return;
            }
        };
        // Too little room for a receipt is answered before any rule.
        if number == rule.number() {
            self.refused[rule as usize] += 1;
        }
    }

    /// A whole file: the receipts that stand, the number, and the byte where the reading ended.
    pub fn file(&mut self, file: &[u8]) {
        let demanded = format::read(file);
        let got = self.given.read_all(file);
        let number = demanded.refused.map_or(0, Rule::number);
        let same = got.as_ref().is_some_and(|got| {
            (&got.receipts, got.answer, got.at) == (&demanded.receipts, number, demanded.at)
        });
        self.check(same, &|| {
            let got = got
                .as_ref()
                .map(|got| (got.receipts.len(), got.answer, got.at));
            format!(
                "file {}\n  demanded {number} at {} after {} receipts\n  got {got:?}",
                hex(file),
                demanded.at,
                demanded.receipts.len()
            )
        });
        self.read(file, 0, RECEIPT_BYTES);
        self.read(file, demanded.at, RECEIPT_BYTES);
    }

    /// A receipt is written, and read again from what was written.
    pub fn receipt(&mut self, receipt: &Receipt) {
        let words = words::receipt_bytes(receipt);
        let longest = record(receipt).len();
        for room in [longest - 1, longest, LONGEST + BEYOND] {
            self.write(&words, room);
        }
        let mut card = HEAD.to_vec();
        let added = self.given.add(receipt, &mut card);
        let mut read = [UNTOUCHED; RECEIPT_BYTES];
        let answer = (self.given.read)(&card, HEAD.len(), &mut read);
        let same = added.is_some() && answer == READ && read[..] == words;
        self.check(same, &|| format!("{receipt:?} is not read again"));
        self.read(&card, HEAD.len(), RECEIPT_BYTES + BEYOND);
    }

    pub fn single_fields(&mut self) {
        single_fields().iter().for_each(|r| self.receipt(r));
        all_but_one().iter().for_each(|r| self.receipt(r));
    }

    /// Random receipts, and files of some of them.
    pub fn receipts(&mut self, seed: u64, count: u64) {
        for number in 0..count {
            let mut rng = Prng::new(seed, number);
            self.receipt(&random(&mut rng));
            if number % 16 == 0 {
                let few = rng.index(6);
                self.file(&format::card(&randoms(&mut rng, few)));
            }
        }
    }

    /// Every room up to the longest record.
    pub fn rooms(&mut self, seed: u64) {
        for receipt in randoms(&mut Prng::new(seed, u64::MAX), CHANGED) {
            let words = words::receipt_bytes(&receipt);
            (0..=LONGEST + BEYOND).for_each(|room| self.write(&words, room));
        }
    }

    /// Words that are no receipt's, and other numbers of bytes.
    pub fn words(&mut self) {
        for words in too_large() {
            self.write(&words::bytes(&words), LONGEST);
        }
        for count in 0..=2 * RECEIPT_BYTES {
            self.write(&vec![0; count], LONGEST);
        }
    }

    /// Every place of a file and beyond, with too little room for a receipt, too.
    pub fn places(&mut self, seed: u64) {
        let card = format::card(&randoms(&mut Prng::new(seed, u64::MAX), 4));
        let beyond = [
            usize::MAX - 129,
            usize::MAX - 3,
            usize::MAX - 2,
            usize::MAX - 1,
            usize::MAX,
        ];
        for at in (0..card.len() + BEYOND).chain(beyond) {
            for room in [0, RECEIPT_BYTES - 1, RECEIPT_BYTES, RECEIPT_BYTES + BEYOND] {
                self.read(&card, at, room);
                self.read(&card[..at.min(3)], at, room);
            }
        }
    }

    /// Every cut of files, from nothing to the whole; every change of a head.
    pub fn cuts(&mut self, seed: u64) {
        for number in 0..8 {
            let card = format::card(&randoms(&mut Prng::new(seed, number), 4));
            (0..=card.len()).for_each(|cut| self.file(&card[..cut]));
        }
        let card = format::card(&single_fields());
        for at in 0..HEAD.len() {
            for flip in 1..=u8::MAX {
                let mut card = card.clone();
                card[at] ^= flip;
                self.file(&card);
            }
        }
    }

    /// Every length byte, with every number of bytes from it on up to one beyond the record; with a
    /// sum of 0, and set right.
    pub fn lengths(&mut self) {
        for length in 0..=u8::MAX {
            for count in 1..=usize::from(length) + AROUND + 1 {
                let mut card = [&HEAD[..], &vec![0; count]].concat();
                card[HEAD.len()] = length;
                self.read(&card, HEAD.len(), RECEIPT_BYTES);
                repair(&mut card, HEAD.len());
                self.read(&card, HEAD.len(), RECEIPT_BYTES);
            }
        }
    }

    /// Every change of one byte of ten records, followed by others and by nothing; with the sum as
    /// it was, and set right.
    pub fn changes(&mut self, seed: u64) {
        let mut rng = Prng::new(seed, u64::MAX - 1);
        for receipt in randoms(&mut rng, CHANGED) {
            let alone = format::card(&[receipt]);
            let more = [vec![receipt], randoms(&mut rng, 4)].concat();
            for card in [&alone, &format::card(&more)] {
                for at in HEAD.len()..alone.len() {
                    (1..=u8::MAX).for_each(|flip| self.change(card, at, flip));
                }
            }
        }
    }

    fn change(&mut self, card: &[u8], at: usize, flip: u8) {
        let mut card = card.to_vec();
        card[at] ^= flip;
        self.read(&card, HEAD.len(), RECEIPT_BYTES);
        repair(&mut card, HEAD.len());
        self.read(&card, HEAD.len(), RECEIPT_BYTES);
        if flip == 1 {
            self.file(&card);
        }
    }

    /// Random bytes, as they are and with the sum set right.
    pub fn noise(&mut self, seed: u64, count: u64) {
        for number in 0..count {
            let mut card = noise(&mut Prng::new(!seed, number));
            self.file(&card);
            repair(&mut card, HEAD.len());
            self.file(&card);
        }
    }
}
