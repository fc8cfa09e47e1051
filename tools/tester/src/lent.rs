//! The proved code over words that are lent to it, record by record. Where an input begins as the
//! one before it, as most trials of a campaign do, it goes on from a copy of the words.

use crate::host::{Stage, Step};
use wire::engine::Engine;
use wire::format::word::{get_words, put_words};
use wire::format::{Input, InputWords, Output, OutputWords};
use wire::format::{INPUT_BYTES, INPUT_WORDS, OUTPUT_BYTES, OUTPUT_WORDS};
use wire::host::{Asked, Host, OTHER_RECORD, STATE_WORDS};

/// A copy of the words is kept after so many records.
const KEPT_EVERY: usize = 16;

pub struct Lent {
    host: Box<dyn Host>,
    /// The records of the last run, and their answers.
    input: Vec<u8>,
    output: Vec<u8>,
    /// The words before the first record, and after each `KEPT_EVERY` of them.
    kept: Vec<Vec<u64>>,
}

impl Lent {
    pub fn new(mut host: Box<dyn Host>) -> Self {
        let mut state = vec![0; STATE_WORDS];
        // Without an answer of 0 every step will be refused, and so be seen.
        host.ask(&mut state, &Asked::Clear);
        Self {
            host,
            input: Vec::new(),
            output: Vec::new(),
            kept: vec![state],
        }
    }

    /// Goes back to where this input parts from the last one, or to a copy before that place.
    fn branch(&mut self, input: &[u8], room: usize) -> Vec<u64> {
        let pairs = self.input.chunks_exact(INPUT_BYTES);
        let pairs = pairs.zip(input.chunks_exact(INPUT_BYTES));
        let alike = pairs.take_while(|(last, now)| last == now).count();
        let place = alike.min(room / OUTPUT_BYTES) / KEPT_EVERY;
        self.kept.truncate(place + 1);
        let records = (self.kept.len() - 1) * KEPT_EVERY;
        self.input.truncate(records * INPUT_BYTES);
        self.output.truncate(records * OUTPUT_BYTES);
        self.kept[self.kept.len() - 1].clone()
    }
}

impl Engine for Lent {
    fn run(&mut self, input: &[u8], output: &mut [u8]) -> usize {
        let mut state = self.branch(input, output.len());
        let begun = self.input.len();
        let mut written = self.output.len();
        output[..written].copy_from_slice(&self.output);
        for record in input[begun..].chunks(INPUT_BYTES) {
            let Some(room) = output.get_mut(written..written + OUTPUT_BYTES) else {
                break;
            };
            let Some(answer) = answer(self.host.as_mut(), &mut state, record) else {
                break;
            };
            put_words(&answer, &mut self.output);
            self.input.extend_from_slice(record);
            room.copy_from_slice(&self.output[written..]);
            written += OUTPUT_BYTES;
            if (written / OUTPUT_BYTES).is_multiple_of(KEPT_EVERY) {
                self.kept.push(state.clone());
            }
        }
        written
    }
}

/// None if what comes is no answer to a record.
fn answer(host: &mut dyn Host, state: &mut [u64], record: &[u8]) -> Option<OutputWords> {
    if record.len() < INPUT_BYTES {
        let few = [0; INPUT_WORDS - 1];
        let number = host.step(state, &few, &mut [0; OUTPUT_WORDS]);
        return (number == OTHER_RECORD).then(|| Output::Short.words());
    }
    step(host, state, &get_words(record))
}

fn step(host: &mut dyn Host, state: &mut [u64], record: &InputWords) -> Option<OutputWords> {
    let mut out = [0; OUTPUT_WORDS];
    let number = host.step(state, record, &mut out);
    (u64::from(number) == out[0]).then_some(out)
}

impl Stage for Lent {
    fn stepwise(&mut self) -> Box<dyn Step + '_> {
        Box::new(Stepped {
            state: self.kept[0].clone(),
            host: self.host.as_mut(),
        })
    }
}

/// Lives on their way.
struct Stepped<'a> {
    host: &'a mut dyn Host,
    state: Vec<u64>,
}

impl Step for Stepped<'_> {
    fn step(&mut self, input: &Input) -> Option<Output> {
        let words = step(self.host, &mut self.state, &input.words())?;
        Output::of(&words)
    }
}
