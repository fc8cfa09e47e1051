//! Many lives in one input, with the output that the Rust demands.

use crate::counts::Counts;
use crate::engine::Engine;
use crate::format::word::{get_words, put_words};
use crate::format::{Output, OutputWords, INPUT_BYTES, OUTPUT_BYTES};
use crate::turn::{Reached, Sink, Turn};
use std::ops::Range;

#[derive(Clone, Debug, Default)]
pub struct Batch {
    pub input: Vec<u8>,
    /// What the engine has to write.
    pub demanded: Vec<u8>,
    /// For each life the number of records up to its end.
    pub ends: Vec<usize>,
    pub counts: Counts,
}

impl Batch {
    pub fn of(turns: &[Turn]) -> Self {
        let mut batch = Self::default();
        turns.iter().for_each(|turn| batch.turn(turn));
        batch
    }

    /// Leaves the room for the next lives.
    pub fn clear(&mut self) {
        self.input.clear();
        self.demanded.clear();
        self.ends.clear();
        self.counts.clear();
    }

    pub fn records(&self) -> usize {
        self.input.len() / INPUT_BYTES
    }

    /// The records of each life.
    pub fn lives(&self) -> impl Iterator<Item = Range<usize>> + '_ {
        let begins = std::iter::once(0).chain(self.ends.iter().copied());
        begins.zip(&self.ends).map(|(begin, end)| begin..*end)
    }

    /// The bytes that are to come out if so many bytes go in and there is room for so many.
    pub fn demanded_of(&self, input: usize, room: usize) -> Vec<u8> {
        let (records, room) = (input / INPUT_BYTES, room / OUTPUT_BYTES);
        let run = records.min(room);
        let mut bytes = self.demanded[..run * OUTPUT_BYTES].to_vec();
        if !input.is_multiple_of(INPUT_BYTES) && run < room {
            Output::Short.encode(&mut bytes);
        }
        bytes
    }
}

impl Sink for Batch {
    fn turn(&mut self, turn: &Turn) {
        put_words(&turn.input_words(), &mut self.input);
        turn.output.encode(&mut self.demanded);
        self.counts.turn(turn);
    }

    fn end(&mut self, reached: &Reached) {
        self.ends.push(self.records());
        self.counts.life(reached);
    }
}

/// What stands in the output before a run, so that a byte that is not written shows.
const UNTOUCHED: u8 = 0xA5;

/// What an engine made of an input.
#[derive(Clone, Debug, Default)]
pub struct Run {
    output: Vec<u8>,
    /// What the engine says that it wrote.
    pub written: usize,
}

impl Run {
    /// Runs the engine with room for so many bytes. The room of an earlier run is used again.
    pub fn again(&mut self, engine: &mut dyn Engine, input: &[u8], room: usize) {
        self.output.clear();
        self.output.resize(room, UNTOUCHED);
        self.written = engine.run(input, &mut self.output);
    }

    pub fn of(engine: &mut dyn Engine, input: &[u8], room: usize) -> Self {
        let mut run = Self::default();
        run.again(engine, input, room);
        run
    }

    /// Whether exactly these bytes were written, and none after them.
    pub fn is(&self, demanded: &[u8]) -> bool {
        let rest = self.output.get(demanded.len()..).unwrap_or(&[]);
        self.written == demanded.len()
            && self.output.starts_with(demanded)
            && rest.iter().all(|byte| *byte == UNTOUCHED)
    }

    /// What was written.
    pub fn bytes(&self) -> &[u8] {
        &self.output[..self.written.min(self.output.len())]
    }

    /// The place of the first record that is not as demanded, or of the one after the last;
    /// none if all is as demanded.
    pub fn difference(&self, demanded: &[u8]) -> Option<usize> {
        if self.is(demanded) {
            return None;
        }
        let pairs = demanded
            .chunks(OUTPUT_BYTES)
            .zip(self.bytes().chunks(OUTPUT_BYTES));
        Some(pairs.take_while(|(demanded, got)| demanded == got).count())
    }

    /// The words of a record; none if it was not written.
    pub fn record(&self, place: usize) -> Option<OutputWords> {
        record(self.bytes(), place)
    }
}

/// The words of an output record.
pub fn record(bytes: &[u8], place: usize) -> Option<OutputWords> {
    let bytes = bytes.get(place * OUTPUT_BYTES..(place + 1) * OUTPUT_BYTES)?;
    Some(get_words(bytes))
}
