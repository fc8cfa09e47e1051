//! What was run: a count for all that can come up. Counting is a few additions to a turn; names
//! come in when the counts are printed ([`rows`]).

mod rows;

pub use rows::Row;

use crate::format::layout::{InputKind, OutputKind, Type};
use crate::format::{Input, Output};
use crate::turn::{At, Reached, Turn};
use definitions::turns::Reply;
use oracle::driver::Item;
use oracle::life::Call;
use oracle::runtime_core::{RECEIPT_CAPACITY, REPLAY_CAPACITY};

/// What goes in: the kinds of records, then these two.
const INPUTS: usize = InputKind::ALL.len() + 2;
const MALFORMED: usize = InputKind::ALL.len();
const SHORT: usize = MALFORMED + 1;

const OUTPUTS: usize = OutputKind::ALL.len();
const PLACES: usize = At::ALL.len();
const REASONS: usize = values(Type::Reason);
const DECISIONS: usize = values(Type::Decision);
const STATES: usize = values(Type::State);
const COUNTERS: usize = values(Type::Counter);

const fn values(of: Type) -> usize {
    of.range().1 as usize + 1
}

/// One group of cells for each: where it begins, and how many there are in all.
const TURNS: usize = 0;
const RECEIPTS: usize = TURNS + INPUTS * PLACES * OUTPUTS * 2;
const FALLBACKS: usize = RECEIPTS + DECISIONS * REASONS;
const REFUSED: usize = FALLBACKS + REASONS;
const SETTLED: usize = REFUSED + REASONS;
const STARTS_REFUSED: usize = SETTLED + REASONS;
const POLLED: usize = STARTS_REFUSED + values(Type::Refusal);
const REPLIES: usize = POLLED + 2;
const NOTHING_SHOWN: usize = REPLIES + InputKind::ALL.len() * 2;
const STATES_SHOWN: usize = NOTHING_SHOWN + OUTPUTS;
const SETS: usize = STATES_SHOWN + PLACES * STATES;
const LIVES: usize = SETS + COUNTERS;
const CELLS: usize = LIVES + LIVES_WITH.len();

/// What a life can come to.
const LIVES_WITH: [&str; 4] = [
    "counters set",
    "over 32 admitted orders",
    "over 64 receipts",
    "cut while a reply is awaited",
];

#[derive(Clone, Debug, PartialEq, Eq)]
pub struct Counts {
    cells: Vec<u64>,
    pub lives: u64,
    /// Calls that met a runtime.
    pub calls: u64,
    pub records: u64,
}

impl Default for Counts {
    fn default() -> Self {
        Self {
            cells: vec![0; CELLS],
            lives: 0,
            calls: 0,
            records: 0,
        }
    }
}

impl Counts {
    pub fn clear(&mut self) {
        self.cells.fill(0);
        (self.lives, self.calls, self.records) = (0, 0, 0);
    }

    pub fn add(&mut self, other: &Self) {
        let cells = self.cells.iter_mut().zip(&other.cells);
        cells.for_each(|(cell, more)| *cell += more);
        self.lives += other.lives;
        self.calls += other.calls;
        self.records += other.records;
    }

    /// Whether there is something in a cell that is empty in the other counts, and how often.
    pub fn new_to(&self, other: &Self) -> usize {
        let cells = self.cells.iter().zip(&other.cells);
        cells
            .filter(|(own, other)| **own > 0 && **other == 0)
            .count()
    }

    pub fn life(&mut self, reached: &Reached) {
        self.lives += 1;
        self.calls += reached.calls;
        let holds = [
            reached.sets,
            reached.admitted > REPLAY_CAPACITY,
            reached.receipts > RECEIPT_CAPACITY,
            reached.cut,
        ];
        for (n, holds) in holds.into_iter().enumerate() {
            self.cells[LIVES + n] += u64::from(holds);
        }
    }

    /// Bytes at the end that fill no record.
    pub fn short(&mut self) {
        self.cells[cell(SHORT, At::Nowhere, OutputKind::Short, false)] += 1;
    }

    pub fn turn(&mut self, turn: &Turn) {
        self.records += 1;
        let input = turn.input.kind().map_or(MALFORMED, |kind| kind as usize);
        let reminds = matches!(turn.output, Output::Item(1.., _));
        self.cells[cell(input, turn.at, turn.output.kind(), reminds)] += 1;
        self.input(turn, input, reminds);
        if let Some(more) = more_of(turn) {
            self.cells[more] += 1;
        }
    }

    fn input(&mut self, turn: &Turn, input: usize, reminds: bool) {
        match turn.input {
            Input::Reply(reply) if !reminds && turn.output != Output::Unawaited => {
                self.cells[REPLIES + input * 2 + usize::from(failed(&reply))] += 1;
            }
            Input::Call(Call::Set { counter, .. }) => self.cells[SETS + counter as usize] += 1,
            _ => {}
        }
    }
}

/// The cell of an output's content.
fn more_of(turn: &Turn) -> Option<usize> {
    Some(match turn.output {
        Output::StartRefused(number) => STARTS_REFUSED + usize::from(number) - FIRST_REFUSAL,
        Output::Item(0, Item::Fallback { reason, .. }) => FALLBACKS + reason as usize,
        Output::Item(0, Item::Record { receipt: r }) => {
            RECEIPTS + r.decision as usize * REASONS + r.reason as usize
        }
        Output::Polled(seen) => POLLED + usize::from(seen),
        Output::Refused(reason) => REFUSED + reason as usize,
        Output::Settled(receipt) => SETTLED + receipt.reason as usize,
        Output::State(state) => STATES_SHOWN + turn.at as usize * STATES + state as usize,
        Output::Lease(None) | Output::Capability(None) | Output::Receipt(None) => {
            NOTHING_SHOWN + turn.output.kind() as usize
        }
        _ => return None,
    })
}

const FIRST_REFUSAL: usize = Type::Refusal.range().0 as usize;

const fn failed(reply: &Reply) -> bool {
    matches!(
        reply,
        Reply::Observed(None) | Reply::Executed(false) | Reply::FellBack(false)
    )
}

const fn cell(input: usize, at: At, output: OutputKind, reminds: bool) -> usize {
    let place = (input * PLACES + at as usize) * OUTPUTS + output as usize;
    TURNS + place * 2 + reminds as usize
}
