//! What a set of lives reached: a count for all that can come up, so that a hole shows.

pub mod catalogue;

use crate::lives::{Fact, Seen};
use crate::turns::{Input, Output, Reading, Reply, Value};
use crate::weave::Turn;
use oracle::driver::Item;
use oracle::life::Call;
use oracle::run::Answer;
use oracle::runtime_core::{Receipt, RuntimeState};
use oracle::show::reason_text;
use std::fmt;

struct Row {
    group: &'static str,
    name: String,
    count: u64,
    /// False for what nobody expected to come up.
    listed: bool,
}

pub struct Counts {
    rows: Vec<Row>,
    pub lives: u64,
    pub inputs: u64,
    pub outputs: u64,
}

impl Default for Counts {
    fn default() -> Self {
        let rows = catalogue::rows().into_iter();
        let rows = rows.map(|(group, name)| Row {
            group,
            name,
            count: 0,
            listed: true,
        });
        Self {
            rows: rows.collect(),
            lives: 0,
            inputs: 0,
            outputs: 0,
        }
    }
}

impl Counts {
    pub fn of(facts: &[Fact]) -> Self {
        let mut counts = Self::default();
        facts.iter().for_each(|fact| counts.add(fact));
        counts
    }

    pub fn add(&mut self, fact: &Fact) {
        self.lives += 1;
        self.inputs += fact.script.turns().count() as u64;
        self.outputs += fact.outputs.len() as u64;
        self.life(fact);
        self.output(fact.script.start);
        for turn in fact.script.turns() {
            self.turn(turn);
        }
    }

    /// 0 for a row that is not there.
    pub fn get(&self, group: &str, name: &str) -> u64 {
        let mut rows = self.rows.iter();
        let row = rows.find(|r| r.group == group && r.name == name);
        row.map_or(0, |r| r.count)
    }

    /// What was not reached.
    pub fn holes(&self) -> impl Iterator<Item = (&'static str, &str)> {
        let rows = self.rows.iter().filter(|row| row.count == 0);
        rows.map(|row| (row.group, row.name.as_str()))
    }

    fn hit(&mut self, group: &'static str, name: &str) {
        let mut rows = self.rows.iter_mut();
        match rows.find(|r| r.group == group && r.name == name) {
            Some(row) => row.count += 1,
            None => self.rows.push(Row {
                group,
                name: name.into(),
                count: 1,
                listed: false,
            }),
        }
    }

    fn life(&mut self, fact: &Fact) {
        for ((counter, _), _) in &fact.script.rest {
            self.hit("lives that set", counter.name());
        }
        let reached = &fact.reached;
        for (holds, name) in [
            (!fact.script.rest.is_empty(), "counters set"),
            (reached.over_replay(), "over 32 admitted orders"),
            (reached.over_ring(), "over 64 receipts"),
            (reached.cut, "cut while a reply is awaited"),
        ] {
            if holds {
                self.hit("lives with", name);
            }
        }
        fact.books.iter().for_each(|seen| self.book(seen));
    }

    fn book(&mut self, seen: &Seen) {
        let name = match (&seen.book, &seen.awaited) {
            (None, _) => "none",
            (Some(_), None) => "between calls",
            (Some(_), Some(item)) => item_name(item),
        };
        self.hit("book compared", name);
    }

    fn turn(&mut self, turn: &Turn) {
        match (turn.input, turn.output) {
            (Input::Reads(reading), _) => self.reading(reading, turn),
            (Input::Calls(call), Output::Reminds(..)) => self.hit("111, call", call.name()),
            (Input::Calls(call), Output::NoRuntime) => self.hit("no runtime, call", call.name()),
            (Input::Calls(call), _) => self.call(&call),
            (Input::Replies(reply), Output::Reminds(_, item)) => {
                let pair = format!("{} for {}", reply_name(&reply), item_name(&item));
                self.hit("113, reply", &pair);
            }
            (Input::Replies(reply), Output::Refuses(_)) => {
                self.hit("112, reply", reply_name(&reply));
            }
            (Input::Replies(reply), _) => self.reply(&reply),
        }
        self.output(turn.output);
    }

    fn call(&mut self, call: &Call) {
        self.hit("call", call.name());
    }

    fn reply(&mut self, reply: &Reply) {
        let failed = matches!(
            reply,
            Reply::Observed(None) | Reply::Executed(false) | Reply::FellBack(false)
        );
        let group = if failed {
            "reply, failed"
        } else {
            "reply, good"
        };
        self.hit(group, reply_name(reply));
    }

    fn reading(&mut self, reading: Reading, turn: &Turn) {
        let group = match (turn.output, turn.in_wait) {
            (Output::NoRuntime, true) => "reading in a start",
            (Output::NoRuntime, false) => "reading after a refused start",
            (_, true) => "reading in a wait",
            (_, false) => "reading between calls",
        };
        self.hit(group, reading_name(reading));
        let none = matches!(
            turn.output,
            Output::Shows(Value::Lease(None) | Value::Capability(None) | Value::Receipt(None))
        );
        if none {
            self.hit("reading shows none", reading_name(reading));
        }
        if let Output::Shows(Value::State(state)) = turn.output {
            let group = if turn.in_wait {
                "state in a wait"
            } else {
                "state between calls"
            };
            self.hit(group, state_name(state));
        }
    }

    fn output(&mut self, output: Output) {
        match output {
            Output::Started => self.hit("start", "started"),
            Output::StartRefused(number) => self.hit("start", &number.to_string()),
            Output::Hands(item) => self.item(&item),
            Output::Answers(answer) => self.answer(&answer),
            Output::Reminds(number, item) => {
                let name = format!("{number}, {} awaited", item_name(&item));
                self.hit("out of place", &name);
            }
            Output::Refuses(number) => self.hit("out of place", &number.to_string()),
            Output::Shows(_) | Output::NoRuntime => {}
        }
    }

    fn item(&mut self, item: &Item) {
        self.hit("item", item_name(item));
        match item {
            Item::Fallback { reason, .. } => self.hit("fallback item", reason_text(*reason)),
            Item::Record { receipt } => self.receipt(receipt),
            _ => {}
        }
    }

    fn receipt(&mut self, receipt: &Receipt) {
        let decision = format!("{:?}", receipt.decision);
        self.hit("decision", &decision);
        let name = format!("{decision} {}", reason_text(receipt.reason));
        self.hit("receipt", &name);
    }

    fn answer(&mut self, answer: &Answer) {
        match answer {
            Answer::None => self.hit("answer", "returned"),
            Answer::Polled(seen) => self.hit("answer", &format!("polled {seen}")),
            Answer::Done(Ok(())) => self.hit("answer", "succeeded"),
            Answer::Lease(Ok(_)) => self.hit("answer", "lease"),
            Answer::Done(Err(reason)) | Answer::Lease(Err(reason)) => {
                self.hit("answer", "refused");
                self.hit("answer refused", reason_text(*reason));
            }
            Answer::Receipt(receipt) => {
                self.hit("answer", "receipt");
                self.hit("answer receipt", reason_text(receipt.reason));
            }
        }
    }
}

fn item_name(item: &Item) -> &'static str {
    match item {
        Item::Observe { .. } => "observe",
        Item::Execute { .. } => "execute",
        Item::Fallback { .. } => "fallback",
        Item::Record { .. } => "record",
    }
}

/// Under the name of the item that it is for.
fn reply_name(reply: &Reply) -> &'static str {
    match reply {
        Reply::Observed(_) => "observe",
        Reply::Executed(_) => "execute",
        Reply::FellBack(_) => "fallback",
        Reply::Recorded => "record",
    }
}

fn state_name(state: RuntimeState) -> &'static str {
    catalogue::STATES[state as usize]
}

fn reading_name(reading: Reading) -> &'static str {
    match reading {
        Reading::State => "state",
        Reading::Epoch => "epoch",
        Reading::BootId => "boot_id",
        Reading::Flags => "flags",
        Reading::ReceiptCount => "receipt_count",
        Reading::Config => "config",
        Reading::Snapshot => "snapshot",
        Reading::Lease(_) => "lease",
        Reading::Capability(_) => "capability",
        Reading::Receipt(_) => "receipt",
    }
}

impl fmt::Display for Counts {
    fn fmt(&self, f: &mut fmt::Formatter<'_>) -> fmt::Result {
        for group in self.rows.chunk_by(|a, b| a.group == b.group) {
            writeln!(f, "{}", group[0].group)?;
            for row in group {
                let mark = match (row.listed, row.count) {
                    (false, _) => "  <-- NOT EXPECTED",
                    (_, 0) => "  <-- HOLE",
                    _ => "",
                };
                writeln!(f, "  {:<30} {:>8}{mark}", row.name, row.count)?;
            }
        }
        let (lives, inputs, outputs) = (self.lives, self.inputs, self.outputs);
        writeln!(f, "{lives} lives, {inputs} inputs, {outputs} outputs")
    }
}
