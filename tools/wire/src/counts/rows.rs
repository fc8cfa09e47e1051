//! The counts by name: one row for each kind of record, and those of the definitions' catalogue.

use super::*;
use crate::format::word;
use definitions::counts::catalogue;
use oracle::life::Counter;
use oracle::show::reason_text;
use std::fmt;

/// One count.
#[derive(Clone, Debug, PartialEq, Eq)]
pub struct Row {
    pub group: &'static str,
    pub name: String,
    pub count: u64,
    /// False for what nobody expected to come up.
    pub listed: bool,
}

impl Row {
    /// Why it stays at 0 in this build; none if it can come up.
    pub fn unreachable(&self) -> Option<&'static str> {
        let of_counters = ["set", "the counter was set", "counters set"];
        let full = reason_text(oracle::runtime_core::Reason::Faulted);
        let fallback = self.group == "fallback item" || self.name.starts_with("Fallback ");
        let by_counters = of_counters.contains(&self.name.as_str())
            || self.group == "lives that set"
            || fallback && self.name.ends_with(full);
        (by_counters && !oracle::HAS_COUNTERS).then_some("needs counters")
    }
}

/// Whether a row of the catalogue has no part here: no record shows a book or sets the count of
/// rejections.
fn is_left_out(group: &str, name: &str) -> bool {
    group == "book compared" || name == Counter::InvalidCount.name()
}

const INPUT_RECORD: &str = "input record";
const OUTPUT_RECORD: &str = "output record";

/// Each item with the kind of its reply.
const ITEMS: [(OutputKind, InputKind); 4] = [
    (OutputKind::Observe, InputKind::Observed),
    (OutputKind::Execute, InputKind::Executed),
    (OutputKind::Fallback, InputKind::FellBack),
    (OutputKind::Record, InputKind::Recorded),
];

/// The outputs that end a call, by the catalogue's names.
const ANSWERS: [(OutputKind, &str); 5] = [
    (OutputKind::Returned, "returned"),
    (OutputKind::Succeeded, "succeeded"),
    (OutputKind::Leased, "lease"),
    (OutputKind::Refused, "refused"),
    (OutputKind::Settled, "receipt"),
];

const READING_PLACES: [(At, &str); PLACES] = [
    (At::Idle, "reading between calls"),
    (At::Waiting, "reading in a wait"),
    (At::Starting, "reading in a start"),
    (At::Nowhere, "reading after a refused start"),
];

const STATE_PLACES: [(At, &str); 2] = [
    (At::Idle, "state between calls"),
    (At::Waiting, "state in a wait"),
];

/// The name of an item, which its reply goes by too.
fn item_name(kind: OutputKind) -> &'static str {
    kind.name().trim_start_matches("item: ")
}

/// The calls, and the readings.
fn calls() -> impl Iterator<Item = InputKind> {
    numbered(InputKind::Tick, InputKind::Submit)
}

fn readings() -> impl Iterator<Item = InputKind> {
    numbered(InputKind::State, InputKind::ReceiptAt)
}

fn numbered(first: InputKind, last: InputKind) -> impl Iterator<Item = InputKind> {
    let all = InputKind::ALL.iter().copied();
    all.filter(move |kind| (first.number()..=last.number()).contains(&kind.number()))
}

/// What a cell of the turns counts.
struct Cell {
    /// None if it is malformed or short.
    input: Option<InputKind>,
    at: At,
    output: OutputKind,
    reminds: bool,
}

impl Cell {
    /// The one that `cell` gives this place.
    fn of(place: usize) -> Self {
        let (rest, reminds) = (place / 2, place % 2 == 1);
        let (rest, output) = (rest / OUTPUTS, rest % OUTPUTS);
        let (input, at) = (rest / PLACES, rest % PLACES);
        Self {
            input: InputKind::ALL.get(input).copied(),
            at: At::ALL[at],
            output: OutputKind::ALL[output],
            reminds,
        }
    }

    fn is(&self, input: InputKind) -> bool {
        self.input == Some(input)
    }

    fn is_call(&self) -> bool {
        calls().any(|call| self.is(call))
    }
}

/// Rows by group and name.
struct Rows<'a> {
    counts: &'a Counts,
    turns: Vec<(Cell, u64)>,
    rows: Vec<(&'static str, String, u64)>,
}

impl Counts {
    /// All rows, group by group.
    pub fn rows(&self) -> Vec<Row> {
        let named = Rows::of(self).rows;
        let listed: Vec<(&str, String)> = catalogue::rows();
        let own = named.iter().filter(|(group, name, count)| {
            let is_listed = listed.iter().any(|(g, n)| g == group && n == name);
            !is_listed && (*count > 0 || is_record(group))
        });
        let own = own.map(|(group, name, count)| Row {
            group,
            name: name.clone(),
            count: *count,
            listed: is_record(group),
        });
        let compared = listed.iter().filter(|(g, n)| !is_left_out(g, n));
        let catalogued = compared.map(|(group, name)| {
            let found = named.iter().find(|(g, n, _)| g == group && n == name);
            Row {
                group,
                name: name.clone(),
                count: found.map_or(0, |(_, _, count)| *count),
                listed: true,
            }
        });
        own.chain(catalogued).collect()
    }
}

fn is_record(group: &str) -> bool {
    [INPUT_RECORD, OUTPUT_RECORD].contains(&group)
}

impl<'a> Rows<'a> {
    fn of(counts: &'a Counts) -> Self {
        let cells = counts.cells[TURNS..RECEIPTS].iter().enumerate();
        let hit = cells.filter(|(_, count)| **count > 0);
        let mut rows = Self {
            counts,
            turns: hit.map(|(n, count)| (Cell::of(n), *count)).collect(),
            rows: Vec::new(),
        };
        rows.records();
        rows.calls_and_replies();
        rows.starts_and_items();
        rows.answers();
        rows.out_of_place();
        rows.readings();
        rows.lives();
        rows
    }

    fn row(&mut self, group: &'static str, name: &str, count: u64) {
        self.rows.push((group, name.to_string(), count));
    }

    /// A row of the turns that are as wanted.
    fn sum(&mut self, group: &'static str, name: &str, wanted: impl Fn(&Cell) -> bool) {
        let turns = self.turns.iter().filter(|(cell, _)| wanted(cell));
        let count = turns.map(|(_, count)| count).sum();
        self.row(group, name, count);
    }

    /// A row for each reason, of the cells from here on.
    fn reasons(&mut self, group: &'static str, prefix: &str, first: usize) {
        for (n, reason) in word::REASONS.iter().enumerate() {
            let name = format!("{prefix}{}", reason_text(*reason));
            self.row(group, &name, self.counts.cells[first + n]);
        }
    }

    fn records(&mut self) {
        for kind in InputKind::ALL {
            self.sum(INPUT_RECORD, kind.name(), |cell| cell.is(*kind));
        }
        for kind in [OutputKind::Malformed, OutputKind::Short] {
            let wanted = |cell: &Cell| cell.input.is_none() && cell.output == kind;
            self.sum(INPUT_RECORD, kind.name(), wanted);
        }
        for kind in OutputKind::ALL {
            self.sum(OUTPUT_RECORD, kind.name(), |cell| cell.output == *kind);
        }
    }

    fn calls_and_replies(&mut self) {
        for call in calls() {
            self.sum("call", call.name(), |c| c.is(call) && c.at == At::Idle);
        }
        for (item, reply) in ITEMS {
            let first = REPLIES + reply as usize * 2;
            let cells = &self.counts.cells;
            let (good, failed) = (cells[first], cells[first + 1]);
            self.row("reply, good", item_name(item), good);
            self.row("reply, failed", item_name(item), failed);
        }
    }

    fn starts_and_items(&mut self) {
        self.sum("start", "started", |c| c.output == OutputKind::Started);
        let (first, last) = Type::Refusal.range();
        for number in first..=last {
            let place = STARTS_REFUSED + number as usize - FIRST_REFUSAL;
            self.row("start", &number.to_string(), self.counts.cells[place]);
        }
        for (item, _) in ITEMS {
            let wanted = |c: &Cell| c.output == item && !c.reminds;
            self.sum("item", item_name(item), wanted);
        }
        self.reasons("fallback item", "", FALLBACKS);
        for (n, decision) in word::DECISIONS.iter().enumerate() {
            let first = RECEIPTS + n * REASONS;
            let count = self.counts.cells[first..first + REASONS].iter().sum();
            self.row("decision", &format!("{decision:?}"), count);
            self.reasons("receipt", &format!("{decision:?} "), first);
        }
    }

    fn answers(&mut self) {
        for (kind, name) in ANSWERS {
            self.sum("answer", name, |c| c.output == kind);
        }
        for (n, name) in ["polled false", "polled true"].iter().enumerate() {
            self.row("answer", name, self.counts.cells[POLLED + n]);
        }
        self.reasons("answer refused", "", REFUSED);
        self.reasons("answer receipt", "", SETTLED);
    }

    fn out_of_place(&mut self) {
        for (item, _) in ITEMS {
            let name = format!("111, {} awaited", item_name(item));
            let of_item = move |c: &Cell| c.output == item && c.reminds;
            self.sum("out of place", &name, |c| of_item(c) && c.is_call());
            let name = format!("113, {} awaited", item_name(item));
            self.sum("out of place", &name, |c| of_item(c) && !c.is_call());
            for (other, reply) in ITEMS {
                let name = format!("{} for {}", item_name(other), item_name(item));
                self.sum("113, reply", &name, |c| of_item(c) && c.is(reply));
            }
        }
        let unawaited = |c: &Cell| c.output == OutputKind::Unawaited;
        self.sum("out of place", "112", unawaited);
        for (item, reply) in ITEMS {
            let wanted = |c: &Cell| c.is(reply) && unawaited(c);
            self.sum("112, reply", item_name(item), wanted);
        }
        for call in calls() {
            let gone = |c: &Cell| c.output == OutputKind::NoRuntime;
            self.sum("111, call", call.name(), |c| c.is(call) && c.reminds);
            self.sum("no runtime, call", call.name(), |c| c.is(call) && gone(c));
        }
    }

    fn readings(&mut self) {
        let name = |kind: InputKind| kind.name().trim_end_matches(" at");
        for (at, group) in READING_PLACES {
            for kind in readings() {
                self.sum(group, name(kind), |c| c.is(kind) && c.at == at);
            }
        }
        for kind in OutputKind::ALL.iter().filter(|kind| kind.shows_or_not()) {
            let count = self.counts.cells[NOTHING_SHOWN + *kind as usize];
            self.row("reading shows none", kind.name(), count);
        }
        for (at, group) in STATE_PLACES {
            for (n, state) in word::STATES.iter().enumerate() {
                let place = STATES_SHOWN + at as usize * STATES + n;
                self.row(group, &format!("{state:?}"), self.counts.cells[place]);
            }
        }
    }

    fn lives(&mut self) {
        for counter in Counter::EXHAUSTIBLE {
            let count = self.counts.cells[SETS + counter as usize];
            self.row("lives that set", counter.name(), count);
        }
        for (n, name) in LIVES_WITH.iter().enumerate() {
            self.row("lives with", name, self.counts.cells[LIVES + n]);
        }
    }
}

impl fmt::Display for Counts {
    fn fmt(&self, f: &mut fmt::Formatter<'_>) -> fmt::Result {
        for group in self.rows().chunk_by(|a, b| a.group == b.group) {
            writeln!(f, "{}", group[0].group)?;
            for row in group {
                writeln!(f, "  {:<48} {:>12}{}", row.name, row.count, mark(row))?;
            }
        }
        let (lives, calls, records) = (self.lives, self.calls, self.records);
        writeln!(f, "{lives} lives, {calls} calls, {records} records")
    }
}

/// Marks a hole, and what was not expected.
fn mark(row: &Row) -> String {
    match (row.listed, row.count, row.unreachable()) {
        (false, _, _) | (_, 1.., Some(_)) => "  <-- NOT EXPECTED".into(),
        (_, 0, None) => "  <-- HOLE".into(),
        (_, 0, Some(why)) => format!("  ({why})"),
        (_, _, None) => String::new(),
    }
}
