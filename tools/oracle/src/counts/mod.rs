//! What a set of lives reached: a count for everything that can come up.

mod catalogue;
mod life;

use crate::run::LifeTrace;
use catalogue::{rows, unreachable};
use std::collections::HashMap;
use std::fmt;

/// One count.
#[derive(Clone, Copy, Debug, PartialEq, Eq)]
pub struct Row {
    pub group: &'static str,
    pub name: &'static str,
    pub count: u64,
    /// False for what nobody expected to come up.
    pub listed: bool,
}

impl Row {
    /// Why it stays at 0 in this build; none if it can come up.
    pub fn unreachable(&self) -> Option<&'static str> {
        unreachable(self.group, self.name)
    }
}

#[derive(Clone, Debug)]
pub struct Counts {
    rows: Vec<Row>,
    index: HashMap<(&'static str, &'static str), usize>,
    pub lives: u64,
    pub calls: u64,
}

impl Default for Counts {
    fn default() -> Self {
        let mut counts = Self {
            rows: Vec::new(),
            index: HashMap::new(),
            lives: 0,
            calls: 0,
        };
        for (group, name) in rows() {
            counts.row(group, name).listed = true;
        }
        counts
    }
}

impl Counts {
    /// Adds a life. The trace must have the readings during waits, and in the build with
    /// `counters` the hidden ones.
    pub fn add(&mut self, trace: &LifeTrace) {
        self.lives += 1;
        self.calls += trace.calls.len() as u64;
        life::count(self, trace);
    }

    pub fn rows(&self) -> &[Row] {
        &self.rows
    }

    /// 0 for a row that is not there.
    pub fn get(&self, group: &str, name: &str) -> u64 {
        let row = self
            .rows
            .iter()
            .find(|r| r.group == group && r.name == name);
        row.map_or(0, |row| row.count)
    }

    fn hit(&mut self, group: &'static str, name: &'static str) {
        self.row(group, name).count += 1;
    }

    fn row(&mut self, group: &'static str, name: &'static str) -> &mut Row {
        let rows = &mut self.rows;
        let index = self.index.entry((group, name)).or_insert_with(|| {
            rows.push(Row {
                group,
                name,
                count: 0,
                listed: false,
            });
            rows.len() - 1
        });
        &mut self.rows[*index]
    }
}

impl fmt::Display for Counts {
    fn fmt(&self, f: &mut fmt::Formatter<'_>) -> fmt::Result {
        writeln!(f, "lives {} calls {}", self.lives, self.calls)?;
        for group in self.rows.chunk_by(|a, b| a.group == b.group) {
            writeln!(f, "{}", group[0].group)?;
            for row in group {
                writeln!(f, "  {:<34} {:>9}{}", row.name, row.count, mark(row))?;
            }
        }
        Ok(())
    }
}

/// Marks a hole, and what was not expected.
fn mark(row: &Row) -> String {
    match (row.listed, row.count, row.unreachable()) {
        (false, _, _) => "  <-- NOT EXPECTED".into(),
        (_, 0, None) => "  <-- HOLE".into(),
        (_, 0, Some(why)) => format!("  ({why})"),
        (_, _, Some(_)) => "  <-- NOT EXPECTED".into(),
        (_, _, None) => String::new(),
    }
}
