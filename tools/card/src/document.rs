//! docs/CARD.md, by its tables.

use crate::digits::unhex;

pub const DOCUMENT: &str = include_str!("../../../docs/CARD.md");

/// The rows of the table under a heading.
///
/// # Panics
/// If there is no such heading.
pub fn rows(heading: &str) -> Vec<Vec<&'static str>> {
    let (_, rest) = DOCUMENT.split_once(heading).expect("the heading");
    let table = rest.lines().skip_while(|line| !line.starts_with('|'));
    let table = table.take_while(|line| line.starts_with('|')).skip(2);
    let cells = |line: &'static str| line[1..line.len() - 1].split('|').map(str::trim);
    table.map(|line| cells(line).collect()).collect()
}

/// Bytes at the end of a card, and what is answered where they begin.
pub struct Tail {
    pub bytes: Vec<u8>,
    pub answer: u32,
    pub why: &'static str,
}

/// The table of answers.
///
/// # Panics
/// If a row has no answer, or other bytes than digits.
pub fn tails() -> Vec<Tail> {
    let rows = rows("Bytes at the end of a card");
    let tail = |row: Vec<&'static str>| Tail {
        bytes: unhex(row[0].trim_matches('`')),
        answer: row[1].parse().expect("an answer"),
        why: row[2],
    };
    rows.into_iter().map(tail).collect()
}
