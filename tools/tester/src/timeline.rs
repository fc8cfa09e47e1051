//! A life as a timeline for a person who knows the stage.

use crate::log::Life;
use crate::story::{answer_text, call_text, item_text, reply_text, story, Told};
use oracle::life::config_fields;
use oracle::runtime_core::Capability;
use std::fmt::Write;

/// The columns of a row: time, what happens, state, epoch, leases.
type Row = [String; 5];

const HEAD: [&str; 5] = ["time", "what happens", "state", "epoch", "leases"];

/// The widest text that the second column makes room for.
const WIDEST: usize = 78;

pub fn timeline(number: usize, life: &Life) -> String {
    let mut text = opening(number, life);
    let mut rows: Vec<Row> = vec![HEAD.map(String::from)];
    for told in story(life) {
        rows.extend(rows_of(&told));
    }
    let width = |column: usize| {
        let texts = rows.iter().map(|row| row[column].chars().count());
        let most = if column == 1 { WIDEST } else { usize::MAX };
        texts.filter(|width| *width <= most).max().unwrap_or(0)
    };
    let widths = [0, 1, 2, 3, 4].map(width);
    for (n, row) in rows.iter().enumerate() {
        text += &line(row, &widths);
        if n == 0 {
            let whole: usize = widths.iter().sum::<usize>() + 8;
            text += &format!("{}\n", "-".repeat(whole));
        }
    }
    text
}

/// What the life begins with.
fn opening(number: usize, life: &Life) -> String {
    let mut text = format!("life {number}, boot number {}\n", life.opening.boot_id);
    let config = config_fields(&life.opening.config).map(|(name, value)| format!("{name} {value}"));
    // Writing to a text never fails.
    let _ = writeln!(text, "config: {}", config.join(", "));
    for axis in life.axes() {
        let of_axis = |c: &&Capability| c.resource == axis;
        let listed = life.capabilities.iter().filter(of_axis);
        let names: Vec<String> = listed
            .map(|c| format!("{} {:?}", c.id, c.class).to_lowercase())
            .collect();
        let _ = writeln!(text, "axis {axis}: capabilities {}", names.join(", "));
    }
    text
}

fn line(row: &Row, widths: &[usize; 5]) -> String {
    let [time, what, state, epoch, leases] = row;
    let [w0, w1, w2, w3, _] = *widths;
    let line = format!("{time:>w0$}  {what:<w1$}  {state:<w2$}  {epoch:>w3$}  {leases}");
    format!("{}\n", line.trim_end())
}

fn rows_of(told: &Told) -> Vec<Row> {
    let time = told
        .time()
        .map_or(String::new(), |time| format!("{time} ms"));
    let blank = || [(); 3].map(|()| String::new());
    let row = |time: String, what: String, [state, epoch, leases]: [String; 3]| {
        [time, what, state, epoch, leases]
    };
    let mut rows = Vec::new();
    for (n, part) in wrapped(&call_text(&told.call)).into_iter().enumerate() {
        let (time, indent) = if n == 0 {
            (time.clone(), "")
        } else {
            (String::new(), "    ")
        };
        rows.push(row(time, format!("{indent}{part}"), blank()));
    }
    for handed in &told.items {
        let what = format!(
            "  {:<40} {}",
            item_text(&handed.item),
            reply_text(handed.reply)
        );
        rows.push(row(String::new(), what, blank()));
    }
    let what = format!("  = {}", answer_text(told));
    rows.push(row(String::new(), what, after(told)));
    rows
}

/// A long text in lines, broken after commas.
fn wrapped(text: &str) -> Vec<String> {
    let mut lines = vec![String::new()];
    for part in text.split_inclusive(", ") {
        let last = lines.len() - 1;
        if lines[last].len() + part.len() > WIDEST - 4 && !lines[last].is_empty() {
            lines.push(part.to_string());
        } else {
            lines[last] += part;
        }
    }
    lines
}

/// State, epoch and leases after a call, as they were read.
fn after(told: &Told) -> [String; 3] {
    let Some(snapshot) = told.snapshot else {
        return [(); 3].map(|()| String::new());
    };
    let leases: Vec<String> = told
        .leases
        .iter()
        .map(|lease| {
            let (axis, owner, until) = (lease.resource, lease.owner, lease.expires_at);
            format!("axis {axis}: {} of owner {owner} until {until}", lease.id)
        })
        .collect();
    let leases = match leases.is_empty() {
        true => "none".into(),
        false => leases.join("; "),
    };
    [
        format!("{:?}", snapshot.state),
        snapshot.epoch.to_string(),
        leases,
    ]
}
