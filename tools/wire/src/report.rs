//! What is printed of a failure.

use crate::compare::{CutRun, Failure, Request, Summary};
use crate::engine::Engine;
use crate::format::{show, OutputWords};
use crate::play::Plan;
use crate::shrink::{shrink, shrink_turns, Shrunk};
use crate::turn::Turn;
use std::fmt::Write;
use std::time::Duration;

/// How many failures are looked into.
const SHOWN: usize = 3;

/// How many turns are printed, the last ones.
const TURNS: usize = 40;

/// What is to be read of the failures: the first ones, lives before all others; then the names
/// of the rest.
pub fn failures(all: &[Failure], request: &Request, engine: &mut dyn Engine) -> String {
    let is_life = |failure: &&Failure| matches!(failure, Failure::Life { .. });
    let (lives, others): (Vec<&Failure>, Vec<&Failure>) = all.iter().partition(is_life);
    let ordered: Vec<&Failure> = lives.into_iter().chain(others).collect();
    let (shown, named) = ordered.split_at(ordered.len().min(SHOWN));
    let mut text = String::new();
    for failure in shown {
        text += &format!("FAILED {}\n", name(failure, request));
        text += &details(failure, request, engine);
    }
    for failure in named {
        text += &format!("FAILED too: {}\n", name(failure, request));
    }
    text
}

fn name(failure: &Failure, request: &Request) -> String {
    match failure {
        Failure::Life { number, .. } => format!("life {number} of seed {}", request.lives.seed),
        Failure::Odd((name, _)) => name.to_string(),
        Failure::Cut(cut) => {
            let CutRun {
                first, input, room, ..
            } = cut;
            format!("{input} bytes of the lives from {first} on, with room for {room} bytes")
        }
    }
}

fn details(failure: &Failure, request: &Request, engine: &mut dyn Engine) -> String {
    let shrunk = match failure {
        Failure::Life { number, first } => {
            let plans: Vec<Plan> = (*first..=*number).map(|n| request.lives.plan(n)).collect();
            shrink(engine, &plans)
        }
        Failure::Odd((_, turns)) => shrink_turns(engine, turns),
        Failure::Cut(cut) => return cut_run(cut),
    };
    let shown = shrunk.as_ref().map(smallest);
    shown.unwrap_or_else(|| "it can't be seen again\n".into())
}

fn cut_run(cut: &CutRun) -> String {
    let CutRun {
        written,
        demanded,
        place,
        ..
    } = cut;
    format!("  {written} bytes were written, {demanded} are demanded; record {place} differs\n")
}

/// The smallest lives as the oracle reads them, and the record that differs.
pub fn smallest(shrunk: &Shrunk) -> String {
    let mut text = String::new();
    for plan in &shrunk.plans {
        text += "life\n";
        if let Some(cut) = plan.weaving.cut {
            let (call, wait) = (cut.step, cut.wait);
            text += &format!("# ends in call {call} (0: the start), wait {wait} counted round\n");
        }
        text += &plan.life.to_string();
    }
    let skipped = shrunk.turns.len().saturating_sub(TURNS);
    text += "records in, and what the Rust demands (fields that are 0 left out, * put in):\n";
    if skipped > 0 {
        text += "  ..\n";
    }
    for (n, turn) in shrunk.turns.iter().enumerate().skip(skipped) {
        text += &line(n, turn);
    }
    text + &difference(shrunk)
}

fn line(place: usize, turn: &Turn) -> String {
    let mark = if turn.woven { "*" } else { " " };
    let input = show::brief_input(&turn.input_words());
    let output = show::brief_output(&turn.output.words());
    format!("  {place:>4}{mark} {input}\n          -> {output}\n")
}

/// The record that differs, in fields and in words.
fn difference(shrunk: &Shrunk) -> String {
    let mut text = format!("record {} differs\n", shrunk.turns.len().saturating_sub(1));
    let in_fields =
        |words: Option<OutputWords>| words.map_or("nothing".into(), |w| show::output(&w));
    let in_words = |words: Option<OutputWords>| words.map_or("none".into(), |w| show::numbers(&w));
    let mut row = |name: &str, value: String| {
        // Writing to a text never fails.
        let _ = writeln!(text, "  {name:<16} {value}");
    };
    if let Some(complaint) = &shrunk.complaint {
        row("seen", complaint.clone());
    }
    row("demanded", in_fields(shrunk.demanded));
    row("got", in_fields(shrunk.got));
    let fields = shrunk.demanded.zip(shrunk.got);
    // Where the engine complains, no record was written.
    if let Some((demanded, got)) = fields.filter(|_| shrunk.complaint.is_none()) {
        for [name, demanded, got] in show::differences(&demanded, &got) {
            row(&name, format!("demanded {demanded}, got {got}"));
        }
    }
    row("demanded words", in_words(shrunk.demanded));
    row("got words", in_words(shrunk.got));
    text
}

/// Seed, counts and times.
pub fn summary(request: &Request, summary: &Summary, elapsed: Duration) -> String {
    let (counts, times) = (&summary.counts, &summary.times);
    let seconds = elapsed.as_secs_f64();
    let rate = counts.calls as f64 / seconds;
    let mut text = counts.to_string();
    let _ = writeln!(
        text,
        "seed {}, {} calls in {seconds:.1} s on {} threads, {rate:.0} in a second",
        request.lives.seed, counts.calls, request.threads,
    );
    let parts = [
        ("generating", times.generating),
        ("the Rust, weaving and encoding", times.playing),
        ("the engine", times.engine),
        ("comparing", times.comparing),
    ];
    for (name, time) in parts {
        let each = time.as_secs_f64() * 1e9 / counts.calls.max(1) as f64;
        let _ = writeln!(text, "  {name:<32} {each:>8.0} ns for a call");
    }
    text
}
