//! What a campaign prints at its end.

use crate::facts::FACTS;
use crate::host::Stage;
use crate::log::{lives, Entry};
use crate::runs::{Failure, Request, Summary};
use crate::timeline::timeline;
use std::fmt::Write;
use std::time::Duration;
use wire::report::smallest;
use wire::shrink::shrink;

/// The table of a campaign and of its facts.
pub fn table(request: &Request, summary: &Summary, elapsed: Duration) -> String {
    let total = &summary.total;
    let checks: u64 = total.verdicts.iter().map(|v| v.checked).sum();
    let columns = [
        ("campaign", request.campaign.name().to_string()),
        ("trials", (summary.passed + summary.failed).to_string()),
        ("lives", total.lives.to_string()),
        ("calls", total.calls.to_string()),
        ("items", total.items.to_string()),
        ("records", total.records.to_string()),
        ("checks", checks.to_string()),
        ("unlike the Rust", total.differences.to_string()),
        ("broken facts", total.broken().to_string()),
    ];
    let mut text = String::new();
    let cell = |name: &str, value: &str, text: &str| {
        let width = name.len().max(value.len());
        format!("{text:>width$}  ")
    };
    let head: String = columns.iter().map(|(n, v)| cell(n, v, n)).collect();
    let row: String = columns.iter().map(|(n, v)| cell(n, v, v)).collect();
    // Writing to a text never fails.
    let _ = writeln!(text, "{}\n{}\n", head.trim_end(), row.trim_end());
    let _ = writeln!(text, "{:<58}{:>10}{:>10}", "fact", "checked", "broken");
    for (fact, verdict) in FACTS.iter().zip(&total.verdicts) {
        let (checked, broken) = (verdict.checked, verdict.broken.len());
        let _ = writeln!(text, "{:<58}{checked:>10}{broken:>10}", fact.name);
    }
    let seconds = elapsed.as_secs_f64();
    let _ = writeln!(text, "\nseed {}, {seconds:.1} s", request.seed);
    text
}

/// What is to be read of trials that failed: the facts that they break, the smallest lives that
/// differ from the Rust, and the first trial as a timeline.
pub fn failures(summary: &Summary, stage: &mut dyn Stage) -> String {
    let mut text = String::new();
    for failure in &summary.failures {
        text += &broken(failure);
        let differences = failure.outcome.differences;
        if differences > 0 {
            let _ = writeln!(text, "  {differences} records are not as the Rust has them");
            let shrunk = shrink(stage, &failure.trial.plans);
            text += &shrunk.map_or(String::new(), |shrunk| smallest(&shrunk));
        }
    }
    if let Some(first) = summary.failures.first() {
        text += "the first one as a timeline:\n";
        text += &timelines(&first.trial.told(stage));
        text += "\n";
    }
    text
}

fn broken(failure: &Failure) -> String {
    let (number, trial) = failure.place;
    let about = &failure.trial.about;
    let mut text = format!("FAILED life {number}, trial {trial}: {about}\n");
    for (fact, verdict) in FACTS.iter().zip(&failure.outcome.verdicts) {
        if let Some(broken) = verdict.broken.first() {
            let _ = writeln!(text, "  broken: {}: {}", fact.name, broken.why);
        }
    }
    text
}

/// Every life of a log as a timeline.
pub fn timelines(log: &[Entry]) -> String {
    let lives = lives(log);
    let texts = lives.iter().enumerate();
    let texts: Vec<String> = texts.map(|(n, life)| timeline(n + 1, life)).collect();
    texts.join("\n")
}
