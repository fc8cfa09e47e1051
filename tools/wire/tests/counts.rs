//! The counts: every row of the catalogue is reached, and none that it does not have.

use wire::compare::{compare, Request};
use wire::counts::Counts;
use wire::lives::Lives;

fn counted(calls: u64) -> Counts {
    let request = Request {
        lives: Lives {
            seed: 1,
            counters: oracle::HAS_COUNTERS,
        },
        calls,
        threads: 2,
    };
    compare(&request, &|| None).counts
}

#[test]
fn every_row_is_reached() {
    let rows = counted(100_000).rows();
    let unlisted = rows.iter().find(|row| !row.listed);
    assert_eq!(unlisted, None);
    let hole = rows
        .iter()
        .find(|r| r.count == 0 && r.unreachable().is_none());
    assert_eq!(hole, None);
    let reached = rows
        .iter()
        .find(|r| r.count > 0 && r.unreachable().is_some());
    assert_eq!(reached, None);
}

#[test]
fn the_rows_add_up() {
    let counts = counted(5000);
    let rows = counts.rows();
    let sum = |group: &str| -> u64 {
        let rows = rows.iter().filter(|row| row.group == group);
        rows.map(|row| row.count).sum()
    };
    let short = rows.iter().filter(|row| row.name == "short record");
    let short: u64 = short.map(|row| row.count).max().unwrap_or(0);
    assert_eq!(sum("input record"), counts.records + short);
    assert_eq!(sum("output record"), counts.records + short);
    assert_eq!(sum("call"), counts.calls);
    let starts = rows
        .iter()
        .find(|r| r.group == "input record" && r.name == "start");
    assert_eq!(starts.map(|row| row.count), Some(counts.lives));
    let text = counts.to_string();
    assert!(text.ends_with(&format!("{} records\n", counts.records)));
}

#[test]
fn counts_are_added() {
    let (one, two) = (counted(1000), counted(2000));
    let mut sum = one.clone();
    sum.add(&two);
    assert_eq!(sum.calls, one.calls + two.calls);
    assert_eq!(two.new_to(&sum), 0);
    sum.clear();
    assert_eq!(sum, Counts::default());
    assert!(one.new_to(&sum) > 100);
}
