//! The campaigns: they pass the Rust, and each finds planted faults.

use oracle::driver::Item;
use oracle::life::Call;
use oracle::runtime_core::Reason;
use std::collections::BTreeSet;
use tester::book::Book;
use tester::campaign::Campaign;
use tester::facts::FACTS;
use tester::host::converse;
use tester::log::{lives, Life};
use tester::plant::{Plant, Planted};
use tester::report;
use tester::runs::{run, Request, Summary};
use tester::session::{PANEL, PC};
use tester::story::story;
use wire::format::Input;
use wire::machine::{Flaw, Machine, Running};

/// Those that this build can run.
fn campaigns() -> impl Iterator<Item = Campaign> {
    let runs = |c: &Campaign| *c != Campaign::Counters || oracle::HAS_COUNTERS;
    Campaign::ALL.into_iter().filter(runs)
}

const fn request(campaign: Campaign, lives: u64) -> Request {
    Request {
        campaign,
        seed: 3,
        lives,
        threads: 2,
    }
}

fn planted(campaign: Campaign, plant: Plant) -> Summary {
    run(&request(campaign, 12), &move || Box::new(Planted(plant)))
}

/// The facts that broke, by the outputs alone.
fn broken(summary: &Summary) -> Vec<&'static str> {
    let pairs = FACTS.iter().zip(&summary.total.verdicts);
    let broken = pairs.filter(|(_, verdict)| !verdict.broken.is_empty());
    broken.map(|(fact, _)| fact.name).collect()
}

fn finds(campaign: Campaign, plant: Plant, words: &str) {
    let summary = planted(campaign, plant);
    assert!(summary.failed > 0, "{plant:?}");
    assert!(summary.total.differences > 0, "{plant:?}");
    let broken = broken(&summary);
    assert!(
        broken.iter().any(|name| name.contains(words)),
        "{plant:?}: {broken:?}"
    );
}

#[test]
fn what_is_right_passes() {
    for campaign in campaigns() {
        let summary = run(&request(campaign, 6), &|| Box::new(Machine::default()));
        assert_eq!(summary.failed, 0, "{campaign:?}");
        assert!(summary.passed > 100, "{campaign:?}");
        for (fact, verdict) in FACTS.iter().zip(&summary.total.verdicts) {
            assert!(verdict.checked > 0, "{campaign:?}: {}", fact.name);
        }
    }
}

#[test]
fn it_does_not_depend_on_the_threads() {
    let counts = |threads| {
        let request = Request {
            threads,
            ..request(Campaign::Cuts, 4)
        };
        let summary = run(&request, &|| Box::new(Machine::default()));
        let total = &summary.total;
        (summary.passed, total.calls, total.items, total.records)
    };
    assert_eq!(counts(1), counts(3));
}

#[test]
fn cuts_finds_an_order_that_is_taken_again() {
    finds(Campaign::Cuts, Plant::Again, "twice");
}

#[test]
fn cuts_finds_a_start_that_leaves_an_axis_out() {
    finds(Campaign::Cuts, Plant::Startup, "startup");
}

#[test]
fn faults_finds_a_fallback_that_is_left_out() {
    finds(Campaign::Faults, Plant::Short, "every used axis");
}

#[test]
fn faults_finds_a_second_try() {
    finds(Campaign::Faults, Plant::Twice, "twice");
    finds(Campaign::Faults, Plant::Twice, "reminder");
}

#[test]
fn clock_finds_a_stop_that_moves_the_last_tick_back() {
    finds(Campaign::Clock, Plant::Back, "last tick");
}

#[cfg(feature = "counters")]
#[test]
fn counters_finds_one_that_wraps() {
    finds(Campaign::Counters, Plant::Wraps, "receipt numbers");
    finds(Campaign::Counters, Plant::Wraps, "never fall");
}

/// A wrong answer that breaks none of the facts is found beside the Rust.
#[test]
fn a_wrong_epoch_is_found() {
    let make = || Box::new(Machine(Flaw::Epoch)) as Box<_>;
    let summary = run(&request(Campaign::Faults, 12), &make);
    assert!(summary.failed > 0);
    let text = report::failures(&summary, &mut Machine(Flaw::Epoch));
    assert!(text.contains("not as the Rust has them"), "{text}");
    assert!(text.contains("reason 13 Watchdog"), "{text}");
}

#[test]
fn a_failure_is_told() {
    let summary = planted(Campaign::Cuts, Plant::Again);
    let text = report::failures(&summary, &mut Planted(Plant::Again));
    for words in [
        "FAILED life ",
        "broken: no order reaches execute twice",
        "was executed in life 1 already",
        "record",
        "EXECUTE capability",
        "the mains are cut here",
    ] {
        assert!(text.contains(words), "{words} in {text}");
    }
}

/// The lives of the trials of some numbers, on the Rust.
fn told(campaign: Campaign, numbers: u64) -> Vec<Vec<Life>> {
    let trials = (0..numbers).flat_map(|number| campaign.trials(1, number));
    trials
        .map(|trial| lives(&converse(&mut Running::default(), &trial.plans)))
        .collect()
}

#[test]
fn cuts_come_after_every_kind_of_item() {
    let trials = told(Campaign::Cuts, 3);
    let last = |lives: &Vec<Life>| {
        let calls = story(&lives[0]);
        let call = calls.last()?;
        call.is_cut().then(|| (call.name(), call.items.len()))
    };
    let cut: BTreeSet<_> = trials.iter().filter_map(last).collect();
    for place in 1..=4 {
        assert!(cut.contains(&("submit", place)), "{cut:?}");
    }
    assert!(cut.contains(&("start", 2)) && cut.contains(&("acquire", 1)));
    for lives in &trials {
        assert_eq!(lives.len(), 2);
        assert_ne!(lives[0].opening.boot_id, lives[1].opening.boot_id);
    }
}

#[test]
fn the_new_life_tries_the_same_orders() {
    let orders = |life: &Life| {
        let submits = life.moments.iter().filter_map(|m| match m.input {
            Input::Call(Call::Submit(order)) => Some(order.action),
            _ => None,
        });
        submits.collect::<Vec<_>>()
    };
    for lives in told(Campaign::Cuts, 3) {
        let again = orders(&lives[1]);
        assert!(orders(&lives[0]).iter().all(|order| again.contains(order)));
    }
}

/// What fails first in a life, and whether the PC and the panel both hold a lease then.
fn first_failure(life: &Life) -> Option<(String, bool)> {
    let mut book = Book::default();
    let mut both = false;
    for moment in &life.moments {
        if let (Input::Reply(_), Some(item)) = (moment.input, moment.awaited) {
            let handed = tester::story::Handed {
                item,
                reply: match moment.input {
                    Input::Reply(reply) => Some(reply),
                    _ => None,
                },
            };
            if handed.failed() {
                return Some((kind(&item), both));
            }
        }
        // As it stood before the item that takes it away.
        if !matches!(moment.item(), Some(Item::Fallback { .. })) {
            let held = |owner| book.leases.iter().flatten().any(|h| h.owner == owner);
            both = held(PC) && held(PANEL);
        }
        book.see(moment);
    }
    None
}

fn kind(item: &Item) -> String {
    match item {
        Item::Observe { .. } => "observe".into(),
        Item::Execute { .. } => "execute".into(),
        Item::Fallback { reason, .. } => format!("{reason:?}"),
        Item::Record { .. } => "record".into(),
    }
}

#[test]
fn the_driver_fails_everywhere_with_both_leases() {
    let trials = told(Campaign::Faults, 25);
    let failures: Vec<_> = trials.iter().filter_map(|l| first_failure(&l[0])).collect();
    assert_eq!(failures.len(), trials.len());
    let kinds: BTreeSet<&str> = failures.iter().map(|(kind, _)| kind.as_str()).collect();
    let reasons = [
        Reason::Startup,
        Reason::Watchdog,
        Reason::LeaseExpired,
        Reason::StreamExpired,
        Reason::Estop,
        Reason::Recovered,
        Reason::Canceled,
        Reason::Precondition,
    ];
    let reasons = reasons.map(|reason| format!("{reason:?}"));
    for kind in reasons
        .iter()
        .map(String::as_str)
        .chain(["observe", "execute"])
    {
        assert!(kinds.contains(kind), "{kind} in {kinds:?}");
    }
    let both = failures.iter().filter(|(_, both)| *both).count();
    assert!(both * 2 > failures.len(), "{both} of {}", failures.len());
}

#[test]
fn the_clock_steps_back_inside_a_stop() {
    let mut back = 0;
    for lives in told(Campaign::Clock, 4) {
        let calls = story(&lives[0]);
        let pairs = calls.iter().zip(calls.iter().skip(1));
        let steps = pairs.filter(|(before, stop)| {
            let last = before.snapshot.map_or(0, |snapshot| snapshot.now);
            let is_stop = matches!(stop.name(), "emergency_stop" | "poll_estop");
            is_stop && stop.time().is_some_and(|now| now < last)
        });
        back += steps.count();
    }
    assert!(back > 100, "{back}");
}

#[test]
fn some_trials_have_inputs_out_of_place() {
    let summary = run(&request(Campaign::Clock, 8), &|| {
        Box::new(Machine::default())
    });
    let place = FACTS.iter().position(|f| f.name.contains("reminder"));
    let checked = summary.total.verdicts[place.expect("the fact")].checked;
    // Each reminder is one more than the items.
    assert!(checked > summary.total.items);
}
