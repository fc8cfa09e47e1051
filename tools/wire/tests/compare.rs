//! The comparison: it passes what is right, and finds and shrinks what is not.

mod common;

use common::Replay;
use oracle::driver::Item;
use oracle::runtime_core::{Decision, Reason};
use wire::batch::{Batch, Run};
use wire::compare::{compare, Failure, Request, Summary, LIVES};
use wire::engine::Engine;
use wire::format::layout::OutputKind;
use wire::format::{show, Input, Output, INPUT_BYTES, OUTPUT_BYTES};
use wire::lives::Lives;
use wire::machine::{Flaw, Machine};
use wire::odd;
use wire::play::{play, Plan};
use wire::report;
use wire::shrink::{shrink, Shrunk};
use wire::turn::Turn;

fn request(seed: u64, calls: u64, threads: usize) -> Request {
    Request {
        lives: Lives {
            seed,
            counters: oracle::HAS_COUNTERS,
        },
        calls,
        threads,
    }
}

fn compared(request: &Request, flaw: Flaw) -> Summary {
    compare(request, &move || Some(Box::new(Machine(flaw))))
}

/// The failures of lives, each shrunk.
fn shrunk(request: &Request, summary: &Summary, flaw: Flaw) -> Vec<Shrunk> {
    let lives = summary.failures.iter().filter_map(|failure| match failure {
        Failure::Life { number, first } => Some((*first, *number)),
        _ => None,
    });
    let shrunk = lives.map(|(first, number)| {
        let plans: Vec<Plan> = (first..=number).map(|n| request.lives.plan(n)).collect();
        shrink(&mut Machine(flaw), &plans).expect("the difference is there")
    });
    shrunk.collect()
}

#[test]
fn what_is_right_passes() {
    let request = request(1, 20_000, 2);
    let summary = compared(&request, Flaw::None);
    assert_eq!(summary.failed, 0);
    assert!(summary.passed >= summary.counts.lives);
    assert!((20_000..25_000).contains(&summary.counts.calls));
    assert!(summary.failures.is_empty());
}

#[test]
fn it_does_not_depend_on_the_threads() {
    let one = compared(&request(2, 5000, 1), Flaw::None);
    let three = compared(&request(2, 5000, 3), Flaw::None);
    assert_eq!(one.counts, three.counts);
    assert_eq!((one.passed, one.failed), (three.passed, three.failed));
    let other = compared(&request(3, 5000, 1), Flaw::None);
    assert_ne!(one.counts, other.counts);
}

#[test]
fn a_wrong_number_is_found_and_shrunk() {
    let request = request(4, 5000, 2);
    let summary = compared(&request, Flaw::Epoch);
    assert!(summary.failed > 0 && summary.passed > summary.failed);
    for shrunk in shrunk(&request, &summary, Flaw::Epoch) {
        // A lease and a late tick, or what comes to the same.
        let [plan] = &shrunk.plans[..] else {
            panic!("{} lives", shrunk.plans.len());
        };
        assert!(plan.life.steps.len() <= 3, "{}", plan.life);
        let demanded = shrunk.demanded.and_then(|words| Output::of(&words));
        let Some(Output::Item(0, Item::Record { receipt })) = demanded else {
            panic!("{demanded:?}");
        };
        assert_eq!(receipt.decision, Decision::Fallback);
        assert_eq!(receipt.reason, Reason::Watchdog);
        let (demanded, got) = (shrunk.demanded.unwrap(), shrunk.got.unwrap());
        let rows = show::differences(&demanded, &got);
        assert_eq!(rows.len(), 1);
        assert_eq!(rows[0][0], "word 13, epoch");
    }
}

#[test]
fn a_reply_out_of_place_that_counts_is_found_and_shrunk() {
    let request = request(5, 2000, 2);
    let summary = compared(&request, Flaw::OtherReply);
    assert!(summary.failed > 0);
    for shrunk in shrunk(&request, &summary, Flaw::OtherReply) {
        assert_eq!(shrunk.plans.len(), 1);
        assert!(
            shrunk.plans[0].life.steps.len() <= 1,
            "{}",
            shrunk.plans[0].life
        );
        let woven = shrunk.turns.iter().filter(|turn| turn.woven);
        assert_eq!(woven.count(), 1);
        assert_eq!(shrunk.demanded.map(|words| words[1]), Some(113));
    }
}

#[test]
fn what_a_life_leaves_to_the_next_is_found_and_shrunk() {
    let request = request(6, 3000, 2);
    let summary = compared(&request, Flaw::KeptList);
    assert!(summary.failed > 0);
    for shrunk in shrunk(&request, &summary, Flaw::KeptList) {
        assert_eq!(shrunk.plans.len(), 2);
        assert!(shrunk.plans.iter().all(|plan| plan.life.steps.is_empty()));
    }
}

#[test]
fn a_malformed_record_that_changes_something_is_found_and_shrunk() {
    let request = request(7, 5000, 2);
    let summary = compared(&request, Flaw::Skips);
    assert!(summary.failed > 0);
    for shrunk in shrunk(&request, &summary, Flaw::Skips) {
        let malformed = |input: &Input| matches!(input, Input::Malformed(_));
        let count = shrunk.turns.iter().filter(|t| malformed(&t.input)).count();
        assert_eq!(count, 1);
        assert!(matches!(
            shrunk.turns.last().map(|t| t.input),
            Some(Input::Reply(_))
        ));
    }
    let odd = summary
        .failures
        .iter()
        .any(|f| matches!(f, Failure::Odd(_)));
    assert!(odd);
}

#[test]
fn the_report_names_life_and_record() {
    let request = request(4, 5000, 2);
    let summary = compared(&request, Flaw::Epoch);
    let text = report::failures(&summary.failures, &request, &mut Machine(Flaw::Epoch));
    for part in [
        "FAILED life ",
        "start boot_id ",
        "acquire owner ",
        "demanded         item: record number 0 ",
        "word 13, epoch   demanded ",
        "got words        19 0 ",
        "FAILED too: malformed records everywhere\n",
    ] {
        assert!(text.contains(part), "{part}\n{text}");
    }
    // The life can be read back.
    let begin = text.find("life\n").expect("the life");
    let end = text.find("records in").expect("its records");
    assert!(oracle::parse::parse(&text[begin..end]).is_ok(), "{text}");
}

/// A few lives as bytes.
fn a_batch() -> Batch {
    let lives = request(8, 0, 1).lives;
    let plans: Vec<Plan> = (0..LIVES).map(|number| lives.plan(number)).collect();
    let mut batch = Batch::default();
    play(&plans, &mut batch);
    batch
}

#[test]
fn the_demanded_bytes_pass() {
    let batch = a_batch();
    let room = batch.demanded.len() + OUTPUT_BYTES;
    let mut replay = Replay(batch.demanded.clone());
    let run = Run::of(&mut replay, &batch.input, room);
    assert!(run.is(&batch.demanded));
    assert_eq!(run.difference(&batch.demanded), None);
    assert_eq!(
        batch.lives().last().map(|records| records.end),
        Some(batch.records())
    );
}

#[test]
fn any_changed_byte_is_found() {
    let batch = a_batch();
    let len = batch.demanded.len();
    for place in (0..len).step_by(997) {
        let mut changed = batch.demanded.clone();
        changed[place] ^= 0x10;
        let run = Run::of(&mut Replay(changed), &batch.input, len);
        assert_eq!(run.difference(&batch.demanded), Some(place / OUTPUT_BYTES));
        assert!(!run.is(&batch.demanded));
    }
}

#[test]
fn too_few_and_too_many_bytes_are_found() {
    let batch = a_batch();
    let (len, records) = (batch.demanded.len(), batch.records());
    let mut few = Replay(batch.demanded[..len - OUTPUT_BYTES].to_vec());
    let run = Run::of(&mut few, &batch.input, len);
    assert_eq!(run.difference(&batch.demanded), Some(records - 1));
    assert_eq!(run.record(records - 1), None);
    let mut many = Replay([&batch.demanded[..], &[0; OUTPUT_BYTES]].concat());
    let run = Run::of(&mut many, &batch.input, len + OUTPUT_BYTES);
    assert_eq!(run.difference(&batch.demanded), Some(records));
}

/// Writes one byte more than it says.
struct Spills(Vec<u8>);

impl Engine for Spills {
    fn run(&mut self, input: &[u8], output: &mut [u8]) -> usize {
        let len = Replay(self.0.clone()).run(input, output);
        output[len] = 0;
        len
    }
}

#[test]
fn a_byte_past_the_end_is_found() {
    let batch = a_batch();
    let mut engine = Spills(batch.demanded.clone());
    let run = Run::of(
        &mut engine,
        &batch.input,
        batch.demanded.len() + OUTPUT_BYTES,
    );
    assert_eq!(run.written, batch.demanded.len());
    assert_eq!(run.difference(&batch.demanded), Some(batch.records()));
}

#[test]
fn bytes_cut_off_and_too_little_room() {
    let batch = a_batch();
    let (input, output) = (batch.input.len(), batch.demanded.len());
    let mut short = Vec::new();
    Output::Short.encode(&mut short);
    let checked = |cut: usize, room: usize, demanded: &[u8]| {
        assert_eq!(batch.demanded_of(cut, room), demanded);
        let run = Run::of(&mut Machine(Flaw::None), &batch.input[..cut], room);
        assert!(run.is(demanded), "{cut} {room}");
    };
    let two = &batch.demanded[..2 * OUTPUT_BYTES];
    let two_and_short = [two, &short[..]].concat();
    checked(input, output, &batch.demanded);
    checked(2 * INPUT_BYTES, output, two);
    checked(2 * INPUT_BYTES + 1, output, &two_and_short);
    checked(3 * INPUT_BYTES - 1, 3 * OUTPUT_BYTES, &two_and_short);
    checked(3 * INPUT_BYTES - 1, 3 * OUTPUT_BYTES - 1, two);
    checked(input, 3 * OUTPUT_BYTES - 1, two);
    checked(0, output, &[]);
    checked(1, output, &short);
    checked(1, OUTPUT_BYTES - 1, &[]);
    checked(input, 0, &[]);
}

#[test]
fn nothing_is_compared_without_an_engine() {
    let summary = compare(&request(1, 1000, 1), &|| None);
    assert_eq!((summary.passed, summary.failed), (0, 0));
    assert!(summary.counts.calls >= 1000);
}

/// Says that it wrote nothing.
struct Silent;

impl Engine for Silent {
    fn run(&mut self, _: &[u8], _: &mut [u8]) -> usize {
        0
    }
}

#[test]
fn a_silent_engine_ends_the_run_early() {
    let request = request(1, 1_000_000, 2);
    let summary = compare(&request, &|| Some(Box::new(Silent)));
    assert!(summary.failed >= 100 && summary.counts.calls < 100_000);
    let text = report::failures(&summary.failures, &request, &mut Silent);
    assert_eq!(
        text.matches("got              nothing").count(),
        3,
        "{text}"
    );
}

/// The lists that bring the count of rejections to its top.
fn storms() -> Vec<odd::List> {
    let mut lists = odd::lists();
    lists.retain(|(name, _)| name.contains("rejections"));
    lists
}

/// The place of the first fallback for a storm.
fn trip(turns: &[Turn]) -> usize {
    let trips = |turn: &Turn| match turn.output {
        Output::Item(0, Item::Fallback { reason, .. }) => reason == Reason::InvalidStorm,
        _ => false,
    };
    turns.iter().position(trips).expect("a trip")
}

#[test]
fn a_storm_trips_at_the_largest_limit_and_past_it() {
    let rejections = |turns: &[Turn]| {
        let rejected = |turn: &&Turn| match turn.output {
            Output::Item(0, Item::Record { receipt }) => receipt.decision == Decision::Rejected,
            _ => false,
        };
        turns[..trip(turns)].iter().filter(rejected).count()
    };
    let counts: Vec<usize> = storms().iter().map(|(_, t)| rejections(t)).collect();
    assert_eq!(counts, [65_535, 65_537]);
}

#[cfg(feature = "counters")]
#[test]
fn a_count_of_rejections_that_is_held_low_is_found() {
    for (name, turns) in storms() {
        let batch = Batch::of(&turns);
        let mut machine = Machine(Flaw::HeldLow);
        let run = Run::of(&mut machine, &batch.input, batch.demanded.len());
        assert_eq!(
            run.difference(&batch.demanded),
            Some(trip(&turns)),
            "{name}"
        );
    }
}

#[test]
fn a_difference_at_the_end_of_a_long_list_is_shown() {
    let list = storms().remove(0);
    let batch = Batch::of(&list.1);
    let mut changed = batch.demanded;
    *changed.last_mut().expect("a byte") ^= 1;
    let failures = [Failure::Odd(list)];
    let text = report::failures(&failures, &request(1, 0, 1), &mut Replay(changed));
    assert!(text.starts_with("FAILED as many rejections"), "{text}");
    let last = batch.input.len() / INPUT_BYTES - 1;
    assert!(text.contains(&format!("record {last} differs\n")), "{text}");
}

#[test]
fn the_odd_lists_reach_every_malformed_kind() {
    let lists = odd::lists();
    let outputs = || {
        lists
            .iter()
            .flat_map(|(_, turns)| turns.iter().map(|t| t.output.kind()))
    };
    let wanted = [
        OutputKind::Malformed,
        OutputKind::NoRuntime,
        OutputKind::Unawaited,
    ];
    for kind in wanted {
        assert!(outputs().any(|output| output == kind), "{kind:?}");
    }
    let refused = outputs().filter(|o| *o == OutputKind::StartRefused).count();
    assert_eq!(refused, 3);
}
