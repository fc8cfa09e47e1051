//! The demanded outputs against the trace that the oracle keeps, and against an engine over the
//! Rust that is made another way.

use definitions::turns::{self, Moment, Value};
use definitions::weave::plain;
use oracle::run::{run_life, Options};
use wire::batch::{Batch, Run};
use wire::format::{Input, Opening, Output, OUTPUT_BYTES};
use wire::lives::{self, Lives};
use wire::machine::{Flaw, Machine};
use wire::odd;
use wire::play::{play, Plan};
use wire::turn::{At, Turn};
use wire::weave::{plain_readings, Amount};

fn lives(seed: u64) -> Lives {
    Lives {
        seed,
        counters: oracle::HAS_COUNTERS,
    }
}

fn turns(plans: &[Plan]) -> Vec<Turn> {
    let mut turns = Vec::new();
    play(plans, &mut turns);
    turns
}

/// An input of the definitions' tool as a record.
fn input(input: &turns::Input) -> Input {
    match *input {
        turns::Input::Calls(call) => Input::Call(call),
        turns::Input::Replies(reply) => Input::Reply(reply),
        turns::Input::Reads(reading) => Input::Read(reading),
    }
}

fn output(output: &turns::Output) -> Output {
    match output {
        turns::Output::Started => Output::Started,
        turns::Output::StartRefused(number) => Output::StartRefused(*number),
        turns::Output::Hands(item) => Output::Item(0, *item),
        turns::Output::Answers(answer) => Output::answer(answer),
        turns::Output::Reminds(number, item) => Output::Item(*number, *item),
        turns::Output::Refuses(_) => Output::Unawaited,
        turns::Output::Shows(value) => shown(value),
        turns::Output::NoRuntime => Output::NoRuntime,
    }
}

fn shown(value: &Value) -> Output {
    match *value {
        Value::State(state) => Output::State(state),
        Value::Number(number) => Output::Number(number),
        Value::Config(fields) => Output::Config(fields.map(|(_, value)| value)),
        Value::Snapshot(snapshot) => Output::Snapshot(snapshot),
        Value::Lease(lease) => Output::Lease(lease),
        Value::Capability(capability) => Output::Capability(capability),
        Value::Receipt(receipt) => Output::Receipt(receipt),
    }
}

/// The life's own turns, from the oracle's trace.
fn expected(plan: &Plan, moments: &[Moment<'_>]) -> Vec<(Input, Output)> {
    let start = &plan.life.start;
    let listed = start.capabilities.iter();
    let mut all: Vec<(Input, Output)> = listed
        .map(|capability| (Input::Capability(*capability), Output::Listed))
        .collect();
    let script = plain(moments);
    all.push((Input::Start(Opening::of(start)), output(&script.start)));
    let turn = |t: &definitions::weave::Turn| (input(&t.input), output(&t.output));
    all.extend(script.first.iter().map(turn));
    for ((counter, value), turns) in &script.rest {
        let (counter, value) = (*counter, *value);
        let set = oracle::life::Call::Set { counter, value };
        all.push((Input::Call(set), Output::Set));
        all.extend(turns.iter().map(turn));
    }
    all
}

#[test]
fn nothing_put_in_is_the_oracles_trace() {
    for number in 0..400 {
        let plan = Plan::plain(lives(5).life(number));
        let trace = run_life(&plan.life, Options::ALL);
        let turns = turns(std::slice::from_ref(&plan));
        let own: Vec<(Input, Output)> = turns.iter().map(|t| (t.input, t.output)).collect();
        assert_eq!(
            own,
            expected(&plan, &turns::moments(&trace)),
            "life {number}"
        );
        assert!(turns.iter().all(|turn| !turn.woven));
    }
}

#[test]
fn everything_shows_what_the_oracles_readings_show() {
    let (mut lives_seen, mut seen) = (0, 0);
    for number in 0..500 {
        let mut plan = Plan::plain(lives(6).life(number));
        if plan.life.steps.len() > 12 {
            continue;
        }
        plan.weaving.amount = Amount::Everything;
        let trace = run_life(&plan.life, Options::ALL);
        let moments = turns::moments(&trace);
        let mut moment = moments.iter();
        let mut readings = None;
        for turn in turns(std::slice::from_ref(&plan)) {
            let own = !turn.woven && !matches!(turn.input, Input::Capability(_));
            if own {
                readings = moment.next().and_then(|m| m.place.readings);
            }
            if let Input::Read(reading) = turn.input {
                let demanded = readings.map(|r| shown(&reading.of(r)));
                assert_eq!(turn.output, demanded.unwrap_or(Output::NoRuntime));
                seen += 1;
            }
        }
        assert!(moment.next().is_none());
        lives_seen += 1;
    }
    assert!(lives_seen > 80 && seen > 20_000, "{lives_seen} {seen}");
}

#[test]
fn what_is_put_in_changes_nothing() {
    for number in 0..400 {
        let mut plan = lives(7).plan(number);
        (plan.weaving.cut, plan.weaving.ahead) = (None, false);
        let pair = |turn: &Turn| (turn.input, turn.output);
        let woven = turns(std::slice::from_ref(&plan));
        let own = woven.iter().filter(|turn| !turn.woven).map(pair);
        let alone = turns(&[Plan::plain(plan.life)]);
        assert!(own.eq(alone.iter().map(pair)), "life {number}");
    }
}

#[test]
fn a_cut_life_is_the_beginning_of_the_whole_one() {
    let mut cut_in_a_wait = 0;
    for number in 0..400 {
        let mut plan = lives(8).plan(number);
        plan.weaving.amount = Amount::Nothing;
        let cut = turns(std::slice::from_ref(&plan));
        plan.weaving.cut = None;
        let whole = turns(std::slice::from_ref(&plan));
        let outputs = |turns: &[Turn]| turns.iter().map(|t| t.output).collect::<Vec<_>>();
        assert!(outputs(&whole).starts_with(&outputs(&cut)));
        let last = cut.last().map(|turn| turn.output);
        cut_in_a_wait += usize::from(matches!(last, Some(Output::Item(..))));
    }
    assert!(cut_in_a_wait > 20);
}

#[test]
fn listed_ahead_or_not_the_lives_are_the_same() {
    let mut plans: Vec<Plan> = (0..200).map(|number| lives(9).plan(number)).collect();
    plans
        .iter_mut()
        .for_each(|plan| plan.weaving.amount = Amount::Nothing);
    let ahead = turns(&plans);
    plans.iter_mut().for_each(|plan| plan.weaving.ahead = false);
    let own = |turns: &[Turn]| {
        let own = turns
            .iter()
            .filter(|t| !matches!(t.input, Input::Capability(_)));
        own.map(|t| (t.input, t.output)).collect::<Vec<_>>()
    };
    let alone = turns(&plans);
    assert_eq!(own(&ahead), own(&alone));
    assert_eq!(ahead.len(), alone.len());
    assert_ne!(ahead, alone);
}

#[test]
fn an_engine_over_the_rust_answers_as_demanded() {
    for seed in 0..3 {
        let plans: Vec<Plan> = (0..300).map(|number| lives(seed).plan(number)).collect();
        let batch = Batch::of(&turns(&plans));
        let run = Run::of(&mut Machine(Flaw::None), &batch.input, batch.demanded.len());
        assert_eq!(run.difference(&batch.demanded), None);
    }
}

#[test]
fn an_engine_over_the_rust_answers_the_odd_lists() {
    for (name, turns) in odd::lists() {
        let batch = Batch::of(&turns);
        let run = Run::of(&mut Machine(Flaw::None), &batch.input, batch.demanded.len());
        assert_eq!(run.difference(&batch.demanded), None, "{name}");
    }
}

#[test]
fn a_life_that_no_record_stands_for_is_not_read() {
    let life = |set: &str| format!("profile\nstart boot_id 42 now 0 flags 0\nset {set} 5\n");
    assert_eq!(lives::read(&life("epoch")).is_ok(), oracle::HAS_COUNTERS);
    let error = lives::read(&life("invalid_count")).expect_err("no record");
    assert_eq!(error.line, 3);
}

#[test]
fn seven_readings_have_no_argument() {
    assert_eq!(plain_readings().count(), 7);
}

#[test]
fn every_place_is_met() {
    let plans: Vec<Plan> = (0..200).map(|number| lives(1).plan(number)).collect();
    let turns = turns(&plans);
    for at in [At::Nowhere, At::Starting, At::Idle, At::Waiting] {
        assert!(
            turns.iter().any(|turn| turn.woven && turn.at == at),
            "{at:?}"
        );
    }
    let unread = turns
        .iter()
        .filter(|turn| turn.input_words() != turn.input.words());
    assert!(unread.count() > 100);
    assert_eq!(OUTPUT_BYTES * turns.len(), Batch::of(&turns).demanded.len());
}
