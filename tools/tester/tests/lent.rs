//! Stepping over lent words, with the Rust behind them: the same answers as by whole inputs, also
//! where an input begins as the one before it.

use tester::campaign::Campaign;
use tester::host::{converse, Stage};
use tester::lent::Lent;
use tester::runs::{run, Request};
use tester::trial::Trial;
use wire::batch::{Batch, Run};
use wire::engine::Engine;
use wire::format::{INPUT_BYTES, OUTPUT_BYTES};
use wire::lent::{Lent as Words, Spoil};
use wire::machine::{Flaw, Machine, Running};
use wire::play::play;

fn lent(spoil: Spoil) -> Lent {
    Lent::new(Box::new(Words::new(spoil)))
}

fn trials(campaign: Campaign) -> Vec<Trial> {
    campaign.trials(3, 1)
}

/// The campaigns that set no counter.
const CAMPAIGNS: [Campaign; 3] = [Campaign::Cuts, Campaign::Faults, Campaign::Clock];

const fn request(campaign: Campaign) -> Request {
    Request {
        campaign,
        seed: 3,
        lives: 3,
        threads: 2,
    }
}

#[test]
fn what_is_right_passes() {
    for campaign in CAMPAIGNS {
        let stepped = run(&request(campaign), &|| Box::new(lent(Spoil::None)));
        let whole = run(&request(campaign), &|| Box::new(Machine::default()));
        assert_eq!((stepped.failed, stepped.passed), (0, whole.passed));
        let total = |s: &tester::runs::Summary| (s.total.records, s.total.calls, s.total.items);
        assert_eq!(total(&stepped), total(&whole));
    }
}

#[test]
fn a_fault_is_found() {
    for (campaign, flaw) in [
        (Campaign::Faults, Flaw::Epoch),
        (Campaign::Clock, Flaw::OtherReply),
    ] {
        let summary = run(&request(campaign), &|| Box::new(lent(Spoil::Flaw(flaw))));
        assert!(summary.failed > 0, "{flaw:?}");
        assert!(summary.total.differences > 0);
    }
}

#[test]
fn any_input_after_any_other() {
    let mut stage = lent(Spoil::None);
    for trial in CAMPAIGNS.into_iter().flat_map(trials).step_by(7) {
        let mut batch = Batch::default();
        play(&trial.plans, &mut batch);
        let (input, output) = (batch.input.len(), batch.demanded.len());
        // Whole, then cut anywhere, then with little room, then whole again.
        for (bytes, room) in [
            (input, output + OUTPUT_BYTES),
            (input / 2, output),
            (input - INPUT_BYTES / 2, output),
            (input, output / 3),
            (input, output),
        ] {
            let demanded = batch.demanded_of(bytes, room);
            let run = Run::of(&mut stage, &batch.input[..bytes], room);
            assert!(run.is(&demanded), "{}: {bytes} {room}", trial.about);
        }
    }
}

#[test]
fn talking_to_it_leaves_the_next_run_as_it_is() {
    let mut stage = lent(Spoil::None);
    for trial in trials(Campaign::Cuts).iter().step_by(5) {
        let told = converse(stage.stepwise().as_mut(), &trial.plans);
        assert_eq!(told, converse(&mut Running::default(), &trial.plans));
        assert!(trial.run(&mut stage).passed(), "{}", trial.about);
    }
}

#[test]
fn an_input_of_nothing() {
    assert_eq!(lent(Spoil::None).run(&[], &mut [0; OUTPUT_BYTES]), 0);
}
