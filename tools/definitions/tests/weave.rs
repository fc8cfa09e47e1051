//! The inputs and outputs of a life, and what is woven into them.

use definitions::text;
use definitions::turns::{moments, Input, Output, Reply};
use definitions::weave::{plain, weave, Script, Turn};
use oracle::driver::Item;
use oracle::generate::Generator;
use oracle::life::{Call, Life};
use oracle::parse::parse;
use oracle::prng::Prng;
use oracle::run::{run_life, LifeTrace, Options};

const LIVES: u64 = 150;

fn trace(life: &Life) -> LifeTrace {
    run_life(life, Options::ALL)
}

fn random_life(number: u64) -> Life {
    let mut generator = Generator::new(5);
    generator.calls = 10;
    generator.life(number)
}

fn woven(trace: &LifeTrace, number: u64) -> Script {
    weave(&moments(trace), &[], &mut Prng::new(9, number))
}

/// The script without what was woven in.
fn unwoven(mut script: Script) -> Script {
    script.first.retain(|turn| !turn.woven);
    for (_, turns) in &mut script.rest {
        turns.retain(|turn| !turn.woven);
    }
    script
}

#[test]
fn a_short_life_in_full() {
    let life =
        "profile\nstart boot_id 42 now 0 flags 0\nreplies fail\ntick now 5\nemergency_stop now 9\n";
    let life = parse(life).expect("a life").remove(0);
    let trace = trace(&life);
    let script = plain(&moments(&trace));
    let inputs: Vec<String> = script.turns().map(|t| text::input(&t.input)).collect();
    let outputs: Vec<String> = script.outputs().map(|o| text::output(&o)).collect();
    let fell_back = "Replies (FellBack true)";
    assert_eq!(
        inputs,
        [
            fell_back,
            fell_back,
            "Calls (Tick 5)",
            "Calls (EmergencyStop 9)",
            fell_back,
            "Replies Recorded",
            fell_back,
            "Replies Recorded",
        ]
    );
    let short = |o: &String| o.split(" (record").next().unwrap_or_default().to_string();
    assert_eq!(
        outputs.iter().map(short).collect::<Vec<_>>(),
        [
            "Hands (ItemFallback 0 Reason.Startup)",
            "Hands (ItemFallback 1 Reason.Startup)",
            "Started",
            "Answers Returned",
            "Hands (ItemFallback 0 Reason.Estop)",
            "Hands (ItemRecord",
            "Hands (ItemFallback 1 Reason.Estop)",
            "Hands (ItemRecord",
            "Answers Returned",
        ]
    );
}

#[test]
fn without_what_is_woven_in_it_is_the_plain_life() {
    let mut added = 0;
    for number in 0..LIVES {
        let trace = trace(&random_life(number));
        let script = woven(&trace, number);
        let plain = plain(&moments(&trace));
        added += script.turns().count() - plain.turns().count();
        assert_eq!(unwoven(script), plain, "life {number}");
    }
    assert!(added > 30 * LIVES as usize, "{added}");
}

#[test]
fn the_plain_life_has_every_item_and_every_answer() {
    for number in 0..LIVES {
        let trace = trace(&random_life(number));
        let script = plain(&moments(&trace));
        let calls = trace.calls.iter();
        let items = trace.start.items.len() + calls.clone().map(|c| c.items.len()).sum::<usize>();
        let is_set = |call: &Call| matches!(call, Call::Set { .. });
        let sets = calls.clone().filter(|c| is_set(&c.step.call)).count();
        let ends = 1 + trace.calls.len() - sets + trace.skipped.len();
        assert_eq!(script.outputs().count(), items + ends, "life {number}");
        assert_eq!(script.rest.len(), sets, "life {number}");
    }
}

/// What 01 demands of what is woven in, from the plain inputs around it.
#[test]
fn inputs_out_of_place_have_their_numbers() {
    for number in 0..LIVES {
        let trace = trace(&random_life(number));
        let script = woven(&trace, number);
        let mut around = Around::default();
        around.see(&script.start);
        for turn in script.turns() {
            if turn.woven {
                around.check(turn);
            } else {
                around.see(&turn.output);
            }
        }
    }
}

#[derive(Default)]
struct Around {
    awaited: Option<Item>,
    runtime: bool,
}

impl Around {
    fn see(&mut self, output: &Output) {
        self.awaited = match output {
            Output::Hands(item) => Some(*item),
            _ => None,
        };
        self.runtime |= *output == Output::Started;
    }

    fn check(&self, turn: &Turn) {
        assert_eq!(turn.in_wait, self.awaited.is_some());
        let output = turn.output;
        match (turn.input, self.awaited) {
            (Input::Reads(_), _) => {
                assert_eq!(matches!(output, Output::Shows(_)), self.runtime);
                assert_eq!(output == Output::NoRuntime, !self.runtime);
            }
            (Input::Calls(_), Some(item)) => assert_eq!(output, Output::Reminds(111, item)),
            (Input::Calls(_), None) => {
                assert!(!self.runtime, "this call would take effect");
                assert_eq!(output, Output::NoRuntime);
            }
            (Input::Replies(reply), Some(item)) => {
                assert_ne!(kind_of_reply(&reply), kind_of_item(&item));
                assert_eq!(output, Output::Reminds(113, item));
            }
            (Input::Replies(_), None) => assert_eq!(output, Output::Refuses(112)),
        }
    }
}

fn kind_of_reply(reply: &Reply) -> usize {
    match reply {
        Reply::Observed(_) => 0,
        Reply::Executed(_) => 1,
        Reply::FellBack(_) => 2,
        Reply::Recorded => 3,
    }
}

fn kind_of_item(item: &Item) -> usize {
    match item {
        Item::Observe { .. } => 0,
        Item::Execute { .. } => 1,
        Item::Fallback { .. } => 2,
        Item::Record { .. } => 3,
    }
}
