//! One life by `rolthai_step`, record by record: what a step costs after 100, 10,000 and 1,000,000 others. Ten records
//! again and again: the sensed state, a renewal, an accepted order and a rejected one, a millisecond later each time.

use crate::functions::{renewal, same_end};
use crate::host::Host;
use crate::lives::{order, Prompt, BOOT, NOW, OWNER, REQUEST, SEEN};
use crate::timed;
use definitions::turns::Reply;
use oracle::life::{Call, Order};
use oracle::run::{apply, copy, Options, Readings};
use runtime_core::{profile, Action, Config, Runtime};
use std::hint::black_box;
use std::ops::Range;
use wire::format::{Input, InputWords, Output, OutputWords};

/// The steps before those that are timed.
const AFTER: [u64; 3] = [100, 10_000, 1_000_000];
const TIMED: u64 = 1_000;
const ROUNDS: usize = 100;
/// Steps of a turn.
const TURN: u64 = 10;

/// The two sides.
type Both = (Box<Host>, Runtime);

fn submit(action: Action, now: u64) -> Call {
    let action = Action {
        deadline: now + 100,
        ..action
    };
    Call::Submit(Order {
        action,
        principal: OWNER,
        received_at: now,
        now,
    })
}

/// The calls of a turn, from 0.
fn calls(turn: u64, epoch: u64) -> [Call; 4] {
    let now = NOW + turn;
    [
        Call::UpdateState { flags: 0, now },
        Call::Renew(renewal(turn + 1, now)),
        submit(order(turn + 1, epoch), now),
        submit(order(0, epoch), now),
    ]
}

/// Its records.
fn records(turn: u64, epoch: u64) -> [InputWords; TURN as usize] {
    let [sensed, renewed, accepted, rejected] = calls(turn, epoch).map(Input::Call);
    let [observed, executed, recorded] = [
        Reply::Observed(Some(SEEN)),
        Reply::Executed(true),
        Reply::Recorded,
    ]
    .map(Input::Reply);
    [
        sensed, renewed, recorded, accepted, observed, executed, observed, recorded, rejected,
        recorded,
    ]
    .map(|input| input.words())
}

fn started() -> Result<Both, String> {
    let config = Config::default();
    let mut host = Host::new(config, &profile::CAPABILITIES)?;
    let mut runtime = Runtime::new(config, &profile::CAPABILITIES, BOOT, 0, 0, &mut Prompt)
        .map_err(|error| format!("the Rust does not start: {error:?}"))?;
    let acquire = Call::Acquire {
        request: REQUEST,
        now: NOW,
    };
    apply(&mut runtime, &acquire, &mut Prompt);
    for input in [Input::Call(acquire), Input::Reply(Reply::Recorded)] {
        host.step(&input.words());
    }
    Ok((host, runtime))
}

/// Some turns on both sides, each answer that ends a call held against the Rust's.
fn compared(
    host: &mut Host,
    runtime: &mut Runtime,
    turns: Range<u64>,
    epoch: u64,
) -> Result<(), String> {
    for turn in turns {
        let answers: Vec<OutputWords> = records(turn, epoch)
            .iter()
            .map(|record| host.stepped(record))
            .collect();
        let ends = [0, 2, 7, 9].map(|at: usize| answers[at]);
        let demanded = calls(turn, epoch)
            .map(|call| Output::answer(&apply(runtime, &call, &mut Prompt)).words());
        if ends != demanded {
            return Err(format!(
                "turn {turn}: the answers are {ends:?}, the Rust's {demanded:?}"
            ));
        }
    }
    same_end("a life by steps", host, runtime)
}

/// The state of both sides after each of `AFTER` steps of one life, and after those that are timed there.
fn places() -> Result<Vec<[Both; 2]>, String> {
    let (mut host, mut runtime) = started()?;
    let epoch = runtime.epoch();
    let mut at = 0;
    let mut reach = |steps: u64| {
        compared(&mut host, &mut runtime, at..steps / TURN, epoch)?;
        at = steps / TURN;
        Ok::<_, String>((host.clone(), copy(&runtime)))
    };
    AFTER
        .into_iter()
        .map(|after| Ok([reach(after)?, reach(after + TIMED)?]))
        .collect()
}

/// Prints what a step takes after so many others, and the Rust for as many: the best of all rounds.
pub fn table() -> Result<(), String> {
    let places = places()?;
    let epoch = places[0][0].1.epoch();
    let mut least = [[f64::MAX; 2]; AFTER.len()];
    for _ in 0..ROUNDS {
        for ((after, [(begun, rust), (ended, rust_ended)]), least) in
            AFTER.into_iter().zip(&places).zip(&mut least)
        {
            let turns = after / TURN..(after + TIMED) / TURN;
            let inputs: Vec<InputWords> = turns
                .clone()
                .flat_map(|turn| records(turn, epoch))
                .collect();
            let asked: Vec<Call> = turns.flat_map(|turn| calls(turn, epoch)).collect();
            let (mut host, mut runtime) = (begun.clone(), copy(rust));
            let (time, ()) = timed(|| {
                for record in &inputs {
                    black_box(&mut *host).step(black_box(record));
                }
            });
            least[0] = least[0].min(time / TIMED as f64);
            let (time, ()) = timed(|| {
                for call in &asked {
                    black_box(&apply(
                        black_box(&mut runtime),
                        black_box(call),
                        &mut Prompt,
                    ));
                }
            });
            least[1] = least[1].min(time / TIMED as f64);
            if !host.is_as(ended)
                || Readings::of(&runtime, Options::ALL) != Readings::of(rust_ended, Options::ALL)
            {
                return Err(format!(
                    "after {after} steps: what was timed ends otherwise"
                ));
            }
        }
    }
    println!(
        "a step of one life by rolthai_step, {TIMED} steps after so many others, best of {ROUNDS}"
    );
    println!(
        "{:<30} {:>10} {:>13} {:>8} {:>7}",
        "", "a step, ns", "of the first", "Rust ns", "ratio"
    );
    let first = least[0][0];
    for (after, [time, rust]) in AFTER.into_iter().zip(least) {
        let name = format!("after {after}");
        println!(
            "{name:<30} {time:>10.1} {:>13.2} {rust:>8.1} {:>7.2}",
            time / first,
            time / rust
        );
    }
    Ok(())
}
