//! Stored vectors: an input and the output that the Rust demands, for hosts in any language.

use crate::batch::{record, Batch};
use crate::counts::Counts;
use crate::format::{Output, INPUT_BYTES, OUTPUT_BYTES};
use crate::lives::Lives;
use crate::odd;
use crate::play::{play, Plan};
use crate::turn::Sink;
use crate::weave::Amount;
use oracle::life::Life;
use std::fs;
use std::io;
use std::path::Path;

/// The most bytes of input and output together.
pub const MOST_BYTES: usize = 300_000;

/// How many lives are looked at for each one that is taken.
const LOOKED_AT: u64 = 100;

/// The bytes at the end that fill no record.
const SHORT_BYTES: usize = INPUT_BYTES - 1;

pub const INPUT_FILE: &str = "input.bin";
pub const OUTPUT_FILE: &str = "output.bin";

/// The odd lists, at most so many lives that reach much, and a short record.
pub fn vectors(seed: u64, lives: u64) -> Batch {
    let mut batch = Batch::default();
    let odd = odd::small_lists();
    let turns = odd.iter().flat_map(|(_, turns)| turns);
    turns.for_each(|turn| batch.turn(turn));
    let plans = choose(seed, lives, &batch);
    play(&plans, &mut batch);
    // The first bytes of a tick, which must not be run.
    let tick = crate::format::layout::InputKind::Tick.number();
    batch.input.extend(tick.to_le_bytes());
    batch.input.resize(batch.input.len() + SHORT_BYTES - 8, 0);
    Output::Short.encode(&mut batch.demanded);
    batch.counts.short();
    batch
}

/// Those lives first that reach most that is new, for their length, as long as there is room.
fn choose(seed: u64, lives: u64, batch: &Batch) -> Vec<Plan> {
    let source = Lives {
        seed,
        counters: false,
    };
    let pool = (0..lives.saturating_mul(LOOKED_AT)).map(|n| candidate(source.plan(n)));
    let mut pool: Vec<(Plan, Batch)> = pool.collect();
    let mut reached = batch.counts.clone();
    let mut left = MOST_BYTES - bytes(batch) - SHORT_BYTES - OUTPUT_BYTES;
    let mut chosen = Vec::new();
    while (chosen.len() as u64) < lives {
        pool.retain(|(_, batch)| bytes(batch) <= left && batch.counts.new_to(&reached) > 0);
        let gain = |batch: &Batch| batch.counts.new_to(&reached) * 1000 / batch.records();
        // The first of several.
        let best = (0..pool.len()).rev().max_by_key(|n| gain(&pool[*n].1));
        let Some(best) = best else {
            break;
        };
        let (plan, batch) = pool.swap_remove(best);
        left -= bytes(&batch);
        reached.add(&batch.counts);
        chosen.push(plan);
    }
    chosen
}

/// A life by itself, with what is put into it.
fn candidate(mut plan: Plan) -> (Plan, Batch) {
    plan.weaving.ahead = false;
    plan.weaving.amount = match plan.weaving.number % 3 {
        0 => Amount::Many,
        1 => Amount::Few,
        _ => Amount::Nothing,
    };
    let mut batch = Batch::default();
    play(std::slice::from_ref(&plan), &mut batch);
    (plan, batch)
}

fn bytes(batch: &Batch) -> usize {
    batch.input.len() + batch.demanded.len()
}

/// A snapshot after each call, and every reading at the end of the last life.
fn with_readings(lives: Vec<Life>) -> Vec<Plan> {
    let mut plans: Vec<Plan> = lives.into_iter().map(Plan::plain).collect();
    for plan in &mut plans {
        plan.weaving.amount = Amount::Snapshots;
    }
    if let Some(last) = plans.last_mut() {
        last.weaving.amount = Amount::End;
    }
    plans
}

/// Writes lives and the Rust's answers into a new or empty folder.
pub fn encode(folder: &Path, lives: Vec<Life>) -> io::Result<Counts> {
    let mut batch = Batch::default();
    play(&with_readings(lives), &mut batch);
    store(folder, &batch)?;
    fs::write(folder.join("answers.txt"), lines(&batch))?;
    Ok(batch.counts)
}

/// What the program cases_main prints: the kind of each answer and the low halves of its words.
fn lines(batch: &Batch) -> String {
    let mut text = String::new();
    for place in 0..batch.records() {
        let Some(words) = record(&batch.demanded, place) else {
            break;
        };
        text += said(words[0]);
        for word in &words[1..] {
            text += &format!(" {}", word & 0xffff_ffff);
        }
        text += "\n";
    }
    text
}

const fn said(kind: u64) -> &'static str {
    match kind {
        1 => "listed",
        2 => "started",
        3 => "start refused",
        16 => "  observe",
        17 => "  execute",
        18 => "  fallback",
        19 => "  record",
        32 => "returned",
        33 => "polled",
        34 => "succeeded",
        35 => "leased",
        36 => "refused",
        37 => "settled",
        54 => "    snapshot",
        57 => "    receipt",
        _ => "other",
    }
}

fn store(folder: &Path, batch: &Batch) -> io::Result<()> {
    fs::create_dir_all(folder)?;
    if fs::read_dir(folder)?.next().is_some() {
        let message = format!("{} is not empty", folder.display());
        return Err(io::Error::other(message));
    }
    fs::write(folder.join(INPUT_FILE), &batch.input)?;
    fs::write(folder.join(OUTPUT_FILE), &batch.demanded)
}

/// Writes the vectors into a new or empty folder.
pub fn write(folder: &Path, seed: u64, lives: u64) -> io::Result<Counts> {
    let batch = vectors(seed, lives);
    store(folder, &batch)?;
    let readme = format!(
        "Made by `wire vectors --seed {seed} --lives {lives}` (tools/wire): `{INPUT_FILE}` has {} \
         input records (docs/WIRE.md) and {SHORT_BYTES} bytes that fill none, `{OUTPUT_FILE}` \
         what the Rust original demands.\n",
        batch.counts.records,
    );
    fs::write(folder.join("README.md"), readme)?;
    Ok(batch.counts)
}
