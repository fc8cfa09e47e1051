//! The header and the program in C, as far as they go without the archive.

use definitions::turns::{Reading, Reply};
use std::path::Path;
use std::process::Command;
use wire::batch::{record, Run};
use wire::format::{Input, OUTPUT_BYTES};
use wire::machine::{Flaw, Machine};
use wire::odd;
use wire::play::{play, Plan};
use wire::turn::Turn;

const TEXT: &str = include_str!("life.txt");

#[test]
fn the_program_compiles_without_a_warning() {
    let source = Path::new(env!("CARGO_MANIFEST_DIR")).join("tests/life.c");
    let mut compiler = Command::new("cc");
    compiler.args(["-std=c11", "-Wall", "-Wextra", "-Wpedantic", "-Werror"]);
    let run = compiler.arg("-fsyntax-only").arg(source).output();
    let run = run.expect("the compiler that cargo links with");
    let said = String::from_utf8_lossy(&run.stderr);
    assert!(run.status.success(), "{said}");
}

#[test]
fn the_stored_text_is_what_the_rust_answers() {
    let mut turns: Vec<Turn> = Vec::new();
    play(&[Plan::plain(odd::order())], &mut turns);
    let mut inputs: Vec<Input> = turns.iter().map(|turn| turn.input).collect();
    let readings = [Reading::State, Reading::Epoch, Reading::ReceiptCount];
    inputs.extend(readings.map(Input::Read));
    inputs.push(Input::Reply(Reply::Recorded));
    let mut bytes = Vec::new();
    inputs.iter().for_each(|input| input.encode(&mut bytes));
    let room = inputs.len() * OUTPUT_BYTES;
    let run = Run::of(&mut Machine(Flaw::None), &bytes, room);
    let line = |(n, input): (usize, &Input)| {
        let words = record(run.bytes(), n).expect("an answer");
        format!("{} -> {} {}\n", input.words()[0], words[0], words[1])
    };
    let lines: String = inputs.iter().enumerate().map(line).collect();
    assert_eq!(lines, TEXT);
}
