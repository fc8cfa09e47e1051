//! Stored vectors.

use std::path::PathBuf;
use wire::batch::{record, Run};
use wire::format::layout::{InputKind, OutputKind};
use wire::format::word::get_words;
use wire::format::{Input, INPUT_BYTES, INPUT_WORDS, OUTPUT_BYTES};
use wire::machine::{Flaw, Machine};
use wire::vectors::{vectors, write, INPUT_FILE, MOST_BYTES, OUTPUT_FILE};

#[test]
fn they_have_every_kind_of_record() {
    let batch = vectors(1, 12);
    assert!(batch.input.len() + batch.demanded.len() <= MOST_BYTES);
    let records = batch.input.chunks_exact(INPUT_BYTES);
    let inputs: Vec<Input> = records
        .map(|r| Input::of(&get_words::<INPUT_WORDS>(r)))
        .collect();
    for kind in InputKind::ALL
        .iter()
        .filter(|kind| **kind != InputKind::Set)
    {
        assert!(
            inputs.iter().any(|input| input.kind() == Some(*kind)),
            "{kind:?}"
        );
    }
    let outputs = batch.demanded.len() / OUTPUT_BYTES;
    let outputs: Vec<u64> = (0..outputs)
        .filter_map(|n| Some(record(&batch.demanded, n)?[0]))
        .collect();
    for kind in OutputKind::ALL
        .iter()
        .filter(|kind| **kind != OutputKind::Set)
    {
        assert!(outputs.contains(&kind.number()), "{kind:?}");
    }
    // The last answer is that of the short record.
    assert_eq!(outputs.len(), inputs.len() + 1);
    assert_eq!(outputs.last(), Some(&OutputKind::Short.number()));
    assert_ne!(batch.input.len() % INPUT_BYTES, 0);
}

#[test]
fn an_engine_over_the_rust_answers_them() {
    if oracle::HAS_COUNTERS {
        return; // The vectors are for the ordinary entry, which has no `set`.
    }
    let batch = vectors(2, 5);
    let run = Run::of(&mut Machine(Flaw::None), &batch.input, batch.demanded.len());
    assert_eq!(run.difference(&batch.demanded), None);
}

#[test]
fn they_depend_on_the_seed_alone() {
    let (one, same, other) = (vectors(1, 3), vectors(1, 3), vectors(2, 3));
    assert_eq!((&one.input, &one.demanded), (&same.input, &same.demanded));
    assert_ne!(one.input, other.input);
}

#[test]
fn they_are_written_into_an_empty_folder() {
    let folder = passing_folder("vectors");
    let counts = write(&folder, 1, 3).expect("they are written");
    let input = std::fs::read(folder.join(INPUT_FILE)).expect("the input");
    let output = std::fs::read(folder.join(OUTPUT_FILE)).expect("the output");
    let batch = vectors(1, 3);
    assert_eq!((&input, &output), (&batch.input, &batch.demanded));
    let readme = std::fs::read_to_string(folder.join("README.md")).expect("the line");
    assert!(readme.contains("wire vectors --seed 1 --lives 3"));
    assert!(readme.contains(&counts.records.to_string()));
    assert!(write(&folder, 1, 3).is_err());
    std::fs::remove_dir_all(&folder).expect("it is removed");
}

fn passing_folder(name: &str) -> PathBuf {
    std::env::temp_dir().join(format!("wire-{name}-{}", std::process::id()))
}
