//! The tables against docs/WIRE.md and bindings/c/rolthai.h.

use wire::format::layout::{Field, InputKind, OutputKind, Type, CAPABILITY, LEASE, RECEIPT};
use wire::format::{INPUT_BYTES, OUTPUT_BYTES};

const DOCUMENT: &str = include_str!("../../../docs/WIRE.md");
const HEADER: &str = include_str!("../../../bindings/c/rolthai.h");

/// The rows of the table under a heading: the number and the other cells.
fn rows(heading: &str) -> Vec<(u64, Vec<&'static str>)> {
    let (_, rest) = DOCUMENT.split_once(heading).expect("the heading");
    let table = rest.lines().skip_while(|line| !line.starts_with('|'));
    let table = table.take_while(|line| line.starts_with('|')).skip(2);
    table
        .map(|line| {
            let cells: Vec<&str> = line.trim_matches('|').split('|').map(str::trim).collect();
            (cells[0].parse().expect("a number"), cells[1..].to_vec())
        })
        .collect()
}

/// A list of fields: each name with its type, if it has one. What stands in brackets is left out.
fn fields(text: &str) -> Vec<(String, Option<String>)> {
    let mut plain = String::new();
    let mut depth = 0;
    for c in text.chars() {
        depth += i32::from(c == '(');
        if depth == 0 {
            plain.push(c);
        }
        depth -= i32::from(c == ')');
    }
    let items = plain.trim().trim_end_matches('.').split(',').map(str::trim);
    let items = items.filter(|item| !item.is_empty());
    items
        .map(|item| {
            let mut words = item.split_whitespace().map(String::from);
            (words.next().unwrap_or_default(), words.next())
        })
        .collect()
}

fn type_name(of: Type) -> Option<&'static str> {
    Some(match of {
        Type::Bool => "bool",
        Type::U8 => "u8",
        Type::U16 => "u16",
        Type::U32 => "u32",
        Type::U64 => "u64",
        Type::I32 => "i32",
        _ => return None,
    })
}

fn names(fields: &[Field]) -> Vec<&str> {
    fields.iter().map(|field| field.name).collect()
}

#[test]
fn input_records() {
    let rows = rows("## Input records");
    let known = InputKind::ALL
        .iter()
        .filter(|kind| **kind != InputKind::Set);
    assert_eq!(rows.len(), known.count());
    for (number, cells) in rows {
        let kind = InputKind::of(number).expect("the kind is known");
        assert_eq!(kind.name(), cells[0]);
        let listed = fields(cells[1]);
        assert_eq!(listed.len(), kind.fields().len(), "{}", kind.name());
        for (field, (name, of)) in kind.fields().iter().zip(listed) {
            assert_eq!(field.name, name);
            assert_eq!(type_name(field.of), of.as_deref(), "{} {name}", kind.name());
        }
    }
}

#[test]
fn output_records() {
    let rows = rows("## Output records");
    let known = OutputKind::ALL
        .iter()
        .filter(|kind| **kind != OutputKind::Set);
    assert_eq!(rows.len(), known.count());
    for (number, cells) in rows {
        let kind = OutputKind::of(number).expect("the kind is known");
        assert_eq!(kind.name(), cells[0]);
        assert_eq!(
            kind.field(1).is_none(),
            cells[1].is_empty(),
            "{}",
            kind.name()
        );
        let own = names(kind.fields());
        match cells[2] {
            "a lease" => assert_eq!(own, names(LEASE)),
            "a receipt" | "its receipt" => assert_eq!(own, names(RECEIPT)),
            "words 1 to 13 of a capability record" => assert_eq!(own, names(CAPABILITY)),
            text => {
                let listed = fields(text);
                let listed: Vec<&str> = listed.iter().map(|(name, _)| name.as_str()).collect();
                assert_eq!(own, listed);
            }
        }
    }
}

/// A list that follows its name in the text.
fn spelled_out(name: &str) -> Vec<(String, Option<String>)> {
    let (_, rest) = DOCUMENT.split_once(name).expect("the list");
    let paragraph = rest.split("\n\n").next().unwrap_or(rest);
    fields(&paragraph.replace('\n', " "))
}

#[test]
fn leases_and_receipts() {
    for (name, own) in [("\nA lease:", LEASE), ("\nA receipt:", RECEIPT)] {
        let listed = spelled_out(name);
        assert_eq!(listed.len(), own.len());
        for (field, (name, of)) in own.iter().zip(listed) {
            assert_eq!(field.name, name);
            let signed = field.of == Type::I32;
            assert_eq!(signed, of.as_deref() == Some("i32"), "{name}");
        }
    }
}

#[test]
fn numbers_of_the_document() {
    let has = |text: &str| assert!(DOCUMENT.contains(text), "{text}");
    has(&format!("records of {INPUT_BYTES} bytes"));
    has(&format!("records of {OUTPUT_BYTES} bytes"));
    has("class (0 stream, 1 discrete, 2 control)");
    has("verification (0 parameters, 1 state)");
    has("decision (0 Executed, 1 Rejected,\n2 Fallback, 3 Control, 4 Failed)");
    has("0 SafeIdle, 1 Armed, 2 Faulted, 3 Estopped");
    has("101 to 105");
}

/// The constants of an enum of the header: name and number.
fn constants(prefix: &str) -> Vec<(String, u64)> {
    let lines = HEADER.lines().map(str::trim);
    let named = lines.filter_map(|line| line.strip_prefix(prefix)?.split_once(" = "));
    let number = |text: &str| text.trim_end_matches(',').parse().expect("a number");
    named
        .map(|(name, rest)| {
            let value = rest.split_whitespace().next().unwrap_or(rest);
            (name.to_string(), number(value))
        })
        .collect()
}

/// As a constant of C.
fn upper(name: &str) -> String {
    name.replace(' ', "_").to_uppercase()
}

#[test]
fn the_header_has_the_same_inputs() {
    let inputs = InputKind::ALL
        .iter()
        .filter(|kind| **kind != InputKind::Set);
    let inputs: Vec<(String, u64)> = inputs.map(|k| (upper(k.name()), k.number())).collect();
    assert_eq!(constants("ROLTHAI_IN_"), inputs);
}

#[test]
fn the_header_has_the_same_outputs() {
    let listed = constants("ROLTHAI_OUT_");
    let outputs = OutputKind::ALL
        .iter()
        .filter(|kind| **kind != OutputKind::Set);
    let outputs: Vec<u64> = outputs.map(|kind| kind.number()).collect();
    let numbers: Vec<u64> = listed.iter().map(|(_, number)| *number).collect();
    assert_eq!(numbers, outputs);
    for (name, number) in listed {
        let kind = OutputKind::of(number).expect("the kind is known");
        let debug = format!("{kind:?}");
        assert_eq!(name.replace('_', "").to_lowercase(), debug.to_lowercase());
    }
}

#[test]
fn the_header_has_the_same_sizes() {
    for (name, bytes) in [("INPUT", INPUT_BYTES), ("OUTPUT", OUTPUT_BYTES)] {
        let line = format!("#define ROLTHAI_{name}_BYTES {bytes}u");
        assert!(HEADER.lines().any(|l| l == line), "{line}");
    }
}

/// A list of words: the fields from a place on.
fn words(fields: &[Field], first: u64) -> Vec<(String, u64)> {
    (fields.iter().map(|field| upper(field.name)).zip(first..)).collect()
}

#[test]
fn the_header_has_the_same_words() {
    for (prefix, fields, first) in [
        ("ROLTHAI_START_", InputKind::Start.fields(), 0),
        ("ROLTHAI_CAPABILITY_", CAPABILITY, 0),
        ("ROLTHAI_REQUEST_", InputKind::Acquire.fields(), 0),
        ("ROLTHAI_ORDER_", InputKind::Submit.fields(), 0),
        ("ROLTHAI_CONFIG_", OutputKind::Config.fields(), 2),
        ("ROLTHAI_SNAPSHOT_", OutputKind::Snapshot.fields(), 2),
        ("ROLTHAI_LEASE_", LEASE, 2),
        ("ROLTHAI_RECEIPT_", RECEIPT, 2),
    ] {
        assert_eq!(constants(prefix), words(fields, first), "{prefix}");
    }
}
