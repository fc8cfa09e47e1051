//! The declarations in C and in Rust against the sources of the functions, which no compiler compares; and the header's
//! numbers against this crate's. What the card has of its own: tests/card.rs.

use rolthai::{Decision, Reason, State};

const SOURCES: [&str; 2] = [
    include_str!("../../../crates/host_c/src/lib.rt"),
    include_str!("../../../crates/card_c/src/lib.rt"),
];
const SPEC: &str = include_str!("../../../crates/host/specs/Host.antt");
const HEADER: &str = include_str!("../../c/rolthai.h");
const RAW: &str = include_str!("../src/raw.rs");

/// One line for each declaration that begins so and ends so, with single spaces.
fn declarations(text: &str, begin: &str, end: &str) -> Vec<String> {
    let parts = text.split(begin).skip(1);
    let parts = parts.filter_map(|part| part.split_once(end));
    let line = |text: &str| text.split_whitespace().collect::<Vec<_>>().join(" ");
    parts
        .map(|(text, _)| {
            let text = line(text);
            let text = text.replace("( ", "(").replace(", )", ")");
            text.replace(" )", ")")
        })
        .collect()
}

struct Function {
    name: String,
    parameters: Vec<(String, String)>,
    result: String,
}

/// Name, parameters and result of `name(a: A, b: B) -> R`.
fn function(text: &str) -> Function {
    let (name, rest) = text.split_once('(').expect("parameters");
    let (parameters, result) = rest.split_once(") -> ").expect("a result");
    let parameters = parameters.split(", ").filter(|part| !part.is_empty());
    let parameters = parameters.map(|part| {
        let (name, of) = part.split_once(": ").expect("a type");
        (name.to_string(), of.to_string())
    });
    Function {
        name: name.to_string(),
        parameters: parameters.collect(),
        result: result.to_string(),
    }
}

/// The functions of the sources, with a slice as its pointer and its count.
fn exported() -> Vec<Function> {
    let mut functions = Vec::new();
    for source in SOURCES {
        let found = declarations(source, "pub extern \"C\" fn ", "\n    ensures");
        assert!(!found.is_empty());
        functions.extend(found.iter().map(|text| function(text)));
    }
    for found in &mut functions {
        found.parameters = found.parameters.drain(..).flat_map(flat).collect();
    }
    functions
}

/// A parameter as C has it: words have a count `_n`, bytes a `_len`.
fn flat((name, of): (String, String)) -> Vec<(String, String)> {
    // `record` is a word of the language of contracts, so the source may say `words`.
    let name = match name.as_str() {
        "words" => "record".to_string(),
        _ => name,
    };
    let count = match (name.as_str(), of.ends_with("[u8]")) {
        ("state", _) => "n".to_string(),
        (_, false) => format!("{name}_n"),
        (_, true) => format!("{name}_len"),
    };
    let pointer = match of.as_str() {
        "&[u64]" => "*const u64",
        "&mut [u64]" => "*mut u64",
        "&[u8]" => "*const u8",
        "&mut [u8]" => "*mut u8",
        _ => return vec![(name, of)],
    };
    vec![(name, pointer.to_string()), (count, "usize".to_string())]
}

fn in_rust(found: &Function) -> String {
    let of = |(name, of): &(String, String)| format!("{name}: {of}");
    let parameters: Vec<String> = found.parameters.iter().map(of).collect();
    let (name, result) = (&found.name, &found.result);
    format!("{name}({}) -> {result}", parameters.join(", "))
}

fn in_c(found: &Function) -> String {
    let of = |of: &str| match of {
        "*const u64" => "const uint64_t *",
        "*mut u64" => "uint64_t *",
        "*const u8" => "const uint8_t *",
        "*mut u8" => "uint8_t *",
        "usize" => "size_t ",
        "u64" => "uint64_t ",
        "u32" => "uint32_t ",
        "u8" => "uint8_t ",
        "i32" => "int32_t ",
        "bool" => "bool ",
        _ => panic!("{of} is no type of the boundary"),
    };
    let parameters = found.parameters.iter();
    let parameters: Vec<String> = parameters.map(|(n, t)| format!("{}{n}", of(t))).collect();
    let parameters = match parameters.is_empty() {
        true => "void".to_string(),
        false => parameters.join(", "),
    };
    format!("{}{}({parameters});", of(&found.result), found.name)
}

#[test]
fn the_rust_declarations_are_the_source() {
    let own = declarations(RAW, "pub fn ", ";");
    let source: Vec<String> = exported().iter().map(in_rust).collect();
    assert_eq!(own, source);
}

#[test]
fn the_header_is_the_source() {
    let lines = HEADER.lines().filter(|line| line.ends_with(");"));
    let declared = lines.filter(|line| line.contains(" rolthai_") && !line.starts_with(' '));
    let declared: Vec<&str> = declared.filter(|l| !l.contains("rolthai_run(")).collect();
    let source: Vec<String> = exported().iter().map(in_c).collect();
    assert_eq!(declared, source);
}

/// The constants of the header that begin so, with their numbers.
fn constants(prefix: &str) -> Vec<(String, u64)> {
    let lines = HEADER.lines().map(str::trim);
    let named = lines.filter_map(|line| line.strip_prefix(prefix)?.split_once(" = "));
    named
        .map(|(name, rest)| {
            let number = rest.split([',', ' ']).next().unwrap_or(rest);
            let name = name.replace('_', "").to_lowercase();
            (name, number.parse().expect("a number"))
        })
        .collect()
}

/// Every number of an enum, by its name in this crate.
fn named<T: std::fmt::Debug>(of: impl Fn(u64) -> Option<T>) -> Vec<(String, u64)> {
    let numbers = (0..1000).filter_map(|n| of(n).map(|case| (case, n)));
    numbers
        .map(|(case, n)| (format!("{case:?}").to_lowercase(), n))
        .collect()
}

#[test]
fn the_header_has_the_same_numbers() {
    assert_eq!(constants("ROLTHAI_REASON_"), named(Reason::of));
    assert_eq!(constants("ROLTHAI_DECISION_"), named(Decision::of));
    assert_eq!(constants("ROLTHAI_STATE_"), named(State::of));
    assert_eq!(named(Reason::of).len(), 28);
}

#[test]
fn the_header_has_the_same_sizes() {
    let has = |text: String| assert!(HEADER.lines().any(|l| l.starts_with(&text)), "{text}");
    has(format!("#define ROLTHAI_WORDS {}u", rolthai::WORDS));
    has(format!("#define ROLTHAI_OUT_WORDS {}u", rolthai::OUT_WORDS));
    has(format!(
        "#define ROLTHAI_RECORD_WORDS {}u",
        rolthai::RECORD_WORDS
    ));
}

/// The names of C of what the statement calls so: `StartupFailed` is STARTUP_FAILED.
fn upper(name: &str) -> String {
    let mut found = String::new();
    for c in name.chars() {
        if c.is_uppercase() && !found.is_empty() {
            found.push('_');
        }
        found.extend(c.to_uppercase());
    }
    found
}

#[test]
fn the_header_has_the_answers_of_the_statement() {
    let answers = SPEC.lines().filter_map(|line| {
        let (name, number) = line.strip_prefix("number_of Answer.")?.split_once(" = ")?;
        Some((upper(name), number))
    });
    let others = ["malformed", "short", "other"]
        .into_iter()
        .filter_map(|name| {
            let line = SPEC
                .lines()
                .find_map(|l| l.strip_prefix(name)?.strip_prefix(" = "))?;
            Some((name.to_uppercase(), line))
        });
    let mut stated: Vec<String> = answers
        .chain(others)
        .map(|(name, number)| format!("ROLTHAI_{name} = {number}"))
        .collect();
    stated.push("ROLTHAI_CLEARED = 0".to_string());
    stated.sort();
    let (_, block) = HEADER
        .split_once("enum rolthai_answer {")
        .expect("the enum");
    let (block, _) = block.split_once("};").expect("its end");
    let lines = block
        .lines()
        .map(|line| line.split("/*").next().unwrap_or(line));
    let mut declared: Vec<String> = lines
        .map(|line| line.trim().trim_end_matches(',').to_string())
        .filter(|line| !line.is_empty())
        .collect();
    declared.sort();
    assert_eq!(declared, stated);
}
