//! Runs the prover and reads what it says.

use crate::scratch::crates;
use std::fs;
use std::io;
use std::path::Path;
use std::process::{Command, Output};
use std::time::{Duration, Instant};

/// How much of a line of the prover is shown.
const CUT: usize = 400;

/// How many lines of it are shown where it refuses more than lives.
pub const SHOWN: usize = 20;

/// A declaration, or a whole file, that the prover refused.
#[derive(Clone, Debug, PartialEq, Eq)]
pub struct Refusal {
    /// None where the prover names no declaration.
    pub name: Option<String>,
    pub lines: Vec<String>,
}

#[derive(Clone, Debug)]
pub struct Verdict {
    pub proved: bool,
    pub refusals: Vec<Refusal>,
    pub said: String,
    pub time: Duration,
}

impl Verdict {
    /// Whether it refuses a declaration of the life with this label.
    pub fn refuses_life(&self, label: &str) -> bool {
        self.refusals.iter().any(|r| r.is_about(label))
    }

    /// Whether it refuses the declaration of this name.
    pub fn refuses(&self, name: &str) -> bool {
        let mut names = self.refusals.iter().filter_map(|r| r.name.as_deref());
        names.any(|n| n == name)
    }
}

/// Writes the scratch repository below the folder, with what the facts are about, and checks that: the definitions of the
/// rules and those that they rest on, without functions and proofs.
pub fn check_rules(folder: &Path, root: &Path) -> io::Result<()> {
    let mut command = Command::new(root.join("tools/stripped"));
    command.arg(folder.join("repository")).arg("rules");
    succeeds(&mut command, "tools/stripped")?;
    let mut command = Command::new("rt");
    command.arg("lib").current_dir(crates(folder).join("rules"));
    succeeds(&mut command, "`rt lib` of the rules' definitions")
}

fn succeeds(command: &mut Command, what: &str) -> io::Result<()> {
    let run = output(command)?;
    if run.status.success() {
        return Ok(());
    }
    let said = text(&run.stdout) + &text(&run.stderr);
    let lines: Vec<String> = said.lines().take(SHOWN).map(cut).collect();
    Err(io::Error::other(format!(
        "{what} fails:\n{}",
        lines.join("\n")
    )))
}

/// Checks the scratch crate of this name below the folder.
pub fn check(folder: &Path, name: &str) -> io::Result<Verdict> {
    let began = Instant::now();
    let mut command = Command::new("rt");
    command.arg("check").current_dir(crates(folder).join(name));
    let run = output(&mut command)?;
    let said = text(&run.stdout) + &text(&run.stderr);
    fs::write(folder.join(format!("{name}.out")), &said)?;
    Ok(Verdict {
        proved: run.status.success() && said.lines().any(|l| l.starts_with("logic=proved ")),
        refusals: refusals(&said),
        said,
        time: began.elapsed(),
    })
}

fn output(command: &mut Command) -> io::Result<Output> {
    let run = command.output();
    run.map_err(|e| {
        io::Error::new(
            e.kind(),
            format!("cannot run {:?}: {e}", command.get_program()),
        )
    })
}

fn text(bytes: &[u8]) -> String {
    String::from_utf8_lossy(bytes).into_owned()
}

/// Each line with an error, and the lines that belong to it.
pub fn refusals(said: &str) -> Vec<Refusal> {
    let mut all: Vec<Refusal> = Vec::new();
    let mut open = false;
    for line in said.lines() {
        if let Some((_, message)) = line.split_once(": error: ") {
            let named = message.strip_prefix('`').and_then(|m| m.split_once("`: "));
            all.push(Refusal {
                name: named.map(|(name, _)| name.to_string()),
                lines: vec![line.to_string()],
            });
            open = true;
        } else if !line.starts_with(' ') {
            open = false;
        } else if let (true, Some(last)) = (open, all.last_mut()) {
            last.lines.push(line.to_string());
        }
    }
    all
}

impl Refusal {
    /// Whether the declaration belongs to the life with this label.
    pub fn is_about(&self, label: &str) -> bool {
        let prefixes = ["life", "book", "history", "rest"];
        let name = self.name.as_deref().unwrap_or_default();
        prefixes.iter().any(|p| name.strip_prefix(p) == Some(label))
    }

    /// What differs, in a few short lines.
    pub fn gist(&self) -> Vec<String> {
        let computed = "computed as far as they go";
        let differs = self
            .lines
            .iter()
            .filter_map(|l| Some(&l[l.find(computed)?..]));
        let gist: Vec<String> = differs.map(cut).collect();
        if gist.is_empty() {
            return self.lines.iter().take(3).map(|l| cut(l.trim())).collect();
        }
        gist
    }
}

/// A line, no longer than is good to read.
pub fn cut(line: &str) -> String {
    match line.char_indices().nth(CUT) {
        Some((end, _)) => format!("{} ..", &line[..end]),
        None => line.to_string(),
    }
}
