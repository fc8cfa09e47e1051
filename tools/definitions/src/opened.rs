//! Which definitions a life computes with: those of `specs/Lives.antt` of the rules and of all
//! files that it brings in, so that the list need not be kept by hand.

use std::fs;
use std::io;
use std::path::Path;

/// A file of specs/: its crate and its name.
type Module = (&'static str, String);

const CRATES: [&str; 2] = ["model", "rules"];

/// The whole names of the definitions that don't open by themselves.
pub fn opened(root: &Path) -> io::Result<Vec<String>> {
    let mut modules: Vec<Module> = vec![("rules", "Lives".into())];
    let mut names = Vec::new();
    let mut next = 0;
    while let Some((library, module)) = modules.get(next).cloned() {
        let folder = root.join("crates").join(library).join("specs");
        let text = fs::read_to_string(folder.join(format!("{module}.antt")))?;
        let declared = unfoldable(&text).into_iter();
        names.extend(declared.map(|name| format!("Rattle.{library}.specs.{module}.{name}")));
        for used in uses(&text) {
            if !modules.contains(&used) {
                modules.push(used);
            }
        }
        next += 1;
    }
    Ok(names)
}

/// The names that a file declares `unfoldable pub`.
pub fn unfoldable(text: &str) -> Vec<&str> {
    let lines = text.lines();
    let declared = lines.filter_map(|line| line.strip_prefix("unfoldable pub "));
    declared
        .filter_map(|rest| rest.split_whitespace().next())
        .collect()
}

/// The files of specs/ that a file brings in.
pub fn uses(text: &str) -> Vec<Module> {
    let lines = text.lines();
    let used = lines.filter_map(|line| line.strip_prefix("use "));
    used.filter_map(module).collect()
}

/// None for a library of the prover, and for what the prover makes of a crate's sources.
fn module(used: &str) -> Option<Module> {
    CRATES.into_iter().find_map(|library| {
        let rest = used.strip_prefix(&format!("Rattle.{library}.specs."))?;
        let name = rest.split(['.', ' ']).next()?;
        (name != "declared").then(|| (library, name.to_string()))
    })
}
