//! The program behind `run`: makes the facts, has them computed, and reports.

use definitions::counts::Counts;
use definitions::directed;
use definitions::lives::{self, Fact};
use definitions::narrow::Narrowing;
use definitions::options::{Options, USAGE};
use definitions::plant::{plant, Planted};
use definitions::prover::{self, Refusal, Verdict};
use definitions::scratch;
use std::fs;
use std::io;
use std::path::{Path, PathBuf};
use std::process::ExitCode;

/// The name of the scratch crate.
const CRATE: &str = "lives";

/// How many failed lives are looked into, the shortest ones.
const SHOWN: usize = 3;

fn main() -> ExitCode {
    let Some(options) = Options::read(std::env::args().skip(1)) else {
        eprint!("{USAGE}");
        return ExitCode::from(2);
    };
    match run(&options) {
        Ok(true) => ExitCode::SUCCESS,
        Ok(false) => ExitCode::FAILURE,
        Err(error) => {
            eprintln!("definitions: {error}");
            ExitCode::FAILURE
        }
    }
}

/// Whether every fact is proved.
fn run(options: &Options) -> io::Result<bool> {
    let root = options.root.canonicalize()?;
    let folder = Folder::new(options)?;
    prover::check_rules(&folder.path, &root)?;
    let mut facts = directed::facts(&root)?;
    facts.extend(lives::facts(options.seed, options.lives, options.calls));
    if options.plant {
        show_planted(plant(&mut facts, options.seed), &facts);
    }
    write_lives(&folder.path, &facts)?;
    scratch::write(&folder.path, CRATE, &root, &scratch::modules(&facts))?;
    let verdict = prover::check(&folder.path, CRATE)?;
    let failed = failed(&facts, &verdict);
    show_failures(&failed, &verdict, &folder.path, &root)?;
    print!("{}", Counts::of(&facts));
    println!("checked in {:.1} s", verdict.time.as_secs_f64());
    println!(
        "{} passed, {} failed",
        facts.len() - failed.len(),
        failed.len()
    );
    Ok(failed.is_empty())
}

/// Where the scratch crate stands; removed at the end unless it is kept.
struct Folder {
    path: PathBuf,
    kept: bool,
}

impl Folder {
    fn new(options: &Options) -> io::Result<Self> {
        let passing = std::env::temp_dir().join(format!("definitions-{}", std::process::id()));
        let path = options.keep.clone().unwrap_or(passing);
        fs::create_dir_all(&path)?;
        if fs::read_dir(&path)?.next().is_some() {
            let message = format!("{} is not empty", path.display());
            return Err(io::Error::other(message));
        }
        Ok(Self {
            path: path.canonicalize()?,
            kept: options.keep.is_some(),
        })
    }
}

impl Drop for Folder {
    fn drop(&mut self) {
        if !self.kept {
            // What is left in the folder for passing files does no harm.
            let _ = fs::remove_dir_all(&self.path);
        }
    }
}

/// The lives as the oracle reads them, beside the facts.
fn write_lives(folder: &Path, facts: &[Fact]) -> io::Result<()> {
    let lives = facts
        .iter()
        .map(|f| format!("# {}\nlife\n{}", f.name(), f.life));
    fs::write(folder.join("lives.txt"), lives.collect::<String>())
}

fn show_planted(planted: Option<Planted>, facts: &[Fact]) {
    match planted {
        Some(p) => {
            let fact = &facts[p.fact];
            println!("planted in {}, output {}", fact.name(), p.output);
            println!("  before: {}", p.before);
            println!("  after:  {}", fact.outputs[p.output]);
        }
        None => println!("planted nothing: no expected output has a number"),
    }
}

/// The facts that are not proved: those that the prover refuses, or all where it refuses
/// something else.
fn failed<'a>(facts: &'a [Fact], verdict: &Verdict) -> Vec<&'a Fact> {
    if verdict.proved {
        return Vec::new();
    }
    let is_of_a_life = |r: &Refusal| facts.iter().any(|f| r.is_about(&f.label));
    let only_lives = !verdict.refusals.is_empty() && verdict.refusals.iter().all(is_of_a_life);
    let is_failed = |f: &&Fact| !only_lives || verdict.refuses_life(&f.label);
    facts.iter().filter(is_failed).collect()
}

fn show_failures(
    failed: &[&Fact],
    verdict: &Verdict,
    folder: &Path,
    root: &Path,
) -> io::Result<()> {
    let named = |f: &&&Fact| verdict.refuses_life(&f.label);
    let mut named: Vec<&&Fact> = failed.iter().filter(named).collect();
    named.sort_by_key(|fact| fact.outputs.len());
    let (shown, others) = named.split_at(named.len().min(SHOWN));
    for fact in shown {
        println!("FAILED {}\n{}", fact.name(), fact.life);
        let lines = Narrowing::new(fact, folder, root).lines()?;
        lines.iter().for_each(|line| println!("  {line}"));
    }
    if !others.is_empty() {
        let names: Vec<String> = others.iter().map(|fact| fact.name()).collect();
        println!("FAILED too: {}", names.join(" "));
    }
    if named.len() < failed.len() {
        println!("the prover refuses the crate:");
        let lines = verdict.said.lines().take(prover::SHOWN);
        lines.for_each(|line| println!("  {}", prover::cut(line)));
    }
    Ok(())
}
