//! The scratch crate: one file that the facts share, and files of some facts each.

use crate::lives::{Fact, Seen};
use crate::opened::opened;
use crate::text;
use crate::weave::Turn;
use oracle::life::config_fields;
use oracle::runtime_core::profile::CAPABILITIES;
use oracle::runtime_core::Config;
use std::fs;
use std::io;
use std::path::{Path, PathBuf};

/// How many facts a file has.
const FACTS_IN_A_FILE: usize = 20;

/// What a file of facts brings in besides the shared file.
const USES: &str = "\
use Rattle.std.specs.Prelude.{true, false, List, [], ◌∷◌, map, take, ◌≡◌, refl, pos, negsuc}
use Rattle.std.specs.Prelude.{Option, Some, None}
use Rattle.model.specs.declared.Decision.TheVariants as Decision
use Rattle.model.specs.declared.ExecutionClass.TheVariants as Class
use Rattle.model.specs.declared.Reason.TheVariants as Reason
use Rattle.model.specs.declared.RuntimeState.TheVariants as State
use Rattle.model.specs.declared.Verification.TheVariants as Verification
use Rattle.rules.specs.With.{with_epoch, with_next_receipt, with_next_lease, with_invalid_count}
use Rattle.rules.specs.Interaction.{Returned, Polled, Succeeded, Leased, Refused, Submitted}
use Rattle.rules.specs.Protocol.{Tick, UpdateState, EmergencyStop, PollEstop, RecoverLocal, Acquire, Renew, Cancel, Submit}
use Rattle.rules.specs.Protocol.{Observed, Executed, FellBack, Recorded}
use Rattle.rules.specs.Protocol.{ReadState, ReadEpoch, ReadBootId, ReadFlags, ReadReceiptCount, ReadConfig, ReadSnapshot, ReadLease, ReadCapability, ReadReceipt}
use Rattle.rules.specs.Protocol.{Calls, Replies, Reads, ItemObserve, ItemExecute, ItemFallback, ItemRecord}
use Rattle.rules.specs.Protocol.{OfState, OfNumber, OfConfig, OfSnapshot, OfLease, OfCapability, OfReceipt}
use Rattle.rules.specs.Protocol.{Output, Started, StartRefused, Hands, Answers, Reminds, Refuses, Shows, NoRuntime}
use Rattle.rules.specs.Lives.{Life, outputs}
";

const SHARED_USES: &str = "\
-- What the facts share.
use Rattle.std.specs.Prelude.{ℕ, zero, suc, List, [], ◌∷◌, ◌++◌, pos, negsuc}
use Rattle.std.specs.Prelude.{Option, Some, None}
use Rattle.model.specs.declared.Capability.{Capability}
use Rattle.model.specs.declared.Config.{Config}
use Rattle.model.specs.declared.ExecutionClass.TheVariants as Class
use Rattle.model.specs.declared.Verification.TheVariants as Verification
use Rattle.rules.specs.Book.{Book}
use Rattle.rules.specs.Protocol.{Input, Output, Phase, Starting, Gone, Idle, Waiting, book_in, start, react}
use Rattle.rules.specs.Lives.{Life, outputs, outputs_from, end_of, phase_from}
";

const SHARED: &str = "
-- What follows a counter that is set between two calls, which no input can do.
pub record Segment : Type 0 where
  pub set : Book → Book
  pub inputs : List Input

-- the book of a runtime that awaits no reply, changed
unfoldable pub on_idle : (Book → Book) → Phase → Phase
on_idle f (Starting s axis rest good) = Starting s axis rest good
on_idle f Gone = Gone
on_idle f (Idle b) = Idle (f b)
on_idle f (Waiting w) = Waiting w

unfoldable pub outputs_after : Phase → List Segment → List Output
outputs_after p [] = []
outputs_after p (s ∷ rest) =
    outputs_from (on_idle s.set p) s.inputs ++ outputs_after (phase_from (on_idle s.set p) s.inputs) rest

-- the outputs of a life in which counters are set
unfoldable pub outputs_set : Life → List Segment → List Output
outputs_set l rest = outputs l ++ outputs_after (end_of l) rest

-- where the runtime stands after the start and after each input
unfoldable pub phases_from : Phase → List Input → List Phase
phases_from p [] = []
phases_from p (i ∷ is) = (react p i).phase ∷ phases_from (react p i).phase is

unfoldable pub phases_after : Phase → List Segment → List Phase
phases_after p [] = []
phases_after p (s ∷ rest) =
    phases_from (on_idle s.set p) s.inputs ++ phases_after (phase_from (on_idle s.set p) s.inputs) rest

unfoldable pub phases : Life → List Segment → List Phase
phases l rest =
    (start l.start).phase ∷ (phases_from (start l.start).phase l.inputs ++ phases_after (end_of l) rest)

-- the book at a place of these
unfoldable pub book_at : List Phase → ℕ → Option Book
book_at [] n = None
book_at (p ∷ ps) zero = book_in p
book_at (p ∷ ps) (suc n) = book_at ps n

-- parts of it, for a life that is looked into
unfoldable pub nth : ℕ → List Output → Option Output
nth n [] = None
nth zero (o ∷ os) = Some o
nth (suc n) (o ∷ os) = nth n os

unfoldable pub part : {A : Type 0} → (Book → A) → Option Book → Option A
part f None = None
part f (Some b) = Some (f b)

";

/// The definitions of the shared file that don't open by themselves.
const SHARED_OPENED: &str =
    "on_idle outputs_after outputs_set phases_from phases_after phases book_at nth part";

/// What a file of facts takes from the shared file.
const SHARED_NAMES: &str = "rules, Segment, outputs_set, phases, book_at, nth, part";

/// Where the scratch crates stand below the folder, beside those that they are about.
pub fn crates(folder: &Path) -> PathBuf {
    folder.join("repository/crates")
}

/// Writes a crate with this name. Each module is a name and what stands in it.
pub fn write(
    folder: &Path,
    name: &str,
    root: &Path,
    modules: &[(String, String)],
) -> io::Result<()> {
    let list = folder.join("repository/crates.txt");
    let rows = fs::read_to_string(&list)?;
    fs::write(list, format!("{rows}{name}: rules model\n"))?;
    let folder = crates(folder).join(name);
    let specs = folder.join("specs");
    fs::create_dir_all(folder.join("src"))?;
    fs::create_dir(&specs)?;
    let root_file = "// The facts are in specs/.\n#![tactic(auto)]\n";
    fs::write(folder.join("src/lib.rt"), root_file)?;
    fs::write(specs.join("Shared.antt"), shared(root)?)?;
    let mut lib = String::from("pub mod Shared\n");
    for (module, body) in modules {
        lib += &format!("pub mod {module}\n");
        let uses = format!(
            "{USES}use Rattle.{name}.specs.Shared.{{{SHARED_NAMES}, {}, {}}}\n\n",
            text::DEFAULT_CONFIG,
            text::PROFILE,
        );
        fs::write(specs.join(format!("{module}.antt")), uses + body)?;
    }
    fs::write(specs.join("Lib.antt"), lib)
}

/// The files of the facts.
pub fn modules(facts: &[Fact]) -> Vec<(String, String)> {
    let files = facts.chunks(FACTS_IN_A_FILE).enumerate();
    let body = |facts: &[Fact]| facts.iter().map(statements).collect::<Vec<_>>().join("\n");
    files
        .map(|(n, facts)| (format!("Lives{n}"), body(facts)))
        .collect()
}

/// The shared file: the Rust's default configuration and profile, and all that opens.
fn shared(root: &Path) -> io::Result<String> {
    let opened = opened(root)?.join(" ");
    let config = text::config_record(config_fields(&Config::default()));
    let profile = column(CAPABILITIES.iter().map(text::capability), 4);
    Ok(format!(
        "{SHARED_USES}{SHARED}\
         -- a fact that opens this one opens every definition that a life computes with\n\
         unfoldable pub rules : ℕ\n\
         unfolding {SHARED_OPENED} {opened}\nrules = 0\n\n\
         abbrev pub {config_name} : Config\n{config_name} = {config}\n\n\
         abbrev pub {profile_name} : List Capability\n{profile_name} =\n    {profile}\n",
        config_name = text::DEFAULT_CONFIG,
        profile_name = text::PROFILE,
    ))
}

/// A list with a line for each element.
pub fn column(terms: impl Iterator<Item = String>, indent: usize) -> String {
    let mut text = String::new();
    for term in terms {
        text += &format!("{term}\n{:indent$}∷ ", "");
    }
    text + "[]"
}

/// A record of inputs and of what they follow.
fn with_inputs(field: &str, value: &str, turns: &[Turn]) -> String {
    let inputs = turns.iter().map(|turn| text::input(&turn.input));
    let inputs = column(inputs, 8);
    format!("record {{\n      {field} = {value};\n      inputs =\n        {inputs};\n    }}")
}

/// The history of the life, under a name; what follows a counter that is set has another.
pub fn history(fact: &Fact) -> String {
    let label = &fact.label;
    let script = &fact.script;
    let first = with_inputs("start", &text::start(&fact.life.start), &script.first);
    let mut text = format!("abbrev history{label} : Life\nhistory{label} =\n    {first}\n\n");
    if !script.rest.is_empty() {
        let rest = script.rest.iter();
        let rest = rest.map(|(set, turns)| with_inputs("set", &text::setter(*set), turns));
        let rest = column(rest, 4);
        text += &format!("abbrev rest{label} : List Segment\nrest{label} =\n    {rest}\n\n");
    }
    text
}

/// What the definitions give for the life: its outputs, and the book at a place.
pub fn computed(fact: &Fact) -> [String; 2] {
    let label = &fact.label;
    if fact.script.rest.is_empty() {
        return [
            format!("outputs history{label}"),
            format!("book_at (phases history{label} [])"),
        ];
    }
    [
        format!("outputs_set history{label} rest{label}"),
        format!("book_at (phases history{label} rest{label})"),
    ]
}

/// What is proved of a life: what the definitions give is what the Rust demands.
fn statements(fact: &Fact) -> String {
    let [outputs, book] = computed(fact);
    let expected = column(fact.outputs.iter().cloned(), 4);
    let mut text = history(fact);
    text += &proved(&fact.name(), &outputs, &expected);
    if !fact.books.is_empty() {
        let places = text::list(fact.books.iter().map(|seen| seen.place.to_string()));
        let computed = format!("map ({book}) ({places})");
        let expected = column(fact.books.iter().map(book_term), 4);
        text.push('\n');
        text += &proved(&format!("book{}", fact.label), &computed, &expected);
    }
    text
}

/// The book as the Rust has it.
pub fn book_term(seen: &Seen) -> String {
    let book = seen.book.clone();
    book.map_or("None".into(), |b| format!("Some ({})", text::record(b)))
}

/// A fact that the prover computes.
pub fn proved(name: &str, computed: &str, expected: &str) -> String {
    format!("{name} :\n    {computed}\n    ≡ {expected}\nunfolding rules\n{name} = refl\n")
}
