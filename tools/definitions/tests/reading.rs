//! What is read: arguments, files of specs, and what the prover says.

use definitions::opened::{unfoldable, uses};
use definitions::options::Options;
use definitions::prover::{cut, refusals};

fn options(line: &str) -> Option<Options> {
    Options::read(line.split_whitespace().map(String::from))
}

#[test]
fn arguments() {
    let usual = options("").expect("no argument is needed");
    assert_eq!((usual.seed, usual.lives, usual.calls), (1, 300, 20));
    assert!(usual.keep.is_none() && !usual.plant);
    let line = "--lives 40 --seed 7 --calls 12 --keep kept --plant --root .";
    let all = options(line).expect("all of them");
    assert_eq!((all.seed, all.lives, all.calls), (7, 40, 12));
    assert!(all.keep.is_some() && all.plant);
}

#[test]
fn bad_arguments() {
    for line in [
        "--seed",
        "--seed x",
        "--seed -1",
        "--lives 0",
        "--calls 0",
        "--lives 5 --lives 5",
        "--plant --plant",
        "--keep",
        "--other 1",
        "life",
    ] {
        assert_eq!(options(line), None, "{line}");
    }
}

const SPECS: &str = "\
-- A comment.
use Rattle.std.specs.Prelude.{ℕ}
use Rattle.model.specs.declared.Config.{Config}
use Rattle.model.specs.Words.{inside}
use Rattle.rules.specs.Book.{Book}
use Rattle.model.specs.Reasons as Reasons

unfoldable pub one : ℕ
one = 1
abbrev pub two : ℕ
unfoldable three : ℕ
unfoldable pub four {ℓ} : ℕ
";

#[test]
fn files_of_specs() {
    assert_eq!(unfoldable(SPECS), ["one", "four"]);
    let expected = [("model", "Words"), ("rules", "Book"), ("model", "Reasons")];
    let expected = expected.map(|(library, name)| (library, name.to_string()));
    assert_eq!(uses(SPECS), expected);
}

const SAID: &str = "\
note: nothing was lowered
/a/Lives0.antt:34:9: error: `life12`: as printed, the two types differ
  (expected) and the other
  computed as far as they go, the two types differ only where one has `2` (expected) and the other has `1` (found)
  expected type `outputs history12`
/a/Lives1.antt:7:1: error: `book30`: stopped at the step limit
/a/Lives2.antt:7:1: error: expected an expression, found `=`
logic=not-proved
";

#[test]
fn what_the_prover_refuses() {
    let all = refusals(SAID);
    let about = |label: &str| all.iter().map(|r| r.is_about(label)).collect::<Vec<_>>();
    assert_eq!(about("12"), [true, false, false]);
    assert_eq!(about("30"), [false, true, false]);
    assert_eq!(about("2"), [false; 3]);
    assert_eq!(all[0].lines.len(), 4);
    let gist = all[0].gist();
    assert_eq!(gist.len(), 1);
    assert!(gist[0].starts_with("computed as far"), "{gist:?}");
    assert!(all[1].gist()[0].ends_with("stopped at the step limit"));
    assert!(refusals("logic=proved functions=0").is_empty());
}

#[test]
fn long_lines_are_cut() {
    assert_eq!(cut("short"), "short");
    assert_eq!(cut(&"∷".repeat(1000)).chars().count(), 403);
}
