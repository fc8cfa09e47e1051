//! The generator reaches everything that can come up, and both builds run its lives alike.

use oracle::counts::{Counts, Row};
use oracle::generate::Generator;
use oracle::run::{run_life, Options};

const SOME_THOUSANDS: u64 = 6000;

#[test]
fn everything_comes_up_that_can() {
    let generator = Generator {
        calls: 25,
        ..Generator::new(1)
    };
    let mut counts = Counts::default();
    for index in 0..SOME_THOUSANDS {
        counts.add(&run_life(&generator.life(index), Options::ALL));
    }
    let wrong = |row: &&Row| !row.listed || (row.count > 0) != row.unreachable().is_none();
    let wrong: Vec<&Row> = counts.rows().iter().filter(wrong).collect();
    assert!(wrong.is_empty(), "{wrong:#?}");
    assert_eq!(counts.lives, SOME_THOUSANDS);
}

/// The rows that no life reaches, by name.
#[test]
fn the_unreachable_rows_are_these() {
    let counts = Counts::default();
    let never = |row: &&Row| row.unreachable().is_some_and(|why| why != "needs counters");
    let never = counts.rows().iter().filter(never);
    let never: Vec<_> = never.map(|row| (row.group, row.name)).collect();
    let expected = [
        ("answer of acquire", "18 Clock"),
        ("answer of renew", "18 Clock"),
        ("receipt Rejected", "18 Clock"),
        ("acquire refused by", "now before last tick"),
        ("renew refused by", "now before last tick"),
        ("submit refused by", "now before last tick"),
        ("submit refused alone by", "check 1"),
        ("submit refused alone by", "check 2"),
        ("submit refused alone by", "check 3"),
        ("submit refused alone by", "check 4"),
    ];
    assert_eq!(never, expected);
}

#[test]
fn a_life_depends_on_seed_and_number_alone() {
    let life = |seed, index| Generator::new(seed).life(index);
    for index in 0..100 {
        assert_eq!(life(3, index), life(3, index));
    }
    let differs = |a: &(u64, u64)| life(3, a.0) != life(4, a.1);
    let others: Vec<(u64, u64)> = (0..100).map(|index| (index, index)).collect();
    assert!(others.iter().filter(|pair| differs(pair)).count() > 90);
    assert_ne!(life(3, 1), life(3, 2));
}

fn digest(text: &str) -> u64 {
    // FNV-1a
    let step = |hash: u64, byte: u8| (hash ^ byte as u64).wrapping_mul(0x0100_0000_01b3);
    text.bytes().fold(0xcbf2_9ce4_8422_2325, step)
}

/// The traces of these lives, as text, in whichever build. A change of the generator or of
/// the text changes the number; then both builds must agree on the new one.
const TRACES: u64 = 7_051_739_742_452_525_307;

#[test]
fn both_builds_give_the_same_traces() {
    let generator = Generator {
        seed: 7,
        calls: 20,
        counters: false,
    };
    let options = Options {
        waits: true,
        hidden: false,
    };
    let traces = (0..400).map(|index| run_life(&generator.life(index), options));
    let text: String = traces.map(|trace| trace.to_string()).collect();
    assert_eq!(digest(&text), TRACES);
}
