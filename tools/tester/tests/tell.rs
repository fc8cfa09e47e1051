//! The timeline and the picture.

mod common;

use common::log;
use tester::campaign::Campaign;
use tester::host::converse;
use tester::picture::picture;
use tester::report::timelines;
use wire::machine::Running;

const ORDER: &str = include_str!("../../../examples/order.life");

#[test]
fn the_example_as_a_timeline() {
    let text = timelines(&log(ORDER));
    let stored = include_str!("order.txt");
    assert_eq!(text, stored);
}

#[test]
fn the_example_of_the_readme_is_real() {
    let readme = include_str!("../README.md");
    let text = timelines(&log(ORDER));
    assert!(readme.contains(&text));
}

/// Left, top, right and bottom of a text, and what it says.
type Text = ([f64; 4], String);

/// The texts of a picture, each as wide as narrow letters make it at least.
fn texts(svg: &str) -> Vec<Text> {
    let value = |line: &str, name: &str| -> f64 {
        let after = line.split(&format!(" {name}=\"")).nth(1);
        let number = after.and_then(|rest| rest.split('"').next());
        number.and_then(|n| n.parse().ok()).expect("a number")
    };
    let read = |line: &str| {
        let words = line.split('>').nth(1)?.split('<').next()?;
        let (x, y, size) = (value(line, "x"), value(line, "y"), value(line, "font-size"));
        let wide = words.chars().count() as f64 * size * 0.56;
        let shape = [x, y - size * 0.8, x + wide, y + size * 0.2];
        (!words.is_empty()).then(|| (shape, words.to_string()))
    };
    svg.lines()
        .filter(|l| l.starts_with("<text"))
        .filter_map(read)
        .collect()
}

fn meet(a: &[f64; 4], b: &[f64; 4]) -> bool {
    a[0] < b[2] && b[0] < a[2] && a[1] < b[3] && b[1] < a[3]
}

#[test]
fn no_two_texts_meet() {
    for campaign in [Campaign::Cuts, Campaign::Faults, Campaign::Clock] {
        for trial in campaign.trials(1, 0).into_iter().step_by(7) {
            let log = converse(&mut Running::default(), &trial.plans);
            let texts = texts(&picture(&log, &trial.about));
            assert!(texts.len() > 40);
            for (n, (a, one)) in texts.iter().enumerate() {
                for (b, other) in &texts[n + 1..] {
                    assert!(!meet(a, b), "{one} and {other}");
                }
            }
        }
    }
}

#[test]
fn a_picture_shows_what_happened() {
    let svg = picture(&log(ORDER), "order & <more>");
    for words in [
        "order &amp; &lt;more>",
        "life 1, boot number 42",
        ">lease 1, owner 7<",
        ">4 Duplicate<",
        ">Executed<",
        ">Faulted<",
        ">axis 1<",
        ">receipt: Rejected<",
    ] {
        assert!(svg.contains(words), "{words}");
    }
    let executes = svg.matches("fill=\"#1a4f9c\"").count();
    // The order, its receipt, and two signs of the legend.
    assert_eq!(executes, 4);
}
