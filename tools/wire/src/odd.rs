//! Lists of records that no random life has: what comes before the first start, malformed records
//! of every kind in every place, and more capabilities or rejections than a small number counts.

use crate::format::layout::InputKind;
use crate::format::{Input, Output, INPUT_WORDS};
use crate::malformed;
use crate::play::{play, Plan};
use crate::turn::{At, Turn};
use crate::weave::Amount;
use oracle::life::Life;
use oracle::parse::parse;

/// Case C of 01.
const ORDER: &str = include_str!("../../../examples/order.life");

/// The largest limit, a lease, and an order that is rejected for its boot number.
const STORM: &str = "\
config watchdog_ms 50 state_ttl_ms 250 max_lease_ms 2000 max_valid_for_ms 1000 invalid_limit 65535 estop_mask 1
profile
start boot_id 42 now 0 flags 0
acquire owner 7 resource 0 capabilities 6 duration_ms 2000 limits any any now 0
submit boot_id 43 requester 7 lease_id 1 action_id 1 sequence 1 capability 1 based_on_epoch 2 execute_after 0 deadline 100 valid_for_ms 100 parameters 0 0 principal 7 received_at 0 now 0
";

/// A list of records with what it is about.
pub type List = (&'static str, Vec<Turn>);

pub fn lists() -> Vec<List> {
    let mut lists = small_lists();
    lists.push(("malformed records everywhere", malformed_everywhere()));
    // A count in 8 or in 16 bits would come round to a sound one.
    for count in [1 << 8, 1 << 16].map(|round| round + 4) {
        lists.push(("more capabilities than a count holds", crowd(count)));
    }
    let most = usize::from(u16::MAX);
    lists.push(("as many rejections as are counted", storm(0, most + 1)));
    lists.push(("more rejections than are counted", storm(most + 1, 1)));
    lists
}

/// Those that are short enough to be stored.
pub fn small_lists() -> Vec<List> {
    vec![
        ("before the first start", before_start()),
        ("malformed records", malformed_records()),
        ("a start without capabilities", crowd(0)),
    ]
}

/// A life in which every malformed record comes in every place.
fn malformed_everywhere() -> Vec<Turn> {
    let mut plan = Plan::plain(order());
    plan.weaving.amount = Amount::Malformed;
    let mut turns = Vec::new();
    play(&[plan], &mut turns);
    turns
}

/// An input that leaves everything as it was.
fn turn(input: Input, output: Output) -> Turn {
    Turn {
        input,
        output,
        at: At::Nowhere,
        woven: true,
        unread: 0,
    }
}

/// Every kind of call, reply and reading, and a life after them.
fn before_start() -> Vec<Turn> {
    let mut turns: Vec<Turn> = malformed::kinds().filter_map(unstarted).collect();
    play(&[Plan::plain(order())], &mut turns);
    turns
}

/// None for a kind that needs no runtime.
fn unstarted(kind: InputKind) -> Option<Turn> {
    let mut words = [0; INPUT_WORDS];
    words[0] = kind.number();
    let input = Input::of(&words);
    let output = match input {
        Input::Call(_) | Input::Read(_) => Output::NoRuntime,
        Input::Reply(_) => Output::Unawaited,
        _ => return None,
    };
    Some(turn(input, output))
}

/// Every malformed record, and a life after them.
fn malformed_records() -> Vec<Turn> {
    let all = malformed::all(oracle::HAS_COUNTERS).into_iter();
    let all = all.map(|words| turn(Input::Malformed(words), Output::Malformed));
    let mut turns: Vec<Turn> = all.collect();
    play(&[Plan::plain(order())], &mut turns);
    turns
}

/// A start with so many capabilities, and a life that shows that they are gone.
fn crowd(count: usize) -> Vec<Turn> {
    let mut crowded = order();
    let records = crowded.start.capabilities.iter().cycle().take(count);
    crowded.start.capabilities = records.copied().collect();
    let mut turns = Vec::new();
    play(&[crowded, order()].map(Plan::plain), &mut turns);
    turns
}

/// So many rejections before the grant of a lease, and so many after it. With 65,535 and more in
/// all the count is at its top, and at the limit: a rejection trips while the lease stands.
fn storm(before: usize, after: usize) -> Vec<Turn> {
    let mut life = one_life(STORM);
    let rejected = life.steps.split_off(1);
    let rejections = |count| rejected.iter().cycle().take(count).cloned();
    let granted = std::mem::take(&mut life.steps);
    let steps = rejections(before).chain(granted).chain(rejections(after));
    life.steps = steps.collect();
    let mut turns = Vec::new();
    play(&[Plan::plain(life)], &mut turns);
    turns
}

/// A lease, an order, the same order again, and a tick that comes too late.
///
/// # Panics
/// If the example is no life.
pub fn order() -> Life {
    one_life(ORDER)
}

fn one_life(text: &str) -> Life {
    let lives = parse(text).expect("the text is a life");
    lives.into_iter().next().expect("the text is a life")
}
