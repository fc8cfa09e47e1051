//! Every fact: it holds of what the Rust does, and a log that breaks it is found.

mod common;

use common::{log, verdict};
use definitions::turns::{Reading, Reply};
use oracle::driver::Item;
use oracle::life::{Call, Counter};
use oracle::runtime_core::{Reason, Receipt};
use tester::facts::{judge, FACTS};
use tester::log::Entry;
use wire::format::{Input, Output};

/// Two axes with a lease each, an order, a trip with a failure, a recovery, a stop with an
/// earlier clock, then a second life.
const LIVES: &str = "\
profile
start boot_id 42 now 100 flags 0
acquire owner 7 resource 0 capabilities 6 duration_ms 2000 limits any any now 100
acquire owner 9 resource 1 capabilities 24 duration_ms 40 limits any any now 100
submit boot_id 42 requester 7 lease_id 1 action_id 1 sequence 1 capability 1 based_on_epoch 3 execute_after 0 deadline 900 valid_for_ms 100 parameters 300 -50 principal 7 received_at 100 now 110
replies fail
tick now 140
update_state flags 0 now 150
recover_local now 150
emergency_stop now 120
tick now 130
life
profile
start boot_id 43 now 100 flags 0
acquire owner 7 resource 0 capabilities 6 duration_ms 2000 limits any any now 100
submit boot_id 43 requester 7 lease_id 1 action_id 1 sequence 1 capability 1 based_on_epoch 2 execute_after 0 deadline 900 valid_for_ms 100 parameters 300 -50 principal 7 received_at 100 now 110
";

/// Checks that the fact breaks once the log is changed, and not before.
fn breaks(name: &str, change: impl Fn(&mut Vec<Entry>)) {
    let mut entries = log(LIVES);
    let good = verdict(name, &entries);
    assert!(good.checked > 0, "{name}");
    assert_eq!(good.broken, [], "{name}");
    change(&mut entries);
    assert_ne!(verdict(name, &entries).broken, [], "{name}");
}

/// Changes the calls of a log.
fn calls(log: &mut [Entry], mut change: impl FnMut(&mut Call)) {
    for entry in log {
        if let Input::Call(call) = &mut entry.input {
            change(call);
        }
    }
}

fn receipts(log: &mut [Entry], mut change: impl FnMut(&mut Receipt)) {
    for entry in log {
        if let Some(Output::Item(_, Item::Record { receipt })) = &mut entry.output {
            change(receipt);
        }
    }
}

/// The place of the first entry that is wanted.
fn find(log: &[Entry], wanted: impl Fn(&Entry) -> bool) -> usize {
    log.iter().position(wanted).expect("such an entry")
}

fn executes(entry: &Entry) -> bool {
    matches!(entry.output, Some(Output::Item(0, Item::Execute { .. })))
}

fn falls_back(entry: &Entry, axis: u8, why: Reason) -> bool {
    let item = match entry.output {
        Some(Output::Item(0, item)) => item,
        _ => return false,
    };
    item == Item::Fallback {
        resource: axis,
        reason: why,
    }
}

#[test]
fn all_hold_of_the_rust() {
    let entries = log(LIVES);
    for (fact, verdict) in FACTS.iter().zip(judge(&entries)) {
        assert!(verdict.checked > 0, "{}", fact.name);
        assert_eq!(verdict.broken, [], "{}", fact.name);
    }
}

#[test]
fn an_order_executed_again_in_a_later_life() {
    breaks("no order reaches execute twice", |log| {
        let mut orders = Vec::new();
        calls(log, |call| {
            if let Call::Submit(order) = call {
                orders.push(order.action);
                order.action = orders[0];
            }
        });
        assert_eq!(orders.len(), 2);
    });
}

#[test]
fn how_an_order_is_sent_does_not_make_it_another() {
    breaks("no order reaches execute twice", |log| {
        let mut first = None;
        calls(log, |call| {
            if let Call::Submit(order) = call {
                order.action = *first.get_or_insert(order.action);
                order.now += 7;
                order.received_at += 3;
            }
        });
    });
}

#[test]
fn an_execute_outside_a_submission() {
    breaks("only inside its own submission", |log| {
        calls(log, |call| {
            if let Call::Submit(order) = *call {
                *call = Call::Tick { now: order.now };
            }
        });
    });
}

#[test]
fn an_execute_of_something_else() {
    breaks("only inside its own submission", |log| {
        calls(log, |call| {
            if let Call::Submit(order) = call {
                order.action.parameters[1] += 1;
            }
        });
    });
    breaks("only inside its own submission", |log| {
        calls(log, |call| {
            if let Call::Submit(order) = call {
                order.action.capability = 2;
            }
        });
    });
}

#[test]
fn an_execute_after_a_failed_observation() {
    breaks("after a good observation", |log| {
        let at = find(log, executes);
        log[at].input = Input::Reply(Reply::Observed(None));
    });
}

#[test]
fn an_execute_under_a_lease_that_does_not_cover_it() {
    let changes: [fn(&mut Call); 6] = [
        |call| {
            if let Call::Acquire { request, .. } = call {
                request.owner = 8;
            }
        },
        |call| {
            if let Call::Acquire { request, .. } = call {
                request.capabilities = 4;
            }
        },
        |call| {
            if let Call::Acquire { request, .. } = call {
                request.duration_ms = 10;
            }
        },
        |call| {
            if let Call::Acquire { request, .. } = call {
                request.resource ^= 1;
            }
        },
        |call| {
            if let Call::Submit(order) = call {
                order.principal = 8;
            }
        },
        |call| {
            if let Call::Submit(order) = call {
                order.action.lease_id = 2;
            }
        },
    ];
    for change in changes {
        breaks("a live lease of the principal", |log| calls(log, change));
    }
}

#[test]
fn an_execute_after_a_fallback_on_its_axis() {
    breaks("a live lease of the principal", |log| {
        let tick = find(log, |entry| falls_back(entry, 1, Reason::LeaseExpired));
        let item = Item::Fallback {
            resource: 0,
            reason: Reason::LeaseExpired,
        };
        let fallback = Entry {
            input: log[tick].input,
            output: Some(Output::Item(0, item)),
        };
        let order = find(log, |e| matches!(e.input, Input::Call(Call::Submit(_))));
        log.insert(order, fallback);
    });
}

#[test]
fn a_start_that_leaves_an_axis_out() {
    breaks("startup fallback", |log| {
        let at = find(log, |entry| falls_back(entry, 1, Reason::Startup));
        log.remove(at);
    });
}

#[test]
fn a_start_after_a_failed_fallback() {
    breaks("startup fallback", |log| {
        let failed = Input::Reply(Reply::FellBack(false));
        let at = find(log, |entry| entry.output == Some(Output::Started));
        log[at].input = failed;
    });
}

#[test]
fn an_execute_without_a_start() {
    breaks("startup fallback", |log| {
        for entry in log {
            if entry.output == Some(Output::Started) {
                entry.output = Some(Output::NoRuntime);
            }
        }
    });
}

#[test]
fn an_item_again() {
    breaks("but as a reminder", |log| {
        let at = find(log, executes);
        let again = Entry {
            input: Input::Reply(Reply::Executed(false)),
            ..log[at]
        };
        log.insert(at + 1, again);
    });
}

#[test]
fn reminders_have_their_number() {
    let mut entries = log(LIVES);
    let at = find(&entries, executes);
    let Some(Output::Item(_, item)) = entries[at].output else {
        panic!("an execute");
    };
    let called = |number, item| Entry {
        input: Input::Call(Call::Tick { now: 0 }),
        output: Some(Output::Item(number, item)),
    };
    let replied = |number| Entry {
        input: Input::Reply(Reply::Recorded),
        output: Some(Output::Item(number, item)),
    };
    entries.insert(at + 1, called(111, item));
    entries.insert(at + 2, replied(113));
    assert_eq!(verdict("but as a reminder", &entries).broken, []);
    let other = Item::Observe { resource: 0 };
    for wrong in [
        called(0, item),
        called(113, item),
        called(111, other),
        replied(0),
        replied(111),
    ] {
        let mut entries = entries.clone();
        entries.insert(at + 1, wrong);
        assert_ne!(verdict("but as a reminder", &entries).broken, []);
    }
}

#[test]
fn a_trip_that_stops_short() {
    breaks("a trip reaches every used axis", |log| {
        let at = find(log, |entry| falls_back(entry, 1, Reason::Driver));
        // The fallback and the receipt that follows it.
        log.drain(at..at + 2);
    });
}

#[test]
fn a_failed_fallback_without_a_trip() {
    breaks("a trip reaches every used axis", |log| {
        let at = find(log, |entry| falls_back(entry, 0, Reason::Driver));
        log.drain(at..at + 4);
    });
}

#[test]
fn a_round_with_another_axis() {
    breaks("a trip reaches every used axis", |log| {
        let at = find(log, |entry| falls_back(entry, 1, Reason::Estop));
        let item = Item::Fallback {
            resource: 0,
            reason: Reason::Estop,
        };
        log[at].output = Some(Output::Item(0, item));
    });
}

#[test]
fn receipts_with_a_gap() {
    breaks("receipt numbers", |log| {
        receipts(log, |receipt| {
            receipt.receipt_id += u64::from(receipt.receipt_id > 3);
        });
    });
    breaks("receipt numbers", |log| {
        receipts(log, |receipt| receipt.receipt_id = 1);
    });
}

#[test]
fn receipts_at_the_top() {
    let mut entries = log(LIVES);
    let set = Entry {
        input: Input::Call(Call::Set {
            counter: Counter::NextReceipt,
            value: u64::MAX - 1,
        }),
        output: Some(Output::Set),
    };
    let at = find(&entries, |entry| matches!(entry.input, Input::Call(_)));
    entries.insert(at, set);
    let shift = |up: fn(u64) -> u64| {
        let mut entries = entries.clone();
        receipts(&mut entries, |r| r.receipt_id = up(r.receipt_id));
        let second = find(&entries, |entry| match entry.input {
            Input::Start(opening) => opening.boot_id == 43,
            _ => false,
        });
        verdict("receipt numbers", &entries[..second]).broken
    };
    assert_eq!(shift(|id| (u64::MAX - 2).saturating_add(id)), []);
    assert_ne!(shift(|id| (u64::MAX - 2).wrapping_add(id)), []);
}

#[test]
fn an_epoch_or_a_lease_number_that_falls() {
    breaks("never fall", |log| {
        receipts(log, |receipt| receipt.epoch = 10 - receipt.epoch.min(10));
    });
    breaks("never fall", |log| {
        for entry in log {
            if let Some(Output::Leased(lease)) = &mut entry.output {
                lease.id = 1;
            }
        }
    });
}

#[test]
fn an_order_past_the_top() {
    for counter in Counter::EXHAUSTIBLE {
        breaks("nothing past the top", |log| {
            let value = u64::MAX;
            let set = Entry {
                input: Input::Call(Call::Set { counter, value }),
                output: Some(Output::Set),
            };
            let order = find(log, |e| matches!(e.input, Input::Call(Call::Submit(_))));
            log.insert(order, set);
            log.truncate(find(log, executes) + 1);
        });
    }
}

#[test]
fn a_last_tick_that_goes_back() {
    breaks("the last tick never goes back", |log| {
        let stop = |e: &Entry| matches!(e.input, Input::Call(Call::EmergencyStop { .. }));
        let stop = find(log, stop);
        for entry in &mut log[stop..] {
            if let Some(Output::Snapshot(snapshot)) = &mut entry.output {
                snapshot.now = 120;
                break;
            }
        }
    });
}

#[test]
fn an_earlier_time_without_a_trip() {
    breaks("an earlier time trips 18", |log| {
        let late = find(log, |e| e.input == Input::Call(Call::Tick { now: 130 }));
        log[late].output = Some(Output::Returned);
    });
}

#[test]
fn what_is_no_output_record_counts_as_an_end() {
    let mut entries = log(LIVES);
    let at = find(&entries, executes);
    entries[at].output = None;
    assert_eq!(
        verdict("a trip reaches every used axis", &entries).broken,
        []
    );
    let read = Entry {
        input: Input::Read(Reading::State),
        output: None,
    };
    entries.push(read);
    assert_eq!(judge(&entries).len(), FACTS.len());
}
