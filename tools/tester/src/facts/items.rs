//! How items follow one another.

use super::Verdict;
use crate::log::{Life, Moment};
use definitions::turns::{refusal, Reply};
use definitions::weave::{OTHER_REPLY_AWAITED, REPLY_AWAITED};
use oracle::driver::Item;
use oracle::runtime_core::{ConfigError, Reason};
use wire::format::{Input, Output};

/// The number of a start that a startup fallback failed.
const FALLBACK_FAILED: u16 = refusal(ConfigError::Driver);

/// A start that ends well has called every used axis once, rising, and each call succeeded; one
/// that a failure ends has called them all too. Nothing is executed before a start ended well.
pub fn startup(lives: &[Life]) -> Verdict {
    let mut verdict = Verdict::default();
    for life in lives {
        let mut done: Vec<(u8, bool)> = Vec::new();
        let mut started = false;
        for moment in &life.moments {
            done.extend(startup_reply(moment));
            started |= moment.output == Some(Output::Started);
            let objection = match moment.output {
                Some(Output::Started) => startup_objection(life, &done, true),
                Some(Output::StartRefused(FALLBACK_FAILED)) => {
                    startup_objection(life, &done, false)
                }
                Some(Output::Item(0, Item::Execute { .. })) => {
                    (!started).then(|| "no start ended well before".into())
                }
                _ => continue,
            };
            verdict.judge(moment.at, objection);
        }
    }
    verdict
}

/// The axis of a startup fallback that is replied to here, and whether it succeeded.
fn startup_reply(moment: &Moment) -> Option<(u8, bool)> {
    match (moment.under?, moment.awaited?, moment.input) {
        (
            Input::Start(_),
            Item::Fallback {
                resource,
                reason: Reason::Startup,
            },
            Input::Reply(Reply::FellBack(ok)),
        ) => Some((resource, ok)),
        _ => None,
    }
}

fn startup_objection(life: &Life, done: &[(u8, bool)], good: bool) -> Option<String> {
    let called: Vec<u8> = done.iter().map(|(axis, _)| *axis).collect();
    let all_good = done.iter().all(|(_, ok)| *ok);
    if called != life.axes() {
        Some(format!(
            "startup fallbacks on axes {called:?}, used are {:?}",
            life.axes()
        ))
    } else if all_good != good {
        Some(format!("startup fallbacks succeeded: {all_good}"))
    } else {
        None
    }
}

/// An item is handed out once: by a start, by a call while none is awaited, or by a reply of the
/// awaited kind, and then it is another one. Anything else gives the awaited item with 111 or
/// 113.
pub fn no_repeat(lives: &[Life]) -> Verdict {
    let mut verdict = Verdict::default();
    for moment in lives.iter().flat_map(|life| &life.moments) {
        let Some(Output::Item(number, item)) = moment.output else {
            continue;
        };
        let expected = match moment.input {
            _ if moment.under.is_some() => 0,
            Input::Reply(_) => OTHER_REPLY_AWAITED,
            _ => REPLY_AWAITED,
        };
        let objection = if number != expected {
            Some(format!("an item with number {number}, not {expected}"))
        } else if number == 0 && moment.awaited == Some(item) {
            Some("the item that was replied to comes again".into())
        } else if number != 0 && moment.awaited != Some(item) {
            Some("a reminder of an item that is not awaited".into())
        } else {
            None
        };
        verdict.judge(moment.at, objection);
    }
    verdict
}

/// Whether a fallback with this reason is one of a round over all used axes.
const fn is_of_round(reason: Reason) -> bool {
    !matches!(
        reason,
        Reason::LeaseExpired | Reason::StreamExpired | Reason::Precondition | Reason::Canceled
    )
}

/// Once a round of fallbacks has begun, it goes over every used axis, rising, before the call
/// ends, whatever fails. A failed fallback of one axis alone is followed by such a round.
pub fn whole_rounds(lives: &[Life]) -> Verdict {
    let mut verdict = Verdict::default();
    for life in lives {
        let mut round = Round::new(life.axes());
        for moment in &life.moments {
            round.learn(moment);
            if let Some(Item::Fallback { resource, reason }) = moment.item() {
                let objection = round.fallback(resource, reason);
                verdict.judge(moment.at, objection);
            } else if moment.ends() {
                verdict.judge(moment.at, round.end());
            }
        }
    }
    verdict
}

/// Where a call stands in its fallbacks.
struct Round {
    axes: Vec<u8>,
    /// The reason of the round that is open, and how many of its axes had their turn.
    open: Option<(Reason, usize)>,
    /// A fallback of one axis alone failed, and no round came since.
    owed: bool,
}

impl Round {
    const fn new(axes: Vec<u8>) -> Self {
        Self {
            axes,
            open: None,
            owed: false,
        }
    }

    fn learn(&mut self, moment: &Moment) {
        if moment.begins() {
            (self.open, self.owed) = (None, false);
        }
        let failed = matches!(moment.input, Input::Reply(Reply::FellBack(false)));
        if let (true, Some(Item::Fallback { reason, .. })) = (failed, moment.awaited) {
            self.owed |= !is_of_round(reason);
        }
    }

    fn fallback(&mut self, axis: u8, reason: Reason) -> Option<String> {
        let place = match self.open {
            Some((of, _)) if of != reason => return Some("another round begins".into()),
            Some((_, place)) => place,
            None => 0,
        };
        if !is_of_round(reason) {
            return self.owed.then(|| "no round after a failed fallback".into());
        }
        self.owed = false;
        let due = self.axes.get(place).copied();
        let next = place + 1;
        self.open = (next < self.axes.len()).then_some((reason, next));
        let wrong = due != Some(axis);
        wrong.then(|| format!("axis {axis} falls back, due is axis {due:?}"))
    }

    fn end(&mut self) -> Option<String> {
        let open = self.open.take();
        let owed = std::mem::replace(&mut self.owed, false);
        match open {
            Some((_, place)) => Some(format!("axis {:?} is left out", self.axes.get(place))),
            None => owed.then(|| "no round after a failed fallback".into()),
        }
    }
}
