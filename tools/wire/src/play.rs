//! Runs lives on the Rust, turn by turn. Lean: only those waits are run for once more that are
//! looked at.

use crate::format::{Input, Opening, Output};
use crate::turn::{At, Reached, Sink, Turn};
use crate::weave::{Amount, Place, Sight, Weaver};
use definitions::turns::{refusal, Reply};
use oracle::driver::{Awaited, Item, Replied, ScriptedDriver};
use oracle::life::{Call, Life, Step};
use oracle::prng::Prng;
use oracle::run::{apply, copy};
use oracle::runtime_core::{Capability, Decision, Runtime};
use std::panic::{catch_unwind, resume_unwind, AssertUnwindSafe};

/// A life with what is put into it.
#[derive(Clone, Debug, PartialEq, Eq)]
pub struct Plan {
    pub life: Life,
    pub weaving: Weaving,
}

#[derive(Clone, Copy, Debug, PartialEq, Eq)]
pub struct Weaving {
    /// Which random numbers: a seed and the number of the life.
    pub seed: u64,
    pub number: u64,
    pub amount: Amount,
    pub cut: Option<Cut>,
    /// Its capabilities are listed while the life before it goes on.
    pub ahead: bool,
}

/// Where a life ends before its last call is over.
#[derive(Clone, Copy, Debug, PartialEq, Eq)]
pub struct Cut {
    /// 0: the start, 1: the first call.
    pub step: usize,
    /// Which of its waits, counted round; a call without one is the last.
    pub wait: u64,
}

impl Plan {
    /// The life as it is, with nothing put in.
    pub const fn plain(life: Life) -> Self {
        Self {
            life,
            weaving: Weaving {
                seed: 0,
                number: 0,
                amount: Amount::Nothing,
                cut: None,
                ahead: false,
            },
        }
    }
}

/// The turns of some lives, one after the other.
pub fn play(plans: &[Plan], sink: &mut impl Sink) {
    for (n, plan) in plans.iter().enumerate() {
        let next = plans.get(n + 1).filter(|next| next.weaving.ahead);
        let ahead = next.map_or(&[][..], |next| &next.life.start.capabilities);
        let listed = n > 0 && plan.weaving.ahead;
        Play::new(plan, ahead, sink).run(listed);
    }
}

/// One life on its way.
struct Play<'a, S> {
    plan: &'a Plan,
    weaver: Weaver<'a>,
    reached: Reached,
    sink: &'a mut S,
}

/// The life is cut.
struct IsCut;

impl<'a, S: Sink> Play<'a, S> {
    fn new(plan: &'a Plan, ahead: &'a [Capability], sink: &'a mut S) -> Self {
        let weaving = &plan.weaving;
        let rng = Prng::new(!weaving.seed, !weaving.number);
        Self {
            plan,
            weaver: Weaver::new(weaving.amount, rng, &plan.life.steps, ahead),
            reached: Reached::default(),
            sink,
        }
    }

    fn run(mut self, listed: bool) {
        if !listed {
            for capability in &self.plan.life.start.capabilities {
                let unread = self.weaver.unread();
                self.turn(
                    Input::Capability(*capability),
                    Output::Listed,
                    At::Nowhere,
                    unread,
                );
            }
        }
        let cut = self.start();
        self.reached.cut = cut.is_err();
        self.sink.end(&self.reached);
    }

    fn turn(&mut self, input: Input, output: Output, at: At, unread: u32) {
        self.sink.turn(&Turn {
            input,
            output,
            at,
            woven: false,
            unread,
        });
    }

    /// The start, then the calls.
    fn start(&mut self) -> Result<(), IsCut> {
        let start = &self.plan.life.start;
        let mut driver = ScriptedDriver::new(&start.replies, [0; 2]);
        let mut result = Runtime::new(
            start.config,
            &start.capabilities,
            start.boot_id,
            start.now,
            start.flags,
            &mut driver,
        );
        let executed = driver.executed();
        let log = driver.into_log();
        let first = (Input::Start(Opening::of(start)), At::Nowhere);
        let last = self.exchange(first, &log, 0, At::Starting, |_| None)?;
        // By reference: a runtime is large.
        match &mut result {
            Ok(runtime) => {
                self.ends(last, Output::Started, Sight::Of(runtime));
                self.calls(runtime, executed)
            }
            Err(error) => {
                self.ends(last, Output::StartRefused(refusal(*error)), Sight::Nothing);
                self.calls_on_nothing();
                Ok(())
            }
        }
    }

    /// The items, each handed out and replied to. The input that comes last, and where.
    fn exchange(
        &mut self,
        first: (Input, At),
        log: &[(Item, Replied)],
        step: usize,
        wait: At,
        mut look: impl FnMut(usize) -> Option<Runtime>,
    ) -> Result<(Input, At), IsCut> {
        let cut = self.plan.weaving.cut.filter(|cut| cut.step == step);
        let cut = cut.and_then(|cut| cut.wait.checked_rem(log.len() as u64));
        let (mut input, mut at) = first;
        for (index, (item, replied)) in log.iter().enumerate() {
            self.reply_or_call(input, Output::Item(0, *item), at);
            self.learn(item);
            let runtime = look(index);
            let sight = match (wait, &runtime) {
                (At::Starting, _) => Sight::Nothing,
                (_, Some(runtime)) => Sight::Of(runtime),
                _ => Sight::Closed,
            };
            let awaited = Some(*item);
            let place = Place { awaited, sight };
            self.weaver.after(&place, self.sink);
            if cut == Some(index as u64) {
                self.weaver.end(&place, self.sink);
                return Err(IsCut);
            }
            (input, at) = (Input::Reply(reply(item, replied)), wait);
        }
        Ok((input, at))
    }

    fn reply_or_call(&mut self, input: Input, output: Output, at: At) {
        let unread = match input {
            Input::Reply(Reply::Observed(None)) => self.weaver.unread(),
            _ => 0,
        };
        self.turn(input, output, at, unread);
    }

    /// The end of a start or of a call.
    fn ends(&mut self, (input, at): (Input, At), output: Output, sight: Sight<'_>) {
        self.reply_or_call(input, output, at);
        let awaited = None;
        self.weaver.after(&Place { awaited, sight }, self.sink);
    }

    fn learn(&mut self, item: &Item) {
        if let Item::Record { receipt } = item {
            let order = matches!(receipt.decision, Decision::Executed | Decision::Failed);
            self.reached.admitted += usize::from(order);
            self.reached.receipts += 1;
        }
    }

    fn calls(&mut self, runtime: &mut Runtime, mut executed: [i32; 2]) -> Result<(), IsCut> {
        for (n, step) in self.plan.life.steps.iter().enumerate() {
            executed = self.call(runtime, step, n + 1, executed)?;
            if self.plan.weaving.cut.is_some_and(|cut| cut.step == n + 1) {
                break;
            }
        }
        let place = Place {
            awaited: None,
            sight: Sight::Of(runtime),
        };
        self.weaver.end(&place, self.sink);
        Ok(())
    }

    /// One call; the parameters of the last execute that succeeded.
    fn call(
        &mut self,
        runtime: &mut Runtime,
        step: &Step,
        number: usize,
        executed: [i32; 2],
    ) -> Result<[i32; 2], IsCut> {
        if let Call::Set { .. } = step.call {
            apply(runtime, &step.call, &mut ScriptedDriver::new(&[], executed));
            self.reached.sets = true;
            let input = (Input::Call(step.call), At::Idle);
            self.ends(input, Output::Set, Sight::Of(runtime));
            return Ok(executed);
        }
        self.reached.calls += 1;
        let cut = self.plan.weaving.cut.filter(|cut| cut.step == number);
        let before = (self.weaver.looks() || cut.is_some()).then(|| copy(runtime));
        let mut driver = ScriptedDriver::new(&step.replies, executed);
        let answer = apply(runtime, &step.call, &mut driver);
        let after = driver.executed();
        let log = driver.into_log();
        let look = |index| {
            let mut runtime = before.as_ref().map(copy)?;
            run_to_wait(&mut runtime, step, executed, index);
            Some(runtime)
        };
        let first = (Input::Call(step.call), At::Idle);
        let last = self.exchange(first, &log, number, At::Waiting, look)?;
        self.ends(last, Output::answer(&answer), Sight::Of(runtime));
        Ok(after)
    }

    /// There is no runtime for the calls after a refused start, and no counter to set.
    fn calls_on_nothing(&mut self) {
        let calls = self.plan.life.steps.iter().map(|step| step.call);
        for call in calls.filter(|call| call.now().is_some()) {
            let input = (Input::Call(call), At::Nowhere);
            self.ends(input, Output::NoRuntime, Sight::Nothing);
        }
        let place = Place {
            awaited: None,
            sight: Sight::Nothing,
        };
        self.weaver.end(&place, self.sink);
    }
}

/// The reply that the driver gave, in the kind of its item.
fn reply(item: &Item, replied: &Replied) -> Reply {
    let good = *replied != Replied::Failed;
    match (item, replied) {
        (Item::Observe { .. }, Replied::Observed(seen)) => Reply::Observed(Some(*seen)),
        (Item::Observe { .. }, _) => Reply::Observed(None),
        (Item::Execute { .. }, _) => Reply::Executed(good),
        (Item::Fallback { .. }, _) => Reply::FellBack(good),
        (Item::Record { .. }, _) => Reply::Recorded,
    }
}

/// Runs the call once more, on a runtime as it was before it, up to one wait.
fn run_to_wait(runtime: &mut Runtime, step: &Step, executed: [i32; 2], index: usize) {
    let mut driver = ScriptedDriver::new(&step.replies, executed).stopping_at(index);
    let ended = catch_unwind(AssertUnwindSafe(|| {
        apply(runtime, &step.call, &mut driver);
    }));
    match ended {
        Err(payload) if payload.is::<Awaited>() => {}
        Err(payload) => resume_unwind(payload),
        Ok(()) => unreachable!("the second run of a call has the same items"),
    }
}
