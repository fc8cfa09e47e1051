//! The stage runtime, proved in Rattle, for hosts in Rust (docs/HOST.md). Its state lies in words that the host lends:
//!
//! ```no_run
//! use rolthai::{profile::CAPABILITIES, Config, Stage, WORDS};
//!
//! # struct Motors;
//! # impl rolthai::Driver for Motors {
//! #     fn observe(&mut self, _: u8) -> Result<rolthai::Observation, rolthai::DriverError> { Err(rolthai::DriverError) }
//! #     fn execute(&mut self, _: u16, _: [i32; 2]) -> Result<(), rolthai::DriverError> { Ok(()) }
//! #     fn fallback(&mut self, _: u8, _: rolthai::Reason) -> Result<(), rolthai::DriverError> { Ok(()) }
//! #     fn record_receipt(&mut self, _: &rolthai::Receipt) {}
//! # }
//! # let mut motors = Motors;
//! let mut words = [0; WORDS];
//! let mut stage = Stage::lend(&mut words);
//! let first = stage.start(&Config::default(), &CAPABILITIES, 42, 0, 0);
//! let started = stage.settle(first, &mut motors);
//! ```
//!
//! A `Stage` has cleared its words and holds them for as long as it lives, and there is no way to make one of words as
//! they are: so nobody writes them in between, and no old copy is taken for a runtime. What is left to the host: each
//! item's driver call is made once (`settle` does that), and each start has a boot number that no earlier one had.
#![no_std]

#[cfg(feature = "card")]
pub mod card;
mod model;
pub mod profile;
pub mod raw;
mod signal;
mod words;

pub use model::*;
pub use signal::EstopSignal;

use words::{action_words, capability_words, request_words, start_words};

/// How many words a host lends.
pub const WORDS: usize = 2464;
/// The words of an output record of docs/WIRE.md.
pub const OUT_WORDS: usize = 26;
/// The words of an input record.
pub const RECORD_WORDS: usize = 16;

/// What a start, a call or a reply gives.
pub type Answered = Result<Answer, Refused>;

#[derive(Clone, Copy, Debug, PartialEq, Eq)]
pub struct DriverError;

/// What an item asks for: one call each, synchronous and bounded (model.rs of the original).
pub trait Driver {
    fn observe(&mut self, resource: u8) -> Result<Observation, DriverError>;
    fn execute(&mut self, capability: u16, parameters: [i32; 2]) -> Result<(), DriverError>;
    fn fallback(&mut self, resource: u8, reason: Reason) -> Result<(), DriverError>;
    fn record_receipt(&mut self, receipt: &Receipt);
}

/// A runtime in lent words.
pub struct Stage<'a> {
    words: &'a mut [u64; WORDS],
}

/// A function that may write the words; the number that it answers.
macro_rules! call {
    ($stage:ident, $function:ident $(, $argument:expr)*) => {
        // SAFETY: the pointers are those of arrays with as many words as is said, and of the words there is no other
        // reference; the function keeps none of them, and has no condition on what the words hold.
        unsafe { raw::$function($stage.words.as_mut_ptr(), WORDS $(, $argument)*) }
    };
}

/// A function that shows something of the words: the kind of record that it answers, and the record.
macro_rules! read {
    ($stage:ident, $function:ident $(, $argument:expr)*) => {{
        let mut out = [0; OUT_WORDS];
        // SAFETY: as in `call`; the words are only read, and `out` is another array.
        let kind = unsafe { raw::$function($stage.words.as_ptr(), WORDS $(, $argument)*, out.as_mut_ptr(), OUT_WORDS) };
        (kind, out)
    }};
}

impl<'a> Stage<'a> {
    /// No runtime yet. What the words held is gone.
    pub fn lend(words: &'a mut [u64; WORDS]) -> Self {
        let mut stage = Self { words };
        stage.clear();
        stage
    }

    /// No runtime, and nothing listed for `step`.
    pub fn clear(&mut self) {
        // The answer is 0: there are as many words as there are to be.
        call!(self, rolthai_clear);
    }

    // a start -----------------------------------------------------------------------------------------------------------

    /// A new runtime in place of the one before. The first item is a startup fallback.
    pub fn start(
        &mut self,
        config: &Config,
        capabilities: &[Capability],
        boot_id: u64,
        now: u64,
        flags: u32,
    ) -> Answered {
        let start = start_words(config, boot_id, now, flags);
        // More than 16 are refused, however many there are: so 17 stand for any longer list.
        let mut listed = [[0; words::CAPABILITY]; 17];
        for (row, capability) in listed.iter_mut().zip(capabilities) {
            *row = capability_words(capability);
        }
        let count = capabilities.len().min(listed.len());
        let number = call!(
            self,
            rolthai_new,
            start.as_ptr(),
            start.len(),
            listed.as_ptr().cast(),
            count * words::CAPABILITY
        );
        self.answered(number)
    }

    // calls -------------------------------------------------------------------------------------------------------------

    pub fn tick(&mut self, now: u64) -> Answered {
        let number = call!(self, rolthai_tick, now);
        self.answered(number)
    }

    pub fn update_state(&mut self, flags: u32, now: u64) -> Answered {
        let number = call!(self, rolthai_update_state, flags, now);
        self.answered(number)
    }

    /// While a reply is awaited this is turned away like any call: the reply comes first.
    pub fn emergency_stop(&mut self, now: u64) -> Answered {
        let number = call!(self, rolthai_emergency_stop, now);
        self.answered(number)
    }

    /// `raised` is that of an `EstopSignal`.
    pub fn poll_estop(&mut self, raised: u32, now: u64) -> Answered {
        let number = call!(self, rolthai_poll_estop, raised, now);
        self.answered(number)
    }

    pub fn recover_local(&mut self, now: u64) -> Answered {
        let number = call!(self, rolthai_recover_local, now);
        self.answered(number)
    }

    pub fn acquire(&mut self, request: &LeaseRequest, now: u64) -> Answered {
        let request = request_words(request, now);
        let number = call!(self, rolthai_acquire, request.as_ptr(), request.len());
        self.answered(number)
    }

    pub fn renew(
        &mut self,
        owner: u64,
        lease_id: u64,
        renewal: u64,
        duration_ms: u32,
        now: u64,
    ) -> Answered {
        let number = call!(
            self,
            rolthai_renew,
            owner,
            lease_id,
            renewal,
            duration_ms,
            now
        );
        self.answered(number)
    }

    pub fn cancel(&mut self, owner: u64, lease_id: u64, now: u64) -> Answered {
        let number = call!(self, rolthai_cancel, owner, lease_id, now);
        self.answered(number)
    }

    /// The principal is who sent the order, as the host has found it to be.
    pub fn submit(
        &mut self,
        action: &Action,
        principal: u64,
        received_at: u64,
        now: u64,
    ) -> Answered {
        let order = action_words(action, principal, received_at, now);
        let number = call!(self, rolthai_submit, order.as_ptr(), order.len());
        self.answered(number)
    }

    // replies of the driver ---------------------------------------------------------------------------------------------

    pub fn observed(&mut self, seen: Result<Observation, DriverError>) -> Answered {
        let ok = seen.is_ok();
        let Observation { parameters, state } = seen.unwrap_or_default();
        let number = call!(
            self,
            rolthai_observed,
            ok,
            parameters[0],
            parameters[1],
            state
        );
        self.answered(number)
    }

    pub fn executed(&mut self, done: Result<(), DriverError>) -> Answered {
        let number = call!(self, rolthai_executed, done.is_ok());
        self.answered(number)
    }

    pub fn fell_back(&mut self, done: Result<(), DriverError>) -> Answered {
        let number = call!(self, rolthai_fell_back, done.is_ok());
        self.answered(number)
    }

    pub fn recorded(&mut self) -> Answered {
        let number = call!(self, rolthai_recorded);
        self.answered(number)
    }

    /// Makes the driver call of each item, once, and replies, until another answer comes.
    pub fn settle(&mut self, first: Answered, driver: &mut impl Driver) -> Answered {
        let mut answer = first;
        while let Ok(Answer::Item(item)) = answer {
            answer = match item {
                Item::Observe { axis } => self.observed(driver.observe(axis)),
                Item::Execute {
                    capability,
                    parameters,
                } => self.executed(driver.execute(capability, parameters)),
                Item::Fallback { axis, reason } => self.fell_back(driver.fallback(axis, reason)),
                Item::Record(receipt) => {
                    driver.record_receipt(&receipt);
                    self.recorded()
                }
            };
        }
        answer
    }

    // what a host is told -----------------------------------------------------------------------------------------------

    /// The item whose reply is awaited. That of an answer is this one: the driver is not called for it again.
    pub fn item(&self) -> Result<Item, Refused> {
        let (kind, out) = read!(self, rolthai_item);
        words::item(kind, &out)
    }

    /// What `Leased` spoke of, right after that answer, which has it with it.
    pub fn answered_lease(&self) -> Result<Lease, Refused> {
        let (kind, out) = read!(self, rolthai_answered_lease);
        words::told(kind, 35, words::lease(&out))
    }

    /// What `Submitted` spoke of, right after that answer, which has it with it.
    pub fn answered_receipt(&self) -> Result<Receipt, Refused> {
        let (kind, out) = read!(self, rolthai_answered_receipt);
        words::told(kind, 37, words::receipt(&out))
    }

    /// What `Refused::Reason` spoke of, right after that answer, which has it with it.
    pub fn refusal(&self) -> Result<Reason, Refused> {
        // SAFETY: as in `call`; the words are only read.
        let number = unsafe { raw::rolthai_refusal(self.words.as_ptr(), WORDS) };
        Reason::of(number.into()).ok_or(refused(number))
    }

    // readings ----------------------------------------------------------------------------------------------------------

    pub fn state(&self) -> Result<State, Refused> {
        let (kind, out) = read!(self, rolthai_state);
        words::told(kind, 48, State::of(out[1]))
    }

    pub fn epoch(&self) -> Result<u64, Refused> {
        let (kind, out) = read!(self, rolthai_epoch);
        words::told(kind, 49, Some(out[1]))
    }

    pub fn boot_id(&self) -> Result<u64, Refused> {
        let (kind, out) = read!(self, rolthai_boot_id);
        words::told(kind, 49, Some(out[1]))
    }

    pub fn flags(&self) -> Result<u32, Refused> {
        let (kind, out) = read!(self, rolthai_flags);
        words::told(kind, 49, Some(out[1] as u32))
    }

    pub fn receipt_count(&self) -> Result<u64, Refused> {
        let (kind, out) = read!(self, rolthai_receipt_count);
        words::told(kind, 49, Some(out[1]))
    }

    pub fn config(&self) -> Result<Config, Refused> {
        let (kind, out) = read!(self, rolthai_config);
        words::told(kind, 53, Some(words::config(&out)))
    }

    pub fn snapshot(&self) -> Result<Snapshot, Refused> {
        let (kind, out) = read!(self, rolthai_snapshot);
        words::told(kind, 54, words::snapshot(&out))
    }

    pub fn lease(&self, axis: u8) -> Result<Option<Lease>, Refused> {
        let (kind, out) = read!(self, rolthai_lease, axis);
        words::found(kind, 55, &out, words::lease)
    }

    pub fn capability(&self, index: u64) -> Result<Option<Capability>, Refused> {
        let (kind, out) = read!(self, rolthai_capability, index);
        words::found(kind, 56, &out, words::capability)
    }

    /// Index 0 is the oldest that is kept.
    pub fn receipt(&self, index: u64) -> Result<Option<Receipt>, Refused> {
        let (kind, out) = read!(self, rolthai_receipt, index);
        words::found(kind, 57, &out, words::receipt)
    }

    // records -----------------------------------------------------------------------------------------------------------

    /// One record of docs/WIRE.md in place of the methods above: what is answered, whose word 0 says what kind it is.
    pub fn step(&mut self, record: &[u64; RECORD_WORDS]) -> Result<[u64; OUT_WORDS], Refused> {
        let mut out = [0; OUT_WORDS];
        let number = call!(
            self,
            rolthai_step,
            record.as_ptr(),
            RECORD_WORDS,
            out.as_mut_ptr(),
            OUT_WORDS
        );
        match number {
            65 | 66 => Err(refused(number)),
            _ => Ok(out),
        }
    }

    /// An answer, with what it speaks of.
    fn answered(&self, number: u32) -> Answered {
        Ok(match number {
            2 => Answer::Started,
            20 => Answer::Item(self.item()?),
            32 => Answer::Returned,
            33 => Answer::Unraised,
            34 => Answer::Succeeded,
            35 => Answer::Leased(self.answered_lease()?),
            36 => return Err(Refused::Reason(self.refusal()?)),
            37 => Answer::Submitted(self.answered_receipt()?),
            38 => Answer::Raised,
            _ => return Err(refused(number)),
        })
    }
}

fn refused(number: u32) -> Refused {
    match number {
        4 => Refused::NoRuntime,
        64 => Refused::Malformed,
        65 => Refused::Short,
        66 => Refused::Other,
        101 => Refused::InvalidBootId,
        102 => Refused::InvalidConfig,
        103 => Refused::InvalidCapability,
        104 => Refused::DuplicateCapability,
        105 => Refused::StartupFailed,
        111 => Refused::ReplyAwaited,
        112 => Refused::NoReplyAwaited,
        113 => Refused::OtherAwaited,
        _ => Refused::Unknown(number),
    }
}
