//! Planted faults: engines that are wrong on purpose, to see that the campaigns find them. Each
//! stands between the host and the Rust, and alters what goes in and what comes out.

use crate::host::{Stage, Step};
use definitions::turns::{Reading, Reply};
use oracle::driver::Item;
use oracle::life::{Call, Counter};
use oracle::runtime_core::{Lease, Reason, Receipt};
use wire::engine::Engine;
use wire::format::{Input, Output, INPUT_BYTES, OUTPUT_BYTES};
use wire::machine::Running;

#[derive(Clone, Copy, Debug, PartialEq, Eq)]
pub enum Plant {
    /// An order of an earlier life is taken: the boot number is not compared.
    Again,
    /// After a failed fallback the others of the call are left out.
    Short,
    /// After a failed execute there is a second try.
    Twice,
    /// A counter goes from the top of 64 bits to 0.
    Wraps,
    /// An emergency stop with an earlier time moves the last tick back.
    Back,
    /// Only the first axis has its startup fallback.
    Startup,
}

impl Plant {
    pub const ALL: [Self; 6] = [
        Self::Again,
        Self::Short,
        Self::Twice,
        Self::Wraps,
        Self::Back,
        Self::Startup,
    ];

    pub const fn name(self) -> &'static str {
        match self {
            Self::Again => "again",
            Self::Short => "short",
            Self::Twice => "twice",
            Self::Wraps => "wraps",
            Self::Back => "back",
            Self::Startup => "startup",
        }
    }

    pub fn named(name: &str) -> Option<Self> {
        Self::ALL.into_iter().find(|plant| plant.name() == name)
    }
}

/// The Rust with a planted fault.
pub struct Planted(pub Plant);

impl Engine for Planted {
    fn run(&mut self, input: &[u8], output: &mut [u8]) -> usize {
        let mut wrong = Wrong::new(self.0);
        let records = input.chunks_exact(INPUT_BYTES);
        let room = output.chunks_exact_mut(OUTPUT_BYTES);
        let mut written = 0;
        for (record, room) in records.zip(room) {
            let Ok(record) = record.try_into() else {
                break;
            };
            let mut bytes = Vec::with_capacity(OUTPUT_BYTES);
            wrong.react(Input::decode(record)).encode(&mut bytes);
            room.copy_from_slice(&bytes);
            written += OUTPUT_BYTES;
        }
        written
    }
}

impl Stage for Planted {
    fn stepwise(&mut self) -> Box<dyn Step + '_> {
        Box::new(Wrong::new(self.0))
    }
}

impl Step for Wrong {
    fn step(&mut self, input: &Input) -> Option<Output> {
        Some(self.react(*input))
    }
}

/// Numbers from `base` on are shown so much higher, round the top of 64 bits.
#[derive(Clone, Copy, Default)]
struct Shift {
    base: u64,
    by: u64,
}

/// A shifted counter is not taken for another one within so many steps.
const SPAN: u64 = 1 << 32;

impl Shift {
    fn out(self, inner: &mut u64) {
        if *inner >= self.base {
            *inner = inner.wrapping_add(self.by);
        }
    }

    fn back(self, outer: &mut u64) {
        let inner = outer.wrapping_sub(self.by);
        let is_shifted = inner >= self.base && inner - self.base < SPAN;
        if is_shifted || *outer >= self.base {
            *outer = inner;
        }
    }
}

struct Wrong {
    plant: Plant,
    rust: Running,
    life: Told,
}

/// What is known of the life that runs.
#[derive(Default)]
struct Told {
    boot_id: u64,
    awaited: Option<Item>,
    /// A fallback of the call failed.
    failed: bool,
    /// A second try was made.
    tried: bool,
    epoch: Shift,
    receipt: Shift,
    lease: Shift,
    /// The number of the last lease, as the Rust counts.
    last_lease: u64,
    /// How far the clock is behind that of the Rust.
    behind: u64,
}

impl Wrong {
    fn new(plant: Plant) -> Self {
        Self {
            plant,
            rust: Running::default(),
            life: Told::default(),
        }
    }

    fn react(&mut self, mut input: Input) -> Output {
        if let Some(item) = self.tries_again(&input) {
            return Output::Item(0, item);
        }
        match &mut input {
            Input::Start(opening) => {
                self.life = Told {
                    boot_id: opening.boot_id,
                    ..Told::default()
                }
            }
            Input::Call(Call::Set { counter, value }) if self.plant == Plant::Wraps => {
                return self.set(*counter, *value);
            }
            Input::Call(call) if self.life.awaited.is_none() => self.alter_call(call),
            Input::Reply(reply) => self.life.failed |= *reply == Reply::FellBack(false),
            _ => {}
        }
        let mut output = self.rust.react(&input);
        self.leave_out(&input, &mut output);
        self.note(&input, &output);
        self.alter(&input, &mut output);
        output
    }

    /// The execute that failed, if it is tried once more.
    fn tries_again(&mut self, input: &Input) -> Option<Item> {
        let failed = *input == Input::Reply(Reply::Executed(false));
        if self.plant != Plant::Twice || !failed || self.life.tried {
            return None;
        }
        let awaited = self.life.awaited;
        let execute = awaited.filter(|item| matches!(item, Item::Execute { .. }))?;
        self.life.tried = true;
        Some(execute)
    }

    fn alter_call(&mut self, call: &mut Call) {
        (self.life.failed, self.life.tried) = (false, false);
        match self.plant {
            Plant::Again => {
                if let Call::Submit(order) = call {
                    order.action.boot_id = self.life.boot_id;
                }
            }
            Plant::Wraps => self.alter_numbers(call),
            Plant::Back => self.alter_times(call),
            _ => {}
        }
    }

    fn alter_numbers(&self, call: &mut Call) {
        match call {
            Call::Submit(order) => {
                self.life.epoch.back(&mut order.action.based_on_epoch);
                self.life.lease.back(&mut order.action.lease_id);
            }
            Call::Renew(renewal) => self.life.lease.back(&mut renewal.lease_id),
            Call::Cancel { lease_id, .. } => self.life.lease.back(lease_id),
            _ => {}
        }
    }

    fn alter_times(&mut self, call: &mut Call) {
        if let Call::EmergencyStop { now } | Call::PollEstop { now, .. } = *call {
            let last = self.snapshot().map_or(0, |(last, _)| last);
            let time = now.saturating_add(self.life.behind);
            self.life.behind += last.saturating_sub(time);
        }
        let behind = self.life.behind;
        if let Call::Submit(order) = call {
            let action = &mut order.action;
            for time in [
                &mut order.received_at,
                &mut action.execute_after,
                &mut action.deadline,
            ] {
                *time = time.saturating_add(behind);
            }
        }
        if let Some(now) = now_of(call) {
            *now = now.saturating_add(behind);
        }
    }

    /// The last tick and the next receipt of the Rust.
    fn snapshot(&mut self) -> Option<(u64, u64)> {
        match self.rust.react(&Input::Read(Reading::Snapshot)) {
            Output::Snapshot(snapshot) => Some((snapshot.now, snapshot.next_receipt_id)),
            _ => None,
        }
    }

    /// The Rust is not told, so that its counter never meets the top.
    fn set(&mut self, counter: Counter, value: u64) -> Output {
        let base = match counter {
            Counter::Epoch => match self.rust.react(&Input::Read(Reading::Epoch)) {
                Output::Number(epoch) => Some(epoch),
                _ => None,
            },
            Counter::NextReceipt => self.snapshot().map(|(_, next)| next),
            Counter::NextLease => Some(self.life.last_lease + 1),
            // No record sets it.
            Counter::InvalidCount => return Output::Malformed,
        };
        let Some(base) = base else {
            return Output::NoRuntime;
        };
        let by = value.wrapping_sub(base);
        let shift = Shift { base, by };
        match counter {
            Counter::Epoch => self.life.epoch = shift,
            Counter::NextReceipt => self.life.receipt = shift,
            Counter::NextLease => self.life.lease = shift,
            Counter::InvalidCount => {}
        }
        Output::Set
    }

    /// Replies itself to the fallbacks that the host is not to see.
    fn leave_out(&mut self, input: &Input, output: &mut Output) {
        let is_reply = matches!(input, Input::Reply(_));
        while let Output::Item(0, Item::Fallback { reason, .. }) = output {
            let hidden = match self.plant {
                Plant::Short => self.life.failed,
                Plant::Startup => *reason == Reason::Startup && is_reply,
                _ => false,
            };
            if !hidden {
                break;
            }
            *output = self.rust.react(&Input::Reply(Reply::FellBack(true)));
            if let Output::Item(0, Item::Record { .. }) = output {
                *output = self.rust.react(&Input::Reply(Reply::Recorded));
            }
        }
    }

    fn note(&mut self, input: &Input, output: &Output) {
        match (input, output) {
            (_, Output::Item(0, item)) => self.life.awaited = Some(*item),
            (_, Output::Item(..)) | (Input::Read(_) | Input::Capability(_), _) => {}
            _ => self.life.awaited = None,
        }
        if let (Input::Reply(_), Output::Leased(lease)) = (input, output) {
            self.life.last_lease = self.life.last_lease.max(lease.id);
        }
    }

    fn alter(&self, input: &Input, output: &mut Output) {
        match output {
            Output::Item(_, Item::Record { receipt })
            | Output::Settled(receipt)
            | Output::Receipt(Some(receipt)) => self.alter_receipt(receipt),
            Output::Leased(lease) | Output::Lease(Some(lease)) => self.alter_lease(lease),
            Output::Snapshot(snapshot) => {
                self.life.epoch.out(&mut snapshot.epoch);
                self.life.receipt.out(&mut snapshot.next_receipt_id);
                snapshot.now = snapshot.now.saturating_sub(self.life.behind);
                snapshot.sensor_tick = snapshot.sensor_tick.saturating_sub(self.life.behind);
            }
            Output::Number(epoch) if *input == Input::Read(Reading::Epoch) => {
                self.life.epoch.out(epoch);
            }
            _ => {}
        }
    }

    fn alter_receipt(&self, receipt: &mut Receipt) {
        self.life.epoch.out(&mut receipt.epoch);
        self.life.receipt.out(&mut receipt.receipt_id);
        self.life.lease.out(&mut receipt.lease_id);
        for time in [
            &mut receipt.received_at,
            &mut receipt.admitted_at,
            &mut receipt.executed_at,
        ] {
            *time = time.saturating_sub(self.life.behind);
        }
    }

    fn alter_lease(&self, lease: &mut Lease) {
        self.life.lease.out(&mut lease.id);
        lease.expires_at = lease.expires_at.saturating_sub(self.life.behind);
    }
}

fn now_of(call: &mut Call) -> Option<&mut u64> {
    match call {
        Call::Tick { now }
        | Call::UpdateState { now, .. }
        | Call::EmergencyStop { now }
        | Call::PollEstop { now, .. }
        | Call::RecoverLocal { now }
        | Call::Acquire { now, .. }
        | Call::Cancel { now, .. } => Some(now),
        Call::Renew(renewal) => Some(&mut renewal.now),
        Call::Submit(order) => Some(&mut order.now),
        Call::Set { .. } => None,
    }
}
