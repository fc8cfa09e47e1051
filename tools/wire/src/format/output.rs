//! Output records.

use super::input::{bounds_words, capability_words};
use super::layout::OutputKind;
use super::word::{get_words, put_words, Taker, Word};
use definitions::weave::NO_REPLY_AWAITED;
use oracle::driver::Item;
use oracle::life::config_fields;
use oracle::run::Answer;
use oracle::runtime_core::{Capability, Config, Lease, Reason, Receipt, RuntimeState, Snapshot};

pub const OUTPUT_WORDS: usize = 26;
pub const OUTPUT_BYTES: usize = 208;

/// The words of an output record.
pub type OutputWords = [u64; OUTPUT_WORDS];

#[derive(Clone, Copy, Debug, PartialEq, Eq)]
pub enum Output {
    Listed,
    Started,
    /// 101 to 105.
    StartRefused(u16),
    NoRuntime,
    /// 112.
    Unawaited,
    /// 0 where it is handed out, 111 or 113 with a reminder.
    Item(u16, Item),
    Returned,
    Polled(bool),
    Succeeded,
    /// A lease was granted or renewed.
    Leased(Lease),
    Refused(Reason),
    Settled(Receipt),
    State(RuntimeState),
    /// Epoch, boot number, flags or number of receipts.
    Number(u64),
    /// The fields in the order of `model.rs`.
    Config([u32; 6]),
    Snapshot(Snapshot),
    Lease(Option<Lease>),
    Capability(Option<Capability>),
    Receipt(Option<Receipt>),
    Malformed,
    Short,
    /// A counter was set, in the test entry.
    Set,
}

impl Output {
    /// What a call comes to.
    pub const fn answer(answer: &Answer) -> Self {
        match *answer {
            Answer::None => Self::Returned,
            Answer::Polled(seen) => Self::Polled(seen),
            Answer::Done(Ok(())) => Self::Succeeded,
            Answer::Lease(Ok(lease)) => Self::Leased(lease),
            Answer::Done(Err(reason)) | Answer::Lease(Err(reason)) => Self::Refused(reason),
            Answer::Receipt(receipt) => Self::Settled(receipt),
        }
    }

    pub fn config(config: &Config) -> Self {
        Self::Config(config_fields(config).map(|(_, value)| value))
    }

    pub const fn kind(&self) -> OutputKind {
        match self {
            Self::Listed => OutputKind::Listed,
            Self::Started => OutputKind::Started,
            Self::StartRefused(_) => OutputKind::StartRefused,
            Self::NoRuntime => OutputKind::NoRuntime,
            Self::Unawaited => OutputKind::Unawaited,
            Self::Item(_, Item::Observe { .. }) => OutputKind::Observe,
            Self::Item(_, Item::Execute { .. }) => OutputKind::Execute,
            Self::Item(_, Item::Fallback { .. }) => OutputKind::Fallback,
            Self::Item(_, Item::Record { .. }) => OutputKind::Record,
            Self::Returned => OutputKind::Returned,
            Self::Polled(_) => OutputKind::Polled,
            Self::Succeeded => OutputKind::Succeeded,
            Self::Leased(_) => OutputKind::Leased,
            Self::Refused(_) => OutputKind::Refused,
            Self::Settled(_) => OutputKind::Settled,
            Self::State(_) => OutputKind::State,
            Self::Number(_) => OutputKind::Number,
            Self::Config(_) => OutputKind::Config,
            Self::Snapshot(_) => OutputKind::Snapshot,
            Self::Lease(_) => OutputKind::Lease,
            Self::Capability(_) => OutputKind::Capability,
            Self::Receipt(_) => OutputKind::Receipt,
            Self::Malformed => OutputKind::Malformed,
            Self::Short => OutputKind::Short,
            Self::Set => OutputKind::Set,
        }
    }

    pub fn words(&self) -> OutputWords {
        let kind = self.kind();
        match self {
            Self::StartRefused(number) => record(kind, number.word(), []),
            Self::Unawaited => record(kind, NO_REPLY_AWAITED.word(), []),
            Self::Item(number, item) => item_words(kind, number.word(), item),
            Self::Polled(seen) => record(kind, seen.word(), []),
            Self::Leased(lease) => record(kind, 0, lease_words(lease)),
            Self::Refused(reason) => record(kind, reason.word(), []),
            Self::Settled(receipt) => record(kind, 0, receipt_words(receipt)),
            Self::State(state) => record(kind, state.word(), []),
            Self::Number(number) => record(kind, *number, []),
            Self::Config(fields) => record(kind, 0, fields.map(Word::word)),
            Self::Snapshot(snapshot) => record(kind, 0, snapshot_words(snapshot)),
            Self::Lease(Some(lease)) => record(kind, 1, lease_words(lease)),
            Self::Capability(Some(c)) => record(kind, 1, capability_words(c)),
            Self::Receipt(Some(receipt)) => record(kind, 1, receipt_words(receipt)),
            _ => record(kind, 0, []),
        }
    }

    /// Adds the record's 208 bytes.
    pub fn encode(&self, bytes: &mut Vec<u8>) {
        put_words(&self.words(), bytes);
    }

    pub fn decode(bytes: &[u8; OUTPUT_BYTES]) -> Option<Self> {
        Self::of(&get_words(bytes))
    }

    /// None if the words are no output record.
    pub fn of(words: &OutputWords) -> Option<Self> {
        let kind = OutputKind::of(words[0]).filter(|kind| kind.fits(words))?;
        let output = sound(kind, words);
        // What is not read has to be 0 here.
        (output.words() == *words).then_some(output)
    }
}

impl OutputKind {
    /// Whether each word is one that its field can hold.
    pub fn fits(self, words: &OutputWords) -> bool {
        (1..OUTPUT_WORDS).all(|n| match self.field(n) {
            Some(field) => field.of.holds(words[n]),
            None => words[n] == 0,
        })
    }
}

fn record<const N: usize>(kind: OutputKind, number: u64, fields: [u64; N]) -> OutputWords {
    let mut words = [0; OUTPUT_WORDS];
    words[0] = kind.number();
    words[1] = number;
    words[2..2 + N].copy_from_slice(&fields);
    words
}

fn item_words(kind: OutputKind, number: u64, item: &Item) -> OutputWords {
    match item {
        Item::Observe { resource } => record(kind, number, [resource.word()]),
        Item::Execute {
            capability,
            parameters,
        } => {
            let [parameter0, parameter1] = parameters.map(Word::word);
            record(kind, number, [capability.word(), parameter0, parameter1])
        }
        Item::Fallback { resource, reason } => {
            record(kind, number, [resource.word(), reason.word()])
        }
        Item::Record { receipt } => record(kind, number, receipt_words(receipt)),
    }
}

fn lease_words(l: &Lease) -> [u64; 11] {
    let [min0, max0, min1, max1] = bounds_words(&l.limits);
    [
        l.id,
        l.owner,
        l.resource.word(),
        l.capabilities,
        l.expires_at,
        min0,
        max0,
        min1,
        max1,
        l.last_sequence,
        l.last_renewal,
    ]
}

fn receipt_words(r: &Receipt) -> [u64; 24] {
    let [requested0, requested1] = r.requested.map(Word::word);
    let [observed0, observed1] = r.observed.map(Word::word);
    [
        r.boot_id,
        r.principal,
        r.safety_flags.word(),
        r.receipt_id,
        r.action_id,
        r.sequence,
        r.capability.word(),
        r.resource.word(),
        r.lease_id,
        r.decision.word(),
        r.reason.word(),
        r.epoch,
        r.received_at,
        r.admitted_at,
        r.executed_at,
        requested0,
        requested1,
        observed0,
        observed1,
        r.pre_state.word(),
        r.post_state.word(),
        r.original_receipt,
        r.dispatched.word(),
        r.observed_valid.word(),
    ]
}

fn snapshot_words(s: &Snapshot) -> [u64; 9] {
    [
        s.boot_id,
        s.epoch,
        s.now,
        s.sensor_tick,
        s.flags.word(),
        s.state.word(),
        s.active_leases.word(),
        s.retained_receipts.word(),
        s.next_receipt_id,
    ]
}

/// The output of words that fit their kind.
fn sound(kind: OutputKind, words: &OutputWords) -> Output {
    let number = words[1];
    let is_there = number == 1;
    let mut from = Taker(words[2..].iter());
    match kind {
        OutputKind::Listed => Output::Listed,
        OutputKind::Started => Output::Started,
        OutputKind::StartRefused => Output::StartRefused(Word::of(number)),
        OutputKind::NoRuntime => Output::NoRuntime,
        OutputKind::Unawaited => Output::Unawaited,
        OutputKind::Returned => Output::Returned,
        OutputKind::Polled => Output::Polled(Word::of(number)),
        OutputKind::Succeeded => Output::Succeeded,
        OutputKind::Leased => Output::Leased(from.lease()),
        OutputKind::Refused => Output::Refused(Word::of(number)),
        OutputKind::Settled => Output::Settled(from.receipt()),
        OutputKind::State => Output::State(Word::of(number)),
        OutputKind::Number => Output::Number(number),
        OutputKind::Config => Output::Config([(); 6].map(|()| from.take())),
        OutputKind::Snapshot => Output::Snapshot(from.snapshot()),
        OutputKind::Lease => Output::Lease(is_there.then(|| from.lease())),
        OutputKind::Capability => Output::Capability(is_there.then(|| from.capability())),
        OutputKind::Receipt => Output::Receipt(is_there.then(|| from.receipt())),
        OutputKind::Malformed => Output::Malformed,
        OutputKind::Short => Output::Short,
        OutputKind::Set => Output::Set,
        _ => Output::Item(Word::of(number), from.item(kind)),
    }
}

impl Taker<'_> {
    fn item(&mut self, kind: OutputKind) -> Item {
        match kind {
            OutputKind::Observe => Item::Observe {
                resource: self.take(),
            },
            OutputKind::Execute => Item::Execute {
                capability: self.take(),
                parameters: [self.take(), self.take()],
            },
            OutputKind::Fallback => Item::Fallback {
                resource: self.take(),
                reason: self.take(),
            },
            _ => Item::Record {
                receipt: self.receipt(),
            },
        }
    }

    fn lease(&mut self) -> Lease {
        Lease {
            id: self.take(),
            owner: self.take(),
            resource: self.take(),
            capabilities: self.take(),
            expires_at: self.take(),
            limits: self.bounds(),
            last_sequence: self.take(),
            last_renewal: self.take(),
        }
    }

    fn receipt(&mut self) -> Receipt {
        Receipt {
            boot_id: self.take(),
            principal: self.take(),
            safety_flags: self.take(),
            receipt_id: self.take(),
            action_id: self.take(),
            sequence: self.take(),
            capability: self.take(),
            resource: self.take(),
            lease_id: self.take(),
            decision: self.take(),
            reason: self.take(),
            epoch: self.take(),
            received_at: self.take(),
            admitted_at: self.take(),
            executed_at: self.take(),
            requested: [self.take(), self.take()],
            observed: [self.take(), self.take()],
            pre_state: self.take(),
            post_state: self.take(),
            original_receipt: self.take(),
            dispatched: self.take(),
            observed_valid: self.take(),
        }
    }

    fn snapshot(&mut self) -> Snapshot {
        Snapshot {
            boot_id: self.take(),
            epoch: self.take(),
            now: self.take(),
            sensor_tick: self.take(),
            flags: self.take(),
            state: self.take(),
            active_leases: self.take(),
            retained_receipts: self.take(),
            next_receipt_id: self.take(),
        }
    }
}
