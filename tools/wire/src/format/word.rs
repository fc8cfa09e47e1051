//! Values that fill one word, and records as bytes.

use oracle::life::Counter;
use oracle::runtime_core::{Decision, ExecutionClass, Reason, RuntimeState};

/// A value that fills one word.
pub trait Word: Copy {
    fn word(self) -> u64;

    /// The value of a word that its type holds.
    fn of(word: u64) -> Self;
}

macro_rules! numbers {
    ($($number:ty)*) => {
        $(impl Word for $number {
            fn word(self) -> u64 {
                self as u64
            }
            fn of(word: u64) -> Self {
                word as Self
            }
        })*
    };
}

numbers!(u8 u16 u32 u64 usize);

impl Word for i32 {
    /// The 32 bits, with zero bits above.
    fn word(self) -> u64 {
        (self as u32).into()
    }
    fn of(word: u64) -> Self {
        word as u32 as Self
    }
}

impl Word for bool {
    fn word(self) -> u64 {
        self.into()
    }
    fn of(word: u64) -> Self {
        word != 0
    }
}

/// Enums whose number is their place in a list.
macro_rules! listed {
    ($($name:ident: $list:ident;)*) => {
        $(impl Word for $name {
            fn word(self) -> u64 {
                self as u64
            }
            fn of(word: u64) -> Self {
                $list[word as usize % $list.len()]
            }
        })*
    };
}

listed! {
    ExecutionClass: CLASSES;
    RuntimeState: STATES;
    Decision: DECISIONS;
    Reason: REASONS;
    Counter: COUNTERS;
}

pub const CLASSES: [ExecutionClass; 3] = [
    ExecutionClass::Stream,
    ExecutionClass::Discrete,
    ExecutionClass::Control,
];

pub const STATES: [RuntimeState; 4] = [
    RuntimeState::SafeIdle,
    RuntimeState::Armed,
    RuntimeState::Faulted,
    RuntimeState::Estopped,
];

pub const DECISIONS: [Decision; 5] = [
    Decision::Executed,
    Decision::Rejected,
    Decision::Fallback,
    Decision::Control,
    Decision::Failed,
];

pub const REASONS: [Reason; 28] = [
    Reason::Ok,
    Reason::Bound,
    Reason::Stale,
    Reason::Authority,
    Reason::Duplicate,
    Reason::Precondition,
    Reason::OldSequence,
    Reason::Epoch,
    Reason::UnknownCapability,
    Reason::TooEarly,
    Reason::Invalid,
    Reason::Estop,
    Reason::Faulted,
    Reason::Watchdog,
    Reason::LeaseExpired,
    Reason::StreamExpired,
    Reason::Driver,
    Reason::Verification,
    Reason::Clock,
    Reason::Busy,
    Reason::Canceled,
    Reason::InvalidStorm,
    Reason::StateStale,
    Reason::BootMismatch,
    Reason::LeaseGranted,
    Reason::LeaseRenewed,
    Reason::Recovered,
    Reason::Startup,
];

const COUNTERS: [Counter; 3] = Counter::EXHAUSTIBLE;

pub const WORD_BYTES: usize = 8;

/// Adds the words, little end first.
pub fn put_words(words: &[u64], bytes: &mut Vec<u8>) {
    let from = bytes.len();
    bytes.resize(from + words.len() * WORD_BYTES, 0);
    let places = bytes[from..].chunks_exact_mut(WORD_BYTES);
    for (place, word) in places.zip(words) {
        place.copy_from_slice(&word.to_le_bytes());
    }
}

/// The first `N` words; 0 where the bytes end before.
pub fn get_words<const N: usize>(bytes: &[u8]) -> [u64; N] {
    let mut words = [0; N];
    for (word, place) in words.iter_mut().zip(bytes.chunks_exact(WORD_BYTES)) {
        *word = place
            .iter()
            .rev()
            .fold(0, |high, byte| (high << 8) | u64::from(*byte));
    }
    words
}

/// Words that are taken one after the other, each of a type that was tested before.
pub struct Taker<'a>(pub std::slice::Iter<'a, u64>);

impl Taker<'_> {
    /// The next word; 0 past the end.
    pub fn take<T: Word>(&mut self) -> T {
        T::of(self.0.next().copied().unwrap_or(0))
    }
}
