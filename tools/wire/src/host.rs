//! The functions of `crates/host`: a runtime in words that a host lends.

use crate::format::layout::InputKind;
use crate::format::word::Word;
use crate::format::{InputWords, OutputWords, OUTPUT_WORDS};
use definitions::turns::Reading;

/// How many words a host lends.
pub const STATE_WORDS: usize = 2464;

/// The first of them: the letters ROLTHAI, then the version.
pub const FIRST: u64 = 0x524f_4c54_4841_4901;

/// The words of a start and of each capability, without their kinds.
pub const START_FIELDS: usize = 9;
pub const CAPABILITY_FIELDS: usize = 13;

/// What is wrong with slices.
pub const MALFORMED: u32 = 64;
pub const SHORT: u32 = 65;
pub const OTHER: u32 = 66;

/// The answer to a record of another length.
pub const OTHER_RECORD: u32 = MALFORMED;

/// An item is handed out; its own record says which.
pub const ITEM: u32 = 20;

/// A function that the words may be altered by.
#[derive(Clone, Copy, Debug, PartialEq, Eq)]
pub enum Asked<'a> {
    Clear,
    New {
        start: &'a [u64],
        capabilities: &'a [u64],
    },
    Tick {
        time: u64,
    },
    UpdateState {
        flags: u32,
        time: u64,
    },
    EmergencyStop {
        time: u64,
    },
    PollEstop {
        raised: u32,
        time: u64,
    },
    RecoverLocal {
        time: u64,
    },
    Acquire(&'a [u64]),
    Renew {
        owner: u64,
        lease: u64,
        renewal: u64,
        duration_ms: u32,
        time: u64,
    },
    Cancel {
        owner: u64,
        lease: u64,
        time: u64,
    },
    Submit(&'a [u64]),
    Observed {
        ok: bool,
        values: [i32; 2],
        sensed: u32,
    },
    Executed(bool),
    FellBack(bool),
    Recorded,
}

impl<'a> Asked<'a> {
    /// The call or the reply that a record is. None for the other kinds, and for words that are
    /// no arguments; a slice may hold what its fields can't.
    pub fn of(words: &'a InputWords) -> Option<Self> {
        let kind = InputKind::of(words[0])?;
        let used = kind.fields().len();
        let fields = &words[1..=used];
        let slice = words[1 + used..].iter().all(|word| *word == 0);
        match kind {
            InputKind::Acquire if slice => return Some(Self::Acquire(fields)),
            InputKind::Submit => return Some(Self::Submit(fields)),
            _ if !kind.fits(words) => return None,
            _ => {}
        }
        let time = words[1];
        Some(match kind {
            InputKind::Tick => Self::Tick { time },
            InputKind::UpdateState => Self::UpdateState {
                flags: Word::of(words[2]),
                time,
            },
            InputKind::EmergencyStop => Self::EmergencyStop { time },
            InputKind::PollEstop => Self::PollEstop {
                raised: Word::of(words[2]),
                time,
            },
            InputKind::RecoverLocal => Self::RecoverLocal { time },
            InputKind::Renew => Self::Renew {
                owner: words[2],
                lease: words[3],
                renewal: words[4],
                duration_ms: Word::of(words[5]),
                time,
            },
            InputKind::Cancel => Self::Cancel {
                owner: words[2],
                lease: words[3],
                time,
            },
            InputKind::Observed => Self::Observed {
                ok: Word::of(words[1]),
                values: [Word::of(words[2]), Word::of(words[3])],
                sensed: Word::of(words[4]),
            },
            InputKind::Executed => Self::Executed(Word::of(words[1])),
            InputKind::FellBack => Self::FellBack(Word::of(words[1])),
            InputKind::Recorded => Self::Recorded,
            _ => return None,
        })
    }
}

/// What a host can be told; the words are not altered by it.
#[derive(Clone, Copy, Debug, PartialEq, Eq)]
pub enum Told {
    Item,
    AnsweredLease,
    AnsweredReceipt,
    /// An axis has to fit in a byte.
    Reading(Reading),
}

/// Each function answers a number.
pub trait Host {
    fn ask(&mut self, state: &mut [u64], asked: &Asked<'_>) -> u32;

    fn tell(&mut self, state: &[u64], told: Told, out: &mut [u64]) -> u32;

    /// The reason of the last refusal.
    fn refusal(&mut self, state: &[u64]) -> u32;

    fn step(&mut self, state: &mut [u64], record: &[u64], out: &mut [u64]) -> u32;
}

/// The output record whose kind or refusal is this number, if it has no other words.
pub fn plain(number: u32) -> Option<OutputWords> {
    let (kind, second) = match number {
        2 | 4 | 32 | 33 | 34 | 64 => (number, 0),
        38 => (33, 1),
        101..=105 => (3, number),
        112 => (5, number),
        _ => return None,
    };
    let mut words = [0; OUTPUT_WORDS];
    words[0] = kind.into();
    words[1] = second.into();
    Some(words)
}

/// The proved code, from the archive that is linked.
#[cfg(feature = "host")]
pub struct Linked;

#[cfg(feature = "host")]
impl Host for Linked {
    fn ask(&mut self, state: &mut [u64], asked: &Asked<'_>) -> u32 {
        crate::ffi::ask(state, asked)
    }

    fn tell(&mut self, state: &[u64], told: Told, out: &mut [u64]) -> u32 {
        crate::ffi::tell(state, told, out)
    }

    fn refusal(&mut self, state: &[u64]) -> u32 {
        crate::ffi::refusal(state)
    }

    fn step(&mut self, state: &mut [u64], record: &[u64], out: &mut [u64]) -> u32 {
        crate::ffi::step(state, record, out)
    }
}

/// The proved code; none in a build without `host`.
pub fn linked() -> Option<Box<dyn Host>> {
    #[cfg(feature = "host")]
    return Some(Box::new(Linked));
    #[cfg(not(feature = "host"))]
    None
}
