//! One input record with the output record that the Rust demands.

use crate::format::layout::InputKind;
use crate::format::{Input, InputWords, Output};
use definitions::turns::Reply;
use oracle::driver::Item;

/// Whether a reply is of the kind that the item asks for.
pub const fn fits(reply: &Reply, item: &Item) -> bool {
    matches!(
        (reply, item),
        (Reply::Observed(_), Item::Observe { .. })
            | (Reply::Executed(_), Item::Execute { .. })
            | (Reply::FellBack(_), Item::Fallback { .. })
            | (Reply::Recorded, Item::Record { .. })
    )
}

/// Where the runtime stands when an input comes.
#[derive(Clone, Copy, Debug, PartialEq, Eq)]
pub enum At {
    /// There is no runtime: before a start, or after a refused one.
    Nowhere,
    /// A reply to a startup fallback is awaited.
    Starting,
    /// Between two calls.
    Idle,
    /// A reply is awaited.
    Waiting,
}

impl At {
    pub const ALL: [Self; 4] = [Self::Nowhere, Self::Starting, Self::Idle, Self::Waiting];
}

#[derive(Clone, Copy, Debug, PartialEq, Eq)]
pub struct Turn {
    pub input: Input,
    pub output: Output,
    pub at: At,
    /// Put into the life, and can be left out.
    pub woven: bool,
    /// What stands in the fields that are not read.
    pub unread: u32,
}

impl Turn {
    /// The words of the input record.
    pub fn input_words(&self) -> InputWords {
        let mut words = self.input.words();
        if self.unread == 0 {
            return words;
        }
        let kind = self.input.kind();
        let unread = |n: usize, kind: InputKind| {
            kind.field(n).is_some() && !kind.reads(n, &self.input.words())
        };
        for (n, word) in words.iter_mut().enumerate().skip(1) {
            if kind.is_some_and(|kind| unread(n, kind)) {
                *word = self.unread.into();
            }
        }
        words
    }
}

/// What a life came to on the Rust.
#[derive(Clone, Copy, Debug, Default, PartialEq, Eq)]
pub struct Reached {
    /// Calls that met a runtime.
    pub calls: u64,
    pub admitted: usize,
    /// All that were written, those dropped since included.
    pub receipts: usize,
    /// It ends while a reply is awaited.
    pub cut: bool,
    /// It sets a counter.
    pub sets: bool,
}

/// Takes the turns of lives, one after the other.
pub trait Sink {
    fn turn(&mut self, turn: &Turn);

    /// A life is over.
    fn end(&mut self, _: &Reached) {}
}

impl Sink for Vec<Turn> {
    fn turn(&mut self, turn: &Turn) {
        self.push(*turn);
    }
}
