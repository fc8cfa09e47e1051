//! Receipts on a memory card: the file of docs/CARD.md.
//!
//! [`format`] writes and reads it, from the request's text alone. [`functions`] has the three
//! functions that a host calls as values: over [`format`], or the proved ones. [`compare`] holds
//! any such functions against [`format`], on [`samples`]. [`vectors`] has the files that the proved
//! program `crates/card_main` is run on, some of them from the [`document`]. [`filing`] runs a life
//! for its receipts, and [`show`] tells a card in words.

#![deny(unsafe_code)]

pub mod compare;
pub mod digits;
pub mod document;
pub mod filing;
pub mod format;
pub mod functions;
pub mod options;
pub mod samples;
pub mod show;
pub mod vectors;
pub mod words;

#[cfg(feature = "proved")]
#[allow(unsafe_code)]
pub mod proved;
