//! The records of docs/WIRE.md: [`Input`] and [`Output`], to bytes and back.
//!
//! [`layout`] has every number and every field, [`show`] writes records for people.

mod input;
pub mod layout;
mod output;
pub mod show;
pub mod word;

pub use input::{Input, InputWords, Opening, INPUT_BYTES, INPUT_WORDS};
pub use output::{Output, OutputWords, OUTPUT_BYTES, OUTPUT_WORDS};
