//! Lives as bytes: the records of docs/WIRE.md, and the proved code beside the Rust original.
//!
//! [`format`] has the records. [`lives`] takes random lives from the oracle, [`play`] runs them on
//! the Rust, turn by turn, and [`weave`] puts readings and inputs out of place into them. A
//! [`batch::Batch`] holds many lives as bytes, [`compare`] runs them on an [`engine::Engine`],
//! [`shrink`] makes a failing life small, and [`counts`] tells what was run. [`vectors`] are
//! inputs and outputs that can be stored. [`machine`] is an engine over the Rust.
//!
//! [`host`] has the functions over lent words, [`stepping`] is an engine that goes by them, record
//! by record, and [`lent`] has them over the Rust.

#![deny(unsafe_code)]

pub mod batch;
pub mod compare;
pub mod counts;
pub mod engine;
pub mod format;
pub mod host;
pub mod lent;
pub mod lives;
pub mod machine;
pub mod malformed;
pub mod odd;
pub mod options;
pub mod play;
pub mod report;
pub mod shrink;
pub mod stepping;
pub mod turn;
pub mod vectors;
pub mod weave;

#[cfg(any(feature = "linked", feature = "host"))]
#[allow(unsafe_code)]
pub mod ffi;
