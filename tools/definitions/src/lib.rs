//! Holds the definitions of `crates/rules` to the Rust original.
//!
//! [`lives`] takes random lives from the oracle ([`choose`]), [`directed`] those that were written
//! by hand. Of each it makes a [`lives::Fact`]: its inputs ([`turns`], [`weave`]) with the outputs
//! that the Rust demands, as terms ([`text`]).
//! [`scratch`] writes the facts into a crate, [`prover`] has them computed, [`narrow`] finds
//! where a failed one first differs, and [`counts`] tells what the lives reached.

pub mod choose;
pub mod counts;
pub mod directed;
pub mod lives;
pub mod narrow;
pub mod opened;
pub mod options;
pub mod plant;
pub mod prover;
pub mod scratch;
pub mod text;
pub mod turns;
pub mod vary;
pub mod weave;
