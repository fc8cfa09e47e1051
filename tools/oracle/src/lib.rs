//! The oracle: runs the Rust `runtime-core`, unchanged, with a scripted driver.
//!
//! A [`life::Life`] is a start and a list of calls with the driver's replies. [`parse`] reads
//! lives from text, `Display` writes them back. [`run::run_life`] gives a [`run::LifeTrace`]:
//! every driver call, every answer and every reading, those during a wait included.
//! [`generate::Generator`] makes random lives; [`counts::Counts`] tells what they reached.

pub mod checks;
pub mod counts;
pub mod driver;
pub mod generate;
pub mod history;
pub mod life;
pub mod parse;
pub mod prng;
pub mod run;
pub mod show;

pub use runtime_core;

/// Whether this is the build with `counters`, which can set counters and read hidden fields.
pub const HAS_COUNTERS: bool = cfg!(feature = "counters");
