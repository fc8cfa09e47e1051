//! The tester's tool. [`session`] makes lives with the PC and the panel at the stage, [`campaign`]
//! four kinds of trials of them; [`trial`] runs one on an engine and compares it with the Rust,
//! [`facts`] judge what came out by themselves, [`runs`] runs a whole campaign. [`host`] talks to
//! an engine by its own answers, [`lent`] is the proved code over lent words, [`timeline`] and [`picture`] tell the [`story`] of a life, and
//! [`plant`] makes engines wrong on purpose.

#![forbid(unsafe_code)]

pub mod book;
pub mod campaign;
pub mod facts;
pub mod host;
pub mod lent;
pub mod log;
pub mod options;
pub mod picture;
pub mod plant;
pub mod report;
pub mod runs;
pub mod session;
pub mod story;
pub mod timeline;
pub mod trial;
