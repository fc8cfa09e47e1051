//! The original `runtime-core`: `build.rs` takes its files unchanged from the source folder.

include!(concat!(env!("OUT_DIR"), "/root.rs"));

/// What no reading of a `Runtime` shows, with the two stamps that `Snapshot` shows too.
/// Only the build with `counters` can read it.
#[derive(Clone, Debug, PartialEq, Eq)]
pub struct Hidden {
    pub last_tick: u64,
    pub state_at: u64,
    pub next_lease: u64,
    pub invalid_count: u16,
    pub estop_seen: u32,
    /// Newest first, at most `REPLAY_CAPACITY`.
    pub replay: Vec<ReplayEntry>,
    pub active: [Option<ActiveOrder>; MAX_RESOURCES],
}

/// One admitted order in the replay ring.
#[derive(Clone, Copy, Debug, PartialEq, Eq)]
pub struct ReplayEntry {
    pub owner: u64,
    pub action_id: u64,
    pub receipt: u64,
}

/// The supervised order of one axis.
#[derive(Clone, Copy, Debug, PartialEq, Eq)]
pub struct ActiveOrder {
    pub capability: Capability,
    pub expires_at: u64,
}
