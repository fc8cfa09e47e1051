//! The raise number of an emergency stop (model.rs of the original).

use core::sync::atomic::{AtomicU32, Ordering};

/// Raised by an interrupt, and handed to `Stage::poll_estop` by the main loop.
#[derive(Debug, Default)]
#[repr(transparent)]
pub struct EstopSignal(AtomicU32);

impl EstopSignal {
    pub const fn new() -> Self {
        Self(AtomicU32::new(0))
    }

    /// From any interrupt or thread. Load and store alone, for targets without more; raises at once may merge into one.
    pub fn raise(&self) {
        let count = self.0.load(Ordering::Acquire);
        self.0.store(count.wrapping_add(1), Ordering::Release);
    }

    pub fn raised(&self) -> u32 {
        self.0.load(Ordering::Acquire)
    }
}
