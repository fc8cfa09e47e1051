//! What runs input records.

/// Runs whole lives, as `rolthai_run` does.
pub trait Engine {
    /// Runs the input records and writes an output record for each; the number of bytes written.
    fn run(&mut self, input: &[u8], output: &mut [u8]) -> usize;

    /// What it saw by itself to be wrong in its last run, the first time.
    fn complaint(&self) -> Option<&str> {
        None
    }
}

/// The proved code, from the archive that is linked.
#[cfg(feature = "linked")]
pub struct Linked;

#[cfg(feature = "linked")]
impl Engine for Linked {
    fn run(&mut self, input: &[u8], output: &mut [u8]) -> usize {
        crate::ffi::run(input, output)
    }
}

/// The proved code; none in a build without `linked`.
pub fn linked() -> Option<Box<dyn Engine>> {
    #[cfg(feature = "linked")]
    return Some(Box::new(Linked));
    #[cfg(not(feature = "linked"))]
    None
}
