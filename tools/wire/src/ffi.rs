//! The C functions of the proved archives. The only unsafe code of this tool.

#[cfg(feature = "host")]
pub use lent::{ask, refusal, size, step, tell};

#[cfg(feature = "linked")]
use std::os::raw::c_uchar;

#[cfg(feature = "linked")]
extern "C" {
    #[cfg_attr(feature = "counters", link_name = "rolthai_test_run")]
    fn rolthai_run(
        input: *const c_uchar,
        input_len: usize,
        output: *mut c_uchar,
        output_len: usize,
    ) -> usize;
}

/// Runs the input records and writes an output record for each; the number of bytes written.
/// In the build with `counters` it is the test entry.
#[cfg(feature = "linked")]
pub fn run(input: &[u8], output: &mut [u8]) -> usize {
    // SAFETY: each pointer is that of a slice, with its length, and the two don't overlap. The
    // function reads and writes inside them and keeps neither; it has no condition on the bytes.
    unsafe {
        rolthai_run(
            input.as_ptr(),
            input.len(),
            output.as_mut_ptr(),
            output.len(),
        )
    }
}

/// The functions over lent words.
#[cfg(feature = "host")]
mod lent {
    use crate::host::{Asked, Told};
    use definitions::turns::Reading;

    /// A reading without an argument.
    type Shows = unsafe extern "C" fn(*const u64, usize, *mut u64, usize) -> u32;
    /// One by index.
    type ShowsAt = unsafe extern "C" fn(*const u64, usize, u64, *mut u64, usize) -> u32;

    #[rustfmt::skip]
    extern "C" {
        fn rolthai_size() -> usize;
        fn rolthai_clear(state: *mut u64, n: usize) -> u32;
        fn rolthai_new(state: *mut u64, n: usize, start: *const u64, start_n: usize, capabilities: *const u64, capabilities_n: usize) -> u32;
        fn rolthai_tick(state: *mut u64, n: usize, time: u64) -> u32;
        fn rolthai_update_state(state: *mut u64, n: usize, flags: u32, time: u64) -> u32;
        fn rolthai_emergency_stop(state: *mut u64, n: usize, time: u64) -> u32;
        fn rolthai_poll_estop(state: *mut u64, n: usize, raised: u32, time: u64) -> u32;
        fn rolthai_recover_local(state: *mut u64, n: usize, time: u64) -> u32;
        fn rolthai_acquire(state: *mut u64, n: usize, request: *const u64, request_n: usize) -> u32;
        fn rolthai_renew(state: *mut u64, n: usize, owner: u64, lease: u64, renewal: u64, duration_ms: u32, time: u64) -> u32;
        fn rolthai_cancel(state: *mut u64, n: usize, owner: u64, lease: u64, time: u64) -> u32;
        fn rolthai_submit(state: *mut u64, n: usize, order: *const u64, order_n: usize) -> u32;
        fn rolthai_observed(state: *mut u64, n: usize, ok: bool, value0: i32, value1: i32, sensed: u32) -> u32;
        fn rolthai_executed(state: *mut u64, n: usize, ok: bool) -> u32;
        fn rolthai_fell_back(state: *mut u64, n: usize, ok: bool) -> u32;
        fn rolthai_recorded(state: *mut u64, n: usize) -> u32;
        fn rolthai_item(state: *const u64, n: usize, out: *mut u64, out_n: usize) -> u32;
        fn rolthai_answered_lease(state: *const u64, n: usize, out: *mut u64, out_n: usize) -> u32;
        fn rolthai_answered_receipt(state: *const u64, n: usize, out: *mut u64, out_n: usize) -> u32;
        fn rolthai_refusal(state: *const u64, n: usize) -> u32;
        fn rolthai_state(state: *const u64, n: usize, out: *mut u64, out_n: usize) -> u32;
        fn rolthai_epoch(state: *const u64, n: usize, out: *mut u64, out_n: usize) -> u32;
        fn rolthai_boot_id(state: *const u64, n: usize, out: *mut u64, out_n: usize) -> u32;
        fn rolthai_flags(state: *const u64, n: usize, out: *mut u64, out_n: usize) -> u32;
        fn rolthai_receipt_count(state: *const u64, n: usize, out: *mut u64, out_n: usize) -> u32;
        fn rolthai_config(state: *const u64, n: usize, out: *mut u64, out_n: usize) -> u32;
        fn rolthai_snapshot(state: *const u64, n: usize, out: *mut u64, out_n: usize) -> u32;
        fn rolthai_lease(state: *const u64, n: usize, axis: u8, out: *mut u64, out_n: usize) -> u32;
        fn rolthai_capability(state: *const u64, n: usize, index: u64, out: *mut u64, out_n: usize) -> u32;
        fn rolthai_receipt(state: *const u64, n: usize, index: u64, out: *mut u64, out_n: usize) -> u32;
        fn rolthai_step(state: *mut u64, n: usize, record: *const u64, record_n: usize, out: *mut u64, out_n: usize) -> u32;
    }

    // SAFETY, for all of them: each pointer is that of a slice, with its length, and those that are
    // written to overlap no other. The functions read and write inside them and keep none; they
    // have no condition on lengths and words.

    pub fn size() -> usize {
        // SAFETY: it has no argument.
        unsafe { rolthai_size() }
    }

    pub fn ask(state: &mut [u64], asked: &Asked<'_>) -> u32 {
        let (s, n) = (state.as_mut_ptr(), state.len());
        // SAFETY: see above.
        unsafe {
            match *asked {
                Asked::Clear => rolthai_clear(s, n),
                Asked::New {
                    start,
                    capabilities: c,
                } => rolthai_new(s, n, start.as_ptr(), start.len(), c.as_ptr(), c.len()),
                Asked::Tick { time } => rolthai_tick(s, n, time),
                Asked::UpdateState { flags, time } => rolthai_update_state(s, n, flags, time),
                Asked::EmergencyStop { time } => rolthai_emergency_stop(s, n, time),
                Asked::PollEstop { raised, time } => rolthai_poll_estop(s, n, raised, time),
                Asked::RecoverLocal { time } => rolthai_recover_local(s, n, time),
                Asked::Acquire(request) => rolthai_acquire(s, n, request.as_ptr(), request.len()),
                Asked::Renew {
                    owner,
                    lease,
                    renewal,
                    duration_ms,
                    time,
                } => rolthai_renew(s, n, owner, lease, renewal, duration_ms, time),
                Asked::Cancel { owner, lease, time } => rolthai_cancel(s, n, owner, lease, time),
                Asked::Submit(order) => rolthai_submit(s, n, order.as_ptr(), order.len()),
                Asked::Observed {
                    ok,
                    values: [value0, value1],
                    sensed,
                } => rolthai_observed(s, n, ok, value0, value1, sensed),
                Asked::Executed(ok) => rolthai_executed(s, n, ok),
                Asked::FellBack(ok) => rolthai_fell_back(s, n, ok),
                Asked::Recorded => rolthai_recorded(s, n),
            }
        }
    }

    pub fn tell(state: &[u64], told: Told, out: &mut [u64]) -> u32 {
        let (s, n) = (state.as_ptr(), state.len());
        let (o, out_n) = (out.as_mut_ptr(), out.len());
        // SAFETY: see above.
        let shows = |function: Shows| unsafe { function(s, n, o, out_n) };
        let shows_at = |function: ShowsAt, at| unsafe { function(s, n, at, o, out_n) };
        match told {
            Told::Item => shows(rolthai_item),
            Told::AnsweredLease => shows(rolthai_answered_lease),
            Told::AnsweredReceipt => shows(rolthai_answered_receipt),
            Told::Reading(Reading::State) => shows(rolthai_state),
            Told::Reading(Reading::Epoch) => shows(rolthai_epoch),
            Told::Reading(Reading::BootId) => shows(rolthai_boot_id),
            Told::Reading(Reading::Flags) => shows(rolthai_flags),
            Told::Reading(Reading::ReceiptCount) => shows(rolthai_receipt_count),
            Told::Reading(Reading::Config) => shows(rolthai_config),
            Told::Reading(Reading::Snapshot) => shows(rolthai_snapshot),
            // SAFETY: see above.
            Told::Reading(Reading::Lease(axis)) => unsafe {
                rolthai_lease(s, n, axis as u8, o, out_n)
            },
            Told::Reading(Reading::Capability(at)) => shows_at(rolthai_capability, at),
            Told::Reading(Reading::Receipt(at)) => shows_at(rolthai_receipt, at),
        }
    }

    pub fn refusal(state: &[u64]) -> u32 {
        // SAFETY: see above.
        unsafe { rolthai_refusal(state.as_ptr(), state.len()) }
    }

    pub fn step(state: &mut [u64], record: &[u64], out: &mut [u64]) -> u32 {
        // SAFETY: see above.
        unsafe {
            rolthai_step(
                state.as_mut_ptr(),
                state.len(),
                record.as_ptr(),
                record.len(),
                out.as_mut_ptr(),
                out.len(),
            )
        }
    }
}
