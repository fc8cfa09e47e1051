//! The C functions of the archives, as in bindings/c/rolthai.h, in the order of crates/host, then of crates/card. Pointers are
//! those of as many words, and of the card bytes, as the count beside them says; a slice that is written overlaps no other one.

extern "C" {
    pub fn rolthai_size() -> usize;
    pub fn rolthai_clear(state: *mut u64, n: usize) -> u32;
    pub fn rolthai_new(
        state: *mut u64,
        n: usize,
        start: *const u64,
        start_n: usize,
        capabilities: *const u64,
        capabilities_n: usize,
    ) -> u32;
    pub fn rolthai_tick(state: *mut u64, n: usize, time: u64) -> u32;
    pub fn rolthai_update_state(state: *mut u64, n: usize, flags: u32, time: u64) -> u32;
    pub fn rolthai_emergency_stop(state: *mut u64, n: usize, time: u64) -> u32;
    pub fn rolthai_poll_estop(state: *mut u64, n: usize, raised: u32, time: u64) -> u32;
    pub fn rolthai_recover_local(state: *mut u64, n: usize, time: u64) -> u32;
    pub fn rolthai_acquire(state: *mut u64, n: usize, request: *const u64, request_n: usize)
        -> u32;
    pub fn rolthai_renew(
        state: *mut u64,
        n: usize,
        owner: u64,
        lease: u64,
        renewal: u64,
        duration_ms: u32,
        time: u64,
    ) -> u32;
    pub fn rolthai_cancel(state: *mut u64, n: usize, owner: u64, lease: u64, time: u64) -> u32;
    pub fn rolthai_submit(state: *mut u64, n: usize, order: *const u64, order_n: usize) -> u32;
    pub fn rolthai_observed(
        state: *mut u64,
        n: usize,
        ok: bool,
        value0: i32,
        value1: i32,
        sensed: u32,
    ) -> u32;
    pub fn rolthai_executed(state: *mut u64, n: usize, ok: bool) -> u32;
    pub fn rolthai_fell_back(state: *mut u64, n: usize, ok: bool) -> u32;
    pub fn rolthai_recorded(state: *mut u64, n: usize) -> u32;
    pub fn rolthai_item(state: *const u64, n: usize, out: *mut u64, out_n: usize) -> u32;
    pub fn rolthai_answered_lease(state: *const u64, n: usize, out: *mut u64, out_n: usize) -> u32;
    pub fn rolthai_answered_receipt(
        state: *const u64,
        n: usize,
        out: *mut u64,
        out_n: usize,
    ) -> u32;
    pub fn rolthai_refusal(state: *const u64, n: usize) -> u32;
    pub fn rolthai_state(state: *const u64, n: usize, out: *mut u64, out_n: usize) -> u32;
    pub fn rolthai_epoch(state: *const u64, n: usize, out: *mut u64, out_n: usize) -> u32;
    pub fn rolthai_boot_id(state: *const u64, n: usize, out: *mut u64, out_n: usize) -> u32;
    pub fn rolthai_flags(state: *const u64, n: usize, out: *mut u64, out_n: usize) -> u32;
    pub fn rolthai_receipt_count(state: *const u64, n: usize, out: *mut u64, out_n: usize) -> u32;
    pub fn rolthai_config(state: *const u64, n: usize, out: *mut u64, out_n: usize) -> u32;
    pub fn rolthai_snapshot(state: *const u64, n: usize, out: *mut u64, out_n: usize) -> u32;
    pub fn rolthai_lease(state: *const u64, n: usize, axis: u8, out: *mut u64, out_n: usize)
        -> u32;
    pub fn rolthai_capability(
        state: *const u64,
        n: usize,
        index: u64,
        out: *mut u64,
        out_n: usize,
    ) -> u32;
    pub fn rolthai_receipt(
        state: *const u64,
        n: usize,
        index: u64,
        out: *mut u64,
        out_n: usize,
    ) -> u32;
    pub fn rolthai_step(
        state: *mut u64,
        n: usize,
        record: *const u64,
        record_n: usize,
        out: *mut u64,
        out_n: usize,
    ) -> u32;
}

#[cfg(feature = "card")]
extern "C" {
    pub fn rolthai_card_head(card: *mut u8, card_len: usize) -> usize;
    pub fn rolthai_card_write(
        receipt: *const u8,
        receipt_len: usize,
        card: *mut u8,
        card_len: usize,
    ) -> usize;
    pub fn rolthai_card_read(
        card: *const u8,
        card_len: usize,
        at: usize,
        receipt: *mut u8,
        receipt_len: usize,
    ) -> u32;
}
