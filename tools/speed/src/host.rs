//! A host in Rust of the C functions of libhost.a, which are linked as a host links them: the words that it lends, its
//! calls, its replies, and what it reads.

use crate::lives::{BOOT, OWNER, SEEN};
use runtime_core::{Capability, Config};
use std::hint::black_box;
use wire::format::{Input, Opening, OutputWords, OUTPUT_WORDS};

#[rustfmt::skip]
extern "C" {
    fn rolthai_size() -> usize;
    fn rolthai_new(state: *mut u64, n: usize, start: *const u64, start_n: usize, capabilities: *const u64, capabilities_n: usize) -> u32;
    fn rolthai_tick(state: *mut u64, n: usize, time: u64) -> u32;
    fn rolthai_update_state(state: *mut u64, n: usize, flags: u32, time: u64) -> u32;
    fn rolthai_emergency_stop(state: *mut u64, n: usize, time: u64) -> u32;
    fn rolthai_poll_estop(state: *mut u64, n: usize, raised: u32, time: u64) -> u32;
    fn rolthai_recover_local(state: *mut u64, n: usize, time: u64) -> u32;
    fn rolthai_acquire(state: *mut u64, n: usize, request: *const u64, request_n: usize) -> u32;
    fn rolthai_renew(state: *mut u64, n: usize, owner: u64, lease: u64, renewal: u64, duration_ms: u32, time: u64) -> u32;
    fn rolthai_cancel(state: *mut u64, n: usize, owner: u64, lease: u64, time: u64) -> u32;
    fn rolthai_submit(state: *mut u64, n: usize, order: *const u64, order_n: usize) -> u32;
    fn rolthai_observed(state: *mut u64, n: usize, ok: bool, value0: i32, value1: i32, sensed: u32) -> u32;
    fn rolthai_executed(state: *mut u64, n: usize, ok: bool) -> u32;
    fn rolthai_fell_back(state: *mut u64, n: usize, ok: bool) -> u32;
    fn rolthai_recorded(state: *mut u64, n: usize) -> u32;
    fn rolthai_item(state: *const u64, n: usize, out: *mut u64, out_n: usize) -> u32;
    fn rolthai_answered_lease(state: *const u64, n: usize, out: *mut u64, out_n: usize) -> u32;
    fn rolthai_answered_receipt(state: *const u64, n: usize, out: *mut u64, out_n: usize) -> u32;
    fn rolthai_refusal(state: *const u64, n: usize) -> u32;
    fn rolthai_step(state: *mut u64, n: usize, record: *const u64, record_n: usize, out: *mut u64, out_n: usize) -> u32;
}

/// The words that a host lends.
pub const WORDS: usize = 2464;

/// What a host reads besides the answers: nothing, each item, each item and what an answer speaks of. The last is that
/// with every answer kept, for the comparison.
pub const ALONE: u8 = 0;
pub const ITEMS: u8 = 1;
pub const ALL: u8 = 2;
pub const KEPT: u8 = 3;

/// Answers that something is read after, and those that are a poll's.
const LEASED: u32 = 35;
const REFUSED: u32 = 36;
const SUBMITTED: u32 = 37;
const RAISED: u32 = 38;

/// A host, with the words it lends.
#[derive(Clone)]
pub struct Host {
    pub words: [u64; WORDS],
    out: OutputWords,
    /// The answer that hands out an item, as that of the start has it.
    item: u32,
    pub epoch: u64,
    pub request: [u64; 9],
    /// The sum of the answers that ended a call.
    pub sum: u64,
    /// With `KEPT`: what each call was answered.
    pub kept: Vec<OutputWords>,
}

// SAFETY, for all calls of the archive: each pointer is that of an array, with its length, and what is written overlaps
// nothing else. The functions keep no pointer, and have no condition on the words.
impl Host {
    /// A host of a started runtime.
    pub fn new(config: Config, capabilities: &[Capability]) -> Result<Box<Self>, String> {
        let size = unsafe { rolthai_size() };
        if size != WORDS {
            return Err(format!("{WORDS} words are lent, {size} are needed"));
        }
        let mut host = Box::new(Self {
            words: [0xA5; WORDS],
            out: [0; OUTPUT_WORDS],
            item: 0,
            epoch: 0,
            request: [0; 9],
            sum: 0,
            kept: Vec::new(),
        });
        let opening = Opening {
            boot_id: BOOT,
            now: 0,
            flags: 0,
            config,
        };
        let start = Input::Start(opening).words();
        let records = capabilities.iter().map(|c| Input::Capability(*c).words());
        let records: Vec<u64> = records.flat_map(|words| words[1..=13].to_vec()).collect();
        let state = host.words.as_mut_ptr();
        let mut answer = unsafe {
            rolthai_new(
                state,
                WORDS,
                start[1..].as_ptr(),
                9,
                records.as_ptr(),
                records.len(),
            )
        };
        host.item = answer;
        while answer == host.item {
            answer = host.turn();
        }
        if answer != 2 {
            return Err(format!("the start is answered {answer}"));
        }
        Ok(host)
    }

    pub fn step(&mut self, record: &[u64; 16]) -> u32 {
        unsafe {
            rolthai_step(
                self.words.as_mut_ptr(),
                WORDS,
                record.as_ptr(),
                16,
                self.out.as_mut_ptr(),
                OUTPUT_WORDS,
            )
        }
    }

    /// A step, and its output record.
    pub fn stepped(&mut self, record: &[u64; 16]) -> OutputWords {
        self.step(record);
        self.out
    }

    /// Whether the words are the same.
    pub fn is_as(&self, other: &Self) -> bool {
        self.words == other.words
    }

    /// What a record of a reading shows.
    pub fn shown(&mut self, reading: &Input) -> OutputWords {
        self.stepped(&reading.words())
    }

    #[inline]
    pub fn tick(&mut self, now: u64) -> u32 {
        unsafe { rolthai_tick(self.words.as_mut_ptr(), WORDS, now) }
    }

    #[inline]
    pub fn update_state(&mut self, flags: u32, now: u64) -> u32 {
        unsafe { rolthai_update_state(self.words.as_mut_ptr(), WORDS, flags, now) }
    }

    #[inline]
    pub fn emergency_stop(&mut self, now: u64) -> u32 {
        unsafe { rolthai_emergency_stop(self.words.as_mut_ptr(), WORDS, now) }
    }

    #[inline]
    pub fn poll_estop(&mut self, raised: u32, now: u64) -> u32 {
        unsafe { rolthai_poll_estop(self.words.as_mut_ptr(), WORDS, raised, now) }
    }

    #[inline]
    pub fn recover_local(&mut self, now: u64) -> u32 {
        unsafe { rolthai_recover_local(self.words.as_mut_ptr(), WORDS, now) }
    }

    #[inline]
    pub fn acquire(&mut self, request: &[u64; 9]) -> u32 {
        unsafe {
            rolthai_acquire(
                self.words.as_mut_ptr(),
                WORDS,
                request.as_ptr(),
                request.len(),
            )
        }
    }

    #[inline]
    pub fn renew(&mut self, lease: u64, renewal: u64, duration_ms: u32, now: u64) -> u32 {
        unsafe {
            rolthai_renew(
                self.words.as_mut_ptr(),
                WORDS,
                OWNER,
                lease,
                renewal,
                duration_ms,
                now,
            )
        }
    }

    #[inline]
    pub fn cancel(&mut self, lease: u64, now: u64) -> u32 {
        unsafe { rolthai_cancel(self.words.as_mut_ptr(), WORDS, OWNER, lease, now) }
    }

    #[inline]
    pub fn submit(&mut self, order: &[u64; 15]) -> u32 {
        unsafe { rolthai_submit(self.words.as_mut_ptr(), WORDS, order.as_ptr(), order.len()) }
    }

    #[inline]
    pub fn observed(&mut self) -> u32 {
        let seen = black_box(SEEN);
        let [value0, value1] = seen.parameters;
        unsafe {
            rolthai_observed(
                self.words.as_mut_ptr(),
                WORDS,
                true,
                value0,
                value1,
                seen.state,
            )
        }
    }

    #[inline]
    pub fn executed(&mut self) -> u32 {
        unsafe { rolthai_executed(self.words.as_mut_ptr(), WORDS, true) }
    }

    #[inline]
    pub fn fell_back(&mut self) -> u32 {
        unsafe { rolthai_fell_back(self.words.as_mut_ptr(), WORDS, true) }
    }

    #[inline]
    pub fn recorded(&mut self) -> u32 {
        unsafe { rolthai_recorded(self.words.as_mut_ptr(), WORDS) }
    }

    /// The replies to a fallback of each of so many axes, and to its receipt.
    #[inline]
    pub fn fall_backs(&mut self, axes: u64) -> u32 {
        let mut last = u32::MAX;
        for _ in 0..axes {
            self.fell_back();
            last = self.recorded();
        }
        last
    }

    /// Reads the item and replies; another number than an answer's where it is none.
    #[inline]
    fn turn(&mut self) -> u32 {
        let kind = unsafe {
            rolthai_item(
                self.words.as_ptr(),
                WORDS,
                self.out.as_mut_ptr(),
                OUTPUT_WORDS,
            )
        };
        match kind {
            16 => self.observed(),
            17 => self.executed(),
            18 => self.fell_back(),
            19 => self.recorded(),
            _ => u32::MAX,
        }
    }

    /// The end of a call that was answered so: `replies` are those of a host that reads no item, and give the last answer.
    #[inline]
    pub fn end<const READ: u8>(&mut self, answer: u32, replies: impl FnOnce(&mut Self) -> u32) {
        let mut last = answer;
        if READ == ALONE {
            last = replies(self);
        } else {
            while last == self.item {
                last = self.turn();
            }
        }
        self.sum = self.sum.wrapping_add(u64::from(last));
        if READ >= ALL {
            let (state, out) = (self.words.as_ptr(), self.out.as_mut_ptr());
            match last {
                LEASED => unsafe { rolthai_answered_lease(state, WORDS, out, OUTPUT_WORDS) },
                SUBMITTED => unsafe { rolthai_answered_receipt(state, WORDS, out, OUTPUT_WORDS) },
                _ => 0,
            };
        }
        if READ == KEPT {
            self.keep(last);
        }
    }

    /// Keeps an answer as its record.
    fn keep(&mut self, answer: u32) {
        let mut words = [0; OUTPUT_WORDS];
        words[0] = u64::from(answer);
        match answer {
            LEASED | SUBMITTED => words = self.out,
            REFUSED => words[1] = u64::from(unsafe { rolthai_refusal(self.words.as_ptr(), WORDS) }),
            RAISED => words[..2].copy_from_slice(&[33, 1]),
            _ => {}
        }
        self.kept.push(words);
    }
}
