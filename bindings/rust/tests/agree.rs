//! Each function beside its record (`rolthai_step`): random lives, one by functions and one by records, answer the same and leave the same words; and words that
//! are no runtime's are answered, with nothing outside of them altered.

use rolthai::raw::*;
use rolthai::{OUT_WORDS, RECORD_WORDS, WORDS};

const CAPABILITIES: [[u64; 13]; 3] = [
    [
        1,
        0,
        0,
        2,
        bits(-1000),
        1000,
        bits(-2000),
        2000,
        0,
        15,
        0,
        0,
        0,
    ],
    [2, 0, 2, 0, 0, 0, 0, 0, 0, 0, 0, 0, 0],
    [3, 1, 1, 0, 0, 0, 0, 0, 0, 17, 1, 1, 1],
];

const fn bits(value: i32) -> u64 {
    value as u32 as u64
}

/// xorshift64*
struct Random(u64);

impl Random {
    fn next(&mut self) -> u64 {
        self.0 ^= self.0 >> 12;
        self.0 ^= self.0 << 25;
        self.0 ^= self.0 >> 27;
        self.0.wrapping_mul(0x2545_f491_4f6c_dd1d)
    }

    fn below(&mut self, n: u64) -> u64 {
        self.next() % n
    }

    fn likely(&mut self) -> bool {
        self.below(16) != 0
    }
}

type Record = [u64; RECORD_WORDS];
type Out = [u64; OUT_WORDS];

fn record(words: &[u64]) -> Record {
    let mut record = [0; RECORD_WORDS];
    record[..words.len()].copy_from_slice(words);
    record
}

fn stepped(state: &mut [u64], record: &Record) -> (u32, Out) {
    let mut out = [0; OUT_WORDS];
    // SAFETY: slices that don't overlap, each with its length.
    let kind = unsafe {
        rolthai_step(
            state.as_mut_ptr(),
            state.len(),
            record.as_ptr(),
            record.len(),
            out.as_mut_ptr(),
            out.len(),
        )
    };
    (kind, out)
}

/// The function of a record: its answer, and the record that says the same.
fn called(state: &mut [u64], r: &Record) -> Out {
    let n = state.len();
    let w = state.as_mut_ptr();
    let flag = r[1] == 1;
    let i32_of = |word: u64| word as u32 as i32;
    let mut out = [0; OUT_WORDS];
    let o = out.as_mut_ptr();
    // SAFETY: as in `stepped`.
    let number = unsafe {
        match r[0] {
            2 => {
                let listed = CAPABILITIES.as_flattened();
                rolthai_new(w, n, r[1..].as_ptr(), 9, listed.as_ptr(), listed.len())
            }
            16 => rolthai_tick(w, n, r[1]),
            17 => rolthai_update_state(w, n, r[2] as u32, r[1]),
            18 => rolthai_emergency_stop(w, n, r[1]),
            19 => rolthai_poll_estop(w, n, r[2] as u32, r[1]),
            20 => rolthai_recover_local(w, n, r[1]),
            21 => rolthai_acquire(w, n, r[1..].as_ptr(), 9),
            22 => rolthai_renew(w, n, r[2], r[3], r[4], r[5] as u32, r[1]),
            23 => rolthai_cancel(w, n, r[2], r[3], r[1]),
            24 => rolthai_submit(w, n, r[1..].as_ptr(), 15),
            32 => rolthai_observed(w, n, flag, i32_of(r[2]), i32_of(r[3]), r[4] as u32),
            33 => rolthai_executed(w, n, flag),
            34 => rolthai_fell_back(w, n, flag),
            35 => rolthai_recorded(w, n),
            48 => rolthai_state(w, n, o, OUT_WORDS),
            49 => rolthai_epoch(w, n, o, OUT_WORDS),
            50 => rolthai_boot_id(w, n, o, OUT_WORDS),
            51 => rolthai_flags(w, n, o, OUT_WORDS),
            52 => rolthai_receipt_count(w, n, o, OUT_WORDS),
            53 => rolthai_config(w, n, o, OUT_WORDS),
            54 => rolthai_snapshot(w, n, o, OUT_WORDS),
            55 => rolthai_lease(w, n, r[1] as u8, o, OUT_WORDS),
            56 => rolthai_capability(w, n, r[1], o, OUT_WORDS),
            57 => rolthai_receipt(w, n, r[1], o, OUT_WORDS),
            kind => panic!("no function for {kind}"),
        }
    };
    if r[0] >= 48 {
        assert_eq!(u64::from(number), out[0]);
        return out;
    }
    // What the answer speaks of.
    // SAFETY: as in `stepped`.
    unsafe {
        match number {
            20 | 111 | 113 => {
                rolthai_item(w, n, o, OUT_WORDS);
                out[1] = if number == 20 { 0 } else { number.into() };
            }
            33 | 38 => (out[0], out[1]) = (33, u64::from(number == 38)),
            35 => assert_eq!(rolthai_answered_lease(w, n, o, OUT_WORDS), 35),
            36 => (out[0], out[1]) = (36, rolthai_refusal(w, n).into()),
            37 => assert_eq!(rolthai_answered_receipt(w, n, o, OUT_WORDS), 37),
            101..=105 => (out[0], out[1]) = (3, number.into()),
            112 => (out[0], out[1]) = (5, 112),
            _ => out[0] = number.into(),
        }
    }
    out
}

struct Life {
    random: Random,
    now: u64,
    raised: u64,
    kinds: [usize; 70],
}

impl Life {
    /// The reply that an output asks for, mostly; else some call or reading. An order is mostly one of the lease on axis 0.
    fn next(&mut self, last: &Out, epoch: u64, lease: &Out) -> Record {
        let random = &mut self.random;
        let ok = u64::from(random.below(64) != 0);
        let seen = [bits(300), bits(-50), 1];
        if (16..20).contains(&last[0]) && random.likely() {
            return match last[0] {
                16 => record(&[32, ok, seen[0], seen[1], seen[2]]),
                17 => record(&[33, ok]),
                18 => record(&[34, ok]),
                _ => record(&[35]),
            };
        }
        self.now = match random.below(100) {
            0 => self.now.saturating_sub(random.below(60)),
            1 => self.now + 60,
            _ => self.now + random.below(6),
        };
        let now = self.now;
        let (id, owner) = match random.likely() {
            true => (lease[2], lease[3]),
            false => (1 + random.below(6), 7 + random.below(2)),
        };
        match random.below(32) {
            0 => record(&[16, now]),
            1 => record(&[17, now, 2 * u64::from(random.below(8) == 0)]),
            2 if random.below(4) == 0 => record(&[18, now]),
            3 => {
                self.raised += u64::from(random.below(8) == 0);
                record(&[19, now, self.raised])
            }
            4..=8 => record(&[17, now, 0]),
            9 | 10 => record(&[20, now]),
            11..=14 => {
                let axis = random.below(3);
                let mask = [6, 8, 2][axis as usize];
                let (min, max) = (bits(i32::MIN), bits(i32::MAX));
                record(&[21, now, 7, axis, mask, 500, min, max, min, max])
            }
            15 => record(&[22, now, owner, id, random.below(5), 400]),
            16 if random.below(4) == 0 => record(&[23, now, owner, id]),
            17..=24 => {
                let (action, sequence) = (1 + random.below(99), lease[11] + random.below(4));
                let capability = 1 + random.below(3) / 2;
                let epoch = epoch + u64::from(!random.likely());
                let named = [owner, id, action, sequence, capability, epoch];
                let mut order = record(&[24, now, owner, now, 42]);
                order[5..11].copy_from_slice(&named);
                order[11..].copy_from_slice(&[0, now + 50, 50, seen[0], seen[1]]);
                order
            }
            25 => record(&[32 + random.below(4)]),
            26 => record(&[55, random.below(9)]),
            27 => record(&[56, random.below(5)]),
            28 => record(&[57, random.below(70)]),
            _ => record(&[48 + random.below(7)]),
        }
    }
}

#[test]
fn functions_and_records_agree() {
    let mut life = Life {
        random: Random(1),
        now: 0,
        raised: 0,
        kinds: [0; 70],
    };
    for _ in 0..60 {
        let mut by_call = vec![life.random.next(); WORDS];
        let mut by_record = by_call.clone();
        // SAFETY: a slice with its length.
        assert_eq!(unsafe { rolthai_clear(by_record.as_mut_ptr(), WORDS) }, 0);
        for words in &CAPABILITIES {
            let mut listed = record(&[1]);
            listed[1..14].copy_from_slice(words);
            assert_eq!(stepped(&mut by_record, &listed).0, 1);
        }
        (life.now, life.raised) = (0, 0);
        let mut next = record(&[2, 42, 0, 0, 50, 250, 2000, 1000, 32, 1]);
        for _ in 0..400 {
            let (kind, out) = stepped(&mut by_record, &next);
            assert_eq!(called(&mut by_call, &next), out, "{next:?}");
            assert_eq!(u64::from(kind), out[0]);
            life.kinds[kind as usize] += 1;
            let epoch = stepped(&mut by_record, &record(&[49])).1[1];
            let lease = stepped(&mut by_record, &record(&[55, 0])).1;
            next = life.next(&out, epoch, &lease);
        }
        // From there on stands what was listed for the start, which records list one by one.
        assert_eq!(by_call[..2220], by_record[..2220]);
    }
    // Every kind of answer came.
    let never = |kind: &usize| life.kinds[*kind] == 0;
    let known = [2, 4, 5, 16, 17, 18, 19, 32, 33, 34, 35, 36, 37];
    let known = known.into_iter().chain([48, 49]).chain(53..=57);
    let missing: Vec<usize> = known.filter(never).collect();
    assert!(missing.is_empty(), "never: {missing:?}");
}

/// The first word and anything after it.
#[test]
fn any_words_are_answered() {
    let mut random = Random(2);
    let mut good = vec![0; WORDS];
    // SAFETY: a slice with its length.
    assert_eq!(unsafe { rolthai_clear(good.as_mut_ptr(), WORDS) }, 0);
    for round in 0..400 {
        let mut state = vec![0; WORDS + 8];
        for word in &mut state {
            *word = match random.below(4) {
                0 => random.next(),
                1 => random.below(70),
                2 if round % 2 == 0 => u64::MAX,
                _ => 0,
            };
        }
        state[0] = good[0];
        let beyond = state[WORDS..].to_vec();
        for kind in (16..=24).chain(32..=35).chain(48..=57) {
            let mut asked = record(&[kind]);
            for word in &mut asked[1..] {
                *word = random.below(3);
            }
            let out = called(&mut state[..WORDS], &asked);
            assert_ne!(out[0], 66);
            assert_eq!(state[0], good[0]);
        }
        assert_eq!(state[WORDS..], beyond);
    }
}
