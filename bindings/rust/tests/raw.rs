//! What the wrapper cannot hand in: another number of words, words that are no runtime's, and slices that are no record.

use rolthai::raw::*;
use rolthai::{OUT_WORDS, RECORD_WORDS, WORDS};

const START: [u64; 9] = [42, 0, 0, 50, 250, 2000, 1000, 32, 1];
const STOP: [u64; 13] = [2, 0, 2, 0, 0, 0, 0, 0, 0, 0, 0, 0, 0];

fn new(state: &mut [u64], start: &[u64], capabilities: &[u64]) -> u32 {
    let n = capabilities.len();
    // SAFETY: three slices that don't overlap, each with its length.
    unsafe {
        rolthai_new(
            state.as_mut_ptr(),
            state.len(),
            start.as_ptr(),
            start.len(),
            capabilities.as_ptr(),
            n,
        )
    }
}

fn acquire(state: &mut [u64], request: &[u64]) -> u32 {
    // SAFETY: as above.
    unsafe {
        rolthai_acquire(
            state.as_mut_ptr(),
            state.len(),
            request.as_ptr(),
            request.len(),
        )
    }
}

fn submit(state: &mut [u64], order: &[u64]) -> u32 {
    // SAFETY: as above.
    unsafe { rolthai_submit(state.as_mut_ptr(), state.len(), order.as_ptr(), order.len()) }
}

fn step(state: &mut [u64], record: &[u64], out: &mut [u64]) -> u32 {
    // SAFETY: as above.
    unsafe {
        rolthai_step(
            state.as_mut_ptr(),
            state.len(),
            record.as_ptr(),
            record.len(),
            out.as_mut_ptr(),
            out.len(),
        )
    }
}

fn item(state: &[u64], out: &mut [u64]) -> u32 {
    // SAFETY: as above.
    unsafe { rolthai_item(state.as_ptr(), state.len(), out.as_mut_ptr(), out.len()) }
}

fn tick(state: &mut [u64]) -> u32 {
    // SAFETY: a slice with its length.
    unsafe { rolthai_tick(state.as_mut_ptr(), state.len(), 5) }
}

#[test]
fn the_size() {
    // SAFETY: no argument.
    assert_eq!(unsafe { rolthai_size() }, WORDS);
}

/// Too few and too many.
#[test]
fn another_number_of_words() {
    for n in [0, 1, WORDS - 1, WORDS + 1, 2 * WORDS] {
        let mut state = vec![7; n];
        let mut out = vec![7; OUT_WORDS];
        // SAFETY: a slice with its length.
        assert_eq!(
            unsafe { rolthai_clear(state.as_mut_ptr(), state.len()) },
            65
        );
        assert_eq!(new(&mut state, &START, &STOP), 65);
        assert_eq!(tick(&mut state), 65);
        assert_eq!(item(&state, &mut out), 65);
        assert_eq!(step(&mut state, &[0; RECORD_WORDS], &mut out), 65);
        assert!(state.iter().chain(&out).all(|word| *word == 7));
    }
}

#[test]
fn other_words() {
    for word in [0, 1, u64::MAX] {
        let mut state = vec![word; WORDS];
        let mut out = vec![word; OUT_WORDS];
        assert_eq!(tick(&mut state), 66);
        assert_eq!(item(&state, &mut out), 66);
        assert_eq!(step(&mut state, &[0; RECORD_WORDS], &mut out), 66);
        // SAFETY: a slice with its length.
        assert_eq!(unsafe { rolthai_refusal(state.as_ptr(), state.len()) }, 66);
        assert!(state.iter().chain(&out).all(|w| *w == word));
    }
}

#[test]
fn too_little_room() {
    let mut state = vec![0; WORDS];
    assert_eq!(new(&mut state, &START, &STOP), 20);
    let kept = state.clone();
    let mut out = vec![7; OUT_WORDS - 1];
    assert_eq!(item(&state, &mut out), 65);
    assert_eq!(step(&mut state, &[0; RECORD_WORDS], &mut out), 65);
    assert_eq!(state, kept);
    assert!(out.iter().all(|word| *word == 7));
    let mut out = vec![7; OUT_WORDS + 2];
    assert_eq!(item(&state, &mut out), 18);
    assert_eq!(out[OUT_WORDS..], [7, 7]);
}

/// 64 with a record of another length leaves `out`; with one of 16 words it is an output record.
#[test]
fn no_record() {
    let mut state = vec![0; WORDS];
    assert_eq!(new(&mut state, &START, &STOP), 20);
    let kept = state.clone();
    let mut out = vec![7; OUT_WORDS];
    for n in [0, RECORD_WORDS - 1, RECORD_WORDS + 1] {
        assert_eq!(step(&mut state, &vec![0; n], &mut out), 64);
        assert!(out.iter().all(|word| *word == 7));
    }
    assert_eq!(step(&mut state, &[0; RECORD_WORDS], &mut out), 64);
    assert!(out[0] == 64 && out[1..].iter().all(|word| *word == 0));
    assert_eq!(state, kept);
}

#[test]
fn malformed() {
    let mut state = vec![7; WORDS];
    assert_eq!(new(&mut state, &START[..8], &STOP), 64);
    assert_eq!(new(&mut state, &START, &STOP[..12]), 64);
    let mut start = START;
    start[7] = 65536;
    assert_eq!(new(&mut state, &start, &STOP), 64);
    let mut capability = STOP;
    capability[2] = 3;
    assert_eq!(new(&mut state, &START, &capability), 64);
    assert!(state.iter().all(|word| *word == 7));
    assert_eq!(new(&mut state, &START, &STOP), 20);
    // SAFETY: a slice with its length.
    assert_eq!(
        unsafe { rolthai_fell_back(state.as_mut_ptr(), state.len(), true) },
        2
    );
    let kept = state.clone();
    assert_eq!(acquire(&mut state, &[0; 8]), 64);
    assert_eq!(acquire(&mut state, &[0, 7, 256, 4, 1, 0, 0, 0, 0]), 64);
    assert_eq!(submit(&mut state, &[0; 16]), 64);
    let mut order = [0; 15];
    order[13] = u64::MAX;
    assert_eq!(submit(&mut state, &order), 64);
    assert_eq!(state, kept);
}
