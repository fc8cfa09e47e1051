//! The text of lives: read back as written, and bad lines named.

use oracle::generate::Generator;
use oracle::life::{Life, Reply};
use oracle::parse::parse;
use oracle::runtime_core::{Observation, RuntimeState};

const START: &str = "start boot_id 42 now 0 flags 0\n";

#[test]
fn generated_lives_are_read_back_as_written() {
    let generator = Generator::new(11);
    let lives: Vec<Life> = (0..500).map(|index| generator.life(index)).collect();
    for life in &lives {
        let text = life.to_string();
        assert_eq!(parse(&text).as_deref(), Ok(std::slice::from_ref(life)));
        assert_eq!(parse(&text).unwrap()[0].to_string(), text);
    }
    let all: String = lives.iter().map(|life| format!("life\n{life}")).collect();
    assert_eq!(parse(&all), Ok(lives));
}

#[test]
fn comments_blank_lines_and_reply_lines_add_up() {
    let text = "
        # nothing here
        profile   # four records
        replies ok # one
        replies fail see -2147483648 2147483647 4294967295
        start boot_id 18446744073709551615 now 0 flags 0

        tick now 1
    ";
    let life = &parse(text).expect("a life")[0];
    let seen = Observation {
        parameters: [i32::MIN, i32::MAX],
        state: u32::MAX,
    };
    let expected = [Reply::Ok, Reply::Fail, Reply::See(seen)];
    assert_eq!(life.start.replies, expected);
    assert_eq!(life.start.boot_id, u64::MAX);
    assert_eq!(life.start.capabilities.len(), 4);
    assert_eq!(life.steps.len(), 1);
    assert!(life.steps[0].replies.is_empty());
}

#[test]
fn lives_begin_anew() {
    let lives = parse(&format!("life\nprofile\n{START}tick now 9\nlife\n{START}")).expect("lives");
    assert_eq!(lives.len(), 2);
    assert!(lives[1].start.capabilities.is_empty());
    assert!(lives[1].steps.is_empty());
}

#[test]
fn no_capability_and_seventeen_can_be_written() {
    let record = "capability id 1 resource 0 class control parameter_count 0 bounds 0 0 0 0 \
                  require_set 0 require_clear 0 verification state 3 1\n";
    for count in [0, 17] {
        let text = record.repeat(count) + START;
        let life = &parse(&text).expect("a life")[0];
        assert_eq!(life.start.capabilities.len(), count);
    }
}

#[test]
fn unused_replies_are_dropped() {
    let text = format!("profile\n{START}replies fail fail\ntick now 1\nrecover_local now 1\n");
    let life = &parse(&text).expect("a life")[0];
    let trace = oracle::run::run_life(life, oracle::run::Options::ALL);
    assert_eq!(trace.calls[0].unused, 2);
    assert_eq!(trace.calls[1].after.state, RuntimeState::SafeIdle);
    assert!(trace.to_string().contains("  unused 2\n"));
}

/// The text, the line that is wrong, and what the message says.
const BAD: [(&str, usize, &str); 25] = [
    ("", 1, "a life without a `start` line"),
    ("profile\nlife\n", 2, "a life without a `start` line"),
    ("tick now 1\n", 1, "`tick` before `start`"),
    ("START\nstart boot_id 1 now 0 flags 0", 2, "a second `start` line"),
    ("START\nprofile", 2, "`profile` after `start`"),
    ("START\nconfig watchdog_ms 1", 2, "`config` after `start`"),
    ("START\nlife", 2, "a life without a `start` line"),
    ("START\nreplies ok\n", 2, "replies without a call"),
    ("START\nreplies", 2, "`replies` without a reply"),
    ("START\nreplies maybe", 2, "`maybe` is not one of ok, fail, see"),
    ("START\nreplies see 1 2", 2, "the line ends before the number of `see`"),
    ("START\n\ntick", 3, "the line ends before `now`"),
    ("START\ntick at 1", 2, "`at` stands where `now` should"),
    ("START\ntick now 1 2", 2, "`2` is one word too many"),
    ("START\ntick now one", 2, "`now`: `one` is not a number"),
    ("START\ntick now +1", 2, "`now`: `+1` is not a number"),
    ("START\ntick now -1", 2, "`now`: -1 is not in the range of u64"),
    ("START\ntick now 18446744073709551616", 2, "not in the range of u64"),
    ("START\nupdate_state flags 4294967296 now 1", 2, "range of u32"),
    ("START\nfly now 1", 2, "`fly` begins no line of a life"),
    (
        "START\nacquire owner 7 resource 256 capabilities 1",
        2,
        "`resource`: 256 is not in the range of u8",
    ),
    (
        "START\nacquire owner 7 resource 0 capabilities 1 duration_ms 1 limits any 2147483648 0",
        2,
        "`limits`: 2147483648 is not in the range of i32",
    ),
    ("capability id 1 resource 0 class fast", 1, "`fast` is not one of stream, discrete, control"),
    ("config watchdog_ms 1 state_ttl_ms 1 max_lease_ms 1 max_valid_for_ms 1 invalid_limit 65536", 1, "range of u16"),
    ("config watchdog_ms 1 state_ttl_ms 1 max_lease_ms 1 max_valid_for_ms 1 invalid_limit 1 estop_mask 1\nconfig", 2, "a second `config` line"),
];

#[test]
fn bad_lines_are_named() {
    for (text, line, message) in BAD {
        let text = text.replace("START", START.trim());
        let error = parse(&text).expect_err(&text);
        assert_eq!(error.line, line, "{text}");
        assert!(error.message.contains(message), "{text}: {}", error.message);
    }
}

#[test]
fn set_is_for_the_build_with_counters() {
    let result = parse(&format!("{START}set epoch 5\n"));
    if oracle::HAS_COUNTERS {
        assert!(result.is_ok());
        let error = parse(&format!("{START}set flags 5\n")).expect_err("no counter");
        assert!(error.message.contains("`flags` is not one of epoch"));
        assert!(parse(&format!("{START}set invalid_count 65535\n")).is_ok());
        let error = parse(&format!("{START}set invalid_count 65536\n")).expect_err("16 bits");
        assert!(error.message.contains("range of u16"));
    } else {
        let error = result.expect_err("the plain build");
        assert_eq!(error.line, 2);
        assert!(error.message.contains("--features counters"));
    }
}
