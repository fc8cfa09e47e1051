//! Starts: configurations, tables of capabilities, and every way to refuse them.

use super::Style;
use crate::life::{Reply, Start};
use crate::prng::Prng;
use runtime_core::profile::CAPABILITIES;
use runtime_core::{
    Bounds, Capability, Config, ExecutionClass, Verification, MAX_CAPABILITIES, MAX_RESOURCES,
};

pub fn start(rng: &mut Prng, style: Style) -> Start {
    let config = config(rng, style);
    let capabilities = if rng.percent(50) {
        CAPABILITIES.to_vec()
    } else {
        let axes = rng.weighted([(20, 1), (35, 2), (20, 3), (10, 4), (15, MAX_RESOURCES)]);
        table(rng, axes)
    };
    let mut start = Start {
        config,
        replies: Vec::new(),
        boot_id: rng.weighted([(60, 42), (20, 1), (10, u64::MAX), (10, 1 << 40)]),
        now: first_time(rng, style),
        flags: first_flags(rng, &config, &capabilities, style),
        capabilities,
    };
    if rng.percent(5) {
        start.replies = vec![Reply::Ok; rng.index(10)];
    }
    if style == Style::Refused {
        spoil(rng, &mut start);
        // Two at a time show the order of the checks.
        if rng.percent(25) {
            spoil(rng, &mut start);
        }
    }
    start
}

fn first_time(rng: &mut Prng, style: Style) -> u64 {
    if style == Style::Top {
        let left = rng.one_of([100, 1000, 4000]);
        return u64::MAX - rng.below(left);
    }
    match rng.below(20) {
        0..8 => 0,
        8..15 => rng.below(2000),
        15..19 => rng.below(1 << 40),
        _ => rng.draw(),
    }
}

fn first_flags(rng: &mut Prng, config: &Config, table: &[Capability], style: Style) -> u32 {
    let choice = if style.is_calm() { 50 } else { rng.below(100) };
    match choice {
        0..25 => 0,
        // What one capability asks for.
        25..85 => rng
            .pick(table)
            .map_or(0, |c| c.require_set & !config.estop_mask),
        85..93 => rng.below(32) as u32,
        _ => config.estop_mask,
    }
}

fn config(rng: &mut Prng, style: Style) -> Config {
    let mut config = match rng.below(100) {
        0..50 => Config::default(),
        50..85 => small_config(rng),
        _ => large_config(rng),
    };
    if style.is_calm() {
        config.watchdog_ms = config.watchdog_ms.max(20);
        config.state_ttl_ms = config.state_ttl_ms.max(200);
        config.max_lease_ms = config.max_lease_ms.max(500);
        config.max_valid_for_ms = config.max_valid_for_ms.max(100);
    }
    if style == Style::Storm {
        config.invalid_limit = rng.range(1, 6) as u16;
    }
    config
}

fn small_config(rng: &mut Prng) -> Config {
    Config {
        watchdog_ms: rng.range(1, 60) as u32,
        state_ttl_ms: rng.range(1, 120) as u32,
        max_lease_ms: rng.range(1, 2500) as u32,
        max_valid_for_ms: rng.range(1, 1200) as u32,
        invalid_limit: rng.range(1, 40) as u16,
        estop_mask: rng.one_of([1, 2, 5, 1 << 31, u32::MAX]),
    }
}

fn large_config(rng: &mut Prng) -> Config {
    let mut or_most = |value: u32| if rng.percent(50) { u32::MAX } else { value };
    Config {
        watchdog_ms: or_most(50),
        state_ttl_ms: or_most(250),
        max_lease_ms: or_most(2000),
        max_valid_for_ms: or_most(1000),
        invalid_limit: u16::MAX,
        estop_mask: 1,
    }
}

/// A sound table with so many axes, 1 to 8, and at most 16 capabilities.
fn table(rng: &mut Prng, count: usize) -> Vec<Capability> {
    let mut axes: Vec<u8> = (0..MAX_RESOURCES as u8).collect();
    let mut ids: Vec<u16> = (1..64).collect();
    shuffle(rng, &mut axes);
    shuffle(rng, &mut ids);
    let length = rng.range(count as u64, MAX_CAPABILITIES as u64) as usize;
    let places = (0..length).zip(ids);
    places
        .map(|(i, id)| capability(rng, id, axes[i % count]))
        .collect()
}

fn shuffle<T>(rng: &mut Prng, values: &mut [T]) {
    for last in (1..values.len()).rev() {
        let other = rng.index(last + 1);
        values.swap(last, other);
    }
}

fn capability(rng: &mut Prng, id: u16, resource: u8) -> Capability {
    let parameter_count = rng.below(3) as u8;
    let mut bounds = [Bounds::ZERO; 2];
    for bound in bounds.iter_mut().take(parameter_count as usize) {
        *bound = random_bounds(rng);
    }
    let require_set = flag_word(rng);
    Capability {
        id,
        resource,
        class: rng.one_of([
            ExecutionClass::Stream,
            ExecutionClass::Stream,
            ExecutionClass::Discrete,
            ExecutionClass::Control,
        ]),
        parameter_count,
        bounds,
        require_set,
        require_clear: flag_word(rng) & !require_set,
        verification: verification(rng),
    }
}

fn random_bounds(rng: &mut Prng) -> Bounds {
    let low = rng.one_of([i32::MIN, -2000, -1000, -1, 0, 1, 500, i32::MAX]);
    let width = rng.one_of([0, 1, 10, 1000, i32::MAX]);
    Bounds {
        min: low,
        max: low.saturating_add(width),
    }
}

/// Few bits, so that the flags of a life often meet them.
fn flag_word(rng: &mut Prng) -> u32 {
    match rng.below(10) {
        0..5 => 0,
        5..9 => 1 << rng.range(1, 5),
        _ => rng.draw() as u32 & rng.draw() as u32,
    }
}

fn verification(rng: &mut Prng) -> Verification {
    if rng.percent(60) {
        return Verification::Parameters;
    }
    let mask = rng.one_of([1, 3, 1 << 31, u32::MAX]);
    Verification::State {
        mask,
        value: rng.draw() as u32 & mask,
    }
}

/// Breaks one condition of a start.
fn spoil(rng: &mut Prng, start: &mut Start) {
    match rng.below(10) {
        0 => start.boot_id = 0,
        1 => spoil_config(rng, &mut start.config),
        2 if rng.percent(50) => start.capabilities.clear(),
        2 => {
            let record = start.capabilities.first().copied();
            let record = record.unwrap_or(CAPABILITIES[0]);
            start.capabilities.resize(MAX_CAPABILITIES + 1, record);
        }
        3..6 => {
            let index = rng.index(start.capabilities.len());
            if let Some(record) = start.capabilities.get_mut(index) {
                spoil_record(rng, record);
            }
        }
        6 => {
            let from = rng.index(start.capabilities.len());
            let to = rng.index(start.capabilities.len());
            if from != to {
                start.capabilities[to].id = start.capabilities[from].id;
            }
        }
        _ => {
            if rng.percent(50) {
                start.capabilities = table(rng, MAX_RESOURCES);
            }
            start.replies = vec![Reply::Ok; rng.index(MAX_RESOURCES)];
            start.replies.push(Reply::Fail);
        }
    }
}

fn spoil_config(rng: &mut Prng, config: &mut Config) {
    match rng.below(6) {
        0 => config.watchdog_ms = 0,
        1 => config.state_ttl_ms = 0,
        2 => config.max_lease_ms = 0,
        3 => config.max_valid_for_ms = 0,
        4 => config.invalid_limit = 0,
        _ => config.estop_mask = 0,
    }
}

fn spoil_record(rng: &mut Prng, record: &mut Capability) {
    let reversed = Bounds { min: 1, max: 0 };
    match rng.below(10) {
        0 => record.id = 0,
        1 => record.id = rng.one_of([64, 65, u16::MAX]),
        2 => record.resource = rng.one_of([8, u8::MAX]),
        3 => record.parameter_count = rng.one_of([3, u8::MAX]),
        4 => {
            record.require_set |= 4;
            record.require_clear |= 4;
        }
        5 => record.bounds[0] = reversed,
        6 => record.bounds[1] = reversed,
        7 => {
            record.parameter_count = rng.below(2) as u8;
            record.bounds[1] = rng.one_of([Bounds::ANY, Bounds { min: 0, max: 1 }]);
        }
        8 => record.verification = Verification::State { mask: 0, value: 0 },
        _ => record.verification = Verification::State { mask: 2, value: 3 },
    }
}
