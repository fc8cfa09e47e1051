//! The time of the next call.

use super::{Maker, Style};
use runtime_core::RuntimeState;

impl Maker {
    pub(super) fn now(&mut self) -> u64 {
        let last = self.readings.snapshot.now;
        if self.rng.percent(self.emphasis.edge) {
            if let Some(time) = self.edge() {
                return time;
            }
        }
        if self.rng.percent(self.emphasis.wild) {
            return self.wild();
        }
        last.saturating_add(self.pause())
    }

    /// A step that keeps the life going.
    fn pause(&mut self) -> u64 {
        if self.style.is_calm() {
            return self.rng.one_of([0, 0, 1, 1, 2, 3]);
        }
        let watchdog = self.readings.config.watchdog_ms.min(1000) as u64;
        let longest = match self.rng.below(10) {
            0..3 => 0,
            3..8 => watchdog.min(5),
            8 => watchdog / 2,
            _ => watchdog,
        };
        self.rng.range(0, longest)
    }

    /// One less than a limit, at it, or one more, but not before the last tick.
    fn edge(&mut self) -> Option<u64> {
        let readings = &self.readings;
        let (last, stamp) = (readings.snapshot.now, readings.snapshot.sensor_tick);
        let watchdog = last.saturating_add(readings.config.watchdog_ms as u64);
        let mut limits = vec![
            watchdog,
            stamp.saturating_add(readings.config.state_ttl_ms as u64),
        ];
        limits.extend(readings.leases.iter().flatten().map(|l| l.expires_at));
        limits.extend(self.history.active.iter().flatten().filter_map(|a| a.end));
        let times: Vec<u64> = limits
            .iter()
            .flat_map(|l| [l.saturating_sub(1), *l, l.saturating_add(1)])
            .filter(|time| *time >= last)
            .collect();
        let time = self.rng.pick(&times)?;
        // A later limit is walked up to: the watchdog would trip first.
        let walks = readings.state == RuntimeState::Armed && time > watchdog.saturating_add(1);
        if walks && self.rng.percent(90) {
            return Some(watchdog);
        }
        Some(time)
    }

    /// The end of the lease or of the stream of each axis, whichever is first.
    fn ends(&self) -> impl Iterator<Item = (u8, u64)> + '_ {
        let leases = self.readings.leases.iter().enumerate();
        leases.filter_map(|(axis, lease)| {
            let lease = lease.as_ref()?.expires_at;
            let stream = self.history.stream_end(axis);
            Some((axis as u8, stream.map_or(lease, |end| end.min(lease))))
        })
    }

    /// The axes that fall back at this time because their lease or stream ends.
    pub(super) fn due(&self, now: u64) -> Vec<u8> {
        let due = self.ends().filter(|(_, end)| now >= *end);
        due.map(|(axis, _)| axis).collect()
    }

    /// The first such end, if a tick at it trips nothing and another lease stands then.
    pub(super) fn first_end(&self) -> Option<u64> {
        let readings = &self.readings;
        let (_, end) = self.ends().min_by_key(|(_, end)| *end)?;
        let gap = end.checked_sub(readings.snapshot.now)?;
        let age = end.checked_sub(readings.snapshot.sensor_tick)?;
        let quiet = gap <= readings.config.watchdog_ms as u64
            && age < readings.config.state_ttl_ms as u64
            && self.ends().any(|(_, other)| other > end);
        quiet.then_some(end)
    }

    /// A time that goes back or leaps.
    fn wild(&mut self) -> u64 {
        let last = self.readings.snapshot.now;
        match self.rng.below(12) {
            0..3 => last.saturating_sub(1),
            3..6 => last.saturating_sub(self.rng.below(1000)),
            6 => 0,
            7 | 8 => last.saturating_add(self.rng.below(10_000)),
            9 => last.saturating_add(1 << 33),
            10 => u64::MAX - self.rng.below(3000),
            _ => u64::MAX,
        }
    }

    /// The time of a stop, which goes back more often.
    pub(super) fn stop_time(&mut self) -> u64 {
        if self.style != Style::Clean && self.rng.percent(25) {
            let back = self.rng.below(100);
            return self.readings.snapshot.now.saturating_sub(back);
        }
        self.now()
    }
}
