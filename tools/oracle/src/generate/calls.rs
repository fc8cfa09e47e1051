//! The next call and its arguments, orders aside.

use super::Maker;
use crate::life::{Call, Renewal};
use runtime_core::{Bounds, Capability, Lease, LeaseRequest, RuntimeState};

#[derive(Clone, Copy)]
enum Kind {
    Tick,
    Update,
    Stop,
    Poll,
    Recover,
    Acquire,
    Renew,
    Cancel,
    Submit,
}

impl Maker {
    pub(super) fn call(&mut self) -> Call {
        let [tick, update, stop, poll, recover, acquire, renew, cancel, submit] = self.weights();
        let kind = self.rng.weighted([
            (tick, Kind::Tick),
            (update, Kind::Update),
            (stop, Kind::Stop),
            (poll, Kind::Poll),
            (recover, Kind::Recover),
            (acquire, Kind::Acquire),
            (renew, Kind::Renew),
            (cancel, Kind::Cancel),
            (submit, Kind::Submit),
        ]);
        match kind {
            Kind::Tick => Call::Tick { now: self.now() },
            Kind::Update => Call::UpdateState {
                flags: self.flags(),
                now: self.now(),
            },
            Kind::Stop => Call::EmergencyStop {
                now: self.stop_time(),
            },
            Kind::Poll => Call::PollEstop {
                raised: self.raised(),
                now: self.stop_time(),
            },
            Kind::Recover => Call::RecoverLocal { now: self.now() },
            Kind::Acquire => self.acquire(),
            Kind::Renew => self.renew(),
            Kind::Cancel => self.cancel(),
            Kind::Submit => self.submit(),
        }
    }

    /// How often each call comes, in the order of `Kind`.
    fn weights(&self) -> [u64; 9] {
        let readings = &self.readings;
        let age = readings
            .snapshot
            .now
            .saturating_sub(readings.snapshot.sensor_tick);
        let stale = age >= readings.config.state_ttl_ms as u64;
        let stopped = readings.flags & readings.config.estop_mask != 0;
        match readings.state {
            RuntimeState::Armed if self.style.is_calm() => [4, 8, 0, 2, 0, 6, 8, 1, 71],
            RuntimeState::Armed => [12, 14, 2, 4, 3, 14, 9, 4, 38],
            RuntimeState::SafeIdle if stale => [5, 50, 2, 4, 5, 17, 3, 3, 11],
            RuntimeState::SafeIdle => [8, 10, 2, 4, 5, 52, 3, 3, 13],
            _ if stale || stopped => [5, 50, 3, 5, 14, 7, 4, 4, 8],
            _ => [5, 12, 3, 4, 50, 8, 5, 5, 8],
        }
    }

    pub(super) fn a_lease(&mut self) -> Option<Lease> {
        self.a_lease_without(&[])
    }

    /// A lease on none of these axes.
    pub(super) fn a_lease_without(&mut self, axes: &[u8]) -> Option<Lease> {
        let leases = self.readings.leases.iter().flatten().copied();
        let leases: Vec<Lease> = leases.filter(|l| !axes.contains(&l.resource)).collect();
        self.rng.pick(&leases)
    }

    pub(super) fn a_capability(&mut self) -> Capability {
        let index = self.rng.index(self.readings.capabilities.len());
        self.readings.capabilities[index]
    }

    fn flags(&mut self) -> u32 {
        let (flags, stop) = (self.readings.flags, self.readings.config.estop_mask);
        let down = flags & stop != 0;
        let active: Vec<_> = self.history.active.iter().flatten().collect();
        let active = self.rng.pick(&active).map(|a| a.capability);
        let c = active.unwrap_or_else(|| self.a_capability());
        let allowing = (flags | c.require_set) & !c.require_clear & !stop;
        let choice = match (self.style.is_calm(), down) {
            (true, false) => self.rng.below(48),
            (_, true) if self.rng.percent(70) => 40,
            _ if active.is_some() && self.rng.percent(30) => self.rng.range(65, 84),
            _ => self.rng.below(100),
        };
        match choice {
            0..40 => flags,
            40..65 => allowing,
            65..75 => (flags | c.require_clear) & !stop,
            75..85 => flags & !c.require_set & !stop,
            85..90 => self.rng.below(32) as u32,
            90..97 => flags ^ stop,
            _ => self.rng.draw() as u32,
        }
    }

    fn raised(&mut self) -> u32 {
        let seen = self.history.raised;
        if self.style.is_calm() {
            return seen;
        }
        let random = self.rng.draw() as u32;
        self.rng.weighted([
            (45, seen),
            (30, seen.wrapping_add(1)),
            (9, u32::MAX),
            (8, 0),
            (8, random),
        ])
    }

    fn owner(&mut self) -> u64 {
        self.rng.weighted([(50, 7), (40, 8), (10, u64::MAX)])
    }

    fn acquire(&mut self) -> Call {
        let now = self.now();
        let resource = self.axis();
        let of_axis = |c: &&Capability| c.resource == resource;
        let table = self.readings.capabilities.iter();
        let ids: Vec<u16> = table.filter(of_axis).map(|c| c.id).collect();
        let mut capabilities = ids.iter().fold(0, |mask, id| mask | 1u64 << id);
        if self.rng.percent(20) {
            capabilities = self.rng.pick(&ids).map_or(0, |id| 1u64 << id);
        }
        let mut request = LeaseRequest {
            owner: self.owner(),
            resource,
            capabilities,
            duration_ms: self.duration(now),
            limits: self.limits(),
        };
        if self.spoils() {
            self.spoil_request(&mut request);
        }
        Call::Acquire { request, now }
    }

    /// A used axis, most often a free one.
    fn axis(&mut self) -> u8 {
        let axes = self.readings.capabilities.iter().map(|c| c.resource);
        let free = |axis: &u8| self.readings.leases[*axis as usize].is_none();
        let free: Vec<u8> = axes.filter(free).collect();
        match self.rng.pick(&free) {
            Some(axis) if self.rng.percent(92) => axis,
            _ => self.a_capability().resource,
        }
    }

    fn duration(&mut self, now: u64) -> u32 {
        let most = self.readings.config.max_lease_ms;
        if self.style.is_calm() {
            return most;
        }
        let duration = match self.rng.below(20) {
            0..10 => most,
            10..16 => self.rng.range(1, most.min(3000) as u64) as u32,
            16..19 => self.rng.range(1, most.min(30) as u64) as u32,
            _ => 1,
        };
        let left = u64::MAX - now;
        if (duration as u64) > left && left > 0 && self.rng.percent(85) {
            return left as u32;
        }
        duration
    }

    fn limits(&mut self) -> [Bounds; 2] {
        if self.style.is_calm() || self.rng.percent(50) {
            return [Bounds::ANY; 2];
        }
        let bounds = self.a_capability().bounds;
        bounds.map(|b| {
            let (a, b) = (self.between(b), self.between(b));
            let (mut min, mut max) = (a.min(b), a.max(b));
            if self.rng.percent(60) {
                (min, max) = (min.min(0), max.max(0));
            }
            Bounds { min, max }
        })
    }

    /// A value inside the bounds, often at an end.
    pub(super) fn between(&mut self, bounds: Bounds) -> i32 {
        let width = bounds.max.wrapping_sub(bounds.min) as u32;
        match self.rng.below(5) {
            0 => bounds.min,
            1 => bounds.max,
            2 => 0.clamp(bounds.min, bounds.max),
            _ => bounds
                .min
                .wrapping_add(self.rng.range(0, width as u64) as i32),
        }
    }

    fn spoil_request(&mut self, request: &mut LeaseRequest) {
        let reversed = Bounds { min: 1, max: 0 };
        match self.rng.below(11) {
            0 => request.resource = self.rng.one_of([8, 9, u8::MAX]),
            1 => request.resource = self.rng.below(8) as u8,
            2 => request.owner = 0,
            3 => request.capabilities = 0,
            4 => request.duration_ms = 0,
            5 => request.duration_ms = self.over(self.readings.config.max_lease_ms),
            6 => request.limits[0] = reversed,
            7 => request.limits[1] = reversed,
            8 => request.capabilities |= 1 << self.rng.below(64),
            9 => request.resource = self.a_lease().map_or(0, |lease| lease.resource),
            // Past u64 if the time is late enough.
            _ => request.duration_ms = self.readings.config.max_lease_ms,
        }
    }

    /// A number above a limit, if there is one.
    pub(super) fn over(&mut self, limit: u32) -> u32 {
        let one_more = limit.saturating_add(1);
        self.rng.one_of([one_more, one_more, u32::MAX])
    }

    fn renew(&mut self) -> Call {
        let now = self.now();
        let lease = self.a_lease();
        let (mut owner, mut lease_id) = lease.map_or((7, 1), |l| (l.owner, l.id));
        let last = lease.map_or(0, |l| l.last_renewal);
        let mut renewal = last.saturating_add(self.rng.one_of([1, 1, 2, 1000]));
        let mut duration_ms = self.duration(now);
        if self.spoils() {
            match self.rng.below(7) {
                0 => lease_id = self.one_off(lease_id),
                1 => owner = self.one_off(owner),
                2 => renewal = last,
                3 => renewal = self.rng.one_of([0, last.saturating_sub(1), u64::MAX]),
                4 => duration_ms = 0,
                // Past u64 if the time is late enough.
                5 => duration_ms = self.readings.config.max_lease_ms,
                _ => duration_ms = self.over(self.readings.config.max_lease_ms),
            }
        }
        Call::Renew(Renewal {
            owner,
            lease_id,
            renewal,
            duration_ms,
            now,
        })
    }

    fn cancel(&mut self) -> Call {
        let now = self.now();
        let lease = self.a_lease();
        let (mut owner, mut lease_id) = lease.map_or((7, 1), |l| (l.owner, l.id));
        if self.spoils() {
            match self.rng.below(2) {
                0 => lease_id = self.one_off(lease_id),
                _ => owner = self.one_off(owner),
            }
        }
        Call::Cancel {
            owner,
            lease_id,
            now,
        }
    }
}
