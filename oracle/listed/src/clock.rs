// SPDX-License-Identifier: Apache-2.0
//! Stand-in for `std::time`: a clock that is one later at each reading, so that
//! `expired` counts checks. `run_in` reads it once for the deadline (time 0) and
//! once a check (times 1, 2, ..): with budget B the first B checks pass. A check
//! compares its time with the deadline; those that say "not yet" are counted.

use std::cell::Cell;
use std::cmp::Ordering;
use std::ops::Add;

thread_local! {
    static READINGS: Cell<u64> = const { Cell::new(0) };
    static PASSED: Cell<u64> = const { Cell::new(0) };
}

/// Before a run: no check has passed.
pub fn start() {
    PASSED.set(0);
}

/// How many checks have passed since the start.
pub fn passed() -> u64 {
    PASSED.get()
}

#[derive(Clone, Copy, PartialEq, Eq)]
pub struct Instant(u64);

impl PartialOrd for Instant {
    fn partial_cmp(&self, other: &Instant) -> Option<Ordering> {
        self.0.partial_cmp(&other.0)
    }

    /// The check of `expired`.
    fn ge(&self, deadline: &Instant) -> bool {
        let expired = self.0 >= deadline.0;
        if !expired {
            PASSED.set(PASSED.get() + 1);
        }
        expired
    }
}

#[derive(Clone, Copy)]
pub struct Duration(u64);

impl Duration {
    pub fn checks(budget: u32) -> Self {
        Duration(u64::from(budget) + 1)
    }
}

impl Instant {
    pub fn now() -> Self {
        READINGS.with(|readings| {
            let now = readings.get();
            readings.set(now + 1);
            Instant(now)
        })
    }
}

impl Add<Duration> for Instant {
    type Output = Instant;
    fn add(self, duration: Duration) -> Instant {
        Instant(self.0 + duration.0)
    }
}
