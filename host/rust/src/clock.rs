//! The two clocks: monotonic time (CLOCK_MONOTONIC, by `Instant`), in which ticks and calls are ordered, and real time
//! (CLOCK_REALTIME, by `SystemTime`), in which the kernel stamps frames.

use crate::order::Time;
use std::time::{Instant, SystemTime, UNIX_EPOCH};

/// A change of real time against monotonic time from here on, in nanoseconds, is a step. Smaller ones add up until they are
/// one: so a stamp is wrong by no more than this.
const STEP: i64 = 200_000;

pub struct Clock {
    start: Instant,
}

impl Clock {
    pub fn new() -> Clock {
        let start = Instant::now();
        Clock { start }
    }

    /// Nanoseconds since the clock was made.
    pub fn now(&self) -> Time {
        self.start.elapsed().as_nanos() as Time
    }

    /// Real time less monotonic time. It is what was known unless it has stepped.
    pub fn ahead(&self, known: i64) -> i64 {
        let is_known = |ahead: i64| (ahead - known).abs() < STEP;
        if is_known(real() - self.now()) {
            return known;
        }
        // The thread may have been held up between the two clocks.
        let ahead = self.measure_ahead();
        if is_known(ahead) {
            known
        } else {
            ahead
        }
    }

    /// The same from the tightest of some readings.
    pub fn measure_ahead(&self) -> i64 {
        let readings = (0..20).map(|_| {
            let (before, real, after) = (self.now(), real(), self.now());
            (after - before, real - before - (after - before) / 2)
        });
        readings.min().map_or(0, |(_, ahead)| ahead)
    }
}

fn real() -> i64 {
    match SystemTime::now().duration_since(UNIX_EPOCH) {
        Ok(since) => since.as_nanos() as i64,
        Err(before) => -(before.duration().as_nanos() as i64),
    }
}
