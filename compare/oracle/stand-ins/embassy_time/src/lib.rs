//! The part of embassy_time that the firmware's files use. A tick is one
//! microsecond, so microseconds pass through unchanged. The clock stands still:
//! it only feeds tracing.

use core::ops::Sub;

#[derive(Clone, Copy, Debug, PartialEq, Eq)]
pub struct Duration {
    micros: u64,
}

impl Duration {
    pub const fn from_micros(micros: u64) -> Duration {
        Duration { micros }
    }

    pub const fn from_millis(millis: u64) -> Duration {
        Duration {
            micros: millis * 1000,
        }
    }

    pub const fn as_micros(&self) -> u64 {
        self.micros
    }
}

#[derive(Clone, Copy)]
pub struct Instant;

impl Instant {
    pub fn now() -> Instant {
        Instant
    }
}

impl Sub for Instant {
    type Output = Duration;
    fn sub(self, _: Instant) -> Duration {
        Duration::from_micros(0)
    }
}
