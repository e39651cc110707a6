//! How long a node sleeps where nothing comes in, and how long it waits for more where something does.

use std::time::Duration;

/// No sleep is longer: time-outs, the page and the end of the process are looked at this often.
const LONGEST: u64 = 100;

/// How long a node may sleep at this moment, where no own unit becomes due before the next one.
pub fn sleep(now: u64, next: u64) -> Duration {
    Duration::from_millis(next.saturating_sub(now).min(LONGEST))
}

/// How long a node that heard something waits for more, where rounds last 2^exponent milliseconds at least: a 256th of
/// one. A round needs three messages one after the other, so it is longer by no more than a 64th.
pub fn gathers(exponent: u8) -> Duration {
    Duration::from_millis((1 << exponent.min(40)) / 256).min(Duration::from_millis(LONGEST))
}

#[cfg(test)]
mod tests {
    use super::*;

    #[test]
    fn a_sleep_ends_at_the_next_moment_or_before() {
        assert_eq!(sleep(1024, u64::MAX), Duration::from_millis(100));
        assert_eq!(sleep(2045, 2048), Duration::from_millis(3));
        assert_eq!(sleep(2049, 2048), Duration::ZERO);
    }
    #[test]
    fn short_rounds_wait_for_nothing() {
        assert_eq!(gathers(4), Duration::ZERO);
        assert_eq!(gathers(10), Duration::from_millis(4));
        assert_eq!(gathers(63), Duration::from_millis(100));
    }
}
