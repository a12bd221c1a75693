//! How much a peer may cause: a bucket that fills with time.

use std::time::{Duration, Instant};

/// What is left to one peer.
#[derive(Clone, Debug)]
pub struct Allowance {
    left: f64,
    most: f64,
    a_second: f64,
    at: Instant,
}

impl Allowance {
    /// A full bucket of `most`, into which so much flows a second.
    pub fn new(most: f64, a_second: f64) -> Allowance {
        Allowance {
            left: most,
            most,
            a_second,
            at: Instant::now(),
        }
    }

    fn fill(&mut self, now: Instant) {
        let passed = now.saturating_duration_since(self.at).as_secs_f64();
        self.left = self.most.min(self.left + passed * self.a_second);
        self.at = now;
    }

    /// Takes so much out, where there is so much.
    pub fn take(&mut self, now: Instant, cost: f64) -> bool {
        self.fill(now);
        let is_there = self.left >= cost;
        if is_there {
            self.left -= cost;
        }
        is_there
    }

    /// Takes so much out, and answers how long to wait before anything else is taken: a debt is waited for.
    pub fn take_and_wait(&mut self, now: Instant, cost: f64) -> Duration {
        self.fill(now);
        self.left -= cost;
        Duration::from_secs_f64((-self.left).max(0.0) / self.a_second)
    }
}

#[cfg(test)]
mod tests {
    use super::*;

    #[test]
    fn a_bucket_empties_and_fills_with_time() {
        let start = Instant::now();
        let mut allowance = Allowance::new(10.0, 2.0);
        allowance.at = start;
        assert!(allowance.take(start, 10.0));
        assert!(!allowance.take(start, 1.0));
        assert!(allowance.take(start + Duration::from_secs(1), 2.0));
        assert!(!allowance.take(start + Duration::from_secs(1), 0.5));
        let later = start + Duration::from_secs(2);
        let wait = allowance.take_and_wait(later, 6.0);
        assert_eq!(wait, Duration::from_secs(2));
    }
}
