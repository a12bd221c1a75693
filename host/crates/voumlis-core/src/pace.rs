//! The time as a node is told it: slower where its views are given up again and again, and faster again where they aren't.
//!
//! A node's deadlines are fixed numbers of milliseconds, and it knows no time but its host's. So a host can give the back-off that the
//! protocol hasn't: a node that is told half of the time that passes waits twice as long. Members may differ in it: whoever is slower
//! gives a view up later, and a view is given up when a quorum says so.

use std::time::{Duration, Instant};

/// The most that the time may be told slower, by any settings: then a leader has a minute.
pub const SLOWEST: u32 = 64;

/// The most of a count of terms or views, by any settings.
pub const LONGEST_ROW: u32 = 1 << 20;

/// When the time is told slower and faster, and how slow at most.
#[derive(Clone, Debug)]
pub struct PaceSettings {
    /// So many times slower at most, from 1, which is never, to [`SLOWEST`].
    pub slowest: u32,
    /// It is told twice as slow behind so many terms in a row that this member gave up. `None` is one more than members may fail, and two at
    /// least: of so many leaders one was no liar, and up.
    pub slower_after: Option<u32>,
    /// It is told twice as fast behind so many views that became final since it changed.
    pub faster_after: u32,
}

impl Default for PaceSettings {
    fn default() -> PaceSettings {
        PaceSettings {
            slowest: 8,
            slower_after: None,
            faster_after: 32,
        }
    }
}

/// How slow the time is told, by what came of the views.
#[derive(Clone, Debug)]
pub struct Pace {
    slowest: u32,
    slower_after: usize,
    faster_after: u32,
    slowness: u32,
    /// The terms that this member gave up since the pace changed, above that of the last final view.
    given_up: Vec<u64>,
    /// The highest term that it gave up.
    last: Option<u64>,
    finals: u32,
}

impl Pace {
    /// The clock's own pace, in a committee of which so many may fail.
    pub fn new(settings: &PaceSettings, liars: u32) -> Pace {
        let slower_after = settings.slower_after.unwrap_or((liars + 1).max(2));
        Pace {
            slowest: settings.slowest.clamp(1, SLOWEST),
            slower_after: slower_after.max(1) as usize,
            faster_after: settings.faster_after.max(1),
            slowness: 1,
            given_up: Vec::new(),
            last: None,
            finals: 0,
        }
    }

    /// So many times slower than the clock the time is to be told.
    pub fn slowness(&self) -> u32 {
        self.slowness
    }

    /// This member gave up a view of that term. Whether the pace changed.
    pub fn gave_up(&mut self, term: u64) -> bool {
        if self.last >= Some(term) {
            return false;
        }
        self.last = Some(term);
        self.given_up.push(term);
        self.given_up.len() >= self.slower_after
            && self.change((self.slowness * 2).min(self.slowest))
    }

    /// A view of that term is final. Terms that were given up before are no row with those behind; but one alone, as that of a leader that
    /// is down, says nothing about the pace. Whether the pace changed.
    pub fn finalized(&mut self, term: u64) -> bool {
        self.given_up.retain(|one| *one > term);
        self.finals += 1;
        self.finals >= self.faster_after && self.change((self.slowness / 2).max(1))
    }

    fn change(&mut self, slowness: u32) -> bool {
        self.given_up.clear();
        self.finals = 0;
        let was = std::mem::replace(&mut self.slowness, slowness);
        was != slowness
    }
}

/// The moments of one life. They don't fall, at whatever pace.
#[derive(Clone, Debug)]
pub struct Clock {
    since: Instant,
    /// The moment at that time.
    told: u64,
    slowness: u32,
}

impl Clock {
    /// The opening is moment 0.
    pub fn new(now: Instant, slowness: u32) -> Clock {
        Clock {
            since: now,
            told: 0,
            slowness,
        }
    }

    /// The moment that it is now, in milliseconds.
    pub fn moment(&self, now: Instant) -> u64 {
        let passed = now.saturating_duration_since(self.since).as_millis() as u64;
        self.told + passed / u64::from(self.slowness)
    }

    /// When it will be this moment.
    pub fn when(&self, moment: u64) -> Instant {
        let left = Duration::from_millis(moment.saturating_sub(self.told));
        self.since + left * self.slowness
    }

    /// From now on it goes at this pace.
    pub fn go_on(&mut self, now: Instant, slowness: u32) {
        self.told = self.moment(now);
        self.since = now;
        self.slowness = slowness;
    }
}

#[cfg(test)]
mod tests {
    use super::*;

    fn settings(slowest: u32, slower_after: Option<u32>, faster_after: u32) -> PaceSettings {
        PaceSettings {
            slowest,
            slower_after,
            faster_after,
        }
    }

    /// The paces behind each of these: a term that was given up, or below 0 one in which a view is final.
    fn paces(pace: &mut Pace, happened: &[i64]) -> Vec<u32> {
        let each = happened.iter().map(|term| {
            let (was, number) = (pace.slowness(), term.unsigned_abs());
            let changed = if *term < 0 {
                pace.finalized(number)
            } else {
                pace.gave_up(number)
            };
            assert_eq!(changed, was != pace.slowness());
            pace.slowness()
        });
        each.collect()
    }

    #[test]
    fn the_time_goes_slower_behind_terms_in_a_row_that_were_given_up_and_faster_behind_final_views()
    {
        // Of four members one may fail: behind two terms, and no slower than six times.
        let mut pace = Pace::new(&settings(6, None, 3), 1);
        assert_eq!(
            paces(&mut pace, &[1, 2, 3, 4, 5, 6, 7, 8]),
            [1, 2, 2, 4, 4, 6, 6, 6]
        );
        assert_eq!(paces(&mut pace, &[-9; 10]), [6, 6, 3, 3, 3, 1, 1, 1, 1, 1]);
        // Of ten three may fail; of one none, but a single view says little.
        let default = PaceSettings::default();
        let rows = [(3, 4), (0, 2)].map(|(liars, row)| (Pace::new(&default, liars), row));
        for (mut pace, row) in rows {
            let terms: Vec<i64> = (1..=row).collect();
            let told = paces(&mut pace, &terms);
            assert_eq!(
                told.iter().position(|it| *it == 2),
                Some(row as usize - 1),
                "{told:?}"
            );
        }
    }

    #[test]
    fn a_leader_that_is_down_changes_no_pace_and_keeps_none_slow() {
        let mut pace = Pace::new(&settings(8, None, 8), 1);
        // Each fourth term is given up, and its votes are told of again.
        for round in 0..20 {
            let first = 4 * round;
            let happened = [first, first, -(first + 1), -(first + 2), -(first + 3)];
            assert_eq!(paces(&mut pace, &happened), [1; 5]);
        }
        // A view that is final late, below those that were given up, is no reason to forget them.
        assert_eq!(paces(&mut pace, &[100, -99, 101]), [1, 1, 2]);
        // It goes faster again though a term between is given up.
        assert_eq!(
            paces(
                &mut pace,
                &[-102, -102, -102, -102, 103, -104, -104, -104, -104]
            )[8],
            1
        );
    }

    #[test]
    fn a_pace_that_may_not_change_does_not() {
        let mut pace = Pace::new(&settings(1, Some(1), 1), 1);
        assert_eq!(paces(&mut pace, &[1, 2, 3, -4, 5]), [1; 5]);
        // What no settings say is bounded all the same.
        let mut pace = Pace::new(&settings(u32::MAX, Some(0), 0), 1);
        assert_eq!(paces(&mut pace, &(0..10).collect::<Vec<_>>())[9], SLOWEST);
        assert_eq!(paces(&mut pace, &[-10; 7])[6], 1);
    }

    #[test]
    fn moments_do_not_fall_where_the_pace_changes_and_come_when_they_were_to_come() {
        let (begin, beat) = (Instant::now(), Duration::from_millis(7));
        let mut clock = Clock::new(begin, 1);
        let (mut now, mut last) = (begin, 0);
        for (count, slowness) in (0..300).zip([1, 3, 64, 2].into_iter().cycle()) {
            now += beat;
            let moment = clock.moment(now);
            assert!(moment >= last, "{moment} behind {last}");
            last = moment;
            if count % 10 == 0 {
                clock.go_on(now, slowness);
                assert_eq!(clock.moment(now), last);
            }
            // It is that moment then, and not before.
            let rings = clock.when(last + 5);
            assert_eq!(clock.moment(rings), last + 5);
            assert_eq!(clock.moment(rings - Duration::from_millis(1)), last + 4);
        }
        // What has passed already is now.
        assert!(clock.when(0) <= now);
        let mut slow = Clock::new(begin, 4);
        assert_eq!(slow.moment(begin + Duration::from_millis(4_003)), 1_000);
        slow.go_on(begin + Duration::from_millis(4_000), 1);
        assert_eq!(slow.moment(begin + Duration::from_millis(4_500)), 1_500);
        assert!(slow.when(u64::MAX) > begin);
    }
}
