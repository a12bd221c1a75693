//! When a record is rewritten: where it has doubled, so that all rewrites together write no more than a few times what the node does.

/// The record is rewritten from so many bytes on: what is shorter is read in no time.
pub const REWRITTEN_FROM: u64 = 1 << 20;

/// How a record has grown since it was opened or rewritten.
#[derive(Clone, Debug)]
pub struct Growth {
    /// What each of its files had then.
    then: [u64; 2],
    from: u64,
}

impl Growth {
    /// Of a record whose files have so many bytes now, and which isn't rewritten below `from` bytes.
    pub fn new(now: [u64; 2], from: u64) -> Growth {
        Growth { then: now, from }
    }

    /// Whether it is to be rewritten, with files of so many bytes. One of them is read, and that one alone grows: so what the other still
    /// has, which the next rewrite writes over, counts for nothing.
    pub fn is_due(&self, now: [u64; 2]) -> bool {
        let mut files = now.iter().zip(self.then);
        files.any(|(now, then)| *now > then && *now >= self.from.max(then.saturating_mul(2)))
    }

    /// It was rewritten, or there was nothing to rewrite: its files have so many bytes now.
    pub fn begin(&mut self, now: [u64; 2]) {
        self.then = now;
    }
}

#[cfg(test)]
mod tests {
    use super::*;

    #[test]
    fn a_record_is_rewritten_where_it_has_doubled_and_is_long_enough() {
        let mut growth = Growth::new([0, 0], 100);
        let sizes = [[0, 0], [99, 0], [100, 0]].map(|now| growth.is_due(now));
        assert_eq!(sizes, [false, false, true]);
        // The other file is read now: the first stays as it is until it is written over.
        growth.begin([100, 40]);
        let sizes = [[100, 40], [100, 99], [100, 100]].map(|now| growth.is_due(now));
        assert_eq!(sizes, [false, false, true]);
        // There was nothing to drop: the next is where that has doubled.
        growth.begin([100, 1_000]);
        let sizes = [[100, 1_000], [100, 1_999], [100, 2_000]].map(|now| growth.is_due(now));
        assert_eq!(sizes, [false, false, true]);
        growth.begin([30, 2_000]);
        assert!(!growth.is_due([30, 2_000]) && growth.is_due([100, 2_000]));
    }

    #[test]
    fn a_record_that_does_not_grow_is_not_rewritten() {
        // As long as any, and cut, and however little is enough.
        for from in [0, 100] {
            let growth = Growth::new([500, 900], from);
            assert!(
                ![[500, 900], [200, 900], [0, 0]]
                    .iter()
                    .any(|now| growth.is_due(*now))
            );
        }
        assert!(!Growth::new([u64::MAX - 1, 0], 1).is_due([u64::MAX - 1, 0]));
    }
}
