//! What goes to one peer: a queue with a bound in bytes, sent until it is acknowledged.

use std::collections::VecDeque;
use std::sync::{Arc, Mutex};
use tokio::sync::Notify;
use voumlis_core::metrics::Metrics;
use voumlis_core::network::Letter;

/// A letter with its number.
#[derive(Clone, Debug)]
pub struct Numbered {
    /// Its number among what goes to this peer from this process, from 1 on.
    pub number: u64,
    /// The letter.
    pub letter: Letter,
}

#[derive(Default)]
struct Waiting {
    letters: VecDeque<Numbered>,
    bytes: usize,
    numbered: u64,
    /// Below this view what was sent to all is superseded.
    finalized: u64,
}

/// The queue to one peer, for any number of threads.
pub struct Outgoing {
    waiting: Mutex<Waiting>,
    filled: Notify,
    room: usize,
    metrics: Arc<Metrics>,
}

impl Outgoing {
    /// An empty queue with room for so many bytes.
    pub fn new(room: usize, metrics: Arc<Metrics>) -> Outgoing {
        Outgoing {
            waiting: Mutex::default(),
            filled: Notify::new(),
            room,
            metrics,
        }
    }

    fn drop_some(&self, queue: &str, count: usize) {
        let dropped = self.metrics.dropped.with_label_values(&[queue]);
        dropped.inc_by(count as u64);
    }

    /// Puts a letter in. Where there is no room, what is superseded goes first, then the oldest.
    pub fn push(&self, letter: Letter) {
        let mut waiting = self.waiting.lock().expect("no thread failed with it");
        let size = letter.bytes.len();
        if waiting.bytes + size > self.room {
            self.drop_some("superseded", waiting.forget_superseded());
        }
        let mut oldest = 0;
        while waiting.bytes + size > self.room && waiting.pop().is_some() {
            oldest += 1;
        }
        self.drop_some("links", oldest);
        waiting.push(letter);
        self.filled.notify_one();
    }

    /// Forgets what is superseded: a peer that was away is told what is current in its place.
    pub fn forget_superseded(&self) {
        let mut waiting = self.waiting.lock().expect("no thread failed with it");
        self.drop_some("superseded", waiting.forget_superseded());
    }

    /// Puts in what a peer that was away has to hear, as far as it doesn't wait already.
    pub fn push_missing(&self, letters: Vec<Letter>) {
        for letter in letters {
            let is_there = {
                let waiting = self.waiting.lock().expect("no thread failed with it");
                let mut all = waiting.letters.iter();
                all.any(|one| Arc::ptr_eq(&one.letter.bytes, &letter.bytes))
            };
            if !is_there {
                self.push(letter);
            }
        }
    }

    /// A view is final: of what was sent to all, that of views below is superseded.
    pub fn finalized(&self, view: u64) {
        let mut waiting = self.waiting.lock().expect("no thread failed with it");
        waiting.finalized = waiting.finalized.max(view);
    }

    /// Forgets all up to this number: the peer has it.
    pub fn acknowledged(&self, number: u64) {
        let mut waiting = self.waiting.lock().expect("no thread failed with it");
        while waiting
            .letters
            .front()
            .is_some_and(|one| one.number <= number)
        {
            waiting.pop();
        }
    }

    /// What stands behind this number, at most so many, once there is something.
    pub async fn behind(&self, number: u64, most: usize) -> Vec<Numbered> {
        loop {
            let filled = self.filled.notified();
            let found = self.found_behind(number, most);
            if !found.is_empty() {
                return found;
            }
            filled.await;
        }
    }

    fn found_behind(&self, number: u64, most: usize) -> Vec<Numbered> {
        let waiting = self.waiting.lock().expect("no thread failed with it");
        let letters = &waiting.letters;
        let first = letters.partition_point(|one| one.number <= number);
        letters.range(first..).take(most).cloned().collect()
    }

    /// How many bytes wait.
    pub fn bytes(&self) -> usize {
        self.waiting.lock().expect("no thread failed with it").bytes
    }
}

impl Waiting {
    fn push(&mut self, letter: Letter) {
        self.numbered += 1;
        self.bytes += letter.bytes.len();
        self.letters.push_back(Numbered {
            number: self.numbered,
            letter,
        });
    }

    fn pop(&mut self) -> Option<Numbered> {
        let oldest = self.letters.pop_front()?;
        self.bytes -= oldest.letter.bytes.len();
        Some(oldest)
    }

    fn forget_superseded(&mut self) -> usize {
        let before = self.letters.len();
        let finalized = self.finalized;
        self.letters
            .retain(|one| one.letter.view.is_none_or(|view| view >= finalized));
        self.bytes = self.letters.iter().map(|one| one.letter.bytes.len()).sum();
        before - self.letters.len()
    }
}

#[cfg(test)]
mod tests {
    use super::*;

    fn letter(view: Option<u64>, size: usize) -> Letter {
        Letter {
            bytes: Arc::new(vec![0; size]),
            view,
        }
    }

    fn numbers(queue: &Outgoing, behind: u64) -> Vec<u64> {
        let found = queue.found_behind(behind, 100);
        found.iter().map(|one| one.number).collect()
    }

    #[test]
    fn what_is_superseded_goes_first_and_then_the_oldest() {
        let metrics = Arc::new(Metrics::new().unwrap());
        let queue = Outgoing::new(100, metrics.clone());
        queue.push(letter(None, 20));
        queue.push(letter(Some(3), 40));
        queue.push(letter(Some(4), 40));
        assert_eq!(numbers(&queue, 0), [1, 2, 3]);
        queue.finalized(4);
        queue.push(letter(Some(5), 40));
        assert_eq!(numbers(&queue, 0), [1, 3, 4]);
        queue.push(letter(Some(5), 10));
        assert_eq!(numbers(&queue, 0), [3, 4, 5]);
        assert_eq!(queue.bytes(), 90);
        let dropped = |name| metrics.dropped.with_label_values(&[name]).get();
        assert_eq!((dropped("superseded"), dropped("links")), (1, 1));
    }

    #[test]
    fn what_is_acknowledged_is_sent_no_more() {
        let metrics = Arc::new(Metrics::new().unwrap());
        let queue = Outgoing::new(1000, metrics);
        (0..5).for_each(|_| queue.push(letter(None, 1)));
        queue.acknowledged(3);
        assert_eq!(numbers(&queue, 0), [4, 5]);
        assert_eq!(numbers(&queue, 4), [5]);
        let again = letter(Some(1), 1);
        queue.push(again.clone());
        queue.push_missing(vec![again, letter(Some(2), 1)]);
        assert_eq!(numbers(&queue, 5), [6, 7]);
    }
}
