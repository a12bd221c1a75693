//! What waits for the node: answers of the application, and packets of each peer in a queue of its own with a bound, so that a peer who
//! sends much takes nothing from the others.

use crate::envelope::Opened;
use crate::wire::Event;
use std::collections::VecDeque;
use std::sync::{Condvar, Mutex};
use std::time::{Duration, Instant};

/// What comes next.
#[derive(Debug)]
pub enum Input {
    /// A packet of a peer.
    Packet(u32, Opened),
    /// An answer of the application's to a node of this life.
    Answer(u64, Event),
    /// The host is to end.
    Stop,
}

/// How many packets of one peer may wait.
const ROOM: usize = 1024;

#[derive(Default)]
struct Waiting {
    answers: VecDeque<(u64, Event)>,
    packets: Vec<VecDeque<Opened>>,
    next: usize,
    stop: bool,
}

impl Waiting {
    fn pop(&mut self) -> Option<Input> {
        if self.stop {
            return Some(Input::Stop);
        }
        if let Some((life, event)) = self.answers.pop_front() {
            return Some(Input::Answer(life, event));
        }
        let peers = self.packets.len();
        let place = (0..peers)
            .map(|step| (self.next + step) % peers)
            .find(|place| !self.packets[*place].is_empty())?;
        self.next = place + 1;
        let opened = self.packets[place].pop_front()?;
        Some(Input::Packet(place as u32, opened))
    }
}

/// The queues, for any number of threads that put in and one that takes.
pub struct Inbox {
    waiting: Mutex<Waiting>,
    filled: Condvar,
}

impl Inbox {
    /// Empty queues for so many members.
    pub fn new(members: u32) -> Inbox {
        let packets = (0..members).map(|_| VecDeque::new()).collect();
        Inbox {
            waiting: Mutex::new(Waiting {
                packets,
                ..Waiting::default()
            }),
            filled: Condvar::new(),
        }
    }

    fn with<T>(&self, change: impl FnOnce(&mut Waiting) -> T) -> T {
        let mut waiting = self.waiting.lock().expect("no thread failed with it");
        let got = change(&mut waiting);
        self.filled.notify_one();
        got
    }

    /// Puts a packet in.
    ///
    /// # Errors
    ///
    /// Gives it back where this peer's queue is full: whoever reads from the peer waits then.
    pub fn offer(&self, sender: u32, opened: Opened) -> Result<(), Box<Opened>> {
        self.with(|waiting| {
            let queue = &mut waiting.packets[sender as usize];
            if queue.len() >= ROOM {
                return Err(Box::new(opened));
            }
            queue.push_back(opened);
            Ok(())
        })
    }

    /// Puts an answer of the application's in. A node asks for few at a time, so they need no bound.
    pub fn answer(&self, life: u64, event: Event) {
        self.with(|waiting| waiting.answers.push_back((life, event)));
    }

    /// Has whoever takes end.
    pub fn stop(&self) {
        self.with(|waiting| waiting.stop = true);
    }

    /// Waits so long, or until it is to end, and answers whether it is.
    pub fn stops_within(&self, time: Duration) -> bool {
        let waiting = self.waiting.lock().expect("no thread failed with it");
        let waited = self
            .filled
            .wait_timeout_while(waiting, time, |waiting| !waiting.stop);
        let (waiting, _) = waited.expect("no thread failed with it");
        waiting.stop
    }

    /// How many packets wait.
    pub fn waiting(&self) -> usize {
        let waiting = self.waiting.lock().expect("no thread failed with it");
        waiting.packets.iter().map(VecDeque::len).sum()
    }

    /// Waits until something is there, or until this time, and takes at most so many.
    pub fn take(&self, until: Option<Instant>, most: usize) -> Vec<Input> {
        let mut waiting = self.waiting.lock().expect("no thread failed with it");
        loop {
            let taken: Vec<Input> = (0..most).map_while(|_| waiting.pop()).collect();
            if !taken.is_empty() {
                return taken;
            }
            let Some(until) = until else {
                waiting = self.filled.wait(waiting).expect("no thread failed with it");
                continue;
            };
            let left = until.saturating_duration_since(Instant::now());
            if left.is_zero() {
                return Vec::new();
            }
            let (again, _) = self
                .filled
                .wait_timeout(waiting, left)
                .expect("no thread failed with it");
            waiting = again;
        }
    }
}

#[cfg(test)]
mod tests {
    use super::*;
    use crate::envelope::Sealed;
    use crate::wire::{Channel, Message};

    fn packet(view: u64) -> Opened {
        Opened {
            sealed: Sealed {
                channel: Channel::Fetches,
                plain: Vec::new(),
                signatures: Vec::new(),
            },
            message: Message::Fetch(view),
        }
    }

    #[test]
    fn a_peer_that_floods_takes_no_turn_of_another() {
        let inbox = Inbox::new(3);
        while inbox.offer(0, packet(0)).is_ok() {}
        assert_eq!(inbox.waiting(), ROOM);
        inbox.offer(2, packet(7)).unwrap();
        inbox.answer(1, Event::Moment(5));
        let taken = inbox.take(None, 3);
        let senders: Vec<Option<u32>> = taken
            .iter()
            .map(|input| match input {
                Input::Packet(sender, _) => Some(*sender),
                _ => None,
            })
            .collect();
        assert_eq!(senders, [None, Some(0), Some(2)]);
    }

    #[test]
    fn nothing_comes_before_the_time_and_stop_before_all() {
        let inbox = Inbox::new(1);
        assert!(inbox.take(Some(Instant::now()), 9).is_empty());
        inbox.offer(0, packet(0)).unwrap();
        inbox.stop();
        assert!(matches!(inbox.take(None, 1)[..], [Input::Stop]));
    }
}
