//! Votes that came before the node listens to their views.
//!
//! A node refuses votes of views that are too far from its own, and forgets them. A leader may be a view or two ahead of others, though,
//! and its vote, which alone brings its proposal, is sent once. So the host keeps what was refused so, and hands it in again whenever the
//! node has entered a view: for the node that is a packet that came late.

use crate::envelope::Opened;
use crate::inbox::Input;
use std::collections::{BTreeMap, VecDeque};

/// How many votes of one peer are kept, the last that came: some views' worth. So a peer that sends more takes nothing from the others.
const ROOM: usize = 16;

/// The packets that wait, by who sent them.
#[derive(Default)]
pub struct Early {
    kept: BTreeMap<u32, VecDeque<Opened>>,
    entered: u64,
}

impl Early {
    /// Keeps a packet.
    pub fn keep(&mut self, sender: u32, opened: Opened) {
        let queue = self.kept.entry(sender).or_default();
        if queue.len() == ROOM {
            queue.pop_front();
        }
        queue.push_back(opened);
    }

    /// What the node may listen to now that it has entered this view, the lowest views first: all that is at most so many views ahead.
    /// Nothing where that was asked before.
    pub fn due(&mut self, entered: u64, reach: u64) -> Vec<Input> {
        if entered <= self.entered {
            return Vec::new();
        }
        self.entered = entered;
        let last = entered.saturating_add(reach);
        let mut due = Vec::new();
        for (sender, queue) in &mut self.kept {
            let all = queue.drain(..);
            let (now, later): (Vec<_>, Vec<_>) = all.partition(|it| it.message.view() <= last);
            due.extend(now.into_iter().map(|opened| (*sender, opened)));
            queue.extend(later);
        }
        due.sort_by_key(|(_, opened)| opened.message.view());
        let inputs = due.into_iter();
        inputs
            .map(|(sender, opened)| Input::Packet(sender, opened))
            .collect()
    }
}

#[cfg(test)]
mod tests {
    use super::*;
    use crate::envelope::Sealed;
    use crate::wire::{Channel, Message};

    /// A packet that speaks of this view; the number is to know it by.
    fn packet(view: u64, number: u8) -> Opened {
        Opened {
            sealed: Sealed {
                channel: Channel::Fetches,
                plain: vec![number],
                signatures: Vec::new(),
            },
            message: Message::Fetch(view),
        }
    }

    /// Who sent what is due, and its number.
    fn due(early: &mut Early, entered: u64) -> Vec<(u32, u8)> {
        let due = early.due(entered, 4).into_iter();
        due.map(|input| match input {
            Input::Packet(sender, opened) => (sender, opened.sealed.plain[0]),
            other => panic!("{other:?}"),
        })
        .collect()
    }

    #[test]
    fn what_came_early_is_due_once_a_view_and_of_a_peer_that_floods_the_last_alone() {
        let mut early = Early::default();
        early.keep(1, packet(9, 9));
        early.keep(2, packet(7, 7));
        early.keep(2, packet(40, 40));
        assert_eq!(due(&mut early, 5), [(2, 7), (1, 9)]);
        early.keep(1, packet(9, 9));
        assert_eq!(due(&mut early, 5), []);
        for number in 0..100 {
            early.keep(3, packet(8, number));
        }
        let last: Vec<_> = (84..100)
            .map(|number| (3, number))
            .chain([(1, 9)])
            .collect();
        assert_eq!(due(&mut early, 6), last);
        assert_eq!(due(&mut early, 50), [(2, 40)]);
    }
}
