//! A member that is far from all others: what it sends leaves 1.2 s later. It is for trials, which look that a committee of such gets on;
//! `late run FOLDER` as `voumlisd run FOLDER`.

use std::process::ExitCode;
use std::sync::Arc;
use std::sync::mpsc::{Sender, channel};
use std::thread;
use std::time::{Duration, Instant};
use voumlis_core::network::{Letter, Network};
use voumlisd::{Counting, Service, command_line};

/// Longer than a leader has.
const LATE: Duration = Duration::from_millis(1200);

/// Links over which each letter goes later, in the order in which it came.
struct Far {
    links: Arc<dyn Network>,
    road: Sender<(Instant, Option<u32>, Letter)>,
}

impl Far {
    fn new(links: Arc<dyn Network>) -> Far {
        let (road, arriving) = channel::<(Instant, Option<u32>, Letter)>();
        let end = links.clone();
        thread::spawn(move || {
            for (due, to, letter) in arriving {
                thread::sleep(due.saturating_duration_since(Instant::now()));
                match to {
                    Some(peer) => end.send(peer, letter),
                    None => end.send_to_all(letter),
                }
            }
        });
        Far { links, road }
    }

    fn put_on(&self, to: Option<u32>, letter: Letter) {
        // Nobody waits at the end of it where the member is stopping.
        let _ = self.road.send((Instant::now() + LATE, to, letter));
    }
}

impl Network for Far {
    fn send(&self, to: u32, letter: Letter) {
        self.put_on(Some(to), letter);
    }

    fn send_to_all(&self, letter: Letter) {
        self.put_on(None, letter);
    }

    fn block(&self, member: u32, why: &str) {
        self.links.block(member, why);
    }

    fn finalized(&self, view: u64) {
        self.links.finalized(view);
    }
}

fn main() -> ExitCode {
    command_line(|_| {
        let mut service = Service::new(Counting::default());
        service.wrap = Some(Box::new(|links, _| Arc::new(Far::new(links))));
        Ok(service)
    })
}
