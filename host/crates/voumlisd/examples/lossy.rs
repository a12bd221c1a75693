//! A member of whose letters to each other member one in three or so is lost. It is for trials, which look that a committee of such gets on;
//! `lossy run FOLDER` as `voumlisd run FOLDER`.

use std::process::ExitCode;
use std::sync::{Arc, Mutex};
use voumlis_core::network::{Letter, Network};
use voumlisd::{Counting, Service, command_line};

/// How many of a hundred letters are lost.
const LOST: u64 = 30;

/// Links that lose letters: what a node hands out, and blocks and asks for them.
struct Lossy {
    links: Arc<dyn Network>,
    peers: Vec<u32>,
    /// The state of a xorshift, which is never 0: another in each process.
    chance: Mutex<u64>,
}

impl Lossy {
    fn is_lost(&self) -> bool {
        let mut chance = self.chance.lock().expect("no thread failed with it");
        *chance ^= *chance << 13;
        *chance ^= *chance >> 7;
        *chance ^= *chance << 17;
        *chance % 100 < LOST
    }
}

impl Network for Lossy {
    fn send(&self, to: u32, letter: Letter) {
        if !self.is_lost() {
            self.links.send(to, letter);
        }
    }

    fn send_to_all(&self, letter: Letter) {
        for peer in &self.peers {
            self.send(*peer, letter.clone());
        }
    }

    fn block(&self, member: u32, why: &str) {
        self.links.block(member, why);
    }

    fn finalized(&self, view: u64) {
        self.links.finalized(view);
    }
}

fn main() -> ExitCode {
    command_line(|_| {
        let mut service = Service::new(Counting::default());
        service.wrap = Some(Box::new(|links, sealer| {
            let peers = (0..sealer.committee.size()).filter(|peer| *peer != sealer.me);
            let begin = u64::from(std::process::id()) << 32 | u64::from(sealer.me) << 1 | 1;
            Arc::new(Lossy {
                links,
                peers: peers.collect(),
                chance: Mutex::new(begin),
            })
        }));
        Ok(service)
    })
}
