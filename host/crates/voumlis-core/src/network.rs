//! What the loop wants of a network, and what is current on it.

use crate::frame::Frame;
use crate::wire::{Message, VoteKind};
use std::collections::VecDeque;
use std::sync::{Arc, Mutex};

/// A frame on its way to peers.
#[derive(Clone, Debug)]
pub struct Letter {
    /// The frame's bytes.
    pub bytes: Arc<Vec<u8>>,
    /// Of what was sent to all, the view that it speaks of: a later finalization supersedes it.
    pub view: Option<u64>,
}

impl Letter {
    /// A frame that nothing supersedes.
    pub fn new(frame: &Frame) -> Letter {
        Letter {
            bytes: Arc::new(frame.bytes()),
            view: None,
        }
    }
}

/// Links to the peers. No call waits; what can't be sent now is sent later, or dropped and counted.
pub trait Network: Send + Sync {
    /// Sends to one member.
    fn send(&self, to: u32, letter: Letter);

    /// Sends to all other members.
    fn send_to_all(&self, letter: Letter);

    /// Takes nothing more of this member, for this reason.
    fn block(&self, member: u32, why: &str);

    /// What was sent to all of views below this final one is superseded.
    fn finalized(&self, view: u64);
}

/// What a peer that was away has to hear: the latest finalization, and the certificates and own votes above it.
#[derive(Default)]
pub struct Current(Mutex<Kept>);

#[derive(Default)]
struct Kept {
    finalization: Option<Letter>,
    others: VecDeque<Letter>,
}

/// How many letters are kept at most: some views' worth.
const MOST: usize = 256;

impl Current {
    /// Takes in what goes to all.
    pub fn add(&self, message: &Message, letter: &Letter) {
        let mut kept = self.0.lock().expect("no thread failed with it");
        match message {
            Message::Certificate(certificate) if certificate.kind == VoteKind::Finalize => {
                let newest = kept.finalization.as_ref().and_then(|it| it.view);
                if newest < letter.view {
                    kept.finalization = Some(letter.clone());
                    kept.others.retain(|other| other.view > letter.view);
                }
            }
            Message::Certificate(_) | Message::Vote(_) => {
                if kept.others.len() == MOST {
                    kept.others.pop_front();
                }
                kept.others.push_back(letter.clone());
            }
            // It is sent until it arrives, and its node asks again where no answer comes.
            Message::Fetch(_) => {}
        }
    }

    /// All of it.
    pub fn letters(&self) -> Vec<Letter> {
        let kept = self.0.lock().expect("no thread failed with it");
        kept.finalization
            .iter()
            .chain(&kept.others)
            .cloned()
            .collect()
    }
}
