//! A member that lies: behind each notarize of its own it signs, with its real key, a second one for another payload. It is for trials,
//! which look that the others convict it; `liar run FOLDER` as `voumlisd run FOLDER`.

use std::process::ExitCode;
use std::sync::Arc;
use voumlis_core::envelope::Sealer;
use voumlis_core::frame::Frame;
use voumlis_core::network::{Letter, Network};
use voumlis_core::plain::{BASE, attestation, sha256};
use voumlis_core::wire::{Channel, Message, On, Vote, VoteKind};
use voumlisd::{Counting, Service, command_line};

/// Links over which each vote to notarize goes twice.
struct TwoTongues {
    links: Arc<dyn Network>,
    sealer: Sealer,
}

impl TwoTongues {
    /// The second vote, if this letter is a first one.
    fn lie(&self, letter: &Letter) -> Option<Letter> {
        let Ok(Frame::Packet(sealed)) = Frame::read(&letter.bytes) else {
            return None;
        };
        let read = Message::read(sealed.channel, self.sealer.committee.size(), &sealed.plain);
        let Ok(Message::Vote(vote)) = read else {
            return None;
        };
        let (VoteKind::Notarize, On::Proposal(mut proposal)) = (vote.kind, vote.on) else {
            return None;
        };
        proposal.payload = sha256(&[b"another", &proposal.payload]);
        let on = On::Proposal(proposal);
        let mut lie = Vote { on, ..vote };
        lie.attestation.hash = attestation(BASE, lie.kind, &on, self.sealer.me);
        let sealed = self.sealer.seal(Channel::Votes, lie.bytes()).ok()?.0;
        Some(Letter::new(&Frame::Packet(sealed)))
    }
}

impl Network for TwoTongues {
    fn send(&self, to: u32, letter: Letter) {
        self.links.send(to, letter);
    }

    fn send_to_all(&self, letter: Letter) {
        let lie = self.lie(&letter);
        self.links.send_to_all(letter);
        if let Some(lie) = lie {
            self.links.send_to_all(lie);
        }
    }

    fn block(&self, member: u32, why: &str) {
        self.links.block(member, why);
    }

    fn finalized(&self, view: u64) {
        self.links.finalized(view);
    }
}

fn main() -> ExitCode {
    command_line(|_| {
        let mut service = Service::new(Counting::default());
        service.wrap = Some(Box::new(|links, sealer| {
            Arc::new(TwoTongues { links, sealer })
        }));
        Ok(service)
    })
}
