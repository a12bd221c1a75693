//! A member with the store on it that lies: it signs, with its real key, votes that no correct member signs both. `liar run FOLDER` as
//! `kv run FOLDER`; `VOUMLIS_LIE` is notarize, split or nullify. Without it, it is a member as `kv`.

use anyhow::{Result, bail};
use kv::machine::Limits;
use std::process::ExitCode;
use std::sync::Arc;
use voumlis_core::envelope::Sealer;
use voumlis_core::frame::Frame;
use voumlis_core::network::{Letter, Network};
use voumlis_core::plain::{BASE, attestation, sha256};
use voumlis_core::wire::{Channel, Message, On, Vote, VoteKind};
use voumlisd::command_line;

/// How it lies.
#[derive(Clone, Copy)]
enum Lie {
    Notarize,
    Split,
    Nullify,
}

impl Lie {
    fn read() -> Result<Option<Lie>> {
        Ok(match std::env::var("VOUMLIS_LIE").as_deref() {
            Ok("notarize") => Some(Lie::Notarize),
            Ok("split") => Some(Lie::Split),
            Ok("nullify") => Some(Lie::Nullify),
            Ok("") | Err(_) => None,
            Ok(other) => bail!("VOUMLIS_LIE is notarize, split or nullify, not {other}"),
        })
    }
}

/// Links over which each vote to notarize, or to finalize, goes with one against it.
struct TwoTongues {
    links: Arc<dyn Network>,
    sealer: Sealer,
    lie: Lie,
}

impl TwoTongues {
    /// The vote that this letter brings, if it brings an own one.
    fn vote(&self, letter: &Letter) -> Option<Vote> {
        let Ok(Frame::Packet(sealed)) = Frame::read(&letter.bytes) else {
            return None;
        };
        let size = self.sealer.committee.size();
        match Message::read(sealed.channel, size, &sealed.plain) {
            Ok(Message::Vote(vote)) if vote.attestation.signer == self.sealer.me => Some(vote),
            _ => None,
        }
    }

    /// A vote against this one, signed with the real key.
    fn against(&self, vote: &Vote) -> Option<Letter> {
        let (kind, on) = match (self.lie, vote.kind, vote.on) {
            (Lie::Notarize | Lie::Split, VoteKind::Notarize, On::Proposal(mut proposal)) => {
                proposal.payload = sha256(&[b"another", &proposal.payload]);
                (VoteKind::Notarize, On::Proposal(proposal))
            }
            (Lie::Nullify, VoteKind::Finalize, on) => (VoteKind::Nullify, On::Round(on.round())),
            _ => return None,
        };
        let mut lie = Vote { kind, on, ..*vote };
        lie.attestation.hash = attestation(BASE, kind, &on, self.sealer.me);
        let sealed = self.sealer.seal(Channel::Votes, lie.bytes()).ok()?.0;
        Some(Letter::new(&Frame::Packet(sealed)))
    }
}

impl Network for TwoTongues {
    fn send(&self, to: u32, letter: Letter) {
        self.links.send(to, letter);
    }

    fn send_to_all(&self, letter: Letter) {
        let Some(lie) = self.vote(&letter).and_then(|vote| self.against(&vote)) else {
            return self.links.send_to_all(letter);
        };
        let Lie::Split = self.lie else {
            self.links.send_to_all(letter);
            return self.links.send_to_all(lie);
        };
        let peers = (0..self.sealer.committee.size()).filter(|peer| *peer != self.sealer.me);
        for (at, peer) in peers.enumerate() {
            let letter = if at == 0 { &lie } else { &letter };
            self.links.send(peer, letter.clone());
        }
    }

    fn block(&self, member: u32, why: &str) {
        self.links.block(member, why);
    }

    fn finalized(&self, view: u64) {
        self.links.finalized(view);
    }
}

fn main() -> ExitCode {
    command_line(|_| {
        let mut service = kv::service(Limits::default());
        if let Some(lie) = Lie::read()? {
            service.wrap = Some(Box::new(move |links, sealer| {
                Arc::new(TwoTongues { links, sealer, lie })
            }));
        }
        Ok(service)
    })
}
