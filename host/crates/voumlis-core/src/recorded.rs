//! What a record has that others may lack: at each opening it goes to all again.
//!
//! A node records a vote before it hands it out, and each certificate goes to all once. Where a process is killed between the two, or with
//! what it had sent under way, nobody else may have it; and where all members were killed so, nobody is left to hand it on, and all stand
//! still. So behind an opening a host sends what its node tells of its record: the last finalization, and above it own votes, signed anew,
//! and certificates, as far as the signatures in them are kept. A record holds what was voted, so no vote is sent that doesn't count
//! already. Who has it refuses it as a repetition.

use crate::wire::{Action, Channel, LARGEST, Report, VoteKind};

/// How many packets at most: those of some views, the last ones.
const MOST: usize = 256;

/// The packets, in the order in which they were recorded, of an opening's first actions.
pub fn packets(first: &[Action], me: u32) -> Vec<(Channel, Vec<u8>)> {
    // They tell the whole record, so they are read twice and not kept.
    let reports = || first.iter().filter_map(report);
    let finalized = reports()
        .filter_map(|report| finalization(&report))
        .max()
        .unwrap_or(0);
    let sent = reports().filter_map(|report| match &report {
        Report::Vote(vote) => {
            let is_wanted = vote.attestation.signer == me && report.view() > finalized;
            is_wanted.then(|| (Channel::Votes, vote.bytes()))
        }
        Report::Certificate(certificate) => {
            let is_wanted = report.view() > finalized || finalization(&report) == Some(finalized);
            is_wanted.then(|| (Channel::Certificates, certificate.bytes()))
        }
        // A verdict is each member's own, and evidence is for those who judge.
        Report::Certified(_) | Report::Evidence(..) => None,
    });
    let sent: Vec<_> = sent.collect();
    sent[sent.len().saturating_sub(MOST)..].to_vec()
}

fn report(action: &Action) -> Option<Report> {
    match action {
        Action::Report(plain) => Report::read(LARGEST, plain).ok(),
        _ => None,
    }
}

/// The view that a report says is final.
fn finalization(report: &Report) -> Option<u64> {
    match report {
        Report::Certificate(certificate) if certificate.kind == VoteKind::Finalize => {
            Some(report.view())
        }
        _ => None,
    }
}

#[cfg(test)]
mod tests {
    use super::*;
    use crate::wire::{Attestation, Certificate, On, Proposal, Round, Vote};

    fn on(kind: VoteKind, view: u64) -> On {
        let round = Round { epoch: 0, view };
        match kind {
            VoteKind::Nullify => On::Round(round),
            VoteKind::Notarize | VoteKind::Finalize => On::Proposal(Proposal {
                round,
                parent: view - 1,
                payload: [7; 32],
            }),
        }
    }

    fn vote(kind: VoteKind, view: u64, signer: u32) -> Vote {
        Vote {
            kind,
            on: on(kind, view),
            attestation: Attestation {
                signer,
                hash: [signer as u8; 32],
            },
        }
    }

    fn certificate(kind: VoteKind, view: u64) -> Certificate {
        let attestations = (1..4).map(|signer| vote(kind, view, signer).attestation);
        Certificate {
            kind,
            on: on(kind, view),
            attestations: attestations.collect(),
        }
    }

    /// As a report: of a vote, and of a certificate.
    fn told(kind: VoteKind, is_vote: bool, packet: Vec<u8>) -> Action {
        let tag = match (kind, is_vote) {
            (VoteKind::Notarize, true) => 0,
            (VoteKind::Notarize, false) => 1,
            (VoteKind::Nullify, true) => 3,
            (VoteKind::Nullify, false) => 4,
            (VoteKind::Finalize, true) => 5,
            (VoteKind::Finalize, false) => 6,
        };
        let mut plain = packet;
        plain[0] = tag;
        Action::Report(plain)
    }

    #[test]
    fn own_votes_and_certificates_above_the_last_final_view_go_out() {
        use VoteKind::{Finalize, Notarize, Nullify};
        let own = |kind, view| vote(kind, view, 2).bytes();
        let whole = |kind, view| certificate(kind, view).bytes();
        let first = [
            told(Notarize, true, own(Notarize, 4)),
            told(Notarize, false, whole(Notarize, 4)),
            told(Finalize, true, own(Finalize, 4)),
            told(Finalize, false, whole(Finalize, 4)),
            told(Notarize, true, own(Notarize, 5)),
            told(Notarize, true, vote(Notarize, 5, 1).bytes()),
            told(Notarize, false, whole(Notarize, 5)),
            told(Nullify, true, own(Nullify, 6)),
            Action::Wake(9),
        ];
        let expected = [
            (Channel::Certificates, whole(Finalize, 4)),
            (Channel::Votes, own(Notarize, 5)),
            (Channel::Certificates, whole(Notarize, 5)),
            (Channel::Votes, own(Nullify, 6)),
        ];
        assert_eq!(packets(&first, 2), expected);
    }

    #[test]
    fn of_many_the_last_ones_go_out() {
        let own = |view| vote(VoteKind::Nullify, view, 2).bytes();
        let all: Vec<_> = (1..=300)
            .map(|view| told(VoteKind::Nullify, true, own(view)))
            .collect();
        let sent = packets(&all, 2);
        assert_eq!(sent.len(), MOST);
        assert_eq!(sent.last(), Some(&(Channel::Votes, own(300))));
    }
}
