//! Which views a node listens to: what the loop takes for granted of it.

mod common;

use voumlis_core::engine::listens_ahead;
use voumlis_core::member::{Child, Member, NodeSettings};
use voumlis_core::plain::{BASE, attestation};
use voumlis_core::wire::{Attestation, Channel, Event, On, Reply, Round, Vote, VoteKind};

fn nullify(view: u64, signer: u32) -> Event {
    let on = On::Round(Round { epoch: 0, view });
    let kind = VoteKind::Nullify;
    let hash = attestation(BASE, kind, &on, signer);
    let vote = Vote {
        kind,
        on,
        attestation: Attestation { signer, hash },
    };
    Event::Packet {
        sender: signer,
        channel: Channel::Votes,
        bytes: vote.bytes(),
    }
}

#[test]
fn the_program_refuses_a_vote_that_comes_early_and_takes_it_where_it_has_gone_on() {
    for term in [4, 1, 7] {
        let folder = tempfile::tempdir().unwrap();
        let record = folder.path().join("record");
        let settings = NodeSettings {
            term_length: term,
            ..NodeSettings::default()
        };
        let (mut node, _) = Child::open(&common::tool(), &record, 0, 4, &settings).unwrap();
        let mut say = |view, signer| node.step(&nullify(view, signer)).unwrap();
        let is_taken = |reply: &Reply| reply.refused == 0;
        let ahead = listens_ahead(term.into());
        // It stands at view 1, in the first term.
        assert!(is_taken(&say(1 + ahead, 1)), "terms of {term}");
        assert!(say(2 + ahead, 1).is_of_views_apart(), "terms of {term}");
        if term < 4 {
            continue;
        }
        let later = u64::from(term) + 3;
        assert!(say(later, 1).is_of_views_apart());
        for signer in 1..4 {
            assert!(is_taken(&say(1, signer)));
        }
        // It stands at the first view of the next.
        assert!(is_taken(&say(later, 1)));
    }
}
