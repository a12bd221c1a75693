//! A node by its settings, as real processes: what was recorded before settings could be chosen is opened, and what nothing settled is asked
//! for again.

mod common;

use common::{simplex, tool};
use std::fs;
use std::io::Write;
use std::path::Path;
use std::process::{Command, Stdio};
use voumlis_core::member::{Child, Member, NodeSettings, Repair, second_path};
use voumlis_core::plain::{BASE, attestation};
use voumlis_core::wire::{
    Action, Attestation, Certificate, Channel, Event, Message, On, Reply, Round, Vote, VoteKind,
};

/// The votes of these members to give a view up.
fn nullifies(view: u64, signers: std::ops::Range<u32>) -> Vec<Vote> {
    let on = On::Round(Round { epoch: 0, view });
    let kind = VoteKind::Nullify;
    let vote = |signer| Vote {
        kind,
        on,
        attestation: Attestation {
            signer,
            hash: attestation(BASE, kind, &on, signer),
        },
    };
    signers.map(vote).collect()
}

/// The certificate by which a quorum of four gave a view up, from member 1.
fn nullification(view: u64) -> Event {
    let votes = nullifies(view, 1..4);
    let certificate = Certificate {
        kind: VoteKind::Nullify,
        on: votes[0].on,
        attestations: votes.iter().map(|vote| vote.attestation).collect(),
    };
    Event::Packet {
        sender: 1,
        channel: Channel::Certificates,
        bytes: certificate.bytes(),
    }
}

/// What `simplex node` answers to these events over a record, as member 0 of four, until its input ends.
fn by_simplex_node(record: &Path, events: &[Event]) -> Vec<Reply> {
    let mut child = Command::new(simplex())
        .arg("node")
        .arg(record)
        .args(["0", "4"])
        .stdin(Stdio::piped())
        .stdout(Stdio::piped())
        .spawn()
        .unwrap();
    let mut bytes = Vec::new();
    events.iter().for_each(|event| event.append(&mut bytes));
    child.stdin.take().unwrap().write_all(&bytes).unwrap();
    let output = child.wait_with_output().unwrap();
    assert!(output.status.success(), "{output:?}");
    let (mut replies, mut rest) = (Vec::new(), &output.stdout[..]);
    while !rest.is_empty() {
        let (reply, size) = Reply::read(rest).unwrap();
        replies.push(reply);
        rest = &rest[size..];
    }
    replies
}

fn reports(reply: &Reply) -> usize {
    let is_report = |action: &&Action| matches!(action, Action::Report(_));
    reply.actions.iter().filter(is_report).count()
}

/// What both files of a record hold.
fn stored(record: &Path) -> [Option<Vec<u8>>; 2] {
    [record.to_owned(), second_path(record)].map(|path| fs::read(path).ok())
}

#[test]
fn a_record_that_simplex_node_made_is_opened() {
    let folder = tempfile::tempdir().unwrap();
    let record = folder.path().join("record");
    // It gives view 1 up, and learns that a later term was given up.
    let events = [Event::Moment(1), Event::Moment(1_100), nullification(9)];
    by_simplex_node(&record, &events);
    let told = by_simplex_node(&record, &[]);
    assert!(reports(&told[0]) >= 2);

    // With settings that have to be alike, and aren't, it is left as it is.
    let before = stored(&record);
    let another = |change: fn(&mut NodeSettings)| {
        let mut settings = NodeSettings::default();
        change(&mut settings);
        settings
    };
    for settings in [
        another(|it| it.epoch = 1),
        another(|it| it.base = "other".to_owned()),
    ] {
        let refused = Child::open(&tool(), &record, 0, 4, &settings)
            .err()
            .unwrap();
        let said = refused.to_string();
        assert!(said.contains("written with other settings"), "{said}");
    }
    assert_eq!(stored(&record), before);

    // As where nothing is said, and with what may differ, it is told as it was.
    for settings in [
        NodeSettings::default(),
        another(|it| it.leader_timeout = 500),
        another(|it| it.repair = Repair::Once),
    ] {
        let (node, first) = Child::open(&tool(), &record, 0, 4, &settings).unwrap();
        assert_eq!(reports(&first), reports(&told[0]));
        Box::new(node).close().unwrap();
    }
    assert_eq!(by_simplex_node(&record, &[]), told);
}

/// The views that a reply asks others for.
fn asks(reply: &Reply) -> Vec<u64> {
    let asked = reply.actions.iter().filter_map(|action| match action {
        Action::Send { channel, bytes, .. } if *channel == Channel::Fetches => {
            let message = Message::read(Channel::Fetches, 4, bytes).unwrap();
            Some(message.view())
        }
        _ => None,
    });
    asked.collect()
}

/// What a node asks for that hears of a gap, and what it asks for in half a minute behind that without an answer.
fn asked(settings: &NodeSettings) -> (Vec<u64>, Vec<u64>) {
    let folder = tempfile::tempdir().unwrap();
    let record = folder.path().join("record");
    let (node, _) = Child::open(&tool(), &record, 0, 4, settings).unwrap();
    drop(node);
    // It was killed, and is opened again behind what the others gave up meanwhile.
    let (mut node, _) = Child::open(&tool(), &record, 0, 4, settings).unwrap();
    let mut heard = asks(&node.step(&nullification(41)).unwrap());
    let mut later = Vec::new();
    for second in 1..=30 {
        later.extend(asks(&node.step(&Event::Moment(1_000 * second)).unwrap()));
    }
    heard.sort_unstable();
    heard.dedup();
    (heard, later)
}

#[test]
fn what_nothing_settled_is_asked_for_again() {
    let usual = NodeSettings::default();
    let (gap, again) = asked(&usual);
    // A view of each term between.
    assert_eq!(gap, [1, 5, 9, 13, 17, 21, 25, 29, 33, 37]);
    for view in &gap {
        let times = again.iter().filter(|it| *it == view).count();
        assert!(times >= 3, "view {view}: {again:?}");
    }
    let once = NodeSettings {
        repair: Repair::Once,
        repair_window: 0,
        ..usual.clone()
    };
    assert_eq!(asked(&once), (gap, Vec::new()));
    // A window asks for the lowest first.
    let narrow = NodeSettings {
        repair_window: 8,
        ..usual
    };
    let (first, again) = asked(&narrow);
    assert_eq!(first, [1, 5, 9, 13, 17, 21, 25, 29]);
    assert!(!again.is_empty() && again.iter().all(|view| *view <= 29));
}
