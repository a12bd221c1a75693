//! The loop of a member, around a node that says what the test has it say.

mod common;

use common::{Remembered, key, patience, sealers, until};
use std::path::Path;
use std::sync::mpsc::Receiver;
use std::sync::{Arc, Mutex};
use std::thread::{self, JoinHandle};
use std::time::Duration;
use voumlis_core::chain::{ChainHandle, Request};
use voumlis_core::committee::Signature;
use voumlis_core::engine::{Engine, EngineSettings};
use voumlis_core::envelope::{Opened, Sealer};
use voumlis_core::frame::Frame;
use voumlis_core::inbox::Inbox;
use voumlis_core::member::{Member, NotYet, Open, Rewriting};
use voumlis_core::metrics::{Metrics, Status};
use voumlis_core::network::Current;
use voumlis_core::pace::PaceSettings;
use voumlis_core::plain::{BASE, attestation};
use voumlis_core::reports::{ReportLog, read_all};
use voumlis_core::signatures::SignatureFile;
use voumlis_core::wire::{
    Action, Attestation, Channel, Event, On, Proposal, Reply, Round, Vote, VoteKind, put_number,
};

/// What the nodes of all lives were told, each with the number of its life.
type Events = Arc<Mutex<Vec<(u64, Event)>>>;

/// What a node says to an event.
type Say = Arc<dyn Fn(u64, &Event) -> Reply + Send + Sync>;

/// A record that is as long as the test says, and 10 bytes long behind a rewrite.
#[derive(Default)]
struct Record {
    bytes: [u64; 2],
    /// Whether its nodes rewrite it where they are let go, as the program does, and whether that fails.
    is_at_end: bool,
    fails: bool,
    /// How many packets and answers its nodes had been told at each rewrite.
    rewrites: Vec<usize>,
}

/// A node that says what the test has it say.
struct Scripted {
    life: u64,
    events: Events,
    say: Say,
    record: Arc<Mutex<Record>>,
}

impl Scripted {
    fn shorten(&self) -> anyhow::Result<()> {
        let mut record = self.record.lock().unwrap();
        anyhow::ensure!(!record.fails, "the disk is full");
        record.rewrites.push(told(&self.events).len());
        record.bytes[1] = 10;
        Ok(())
    }
}

impl Member for Scripted {
    fn step(&mut self, event: &Event) -> anyhow::Result<Reply> {
        self.events.lock().unwrap().push((self.life, event.clone()));
        Ok((self.say)(self.life, event))
    }

    fn record_bytes(&self) -> anyhow::Result<[u64; 2]> {
        Ok(self.record.lock().unwrap().bytes)
    }

    fn rewrite(&mut self) -> anyhow::Result<Rewriting> {
        if self.record.lock().unwrap().is_at_end {
            return Ok(Rewriting::AtItsEnd);
        }
        self.shorten()?;
        Ok(Rewriting::Done(Some(7)))
    }

    fn close(self: Box<Self>) -> anyhow::Result<()> {
        let is_at_end = self.record.lock().unwrap().is_at_end;
        if is_at_end { self.shorten() } else { Ok(()) }
    }
}

/// The packets and answers that nodes were told.
fn told(events: &Events) -> Vec<(u64, Event)> {
    let events = events.lock().unwrap();
    let all = events.iter();
    let told = all.filter(|(_, event)| !matches!(event, Event::Moment(_)));
    told.cloned().collect()
}

/// The loop of member 0 of four.
struct Running {
    sealer: Sealer,
    inbox: Arc<Inbox>,
    network: Arc<Remembered>,
    events: Events,
    requests: Receiver<Request>,
    metrics: Arc<Metrics>,
    record: Arc<Mutex<Record>>,
    thread: JoinHandle<anyhow::Result<()>>,
}

fn reply(actions: Vec<Action>) -> Reply {
    let refused = 0;
    Reply { refused, actions }
}

impl Running {
    fn new(
        folder: &Path,
        reopen_after: Duration,
        network: Remembered,
        say: impl Fn(u64, &Event) -> Reply + Send + Sync + 'static,
    ) -> Running {
        Running::behind(0, Arc::default(), folder, reopen_after, network, say)
    }

    /// The same, over this record, which another has for so many tries.
    fn behind(
        held: u32,
        record: Arc<Mutex<Record>>,
        folder: &Path,
        reopen_after: Duration,
        network: Remembered,
        say: impl Fn(u64, &Event) -> Reply + Send + Sync + 'static,
    ) -> Running {
        let sealer = sealers().remove(0);
        let (inbox, network) = (Arc::new(Inbox::new(4)), Arc::new(network));
        let (chain, requests) = ChainHandle::new(4);
        let metrics = Arc::new(Metrics::new().unwrap());
        let path = folder.join("signatures");
        let signatures = SignatureFile::open(&path, &sealer.signatures, |_, _| true).unwrap();
        let events = Events::default();
        let engine = Engine {
            sealer: sealer.clone(),
            open: opening(events.clone(), Arc::new(say), record.clone(), held),
            inbox: inbox.clone(),
            chain,
            network: network.clone(),
            current: Arc::new(Current::default()),
            signatures,
            reports: ReportLog::open(&folder.join("reports"), 1 << 30).unwrap(),
            metrics: metrics.clone(),
            status: Arc::new(Status::default()),
            settings: EngineSettings {
                reopen_after,
                pace: PACE,
                rewritten_from: 100,
                ..EngineSettings::default()
            },
        };
        let thread = thread::spawn(move || engine.run());
        Running {
            sealer,
            inbox,
            network,
            events,
            requests,
            metrics,
            record,
            thread,
        }
    }

    fn packet(&self, sender: u32, bytes: Vec<u8>, signatures: Vec<Signature>) {
        let opened = opened(&self.sealer, bytes, signatures);
        self.inbox.offer(sender, opened).unwrap();
    }

    /// Waits until the nodes were told so many packets and answers, and gives them.
    fn told(&self, count: usize) -> Vec<(u64, Event)> {
        until("the node is told", || {
            let told = told(&self.events);
            (told.len() >= count).then_some(told)
        })
    }

    fn stop(self) {
        self.inbox.stop();
        self.thread.join().unwrap().unwrap();
    }

    /// Waits until the record was opened so often: what a test then says of this life comes to it.
    fn is_opened(&self, count: u64) {
        until("the record is opened", || {
            (self.metrics.openings.get() >= count).then_some(())
        });
    }
}

/// How a record is opened that another has at first, for so many tries.
fn opening(events: Events, say: Say, record: Arc<Mutex<Record>>, mut held: u32) -> Box<Open> {
    let mut life = 0;
    Box::new(move || {
        if held > 0 {
            held -= 1;
            return Err(NotYet("error: device".to_owned()).into());
        }
        life += 1;
        let node = Scripted {
            life,
            events: events.clone(),
            say: say.clone(),
            record: record.clone(),
        };
        // As a node does behind a restart, it tells anew what its record says.
        let mut actions = vec![Action::Wake(50)];
        if life > 1 {
            actions.push(Action::Report(nullification(4, 1)));
            let mut own = nullify(2, 0).bytes();
            own[0] = 3;
            actions.push(Action::Report(own));
        }
        let first = reply(actions);
        Ok((Box::new(node) as Box<dyn Member>, first))
    })
}

fn opened(sealer: &Sealer, plain: Vec<u8>, signatures: Vec<Signature>) -> Opened {
    let channel = if signatures.len() == 1 {
        Channel::Votes
    } else {
        Channel::Certificates
    };
    let sealed = voumlis_core::envelope::Sealed {
        channel,
        plain,
        signatures,
    };
    sealer.open(sealed).unwrap()
}

fn nullify(view: u64, signer: u32) -> Vote {
    let on = On::Round(Round { epoch: 0, view });
    let kind = VoteKind::Nullify;
    let hash = attestation(BASE, kind, &on, signer);
    let attestation = Attestation { signer, hash };
    Vote {
        kind,
        on,
        attestation,
    }
}

fn signature(vote: &Vote) -> Signature {
    let committee = &sealers()[0].committee;
    key(vote.attestation.signer as u8).sign(committee, &vote.attestation.hash)
}

/// The nullification of a view by members 1, 2 and 3, as a packet or, with another tag, as a report.
fn nullification(tag: u8, view: u64) -> Vec<u8> {
    let mut bytes = vec![tag, 0];
    put_number(&mut bytes, view);
    bytes.push(3);
    for signer in 1..4 {
        bytes.push(signer as u8);
        bytes.extend(nullify(view, signer).attestation.hash);
    }
    bytes
}

const LONG: Duration = Duration::from_secs(100);

/// Slower behind two terms that were given up, as of four members, and faster behind three final views.
const PACE: PaceSettings = PaceSettings {
    slowest: 4,
    slower_after: None,
    faster_after: 3,
};

#[test]
fn signatures_are_on_the_disk_before_what_rests_on_them_leaves() {
    let folder = tempfile::tempdir().unwrap();
    let stored = folder.path().join("signatures");
    let watch = move |frame: &Frame| {
        let Frame::Packet(sealed) = frame else {
            return;
        };
        let disk = std::fs::read(&stored).unwrap();
        for signature in &sealed.signatures {
            assert!(disk.windows(64).any(|part| part == signature));
        }
    };
    let network = Remembered {
        watch: Some(Box::new(watch)),
        ..Remembered::default()
    };
    let member = Running::new(folder.path(), LONG, network, |_, event| match event {
        // With the third vote it hands out the certificate of all three.
        Event::Packet { sender: 3, .. } => reply(vec![Action::Send {
            to: None,
            channel: Channel::Certificates,
            bytes: nullification(1, 1),
        }]),
        _ => reply(Vec::new()),
    });
    for signer in 1..4 {
        let vote = nullify(1, signer);
        member.packet(signer, vote.bytes(), vec![signature(&vote)]);
    }
    let sent = until("the certificate leaves", || member.network.taken().pop());
    let Frame::Packet(sealed) = sent.1 else {
        panic!("a packet");
    };
    let signed: Vec<Signature> = (1..4).map(|it| signature(&nullify(1, it))).collect();
    assert_eq!(sealed.signatures, signed);
    // They were synced for it: that they are in the file shows only that they were written.
    let syncs = &member.metrics.syncs;
    assert!(syncs.with_label_values(&["signatures"]).get() > 0);
    member.stop();
}

#[test]
fn signatures_are_written_before_the_next_event_whether_or_not_anything_leaves() {
    let folder = tempfile::tempdir().unwrap();
    let network = Remembered::default();
    let member = Running::new(folder.path(), LONG, network, |_, _| reply(Vec::new()));
    let vote = nullify(1, 1);
    member.packet(1, vote.bytes(), vec![signature(&vote)]);
    until("the signature is in the file", || {
        let disk = std::fs::read(folder.path().join("signatures")).unwrap();
        let mut parts = disk.windows(64);
        parts.any(|part| part == signature(&vote)).then_some(())
    });
    member.stop();
}

#[test]
fn what_the_record_has_goes_to_all_again_behind_each_opening() {
    let folder = tempfile::tempdir().unwrap();
    let short = Duration::from_millis(200);
    let network = Remembered::default();
    let member = Running::new(folder.path(), short, network, |_, _| reply(Vec::new()));
    // By others' votes the signatures of the nullification are known of which the next opening tells.
    for signer in 1..4 {
        let vote = nullify(1, signer);
        member.packet(signer, vote.bytes(), vec![signature(&vote)]);
    }
    let own = nullify(2, 0);
    let expected = [
        (Channel::Certificates, nullification(1, 1)),
        (Channel::Votes, own.bytes()),
    ];
    until("both go out", || {
        let sent = member.network.sent.lock().unwrap();
        let packets = sent.iter().filter_map(|(to, frame)| match frame {
            Frame::Packet(sealed) if to.is_none() => Some((sealed.channel, sealed.plain.clone())),
            _ => None,
        });
        let packets: Vec<_> = packets.collect();
        packets.ends_with(&expected).then_some(())
    });
    member.stop();
}

#[test]
fn the_signatures_of_what_the_node_refuses_are_not_kept_but_those_of_evidence() {
    let folder = tempfile::tempdir().unwrap();
    let network = Remembered::default();
    let member = Running::new(folder.path(), LONG, network, |_, event| match event {
        // Of a view far away, a contradiction that is told of, and what came before.
        Event::Packet { sender, .. } => Reply {
            refused: [0, 6, 10, 11][*sender as usize],
            actions: [vec![], vec![], vec![Action::Block(2)], vec![]][*sender as usize].clone(),
        },
        _ => reply(Vec::new()),
    });
    let votes = [(1, 500), (1, 501), (2, 1), (3, 1)].map(|(signer, view)| nullify(view, signer));
    for (count, vote) in (1..).zip(&votes) {
        let signer = vote.attestation.signer;
        member.packet(signer, vote.bytes(), vec![signature(vote)]);
        member.told(count);
    }
    let signatures = member.sealer.signatures.clone();
    member.stop();
    let is_kept = votes.map(|vote| signatures.get(&vote.attestation).is_some());
    assert_eq!(is_kept, [false, false, true, true]);
}

#[test]
fn a_vote_is_signed_where_the_node_hands_it_out_and_a_certificate_without_signatures_stays() {
    let folder = tempfile::tempdir().unwrap();
    let send = |channel, bytes| Action::Send {
        to: Some(2),
        channel,
        bytes,
    };
    let network = Remembered::default();
    let member = Running::new(folder.path(), LONG, network, move |_, event| match event {
        Event::Packet { .. } => reply(vec![
            send(Channel::Certificates, nullification(1, 9)),
            send(Channel::Votes, nullify(9, 0).bytes()),
        ]),
        _ => reply(Vec::new()),
    });
    let vote = nullify(1, 1);
    member.packet(1, vote.bytes(), vec![signature(&vote)]);
    let sent = until("the vote leaves", || {
        let sent = member.network.taken();
        (!sent.is_empty()).then_some(sent)
    });
    let [(Some(2), Frame::Packet(sealed))] = &sent[..] else {
        panic!("{sent:?}");
    };
    assert_eq!(sealed.signatures, [signature(&nullify(9, 0))]);
    assert_eq!(member.metrics.unsigned.get(), 1);
    member.stop();
}

#[test]
fn moments_do_not_fall_and_come_when_the_node_wants_to_be_woken() {
    let folder = tempfile::tempdir().unwrap();
    let wake = |moment: &u64| reply(vec![Action::Wake(moment + 30)]);
    let network = Remembered::default();
    let member = Running::new(folder.path(), LONG, network, move |_, event| match event {
        Event::Moment(moment) => wake(moment),
        // It refuses, and so says nothing of a wake: the one before stands.
        _ => Reply {
            refused: 11,
            actions: Vec::new(),
        },
    });
    let vote = nullify(1, 1);
    member.packet(1, vote.bytes(), vec![signature(&vote)]);
    let moments = until("it is woken again and again", || {
        let events = member.events.lock().unwrap();
        let moments = events.iter().filter_map(|(_, event)| match event {
            Event::Moment(moment) => Some(*moment),
            _ => None,
        });
        let moments: Vec<u64> = moments.collect();
        (moments.len() > 5).then_some(moments)
    });
    assert!(moments.is_sorted(), "{moments:?}");
    // One may have been told with the packet, whenever that came.
    let short = moments.windows(2).filter(|pair| pair[1] - pair[0] < 30);
    assert!(short.count() <= 1, "{moments:?}");
    assert_eq!(
        member
            .metrics
            .refusals
            .with_label_values(&["repetition"])
            .get(),
        1
    );
    member.stop();
}

/// What a node reports where its member gives a view up.
fn given_up(view: u64) -> Action {
    let mut own = nullify(view, 0).bytes();
    own[0] = 3;
    Action::Report(own)
}

fn proposal(view: u64) -> Proposal {
    Proposal {
        round: Round { epoch: 0, view },
        parent: view - 1,
        payload: [9; 32],
    }
}

#[test]
fn the_time_is_told_slower_where_views_are_given_up_and_faster_where_they_become_final() {
    let folder = tempfile::tempdir().unwrap();
    let network = Remembered::default();
    // A verdict of view 100 and so many is the word to give a term's first view up; other answers make views final.
    let member = Running::new(folder.path(), LONG, network, |_, event| match event {
        Event::Verdict { view, .. } if *view > 100 => reply(vec![given_up(view - 100)]),
        Event::Verdict { view, .. } => reply(vec![Action::Finalized(proposal(*view))]),
        _ => reply(Vec::new()),
    });
    let slowness = || member.metrics.slowness.get();
    let mut count = 0;
    let mut say = |view| {
        count += 1;
        member.inbox.answer(1, Event::Verdict { view, good: true });
        member.told(count);
        // What came of it is told before the next is taken in: this one is looked at no more.
        count += 1;
        member.inbox.answer(
            1,
            Event::Built {
                request: 0,
                payload: None,
            },
        );
        member.told(count);
        slowness()
    };
    // Twice in a term is once, a row that a final view broke is none, and four times as slow is the most.
    let told = [101, 102, 5, 109, 113, 117, 121, 125, 129].map(&mut say);
    assert_eq!(told, [1, 1, 1, 1, 2, 2, 4, 4, 4]);
    // A second passes, of which a quarter is told.
    let moment = |events: &Events| {
        let all = events.lock().unwrap();
        let mut moments = all.iter().rev().filter_map(|(_, event)| match event {
            Event::Moment(moment) => Some(*moment),
            _ => None,
        });
        moments.next().unwrap()
    };
    let begun = moment(&member.events);
    let since = std::time::Instant::now();
    thread::sleep(Duration::from_millis(1000));
    say(33);
    let (passed, told) = (
        since.elapsed().as_millis() as u64,
        moment(&member.events) - begun,
    );
    assert!(
        (200..=passed / 4 + 100).contains(&told),
        "{told} of {passed}"
    );
    assert_eq!(
        [34, 35, 36, 37, 38, 39, 40].map(&mut say),
        [4, 2, 2, 2, 1, 1, 1]
    );
    let changes =
        ["slower", "faster"].map(|it| member.metrics.paces.with_label_values(&[it]).get());
    assert_eq!(changes, [2, 2]);
    member.stop();
}

#[test]
fn what_an_opening_tells_of_the_record_changes_no_pace_and_a_new_life_keeps_it() {
    let folder = tempfile::tempdir().unwrap();
    let network = Remembered::default();
    let member = Running::new(
        folder.path(),
        Duration::from_millis(300),
        network,
        |_, event| match event {
            Event::Verdict { view, .. } => reply(vec![given_up(*view)]),
            _ => reply(Vec::new()),
        },
    );
    let openings = |count| {
        until("it is opened again", || {
            (member.metrics.openings.get() >= count).then_some(())
        });
    };
    // Whatever life it is by then.
    let give_up = |view| {
        let verdict = Event::Verdict { view, good: true };
        until("the node is told", || {
            let life = member.metrics.openings.get();
            member.inbox.answer(life, verdict.clone());
            thread::sleep(Duration::from_millis(10));
            let events = member.events.lock().unwrap();
            let is_told = events.iter().any(|(_, event)| *event == verdict);
            is_told.then_some(())
        });
    };
    // Each opening behind the first tells of a view of the first term that was given up. With that of the second term they would be two.
    openings(2);
    give_up(5);
    openings(3);
    assert_eq!(member.metrics.slowness.get(), 1);
    assert!(member.metrics.stuck.get() >= 2);
    give_up(9);
    until("the time is told slower", || {
        (member.metrics.slowness.get() == 2).then_some(())
    });
    let there = member.metrics.openings.get();
    openings(there + 1);
    assert_eq!(member.metrics.slowness.get(), 2);
    member.stop();
}

#[test]
fn the_time_is_told_with_what_comes() {
    let folder = tempfile::tempdir().unwrap();
    let network = Remembered::default();
    // It is woken once, and wants to be told no time from then on.
    let member = Running::new(folder.path(), LONG, network, |_, _| reply(Vec::new()));
    let woken = until("it is woken", || {
        match member.events.lock().unwrap().first() {
            Some((_, Event::Moment(moment))) => Some(*moment),
            _ => None,
        }
    });
    thread::sleep(Duration::from_millis(30));
    let vote = nullify(1, 1);
    member.packet(1, vote.bytes(), vec![signature(&vote)]);
    member.told(1);
    let events = member.events.lock().unwrap().clone();
    let [_, (_, Event::Moment(moment)), (_, Event::Packet { .. })] = events[..] else {
        panic!("{events:?}");
    };
    assert!(moment >= woken + 30, "{moment} behind {woken}");
    member.stop();
}

#[test]
fn a_vote_that_came_too_early_is_handed_in_again_where_a_view_is_entered() {
    let folder = tempfile::tempdir().unwrap();
    let network = Remembered::default();
    let member = Running::new(folder.path(), LONG, network, |_, event| match event {
        // The leader is ahead: the node refuses what it says of views apart from its own.
        Event::Packet { sender: 1, .. } => Reply {
            refused: 6,
            actions: Vec::new(),
        },
        // Then it enters view 5.
        Event::Packet { sender: 3, .. } => reply(vec![Action::Report(nullification(4, 1))]),
        _ => reply(Vec::new()),
    });
    // One by one, and how many the node was told by then.
    for (sender, view, count) in [(1, 12, 1), (1, 40, 2), (2, 1, 3), (3, 1, 5), (2, 2, 6)] {
        let vote = nullify(view, sender);
        member.packet(sender, vote.bytes(), vec![signature(&vote)]);
        member.told(count);
    }
    let told: Vec<_> = member.told(6).into_iter().map(|(_, event)| event).collect();
    let expected = [(1, 12), (1, 40), (2, 1), (3, 1), (1, 12), (2, 2)].map(|(sender, view)| {
        let (channel, bytes) = (Channel::Votes, nullify(view, sender).bytes());
        Event::Packet {
            sender,
            channel,
            bytes,
        }
    });
    assert_eq!(told, expected);
    member.stop();
}

#[test]
fn a_record_is_opened_again_and_no_answer_reaches_another_life() {
    let folder = tempfile::tempdir().unwrap();
    let network = Remembered::default();
    let short = Duration::from_millis(200);
    let member = Running::new(folder.path(), short, network, |_, _| reply(Vec::new()));
    let lives = || match member.requests.recv_timeout(patience()) {
        Ok(Request::Opened(life)) => life,
        other => panic!("{other:?}"),
    };
    assert_eq!((lives(), lives()), (1, 2));
    let verdict = |view| Event::Verdict { view, good: true };
    member.inbox.answer(1, verdict(1));
    member.inbox.answer(2, verdict(2));
    assert_eq!(member.told(1), [(2, verdict(2))]);
    member.stop();
}

#[test]
fn reports_are_kept_with_signatures_and_what_is_told_anew_is_not_written_again() {
    let folder = tempfile::tempdir().unwrap();
    let network = Remembered::default();
    let some = Duration::from_secs(2);
    let member = Running::new(folder.path(), some, network, |_, event| match event {
        Event::Packet { sender: 3, .. } => {
            reply(vec![Action::Report(nullification(4, 1)), Action::Block(2)])
        }
        _ => reply(Vec::new()),
    });
    for signer in 1..4 {
        let vote = nullify(1, signer);
        member.packet(signer, vote.bytes(), vec![signature(&vote)]);
    }
    until("it blocks", || {
        let blocked = member.network.blocked.lock().unwrap();
        (*blocked == [2]).then_some(())
    });
    // The certificate is known by now: the same from another is left out.
    let signed: Vec<Signature> = (1..4).map(|it| signature(&nullify(1, it))).collect();
    member.packet(1, nullification(1, 1), signed.clone());
    let vote = nullify(2, 1);
    member.packet(1, vote.bytes(), vec![signature(&vote)]);
    let told = member.told(4);
    assert!(matches!(&told[3].1, Event::Packet { bytes, .. } if *bytes == vote.bytes()));
    assert_eq!(member.metrics.repeated.get(), 1);
    until("the record is opened again", || {
        (member.metrics.openings.get() == 2).then_some(())
    });
    member.stop();
    let stored = std::fs::read(folder.path().join("reports")).unwrap();
    let (reports, size) = read_all(&stored);
    // The nullification once, and the own vote that the second opening alone tells of.
    assert_eq!((reports.len(), size), (2, stored.len()));
    assert_eq!(reports[0].signatures, signed);
}

/// A notarize of the proposal with this payload, in view 1.
fn notarize(signer: u32, payload: u8) -> Vote {
    let round = Round { epoch: 0, view: 1 };
    let proposal = Proposal {
        round,
        parent: 0,
        payload: [payload; 32],
    };
    let (kind, on) = (VoteKind::Notarize, On::Proposal(proposal));
    let hash = attestation(BASE, kind, &on, signer);
    let attestation = Attestation { signer, hash };
    Vote {
        kind,
        on,
        attestation,
    }
}

#[test]
fn evidence_that_a_liar_brings_again_is_kept_once() {
    let folder = tempfile::tempdir().unwrap();
    let votes = [notarize(1, 7), notarize(1, 8)];
    let evidence = [&[7], &votes[0].bytes()[1..], &votes[1].bytes()[1..]].concat();
    let told = evidence.clone();
    // As a node does, it tells the same of each vote that contradicts the first.
    let say = move |_, event: &Event| match event {
        Event::Packet { bytes, .. } if *bytes == votes[1].bytes() => {
            reply(vec![Action::Block(1), Action::Report(told.clone())])
        }
        _ => reply(Vec::new()),
    };
    let kept = || read_all(&std::fs::read(folder.path().join("reports")).unwrap()).0;
    // Behind a restart of the process too.
    for _ in 0..2 {
        let network = Remembered::default();
        let member = Running::new(folder.path(), LONG, network, say.clone());
        for payload in [7, 8, 8, 8] {
            let vote = notarize(1, payload);
            member.packet(1, vote.bytes(), vec![signature(&vote)]);
        }
        member.told(4);
        member.stop();
        let kept = kept();
        assert_eq!(kept.len(), 1);
        assert_eq!(kept[0].plain, evidence);
    }
}

#[test]
fn a_record_that_another_has_is_tried_until_it_is_free_or_the_host_stops() {
    let folder = tempfile::tempdir().unwrap();
    let network = Remembered::default();
    // Three waits, of which each is twice as long as the one before.
    let record = Arc::default();
    let member = Running::behind(3, record, folder.path(), LONG, network, |_, _| {
        reply(Vec::new())
    });
    match member.requests.recv_timeout(patience()) {
        Ok(Request::Opened(1)) => {}
        other => panic!("{other:?}"),
    }
    member.stop();

    let folder = tempfile::tempdir().unwrap();
    let network = Remembered::default();
    let record = Arc::default();
    let member = Running::behind(u32::MAX, record, folder.path(), LONG, network, |_, _| {
        reply(Vec::new())
    });
    assert!(
        member
            .requests
            .recv_timeout(Duration::from_millis(300))
            .is_err()
    );
    member.stop();
}

#[test]
fn a_record_that_has_doubled_is_rewritten_between_two_batches() {
    let folder = tempfile::tempdir().unwrap();
    let record: Arc<Mutex<Record>> = Arc::default();
    let (go_on, held) = std::sync::mpsc::channel::<()>();
    let (held, grown) = (Mutex::new(held), record.clone());
    let network = Remembered::default();
    let say = move |_, event: &Event| {
        match event {
            // All that comes before the test goes on is a batch.
            Event::Moment(_) => drop(held.lock().unwrap().recv()),
            Event::Packet { .. } => grown.lock().unwrap().bytes[0] += 50,
            _ => grown.lock().unwrap().bytes[1] += 50,
        }
        reply(Vec::new())
    };
    let member = Running::behind(0, record, folder.path(), LONG, network, say);
    until("it is woken", || member.events.lock().unwrap().pop());
    for signer in 1..4 {
        let vote = nullify(1, signer);
        member.packet(signer, vote.bytes(), vec![signature(&vote)]);
    }
    drop(go_on);
    // With the second the record is long enough: it is rewritten behind the third.
    until("it is rewritten", || {
        (member.metrics.rewritten.get() == 7).then_some(())
    });
    assert_eq!(member.record.lock().unwrap().rewrites, [3]);
    let bytes = |file| member.metrics.file_bytes.with_label_values(&[file]).get();
    assert_eq!((bytes("record"), bytes("record.2")), (150, 10));
    // The other file is read now, which is long enough behind two more.
    let verdict = |view| Event::Verdict { view, good: true };
    for view in 1..4 {
        member.inbox.answer(1, verdict(view));
        member.told(3 + view as usize);
    }
    assert_eq!(member.record.lock().unwrap().rewrites, [3, 5]);
    assert_eq!(
        (member.metrics.rewrites.get(), member.metrics.openings.get()),
        (2, 1)
    );
    member.stop();
}

#[test]
fn a_record_whose_node_rewrites_it_at_its_end_is_opened_again_and_what_came_early_stays() {
    let folder = tempfile::tempdir().unwrap();
    let record: Arc<Mutex<Record>> = Arc::default();
    record.lock().unwrap().is_at_end = true;
    let (grown, network) = (record.clone(), Remembered::default());
    let say = move |life, event: &Event| match event {
        Event::Packet { .. } if life == 1 => Reply {
            refused: 6,
            actions: Vec::new(),
        },
        Event::Verdict { view, .. } => {
            grown.lock().unwrap().bytes[0] = 20 * view;
            reply(vec![Action::Finalized(proposal(*view))])
        }
        _ => reply(Vec::new()),
    };
    let member = Running::behind(0, record, folder.path(), LONG, network, say);
    let vote = nullify(12, 1);
    member.packet(1, vote.bytes(), vec![signature(&vote)]);
    member.told(1);
    let verdict = |view| Event::Verdict { view, good: true };
    member.inbox.answer(1, verdict(5));
    member.is_opened(2);
    member.inbox.answer(2, verdict(6));
    // What its opening tells leads to view 5: the leader's vote that came early is due.
    let told = member.told(4);
    assert!(
        matches!(told[2], (2, Event::Packet { sender: 1, .. })),
        "{told:?}"
    );
    assert_eq!(told[3], (2, verdict(6)));
    let metrics = member.metrics.clone();
    assert_eq!((metrics.rewritten.get(), metrics.stuck.get()), (5, 0));
    // Where it is to stop its node rewrites the record too, which isn't made necessary by its length.
    member.stop();
    assert_eq!((metrics.rewrites.get(), metrics.openings.get()), (1, 2));
}

#[test]
fn a_rewrite_that_fails_ends_the_member_as_a_step_does() {
    for is_at_end in [false, true] {
        let folder = tempfile::tempdir().unwrap();
        let record = Arc::new(Mutex::new(Record {
            is_at_end,
            fails: true,
            ..Record::default()
        }));
        let (grown, network) = (record.clone(), Remembered::default());
        let say = move |_, _: &Event| {
            grown.lock().unwrap().bytes[0] = 100;
            reply(Vec::new())
        };
        let member = Running::behind(0, record, folder.path(), LONG, network, say);
        until("the member ends", || {
            member.thread.is_finished().then_some(())
        });
        let told = format!("{:#}", member.thread.join().unwrap().unwrap_err());
        assert!(told.contains("the disk is full"), "{told}");
        assert_eq!(member.metrics.rewrites.get(), 0);
    }
}
