//! The node as the proved library in the process, beside the program as a child: both answer alike, over one another's records.

#[cfg(not(feature = "library"))]
#[test]
#[ignore = "the node as a library isn't tried: the feature `library` wants the archive that `rt lib` proves and builds"]
fn the_library_answers_as_the_child_does() {}

#[cfg(feature = "library")]
mod common;

#[cfg(feature = "library")]
mod there {
    use super::common::tool;
    use std::collections::VecDeque;
    use std::path::Path;
    use voumlis_core::member::{
        Child, Library, Member, NodeSettings, NotYet, Rewriting, second_path,
    };
    use voumlis_core::plain::{BASE, attestation};
    use voumlis_core::wire::{
        Action, Attestation, Channel, Event, On, Reply, Round, Vote, VoteKind,
    };

    fn child(record: &Path, members: u32, of: &NodeSettings) -> (Box<dyn Member>, Reply) {
        let (child, first) = Child::open(&tool(), record, 0, members, of).unwrap();
        (Box::new(child), first)
    }

    fn library(record: &Path, members: u32, of: &NodeSettings) -> (Box<dyn Member>, Reply) {
        let (library, first) = Library::open(record, 0, members, of).unwrap();
        (Box::new(library), first)
    }

    /// Settings of which each is another than where nothing is said, but what a record has to be of.
    fn others() -> NodeSettings {
        let text = "epoch = 0\nterm-length = 4\nstall-timeout = 9000\noptimistic-views = 1\nseed = \"c0ffee\"\nleader-timeout = 900\n\
            certification-timeout = 1800\nretry-timeout = 3000\nretention = 9\nskip-timeout = 7000\nskip-budget = 3\n\
            forwarding = \"silent-voters\"\nrepair = \"once\"\nrepair-window = 0\nhistorical-votes = false\nrewrite-views = 10";
        toml::from_str(text).unwrap()
    }

    /// As where nothing is said, but that the host decides when the record is rewritten.
    fn rewritten_by_hosts() -> NodeSettings {
        NodeSettings {
            rewrite_views: 0,
            ..NodeSettings::default()
        }
    }

    /// What both files of a record hold.
    fn stored(record: &Path) -> [Vec<u8>; 2] {
        [record.to_owned(), second_path(record)].map(|path| std::fs::read(path).unwrap())
    }

    fn nullify(view: u64, signer: u32) -> Event {
        let on = On::Round(Round { epoch: 0, view });
        let kind = VoteKind::Nullify;
        let hash = attestation(BASE, kind, &on, signer);
        let vote = Vote {
            kind,
            on,
            attestation: Attestation { signer, hash },
        };
        Event::Packet {
            sender: signer,
            channel: Channel::Votes,
            bytes: vote.bytes(),
        }
    }

    /// Deadlines that pass, votes by which a view is given up, one that comes twice, one in another's name, what is no packet, and
    /// answers to nothing.
    fn events() -> Vec<Event> {
        let mut events = vec![Event::Moment(1), Event::Moment(1_100), Event::Moment(4_000)];
        for view in [1, 5] {
            events.extend((1..4).map(|signer| nullify(view, signer)));
            events.push(nullify(view, 2));
            events.push(Event::Moment(4_000 + 4_000 * view));
        }
        let Event::Packet { bytes, channel, .. } = nullify(9, 1) else {
            unreachable!("it is a packet");
        };
        let sender = 2;
        events.push(Event::Packet {
            sender,
            channel,
            bytes,
        });
        events.push(Event::Packet {
            sender: 3,
            channel: Channel::Certificates,
            bytes: vec![9; 9],
        });
        events.push(Event::Verdict {
            view: 1,
            good: true,
        });
        events.push(Event::Checked {
            request: 7,
            answer: None,
        });
        events
    }

    fn play(mut node: Box<dyn Member>, first: Reply) -> Vec<Reply> {
        let mut replies = vec![first];
        replies.extend(events().iter().map(|event| node.step(event).unwrap()));
        node.close().unwrap();
        replies
    }

    #[test]
    fn the_library_answers_as_the_child_does() {
        for settings in [NodeSettings::default(), others()] {
            answer_alike(&settings);
        }
    }

    fn answer_alike(settings: &NodeSettings) {
        let folder = tempfile::tempdir().unwrap();
        let (one, other) = (folder.path().join("one"), folder.path().join("other"));
        let (node, first) = child(&one, 4, settings);
        let by_child = play(node, first);
        let (node, first) = library(&other, 4, settings);
        let by_library = play(node, first);
        assert_eq!(by_library, by_child);
        assert!(by_child.iter().any(|reply| reply.refused != 0));
        assert!(by_child.iter().any(|reply| !reply.actions.is_empty()));
        let records = [&one, &other].map(|record| stored(record));
        assert!(!records[0][0].is_empty());
        assert_eq!(records[0], records[1]);

        // Each opens what the other left.
        let (node, by_child) = child(&other, 4, settings);
        node.close().unwrap();
        let (node, by_library) = library(&one, 4, settings);
        node.close().unwrap();
        assert_eq!(by_library, by_child);
    }

    /// What the application and the clock of a committee of one answer.
    fn answers(reply: &Reply) -> Vec<Event> {
        let answered = reply.actions.iter().filter_map(|action| match action {
            Action::Build {
                request, context, ..
            } => Some(Event::Built {
                request: *request,
                payload: Some([context.round.view as u8; 32]),
            }),
            Action::Verify { request, .. } => Some(Event::Checked {
                request: *request,
                answer: Some(true),
            }),
            Action::Certify(proposal) => Some(Event::Verdict {
                view: proposal.round.view,
                good: true,
            }),
            _ => None,
        });
        answered.collect()
    }

    /// The highest view that is final, by what a reply says.
    fn last(reply: &Reply) -> u64 {
        let views = reply.actions.iter().filter_map(|action| match action {
            Action::Finalized(proposal) => Some(proposal.round.view),
            _ => None,
        });
        views.max().unwrap_or(0)
    }

    /// A committee of one goes on until this view is final. Its clock rings where it waits for nothing else.
    fn reach(node: &mut dyn Member, first: &Reply, view: u64) {
        let (mut waiting, mut wake) = (VecDeque::from(answers(first)), 0);
        let mut said = first.clone();
        for _ in 0..100 * view {
            let rings = said.actions.iter().find_map(|action| match action {
                Action::Wake(moment) => Some(*moment),
                _ => None,
            });
            wake = rings.unwrap_or(wake);
            let event = waiting.pop_front().unwrap_or(Event::Moment(wake));
            said = node.step(&event).unwrap();
            if last(&said) >= view {
                return;
            }
            waiting.extend(answers(&said));
        }
        panic!("view {view} isn't final");
    }

    #[test]
    fn the_library_rewrites_a_record_while_it_runs_and_the_child_at_its_end() {
        let folder = tempfile::tempdir().unwrap();
        let record = folder.path().join("record");
        let settings = rewritten_by_hosts();
        let (mut node, first) = library(&record, 1, &settings);
        reach(&mut *node, &first, 40);
        let [long, nothing] = node.record_bytes().unwrap();
        assert_eq!(nothing, 0);
        let Rewriting::Done(Some(view)) = node.rewrite().unwrap() else {
            panic!("it isn't rewritten");
        };
        assert!(view >= 40);
        let [same, short] = node.record_bytes().unwrap();
        assert!(same == long && short > 0 && short < long / 4);
        assert_eq!(node.rewrite().unwrap(), Rewriting::Done(None));
        node.close().unwrap();

        // The child goes on from there, and has the first file again behind its end.
        let (mut node, first) = child(&record, 1, &settings);
        assert_eq!(last(&first), view);
        assert_eq!(node.rewrite().unwrap(), Rewriting::AtItsEnd);
        reach(&mut *node, &first, view + 40);
        let [same, grown] = node.record_bytes().unwrap();
        assert!(same == long && grown > 4 * short);
        node.close().unwrap();
        let (node, first) = library(&record, 1, &settings);
        assert!(last(&first) >= view + 40);
        let [short, same] = node.record_bytes().unwrap();
        assert!(same == grown && short < long / 4);
        node.close().unwrap();
    }

    #[test]
    fn the_library_rewrites_a_record_of_itself_as_the_child_does() {
        let folder = tempfile::tempdir().unwrap();
        let settings = NodeSettings {
            rewrite_views: 10,
            ..NodeSettings::default()
        };
        let stored = ["child", "library"].map(|name| {
            let record = folder.path().join(name);
            let (mut node, first) = match name {
                "child" => child(&record, 1, &settings),
                _ => library(&record, 1, &settings),
            };
            reach(&mut *node, &first, 45);
            assert_eq!(node.rewrite().unwrap(), Rewriting::OfItself);
            // What is behind the last reply is done before the next.
            node.step(&Event::Moment(1 << 40)).unwrap();
            let [first, second] = stored(&record);
            node.close().unwrap();
            let [first_closed, second_closed] = stored(&record);
            [first, second, first_closed, second_closed]
        });
        assert_eq!(stored[0], stored[1]);
        // Where it ends it is rewritten once more.
        assert_ne!(stored[0][..2], stored[0][2..]);
        // A file that a rewrite wrote begins with a head.
        assert!(stored[0].iter().all(|file| file.len() > 9 && file[0] == 2));
    }

    #[test]
    fn a_record_that_a_library_has_is_opened_by_no_other() {
        let folder = tempfile::tempdir().unwrap();
        let record = folder.path().join("record");
        let settings = NodeSettings::default();
        let (node, _) = library(&record, 4, &settings);
        let second = Library::open(&record, 0, 4, &settings).err().unwrap();
        assert!(second.is::<NotYet>(), "{second:#}");
        let second = Child::open(&tool(), &record, 0, 4, &settings);
        let second = second.err().unwrap();
        assert!(second.is::<NotYet>(), "{second:#}");
        node.close().unwrap();
        library(&record, 4, &settings).0.close().unwrap();
    }
}
