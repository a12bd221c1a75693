//! A member's node in plain Rust: what `node_steps` is measured against.
//!
//! Takes the words that `../node/main.rt.txt` takes, hands the same events to a node of the same rules, and prints the same of
//! what came of them, and the nanoseconds of a view of its own median chunk. Like the other baselines it is good portable code: no crates,
//! no intrinsics. Its votes stand in rows, its voter is that of `voter.rs`, its repair that of `resolver.rs`, and its record is
//! spelled into one buffer. It opens an empty record alone, forwards no payload at an entry, and sends no certificate beside a
//! nullify that it sends once more: no measured view asks for these.

use std::io;
use std::process::ExitCode;
use std::time::Instant;

mod node_record;
mod node_repair;
mod node_state;
mod node_votes;
mod reader;
// The voter's own measure asks more of it.
#[allow(dead_code)]
mod voter_round;
#[allow(dead_code)]
mod voter_state;

use node_record::{spell_vote, Disk};
use node_state::{Action, Channel, Event, Node, Report};
use node_votes::{Kind, Made, Vote, EPOCH, SIGNED};
use voter_round::{Attestation, Digest, Proposal, View};
use voter_state::{Config, Context};

/// So many packets are handed in at once at most, made before the clock goes on, but of one view at least and of twelve at most.
const PACKETS: u64 = 2400;
/// How many milliseconds a view takes.
const VIEW_TIME: u64 = 100;
/// The index of the member.
const ME: u32 = 0;

#[derive(Clone, Copy, PartialEq, Eq)]
enum Shape {
    /// Each view is finalized.
    Finalized,
    /// The same in terms of four views, of which two are optimistic.
    Terms,
    /// Nothing is handed to the node.
    Packets,
}

impl Shape {
    fn named(word: &str) -> Option<Self> {
        Some(match word {
            "finalized" => Shape::Finalized,
            "terms" => Shape::Terms,
            "packets" => Shape::Packets,
            _ => return None,
        })
    }

    fn term_length(self) -> u64 {
        if self == Shape::Terms {
            4
        } else {
            1
        }
    }
}

/// How many actions there were, and a sum over them.
#[derive(Default)]
struct Answers {
    count: u64,
    sum: u64,
}

impl Answers {
    fn add(&mut self, number: u64) {
        self.sum = self.sum.wrapping_mul(31).wrapping_add(number);
    }

    fn proposal(&mut self, proposal: &Proposal) {
        self.add(proposal.view);
        self.add(proposal.parent);
        self.add(u64::from(proposal.payload[0]));
    }

    fn context(&mut self, context: &Context) {
        self.add(context.view);
        self.add(u64::from(context.leader));
        self.add(context.parent.0);
        self.add(u64::from(context.parent.1[0]));
    }

    fn report(&mut self, report: &Report) {
        match report {
            Report::Vote(vote) => {
                self.add(3 * vote.kind() as u64);
                self.add(vote.view());
                self.add(u64::from(vote.attestation().signer));
            }
            Report::Certificate(certificate) => self.certificate(1, certificate),
            Report::Certification(certificate) => self.certificate(2, certificate),
            Report::Evidence(..) => self.add(7),
        }
    }

    fn certificate(&mut self, tag: u64, certificate: &Made) {
        let attestations = certificate.attestations();
        self.add(3 * certificate.kind() as u64 + tag);
        self.add(certificate.view());
        self.add(attestations.len() as u64);
        self.add(attestations.last().map_or(0, |last| u64::from(last.signer)));
    }

    fn actions(&mut self, actions: &[Action]) {
        for action in actions {
            self.count += 1;
            self.action(action);
        }
    }

    fn action(&mut self, action: &Action) {
        match action {
            Action::Send { to, channel, bytes } => {
                self.add(1);
                self.add(to.map_or(0, |member| u64::from(member) + 1));
                self.add(*channel as u64);
                self.add(bytes.len() as u64);
            }
            Action::Block(member) => {
                self.add(2);
                self.add(u64::from(*member));
            }
            Action::Build {
                number,
                handoff,
                context,
            } => {
                self.add(3);
                self.add(*number);
                self.add(u64::from(*handoff));
                self.context(context);
            }
            Action::Verify {
                number,
                context,
                proposal,
            } => {
                self.add(4);
                self.add(*number);
                self.context(context);
                self.proposal(proposal);
            }
            Action::Certify(proposal) => {
                self.add(5);
                self.proposal(proposal);
            }
            Action::Forward {
                payload,
                handoff,
                view,
            } => {
                self.add(6);
                self.add(u64::from(*handoff));
                self.add(*view);
                self.add(u64::from(payload[0]));
            }
            Action::Finalized(proposal) => {
                self.add(7);
                self.proposal(proposal);
            }
            Action::Report(report) => {
                self.add(8);
                self.report(report);
            }
            Action::Wake(moment) => {
                self.add(9);
                self.add(*moment);
            }
        }
    }
}

fn payload(view: View) -> Digest {
    [view as u8; 32]
}

/// The views that go by, one after the other.
struct Course {
    shape: Shape,
    members: u32,
    next: View,
}

impl Course {
    /// How many views are measured at once.
    fn chunk(&self) -> u64 {
        (PACKETS / (2 * u64::from(self.members))).clamp(1, 12)
    }

    fn leader(&self, view: View) -> u32 {
        let term = (view - 1) / self.shape.term_length() + 1;
        (term % u64::from(self.members)) as u32
    }

    /// A vote for the view's proposal, as it comes from its signer.
    fn packet(&self, signer: u32, view: View, kind: Kind) -> Event {
        let proposal = Proposal {
            epoch: EPOCH,
            view,
            parent: view - 1,
            payload: payload(view),
        };
        let attestation = Attestation {
            signer,
            signature: [SIGNED; 32],
        };
        let vote = match kind {
            Kind::Notarize => Vote::Notarize(proposal, attestation),
            _ => Vote::Finalize(proposal, attestation),
        };
        let mut bytes = Vec::new();
        spell_vote(&mut bytes, kind as u8, &vote);
        Event::Packet {
            sender: signer,
            channel: Channel::Votes,
            bytes,
        }
    }

    /// What happens in the next view: each view brings one request, so its number is known.
    fn step(&mut self, events: &mut Vec<Event>) {
        let view = self.next;
        self.next += 1;
        let (number, leader) = (view - 1, self.leader(view));
        events.push(Event::Moment(VIEW_TIME * view));
        if leader == ME {
            events.push(Event::Built(number, Some(payload(view))));
        } else {
            events.push(self.packet(leader, view, Kind::Notarize));
            events.push(Event::Checked(number, Some(true)));
        }
        for signer in (0..self.members).filter(|signer| *signer != ME && *signer != leader) {
            events.push(self.packet(signer, view, Kind::Notarize));
        }
        events.push(Event::Verdict(view, true));
        for signer in (0..self.members).filter(|signer| *signer != ME) {
            events.push(self.packet(signer, view, Kind::Finalize));
        }
    }

    fn steps(&mut self, count: u64) -> Vec<Event> {
        let mut events = Vec::new();
        for _ in 0..count {
            self.step(&mut events);
        }
        events
    }
}

/// The node, and what it answered.
struct Play {
    node: Node,
    answers: Answers,
}

impl Play {
    fn take(&mut self, event: Event) -> io::Result<()> {
        let reply = self.node.step(event)?;
        self.answers.add(reply.refused.map_or(0, |it| it as u64));
        self.answers.actions(&reply.actions);
        Ok(())
    }

    /// So many views go by: the nanoseconds that this took, without those of making packets.
    fn go(&mut self, course: &mut Course, count: u64) -> io::Result<u128> {
        let events = course.steps(count);
        if course.shape == Shape::Packets {
            return Ok(0);
        }
        let start = Instant::now();
        for event in events {
            self.take(event)?;
        }
        Ok(start.elapsed().as_nanos())
    }

    fn pass(&mut self, course: &mut Course, count: u64) -> io::Result<()> {
        let mut left = count;
        while left > 0 {
            let some = left.min(course.chunk());
            self.go(course, some)?;
            left -= some;
        }
        Ok(())
    }

    /// The nanoseconds of a whole chunk: the median of so many.
    fn median(&mut self, course: &mut Course, chunks: u64) -> io::Result<u128> {
        let mut taken = Vec::new();
        for _ in 0..chunks {
            taken.push(self.go(course, course.chunk())?);
        }
        taken.sort_unstable();
        Ok(taken.get(taken.len() / 2).copied().unwrap_or(0))
    }
}

fn run(shape: Shape, members: u32, behind: u64, chunks: u64, disk: Disk) -> io::Result<()> {
    let terms = shape == Shape::Terms;
    let config = Config {
        participants: members,
        me: Some(ME),
        length: shape.term_length(),
        optimistic: if terms { 2 } else { 0 },
        stall_timeout: terms.then_some(3000),
        retention: 10,
        leader_timeout: 1000,
        certification_timeout: 2000,
        timeout_retry: 5000,
        skip_budget: u64::from(members),
    };
    let (node, actions) = Node::open(config, payload(0), 30_000, disk, 0)?;
    let mut play = Play {
        node,
        answers: Answers::default(),
    };
    play.answers.actions(&actions);
    let mut course = Course {
        shape,
        members,
        next: 1,
    };
    play.pass(&mut course, behind)?;
    let taken = play.median(&mut course, chunks)? / u128::from(course.chunk());
    let Play { node, answers } = play;
    let (current, finalized) = (node.current_view(), node.last_finalized());
    let syncs = node.disk().syncs;
    let (bytes, sum) = node.disk().sum();
    let Answers { count, sum: told } = answers;
    println!("{told} {count} {current} {finalized} {syncs} {bytes} {sum} {taken}");
    Ok(())
}

fn main() -> ExitCode {
    let words: Vec<String> = std::env::args().skip(1).collect();
    let [shape, members, behind, chunks, disk] =
        words.iter().map(String::as_str).collect::<Vec<_>>()[..]
    else {
        return ExitCode::FAILURE;
    };
    let (Some(shape), Ok(members), Ok(behind), Ok(chunks), Ok(disk)) = (
        Shape::named(shape),
        members.parse::<u32>(),
        behind.parse::<u64>(),
        chunks.parse::<u64>(),
        Disk::named(disk),
    ) else {
        return ExitCode::FAILURE;
    };
    if run(shape, members, behind, chunks, disk).is_err() {
        return ExitCode::FAILURE;
    }
    ExitCode::SUCCESS
}
