//! Events and actions in a few words, for logs.

use super::{
    Action, Certificate, Channel, Event, LARGEST, Message, On, Plan, Proposal, Report, Vote,
    VoteKind,
};
use std::fmt::{self, Display, Formatter};

/// The first bytes of a payload are enough to tell it from others.
fn start(payload: &[u8]) -> String {
    hex::encode(&payload[..4])
}

impl Display for Proposal {
    fn fmt(&self, f: &mut Formatter<'_>) -> fmt::Result {
        write!(
            f,
            "{} on {} {}",
            self.round.view,
            self.parent,
            start(&self.payload)
        )
    }
}

impl Display for On {
    fn fmt(&self, f: &mut Formatter<'_>) -> fmt::Result {
        match self {
            On::Proposal(proposal) => proposal.fmt(f),
            On::Round(round) => round.view.fmt(f),
        }
    }
}

impl Display for Vote {
    fn fmt(&self, f: &mut Formatter<'_>) -> fmt::Result {
        let kind = match self.kind {
            VoteKind::Notarize => "notarize",
            VoteKind::Nullify => "nullify",
            VoteKind::Finalize => "finalize",
        };
        write!(f, "{kind} {} of {}", self.on, self.attestation.signer)
    }
}

impl Display for Certificate {
    fn fmt(&self, f: &mut Formatter<'_>) -> fmt::Result {
        let kind = match self.kind {
            VoteKind::Notarize => "notarization",
            VoteKind::Nullify => "nullification",
            VoteKind::Finalize => "finalization",
        };
        write!(f, "{kind} {}", self.on)
    }
}

impl Display for Message {
    fn fmt(&self, f: &mut Formatter<'_>) -> fmt::Result {
        match self {
            Message::Vote(vote) => vote.fmt(f),
            Message::Certificate(certificate) => certificate.fmt(f),
            Message::Fetch(view) => write!(f, "ask for {view}"),
        }
    }
}

impl Display for Report {
    fn fmt(&self, f: &mut Formatter<'_>) -> fmt::Result {
        match self {
            Report::Vote(vote) => vote.fmt(f),
            Report::Certificate(certificate) => certificate.fmt(f),
            Report::Certified(certificate) => write!(f, "certified {}", certificate.on),
            Report::Evidence(first, second) => write!(f, "evidence: {first}, {second}"),
        }
    }
}

/// What a packet says.
struct Said<'a>(Channel, &'a [u8]);

impl Display for Said<'_> {
    fn fmt(&self, f: &mut Formatter<'_>) -> fmt::Result {
        match Message::read(self.0, LARGEST, self.1) {
            Ok(message) => message.fmt(f),
            Err(trouble) => write!(f, "no message: {trouble}"),
        }
    }
}

impl Display for Event {
    fn fmt(&self, f: &mut Formatter<'_>) -> fmt::Result {
        match self {
            Event::Packet {
                sender,
                channel,
                bytes,
            } => write!(f, "from {sender}: {}", Said(*channel, bytes)),
            Event::Built {
                request,
                payload: Some(payload),
            } => write!(f, "built {request}: {}", start(payload)),
            Event::Built {
                request,
                payload: None,
            } => write!(f, "built {request}: none"),
            Event::Checked { request, answer } => write!(f, "checked {request}: {answer:?}"),
            Event::Verdict { view, good } => write!(f, "verdict {view}: {good}"),
            Event::Moment(moment) => write!(f, "moment {moment}"),
        }
    }
}

impl Display for Action {
    fn fmt(&self, f: &mut Formatter<'_>) -> fmt::Result {
        match self {
            Action::Send {
                to: Some(to),
                channel,
                bytes,
            } => write!(f, "send to {to}: {}", Said(*channel, bytes)),
            Action::Send {
                to: None,
                channel,
                bytes,
            } => write!(f, "send to all: {}", Said(*channel, bytes)),
            Action::Block(member) => write!(f, "block {member}"),
            Action::Build {
                request,
                handoff,
                context,
            } => {
                let word = if *handoff { "build handoff" } else { "build" };
                write!(
                    f,
                    "{word} {request}: {} on {} {}",
                    context.round.view,
                    context.parent,
                    start(&context.parent_payload)
                )
            }
            Action::Verify {
                request, proposal, ..
            } => write!(f, "verify {request}: {proposal}"),
            Action::Certify(proposal) => write!(f, "certify {proposal}"),
            Action::Forward { payload, plan } => match plan {
                Plan::Prepare(round) => {
                    write!(f, "forward {} prepared in {}", start(payload), round.view)
                }
                Plan::Propose(round) => {
                    write!(f, "forward {} proposed in {}", start(payload), round.view)
                }
                Plan::Forward(round, members) => write!(
                    f,
                    "forward {} of {} to {members:?}",
                    start(payload),
                    round.view
                ),
            },
            Action::Finalized(proposal) => write!(f, "final {proposal}"),
            Action::Report(bytes) => match Report::read(LARGEST, bytes) {
                Ok(report) => write!(f, "report {report}"),
                Err(trouble) => write!(f, "no report: {trouble}"),
            },
            Action::Wake(moment) => write!(f, "wake {moment}"),
        }
    }
}
