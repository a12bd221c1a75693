use super::{Channel, Payload, Reader, Trouble, put_number};

/// An epoch and a view.
#[derive(Clone, Copy, Debug, PartialEq, Eq, Hash)]
pub struct Round {
    /// The epoch.
    pub epoch: u64,
    /// The view.
    pub view: u64,
}

/// What is voted on.
#[derive(Clone, Copy, Debug, PartialEq, Eq, Hash)]
pub struct Proposal {
    /// Its round.
    pub round: Round,
    /// Its parent's view.
    pub parent: u64,
    /// What is proposed.
    pub payload: Payload,
}

/// What a vote is on: a proposal, or a round that is given up.
#[derive(Clone, Copy, Debug, PartialEq, Eq, Hash)]
pub enum On {
    /// Of notarize and finalize.
    Proposal(Proposal),
    /// Of nullify.
    Round(Round),
}

impl On {
    /// Its round.
    pub fn round(&self) -> Round {
        match self {
            On::Proposal(proposal) => proposal.round,
            On::Round(round) => *round,
        }
    }
}

/// The three votes, and what a quorum of each is.
#[derive(Clone, Copy, Debug, PartialEq, Eq, Hash)]
pub enum VoteKind {
    /// A proposal was checked; a quorum is a notarization.
    Notarize,
    /// A view is given up; a quorum is a nullification.
    Nullify,
    /// A proposal is to be final; a quorum is a finalization.
    Finalize,
}

const VOTES: [VoteKind; 3] = [VoteKind::Notarize, VoteKind::Nullify, VoteKind::Finalize];

/// That a member voted, under the plain scheme: a hash that names the signer and the subject, and which anyone can make.
#[derive(Clone, Copy, Debug, PartialEq, Eq, Hash)]
pub struct Attestation {
    /// The member's index.
    pub signer: u32,
    /// The hash: what the member's key signs.
    pub hash: [u8; 32],
}

/// A vote of one member.
#[derive(Clone, Copy, Debug, PartialEq, Eq)]
pub struct Vote {
    /// Which vote.
    pub kind: VoteKind,
    /// On what.
    pub on: On,
    /// Whose it is.
    pub attestation: Attestation,
}

/// Votes of many members on one subject.
#[derive(Clone, Debug, PartialEq, Eq)]
pub struct Certificate {
    /// Which votes.
    pub kind: VoteKind,
    /// On what.
    pub on: On,
    /// Whose they are, by ascending index.
    pub attestations: Vec<Attestation>,
}

/// What a member tells those who audit.
#[derive(Clone, Debug, PartialEq, Eq)]
pub enum Report {
    /// A vote that was accepted.
    Vote(Vote),
    /// A certificate that was recorded.
    Certificate(Certificate),
    /// A notarization whose proposal was certified.
    Certified(Certificate),
    /// Two votes of one member that contradict each other.
    Evidence(Vote, Vote),
}

/// What is in a packet.
#[derive(Clone, Debug, PartialEq, Eq)]
pub enum Message {
    /// On the channel of votes.
    Vote(Vote),
    /// On the channel of certificates.
    Certificate(Certificate),
    /// On the channel of fetches: the view that is asked for.
    Fetch(u64),
}

impl Message {
    /// The message that these bytes are exactly, in a committee of so many members.
    ///
    /// # Errors
    ///
    /// The first trouble from the left; [`Trouble::Invalid`] where bytes are left.
    pub fn read(channel: Channel, members: u32, bytes: &[u8]) -> Result<Message, Trouble> {
        let mut reader = Reader::new(bytes);
        let message = match channel {
            Channel::Votes => Message::Vote(reader.vote()?),
            Channel::Certificates => Message::Certificate(reader.certificate(members)?),
            Channel::Fetches => Message::Fetch(reader.number()?),
        };
        if reader.is_at_end() {
            Ok(message)
        } else {
            Err(Trouble::Invalid)
        }
    }

    /// The view that it speaks of.
    pub fn view(&self) -> u64 {
        match self {
            Message::Vote(vote) => vote.on.round().view,
            Message::Certificate(certificate) => certificate.on.round().view,
            Message::Fetch(view) => *view,
        }
    }

    /// Its attestations, in order.
    pub fn attestations(&self) -> &[Attestation] {
        match self {
            Message::Vote(vote) => std::slice::from_ref(&vote.attestation),
            Message::Certificate(certificate) => &certificate.attestations,
            Message::Fetch(_) => &[],
        }
    }
}

impl Report {
    /// The report that these bytes are exactly, in a committee of so many members.
    ///
    /// # Errors
    ///
    /// As of [`Message::read`].
    pub fn read(members: u32, bytes: &[u8]) -> Result<Report, Trouble> {
        let mut reader = Reader::new(bytes);
        let report = reader.report(members)?;
        if reader.is_at_end() {
            Ok(report)
        } else {
            Err(Trouble::Invalid)
        }
    }

    /// Its attestations, in order.
    pub fn attestations(&self) -> Vec<Attestation> {
        match self {
            Report::Vote(vote) => vec![vote.attestation],
            Report::Certificate(certificate) | Report::Certified(certificate) => {
                certificate.attestations.clone()
            }
            Report::Evidence(first, second) => vec![first.attestation, second.attestation],
        }
    }

    /// The view that it speaks of.
    pub fn view(&self) -> u64 {
        match self {
            Report::Vote(vote) | Report::Evidence(vote, _) => vote.on.round().view,
            Report::Certificate(certificate) | Report::Certified(certificate) => {
                certificate.on.round().view
            }
        }
    }
}

impl VoteKind {
    /// The byte in front of a packet that has it.
    fn tag(self) -> u8 {
        let tag = VOTES.iter().position(|kind| *kind == self);
        tag.expect("one of the three") as u8
    }
}

impl On {
    fn put(&self, bytes: &mut Vec<u8>) {
        let round = self.round();
        put_number(bytes, round.epoch);
        put_number(bytes, round.view);
        if let On::Proposal(proposal) = self {
            put_number(bytes, proposal.parent);
            bytes.extend(proposal.payload);
        }
    }
}

impl Attestation {
    fn put(&self, bytes: &mut Vec<u8>) {
        put_number(bytes, u64::from(self.signer));
        bytes.extend(self.hash);
    }
}

impl Vote {
    /// Its bytes as a packet on the channel of votes.
    pub fn bytes(&self) -> Vec<u8> {
        let mut bytes = vec![self.kind.tag()];
        self.on.put(&mut bytes);
        self.attestation.put(&mut bytes);
        bytes
    }
}

impl Certificate {
    /// Its bytes as a packet on the channel of certificates.
    pub fn bytes(&self) -> Vec<u8> {
        let mut bytes = vec![self.kind.tag()];
        self.on.put(&mut bytes);
        put_number(&mut bytes, self.attestations.len() as u64);
        self.attestations
            .iter()
            .for_each(|attestation| attestation.put(&mut bytes));
        bytes
    }
}

impl Reader<'_> {
    /// An epoch and a view.
    pub fn round(&mut self) -> Result<Round, Trouble> {
        Ok(Round {
            epoch: self.number()?,
            view: self.number()?,
        })
    }

    /// A proposal.
    pub fn proposal(&mut self) -> Result<Proposal, Trouble> {
        Ok(Proposal {
            round: self.round()?,
            parent: self.number()?,
            payload: self.payload()?,
        })
    }

    /// A vote behind its tag.
    pub fn vote(&mut self) -> Result<Vote, Trouble> {
        let kind = VOTES[usize::from(self.one_of(3)?)];
        self.vote_of(kind)
    }

    /// A certificate behind its tag.
    pub fn certificate(&mut self, members: u32) -> Result<Certificate, Trouble> {
        let kind = VOTES[usize::from(self.one_of(3)?)];
        self.certificate_of(kind, members)
    }

    /// A report behind its tag.
    pub fn report(&mut self, members: u32) -> Result<Report, Trouble> {
        use VoteKind::{Finalize, Notarize, Nullify};
        Ok(match self.one_of(10)? {
            0 => Report::Vote(self.vote_of(Notarize)?),
            1 => Report::Certificate(self.certificate_of(Notarize, members)?),
            2 => Report::Certified(self.certificate_of(Notarize, members)?),
            3 => Report::Vote(self.vote_of(Nullify)?),
            4 => Report::Certificate(self.certificate_of(Nullify, members)?),
            5 => Report::Vote(self.vote_of(Finalize)?),
            6 => Report::Certificate(self.certificate_of(Finalize, members)?),
            7 => self.evidence(Notarize, Notarize)?,
            8 => self.evidence(Finalize, Finalize)?,
            _ => self.evidence(Nullify, Finalize)?,
        })
    }

    fn on(&mut self, kind: VoteKind) -> Result<On, Trouble> {
        Ok(match kind {
            VoteKind::Nullify => On::Round(self.round()?),
            VoteKind::Notarize | VoteKind::Finalize => On::Proposal(self.proposal()?),
        })
    }

    fn vote_of(&mut self, kind: VoteKind) -> Result<Vote, Trouble> {
        let on = self.on(kind)?;
        let attestation = Attestation {
            signer: self.index()?,
            hash: self.array()?,
        };
        Ok(Vote {
            kind,
            on,
            attestation,
        })
    }

    fn certificate_of(&mut self, kind: VoteKind, members: u32) -> Result<Certificate, Trouble> {
        let on = self.on(kind)?;
        let count = self.number()?;
        if count > u64::from(members) {
            return Err(Trouble::TooLong);
        }
        let mut attestations: Vec<Attestation> = Vec::new();
        for _ in 0..count {
            let signer = self.index()?;
            let is_above = attestations.last().is_none_or(|last| signer > last.signer);
            if signer >= members || !is_above {
                return Err(Trouble::Invalid);
            }
            let hash = self.array()?;
            attestations.push(Attestation { signer, hash });
        }
        Ok(Certificate {
            kind,
            on,
            attestations,
        })
    }

    fn evidence(&mut self, first: VoteKind, second: VoteKind) -> Result<Report, Trouble> {
        let first = self.vote_of(first)?;
        let second = self.vote_of(second)?;
        let is_of_one = first.on.round() == second.on.round()
            && first.attestation.signer == second.attestation.signer;
        if is_of_one && first.on != second.on {
            Ok(Report::Evidence(first, second))
        } else {
            Err(Trouble::Invalid)
        }
    }
}
