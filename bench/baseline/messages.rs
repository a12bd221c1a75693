//! The messages that an audit reads, how they are spelled, and what their signatures sign.

use crate::reader::Reader;
use crate::sha256::{sha256, DIGEST_BYTES};

const VARINT_BYTES: usize = 10;
pub const PAYLOAD_BYTES: usize = 32;

#[derive(Clone, Copy, PartialEq, Eq, PartialOrd, Ord)]
pub struct Round {
    pub epoch: u64,
    pub view: u64,
}

/// What a proposal says apart from its round. The order of the fields is the order of proposals.
/// The payload stays in the input, which keeps the map's entries small.
#[derive(Clone, Copy, PartialEq, Eq, PartialOrd, Ord)]
pub struct Choice<'a> {
    pub parent: u64,
    pub payload: &'a [u8; PAYLOAD_BYTES],
}

#[derive(Clone, Copy, PartialEq, Eq)]
pub enum Statement<'a> {
    Notarize(Choice<'a>),
    Nullify,
    Finalize(Choice<'a>),
}

/// What a vote or a certificate is for.
#[derive(Clone, Copy)]
pub struct Subject<'a> {
    pub round: Round,
    pub statement: Statement<'a>,
    /// The bytes of the proposal or of the round. Each has but one spelling, so these are the ones
    /// signed.
    pub message: &'a [u8],
}

#[derive(Clone, Copy)]
pub struct Attestation<'a> {
    pub signer: u32,
    pub signature: &'a [u8; DIGEST_BYTES],
}

pub struct Vote<'a> {
    pub subject: Subject<'a>,
    pub attestation: Attestation<'a>,
}

impl Vote<'_> {
    /// For evidence, which holds votes of one kind, or a nullify and a finalize.
    fn conflicts_with(&self, other: &Vote) -> bool {
        self.subject.round == other.subject.round
            && self.attestation.signer == other.attestation.signer
            && self.subject.statement != other.subject.statement
    }
}

pub enum Activity<'a> {
    Vote(Vote<'a>),
    Evidence(Vote<'a>, Vote<'a>),
    Certificate(Subject<'a>, Vec<Attestation<'a>>),
}

// The byte formats

/// An index of one byte and a signature.
const SHORTEST_ATTESTATION: usize = 1 + DIGEST_BYTES;

impl<'a> Reader<'a> {
    /// The list of a certificate is bounded by how many participants there are.
    pub fn activity(&mut self, count: u64) -> Option<Activity<'a>> {
        match self.byte()? {
            0 => Some(Activity::Vote(self.notarize()?)),
            1 | 2 => {
                let subject = self.proposed(Statement::Notarize)?;
                Some(Activity::Certificate(subject, self.list(count)?))
            }
            3 => Some(Activity::Vote(self.nullify()?)),
            4 => {
                let subject = self.given_up()?;
                Some(Activity::Certificate(subject, self.list(count)?))
            }
            5 => Some(Activity::Vote(self.finalize()?)),
            6 => {
                let subject = self.proposed(Statement::Finalize)?;
                Some(Activity::Certificate(subject, self.list(count)?))
            }
            7 => evidence(self.notarize()?, self.notarize()?),
            8 => evidence(self.finalize()?, self.finalize()?),
            9 => evidence(self.nullify()?, self.finalize()?),
            _ => None,
        }
    }

    fn notarize(&mut self) -> Option<Vote<'a>> {
        Some(Vote {
            subject: self.proposed(Statement::Notarize)?,
            attestation: self.attestation()?,
        })
    }

    fn nullify(&mut self) -> Option<Vote<'a>> {
        Some(Vote {
            subject: self.given_up()?,
            attestation: self.attestation()?,
        })
    }

    fn finalize(&mut self) -> Option<Vote<'a>> {
        Some(Vote {
            subject: self.proposed(Statement::Finalize)?,
            attestation: self.attestation()?,
        })
    }

    /// A proposal and what is stated of it.
    fn proposed(&mut self, statement: fn(Choice<'a>) -> Statement<'a>) -> Option<Subject<'a>> {
        let start = self.place;
        let round = self.round()?;
        let choice = Choice {
            parent: self.varint()?,
            payload: self.array()?,
        };
        Some(Subject {
            round,
            statement: statement(choice),
            message: &self.input[start..self.place],
        })
    }

    /// A round that is given up.
    fn given_up(&mut self) -> Option<Subject<'a>> {
        let start = self.place;
        Some(Subject {
            round: self.round()?,
            statement: Statement::Nullify,
            message: &self.input[start..self.place],
        })
    }

    fn round(&mut self) -> Option<Round> {
        Some(Round {
            epoch: self.varint()?,
            view: self.varint()?,
        })
    }

    fn attestation(&mut self) -> Option<Attestation<'a>> {
        Some(Attestation {
            signer: u32::try_from(self.varint()?).ok()?,
            signature: self.array()?,
        })
    }

    /// The attestations of a certificate, of ascending members.
    fn list(&mut self, count: u64) -> Option<Vec<Attestation<'a>>> {
        let listed = self.varint()?;
        if listed > count {
            return None;
        }
        let left = self.input.len() - self.place;
        let room = (listed as usize).min(left / SHORTEST_ATTESTATION);
        let mut attestations = Vec::with_capacity(room);
        let mut least = 0;
        for _ in 0..listed {
            let attestation = self.attestation()?;
            let index = u64::from(attestation.signer);
            if index < least || index >= count {
                return None;
            }
            least = index + 1;
            attestations.push(attestation);
        }
        Some(attestations)
    }
}

fn evidence<'a>(first: Vote<'a>, second: Vote<'a>) -> Option<Activity<'a>> {
    let proven = first.conflicts_with(&second);
    proven.then_some(Activity::Evidence(first, second))
}

// The signatures

const LONGEST_NAMESPACE: usize = 16;
const LONGEST_PROPOSAL: usize = 3 * VARINT_BYTES + PAYLOAD_BYTES;
const LONGEST_SIGNED: usize = 4 + 4 + LONGEST_NAMESPACE + LONGEST_PROPOSAL;

/// The bytes that are signed for a subject: the signer's index, the namespace and the message.
pub struct Signed {
    bytes: [u8; LONGEST_SIGNED],
    length: usize,
}

impl Signed {
    pub fn new(subject: &Subject) -> Self {
        let namespace = match subject.statement {
            Statement::Notarize(_) => b"simplex_NOTARIZE".as_slice(),
            Statement::Nullify => b"simplex_NULLIFY",
            Statement::Finalize(_) => b"simplex_FINALIZE",
        };
        let from = 8 + namespace.len();
        let length = from + subject.message.len();
        let mut bytes = [0; LONGEST_SIGNED];
        bytes[4..8].copy_from_slice(&(namespace.len() as u32).to_be_bytes());
        bytes[8..from].copy_from_slice(namespace);
        bytes[from..length].copy_from_slice(subject.message);
        Signed { bytes, length }
    }

    /// The signature of the signer of this index.
    pub fn signature(&mut self, index: u32) -> [u8; DIGEST_BYTES] {
        self.bytes[..4].copy_from_slice(&index.to_be_bytes());
        sha256(&self.bytes[..self.length])
    }
}
