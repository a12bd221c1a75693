//! Who took a vote back, by the reports of members: a reader of reports and an audit of its own, apart
//! from the product's, so that the two can be compared.
//!
//! Reports are spelled as docs/FORMATS.md says, under the plain scheme of some base.

use ring::digest::{SHA256, digest};
use serde::{Deserialize, Serialize};
use std::collections::{BTreeMap, BTreeSet};
use std::fmt;

/// What is proposed: the parent's view and the payload.
#[derive(Clone, Debug, PartialEq, Eq, PartialOrd, Ord, Serialize, Deserialize)]
pub struct Proposal {
    /// The parent's view.
    pub parent: u64,
    /// The payload.
    pub payload: [u8; 32],
}

/// What a vote is on.
#[derive(Clone, Debug, PartialEq, Eq, PartialOrd, Ord, Serialize, Deserialize)]
pub enum Subject {
    /// To notarize a proposal.
    Notarize(Proposal),
    /// To give the view up.
    Nullify,
    /// To finalize a proposal.
    Finalize(Proposal),
}

/// A vote and its attestation.
#[derive(Clone, Debug, PartialEq, Eq, PartialOrd, Ord, Serialize, Deserialize)]
pub struct Vote {
    /// The epoch.
    pub epoch: u64,
    /// The view.
    pub view: u64,
    /// The member in whose name it is.
    pub signer: u32,
    /// On what.
    pub subject: Subject,
    /// The plain scheme's hash.
    pub attestation: [u8; 32],
}

impl Vote {
    /// A vote with the attestation that belongs to it.
    pub fn attested(base: &[u8], epoch: u64, view: u64, signer: u32, subject: Subject) -> Vote {
        let attestation = attestation(base, epoch, view, signer, &subject);
        Vote {
            epoch,
            view,
            signer,
            subject,
            attestation,
        }
    }

    /// Whether the attestation is that of its signer for its subject.
    pub fn verifies(&self, base: &[u8]) -> bool {
        self.attestation == attestation(base, self.epoch, self.view, self.signer, &self.subject)
    }

    /// The report of this vote.
    pub fn report(&self) -> Vec<u8> {
        let tag = match self.subject {
            Subject::Notarize(_) => 0,
            Subject::Nullify => 3,
            Subject::Finalize(_) => 5,
        };
        let mut bytes = vec![tag];
        append_subject(&mut bytes, self.epoch, self.view, &self.subject);
        append_number(&mut bytes, self.signer.into());
        bytes.extend(self.attestation);
        bytes
    }
}

/// The bytes are no report at this place.
#[derive(Clone, Copy, Debug, PartialEq, Eq)]
pub struct NoReport {
    /// The place of the report's first byte.
    pub at: usize,
}

/// Two votes of one member in one round, which no correct one casts both.
#[derive(Clone, Debug, PartialEq, Eq, PartialOrd, Ord)]
pub struct TakenBack {
    /// The epoch.
    pub epoch: u64,
    /// The view.
    pub view: u64,
    /// Who.
    pub signer: u32,
    /// One vote.
    pub one: Subject,
    /// And the other.
    pub other: Subject,
}

impl fmt::Display for TakenBack {
    fn fmt(&self, f: &mut fmt::Formatter<'_>) -> fmt::Result {
        let name = |subject: &Subject| match subject {
            Subject::Nullify => "gave it up".to_owned(),
            Subject::Notarize(p) => format!("notarized {} on {}", hex::encode(p.payload), p.parent),
            Subject::Finalize(p) => format!("finalized {} on {}", hex::encode(p.payload), p.parent),
        };
        let (one, other) = (name(&self.one), name(&self.other));
        write!(
            f,
            "member {} in view {}: {one} and {other}",
            self.signer, self.view
        )
    }
}

fn append_number(bytes: &mut Vec<u8>, mut number: u64) {
    while number >= 0x80 {
        bytes.push(number as u8 | 0x80);
        number >>= 7;
    }
    bytes.push(number as u8);
}

fn append_subject(bytes: &mut Vec<u8>, epoch: u64, view: u64, subject: &Subject) {
    append_number(bytes, epoch);
    append_number(bytes, view);
    if let Subject::Notarize(proposal) | Subject::Finalize(proposal) = subject {
        append_number(bytes, proposal.parent);
        bytes.extend(proposal.payload);
    }
}

fn attestation(base: &[u8], epoch: u64, view: u64, signer: u32, subject: &Subject) -> [u8; 32] {
    let ending: &[u8] = match subject {
        Subject::Notarize(_) => b"_NOTARIZE",
        Subject::Nullify => b"_NULLIFY",
        Subject::Finalize(_) => b"_FINALIZE",
    };
    let mut bytes = signer.to_be_bytes().to_vec();
    bytes.extend(((base.len() + ending.len()) as u32).to_be_bytes());
    bytes.extend(base);
    bytes.extend(ending);
    append_subject(&mut bytes, epoch, view, subject);
    let mut hash = [0; 32];
    hash.copy_from_slice(digest(&SHA256, &bytes).as_ref());
    hash
}

struct Reader<'a> {
    bytes: &'a [u8],
    at: usize,
}

/// What a report is read as: `None` where the bytes are none.
impl Reader<'_> {
    fn byte(&mut self) -> Option<u8> {
        let byte = *self.bytes.get(self.at)?;
        self.at += 1;
        Some(byte)
    }

    fn number(&mut self) -> Option<u64> {
        let mut number = 0u64;
        for shift in (0..64).step_by(7) {
            let byte = self.byte()?;
            if (shift == 63 && byte > 1) || (shift > 0 && byte == 0) {
                return None;
            }
            number |= u64::from(byte & 0x7f) << shift;
            if byte < 0x80 {
                return Some(number);
            }
        }
        None
    }

    fn index(&mut self) -> Option<u32> {
        self.number()?.try_into().ok()
    }

    fn hash(&mut self) -> Option<[u8; 32]> {
        let hash = self.bytes.get(self.at..)?.first_chunk()?;
        self.at += 32;
        Some(*hash)
    }

    fn proposal(&mut self) -> Option<(u64, u64, Proposal)> {
        let (epoch, view) = (self.number()?, self.number()?);
        let proposal = Proposal {
            parent: self.number()?,
            payload: self.hash()?,
        };
        Some((epoch, view, proposal))
    }

    fn vote(&mut self, subject: fn(Proposal) -> Subject) -> Option<Vote> {
        let (epoch, view, proposal) = self.proposal()?;
        let (signer, attestation) = (self.index()?, self.hash()?);
        Some(Vote {
            epoch,
            view,
            signer,
            subject: subject(proposal),
            attestation,
        })
    }

    fn nullify(&mut self) -> Option<Vote> {
        let (epoch, view) = (self.number()?, self.number()?);
        let (signer, attestation) = (self.index()?, self.hash()?);
        Some(Vote {
            epoch,
            view,
            signer,
            subject: Subject::Nullify,
            attestation,
        })
    }

    fn list(
        &mut self,
        members: u32,
        epoch: u64,
        view: u64,
        subject: &Subject,
    ) -> Option<Vec<Vote>> {
        let count = self.number()?;
        let mut votes: Vec<Vote> = Vec::new();
        for _ in 0..(count <= members.into()).then_some(count)? {
            let signer = self.index()?;
            let is_next = votes.last().is_none_or(|last| last.signer < signer);
            let attestation = (is_next && signer < members).then(|| self.hash())??;
            votes.push(Vote {
                epoch,
                view,
                signer,
                subject: subject.clone(),
                attestation,
            });
        }
        Some(votes)
    }

    fn certificate(&mut self, members: u32, subject: fn(Proposal) -> Subject) -> Option<Vec<Vote>> {
        let (epoch, view, proposal) = self.proposal()?;
        self.list(members, epoch, view, &subject(proposal))
    }

    fn pair(one: Vote, other: Vote) -> Option<Vec<Vote>> {
        let is_pair = (one.epoch, one.view, one.signer) == (other.epoch, other.view, other.signer)
            && one.subject != other.subject;
        is_pair.then(|| vec![one, other])
    }

    fn report(&mut self, members: u32) -> Option<Vec<Vote>> {
        match self.byte()? {
            0 => Some(vec![self.vote(Subject::Notarize)?]),
            1 | 2 => self.certificate(members, Subject::Notarize),
            3 => Some(vec![self.nullify()?]),
            4 => {
                let (epoch, view) = (self.number()?, self.number()?);
                self.list(members, epoch, view, &Subject::Nullify)
            }
            5 => Some(vec![self.vote(Subject::Finalize)?]),
            6 => self.certificate(members, Subject::Finalize),
            7 => Self::pair(self.vote(Subject::Notarize)?, self.vote(Subject::Notarize)?),
            8 => Self::pair(self.vote(Subject::Finalize)?, self.vote(Subject::Finalize)?),
            9 => Self::pair(self.nullify()?, self.vote(Subject::Finalize)?),
            _ => None,
        }
    }
}

/// The votes of one report at the front of these bytes, and how many bytes it has.
///
/// # Errors
///
/// Where none stands there.
pub fn read_one(bytes: &[u8], members: u32) -> Result<(Vec<Vote>, usize), NoReport> {
    let mut reader = Reader { bytes, at: 0 };
    let votes = reader.report(members).ok_or(NoReport { at: 0 })?;
    Ok((votes, reader.at))
}

/// The votes of reports that stand one behind another.
///
/// # Errors
///
/// The place of the first that is none.
pub fn read(bytes: &[u8], members: u32) -> Result<Vec<Vote>, NoReport> {
    let (mut votes, mut at) = (Vec::new(), 0);
    while at < bytes.len() {
        let (more, length) = read_one(&bytes[at..], members).map_err(|_| NoReport { at })?;
        votes.extend(more);
        at += length;
    }
    Ok(votes)
}

/// Each two of these votes that contradict each other, of those that verify: two to notarize, or two to
/// finalize, on different proposals; one to finalize and one to give up.
pub fn taken_back(votes: &[Vote], base: &[u8]) -> BTreeSet<TakenBack> {
    let mut cast: BTreeMap<(u64, u64, u32), BTreeSet<&Subject>> = BTreeMap::new();
    for vote in votes.iter().filter(|vote| vote.verifies(base)) {
        cast.entry((vote.epoch, vote.view, vote.signer))
            .or_default()
            .insert(&vote.subject);
    }
    let mut found = BTreeSet::new();
    for ((epoch, view, signer), subjects) in cast {
        for one in &subjects {
            let later = subjects.iter().filter(|other| *other > one);
            for other in later.filter(|other| contradict(one, other)) {
                let (one, other) = ((*one).clone(), (*other).clone());
                found.insert(TakenBack {
                    epoch,
                    view,
                    signer,
                    one,
                    other,
                });
            }
        }
    }
    found
}

/// Of two different subjects, the lesser first.
fn contradict(one: &Subject, other: &Subject) -> bool {
    matches!(
        (one, other),
        (Subject::Notarize(_), Subject::Notarize(_))
            | (Subject::Finalize(_), Subject::Finalize(_))
            | (Subject::Nullify, Subject::Finalize(_))
    )
}

#[cfg(test)]
mod tests {
    use super::*;

    const BASE: &[u8] = b"simplex";

    fn on(payload: u8) -> Proposal {
        Proposal {
            parent: 1,
            payload: [payload; 32],
        }
    }

    fn vote(view: u64, signer: u32, subject: Subject) -> Vote {
        Vote::attested(BASE, 0, view, signer, subject)
    }

    /// The examples of docs/FORMATS.md.
    #[test]
    fn attestations_are_those_of_the_page() {
        let of = |subject| hex::encode(vote(2, 1, subject).attestation);
        let said = "abe9158c3bdc71f0939c80b81d8e0e602c446bdd5c95e5d44f3310cec6a914a2";
        assert_eq!(of(Subject::Notarize(on(0xaa))), said);
        let said = "0173deda8b89faadd1f179126ef119f2567d473d85af1f4095ffecca380e76a2";
        assert_eq!(of(Subject::Nullify), said);
        let said = "55ecc3dc66e6fbcf74469701d3c04cafb38cf09de93ad698c8e2986f04c3d6b8";
        assert_eq!(of(Subject::Finalize(on(0xaa))), said);
    }

    fn subjects() -> [Subject; 5] {
        [
            Subject::Notarize(on(0xaa)),
            Subject::Notarize(on(0xbb)),
            Subject::Nullify,
            Subject::Finalize(on(0xaa)),
            Subject::Finalize(on(0xbb)),
        ]
    }

    #[test]
    fn votes_are_read_as_they_were_spelled_and_no_front_of_one_is() {
        for subject in subjects() {
            let vote = vote(300, 1, subject);
            let report = vote.report();
            assert_eq!(read(&report, 4), Ok(vec![vote]));
            for cut in 1..report.len() {
                assert_eq!(read(&report[..cut], 4), Err(NoReport { at: 0 }));
            }
        }
    }

    #[test]
    fn certificates_and_evidence_are_read() {
        let bodies = |votes: &[Vote]| -> Vec<u8> {
            votes
                .iter()
                .flat_map(|vote| [&[vote.signer as u8][..], &vote.attestation].concat())
                .collect()
        };
        let votes = [0, 1, 2].map(|signer| vote(2, signer, Subject::Notarize(on(0xaa))));
        let head = [&[0, 2, 1][..], &[0xaa; 32], &[3]].concat();
        for tag in [1, 2] {
            let report = [&[tag][..], &head, &bodies(&votes)].concat();
            assert_eq!(read(&report, 4), Ok(votes.to_vec()));
            assert_eq!(read(&report, 2), Err(NoReport { at: 0 }));
        }
        let votes = [1, 3].map(|signer| vote(2, signer, Subject::Nullify));
        let report = [&[4, 0, 2, 2][..], &bodies(&votes)].concat();
        assert_eq!(read(&report, 4), Ok(votes.to_vec()));
        let [one, other] = [0xaa, 0xbb].map(|p| vote(2, 1, Subject::Notarize(on(p))));
        let pair = |tag, one: &Vote, other: &Vote| {
            [&[tag], &one.report()[1..], &other.report()[1..]].concat()
        };
        assert_eq!(
            read(&pair(7, &one, &other), 4),
            Ok(vec![one.clone(), other.clone()])
        );
        assert_eq!(read(&pair(7, &one, &one), 4), Err(NoReport { at: 0 }));
        let (nullify, finalize) = (
            vote(2, 1, Subject::Nullify),
            vote(2, 1, Subject::Finalize(on(0xaa))),
        );
        assert_eq!(
            read(&pair(9, &nullify, &finalize), 4),
            Ok(vec![nullify, finalize])
        );
    }

    #[test]
    fn the_place_of_a_fault_is_told() {
        let report = vote(2, 1, Subject::Nullify).report();
        assert_eq!(
            read(&[&report[..], &[0x0a]].concat(), 4),
            Err(NoReport { at: report.len() })
        );
    }

    #[test]
    fn contradicting_votes_are_found_and_no_others() {
        let found = |subjects: &[Subject]| {
            let votes: Vec<_> = subjects.iter().map(|s| vote(2, 1, s.clone())).collect();
            taken_back(&votes, BASE).len()
        };
        let [notarize, other, nullify, finalize, another] = subjects();
        assert_eq!(
            found(&[notarize.clone(), notarize.clone(), nullify.clone()]),
            0
        );
        assert_eq!(found(&[notarize.clone(), finalize.clone()]), 0);
        assert_eq!(found(&[notarize.clone(), other]), 1);
        assert_eq!(found(&[finalize.clone(), another.clone()]), 1);
        assert_eq!(found(&[nullify.clone(), finalize.clone()]), 1);
        assert_eq!(found(&[finalize, another, nullify]), 3);
    }

    #[test]
    fn votes_of_two_members_two_views_or_a_false_attestation_contradict_nothing() {
        let notarize = |view, signer, payload| vote(view, signer, Subject::Notarize(on(payload)));
        let members = [notarize(2, 1, 1), notarize(2, 2, 2)];
        assert!(taken_back(&members, BASE).is_empty());
        assert!(taken_back(&[notarize(2, 1, 1), notarize(3, 1, 2)], BASE).is_empty());
        let mut forged = [notarize(2, 1, 1), notarize(2, 1, 2)];
        assert_eq!(taken_back(&forged, BASE).len(), 1);
        assert!(taken_back(&forged, b"other").is_empty());
        forged[1].attestation[0] ^= 1;
        assert!(taken_back(&forged, BASE).is_empty());
    }
}
