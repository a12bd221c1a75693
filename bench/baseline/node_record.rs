//! A node's record on its disk, and what packets and records are spelled as.

use std::collections::BTreeSet;
use std::fs::{File, OpenOptions};
use std::io;
use std::os::unix::fs::FileExt;

use crate::node_votes::{Kind, Made, Position, Vote, EPOCH};
use crate::reader::Reader;
use crate::voter_round::{Attestation, Certificate, Nullification, Proposal, View};

// What is spelled

pub fn number(bytes: &mut Vec<u8>, number: u64) {
    let mut rest = number;
    while rest >= 128 {
        bytes.push((rest & 0x7f) as u8 | 0x80);
        rest >>= 7;
    }
    bytes.push(rest as u8);
}

fn spell_proposal(bytes: &mut Vec<u8>, proposal: &Proposal) {
    number(bytes, proposal.epoch);
    number(bytes, proposal.view);
    number(bytes, proposal.parent);
    bytes.extend_from_slice(&proposal.payload);
}

fn spell_attestation(bytes: &mut Vec<u8>, attestation: &Attestation) {
    number(bytes, u64::from(attestation.signer));
    bytes.extend_from_slice(&attestation.signature);
}

/// A vote behind its tag.
pub fn spell_vote(bytes: &mut Vec<u8>, tag: u8, vote: &Vote) {
    bytes.push(tag);
    match vote {
        Vote::Notarize(proposal, _) | Vote::Finalize(proposal, _) => {
            spell_proposal(bytes, proposal);
        }
        Vote::Nullify(position, _) => {
            number(bytes, position.epoch);
            number(bytes, position.view);
        }
    }
    spell_attestation(bytes, vote.attestation());
}

/// A certificate behind its tag.
pub fn spell_certificate(bytes: &mut Vec<u8>, tag: u8, certificate: &Made) {
    let attestations = certificate.attestations();
    bytes.reserve(64 + 37 * attestations.len());
    bytes.push(tag);
    match certificate.proposal() {
        Some(proposal) => spell_proposal(bytes, proposal),
        None => {
            number(bytes, EPOCH);
            number(bytes, certificate.view());
        }
    }
    number(bytes, attestations.len() as u64);
    for attestation in attestations {
        spell_attestation(bytes, attestation);
    }
}

impl Reader<'_> {
    fn position(&mut self) -> Option<Position> {
        Some(Position {
            epoch: self.varint()?,
            view: self.varint()?,
        })
    }

    fn proposal(&mut self) -> Option<Proposal> {
        Some(Proposal {
            epoch: self.varint()?,
            view: self.varint()?,
            parent: self.varint()?,
            payload: *self.array()?,
        })
    }

    fn attestation(&mut self) -> Option<Attestation> {
        Some(Attestation {
            signer: u32::try_from(self.varint()?).ok()?,
            signature: *self.array()?,
        })
    }

    fn list(&mut self, members: u32) -> Option<Vec<Attestation>> {
        let count = self.varint()?;
        if count > u64::from(members) {
            return None;
        }
        let left = self.input.len() - self.place;
        let mut attestations = Vec::with_capacity((count as usize).min(left / 33));
        let mut least = 0;
        for _ in 0..count {
            let attestation = self.attestation()?;
            if attestation.signer < least || attestation.signer >= members {
                return None;
            }
            least = attestation.signer + 1;
            attestations.push(attestation);
        }
        Some(attestations)
    }

    fn vote(&mut self) -> Option<Vote> {
        match self.byte()? {
            0 => Some(Vote::Notarize(self.proposal()?, self.attestation()?)),
            1 => Some(Vote::Nullify(self.position()?, self.attestation()?)),
            2 => Some(Vote::Finalize(self.proposal()?, self.attestation()?)),
            _ => None,
        }
    }

    fn proposed(&mut self, members: u32) -> Option<Certificate> {
        Some(Certificate {
            proposal: self.proposal()?,
            attestations: self.list(members)?,
        })
    }

    /// A certificate, and its epoch.
    fn certificate(&mut self, members: u32) -> Option<(u64, Made)> {
        let tag = self.byte()?;
        if tag == 1 {
            let position = self.position()?;
            let certificate = Nullification {
                view: position.view,
                attestations: self.list(members)?,
            };
            return Some((position.epoch, Made::Nullification(certificate)));
        }
        let certificate = self.proposed(members)?;
        let epoch = certificate.proposal.epoch;
        match tag {
            0 => Some((epoch, Made::Notarization(certificate))),
            2 => Some((epoch, Made::Finalization(certificate))),
            _ => None,
        }
    }
}

/// What the bytes are, where they are nothing else.
fn whole<T>(bytes: &[u8], read: impl FnOnce(&mut Reader) -> Option<T>) -> Option<T> {
    let mut reader = Reader {
        input: bytes,
        place: 0,
    };
    let value = read(&mut reader)?;
    (reader.place == bytes.len()).then_some(value)
}

pub fn vote_in(bytes: &[u8]) -> Option<Vote> {
    whole(bytes, |reader| reader.vote())
}

pub fn certificate_in(bytes: &[u8], members: u32) -> Option<(u64, Made)> {
    whole(bytes, |reader| reader.certificate(members))
}

pub fn ask_in(bytes: &[u8]) -> Option<View> {
    whole(bytes, |reader| reader.varint())
}

// The disk

enum Place {
    Memory(Vec<u8>),
    /// Only how many bytes there are.
    Nothing(u64),
    File(File),
}

pub struct Disk {
    place: Place,
    pub syncs: u64,
}

impl Disk {
    pub fn named(word: &str) -> io::Result<Self> {
        let place = match word {
            "memory" => Place::Memory(Vec::new()),
            "nothing" => Place::Nothing(0),
            path => Place::File(
                OpenOptions::new()
                    .read(true)
                    .write(true)
                    .create_new(true)
                    .open(path)?,
            ),
        };
        Ok(Disk { place, syncs: 0 })
    }

    fn write_at(&mut self, at: u64, bytes: &[u8]) -> io::Result<()> {
        match &mut self.place {
            Place::Memory(held) => {
                let at = at as usize;
                let over = bytes.len().min(held.len() - at);
                held.extend_from_slice(&bytes[over..]);
                held[at..at + over].copy_from_slice(&bytes[..over]);
                Ok(())
            }
            Place::Nothing(length) => {
                *length = (*length).max(at + bytes.len() as u64);
                Ok(())
            }
            Place::File(file) => file.write_all_at(bytes, at),
        }
    }

    fn sync(&mut self) -> io::Result<()> {
        self.syncs += 1;
        match &self.place {
            Place::File(file) => file.sync_all(),
            _ => Ok(()),
        }
    }

    /// How many bytes it holds, and a sum over those that are held in memory.
    pub fn sum(&self) -> (u64, u64) {
        match &self.place {
            Place::Memory(held) => {
                let add = |sum: u64, byte: &u8| sum.wrapping_mul(31).wrapping_add(u64::from(*byte));
                (held.len() as u64, held.iter().fold(0, add))
            }
            Place::Nothing(length) => (*length, 0),
            Place::File(file) => (file.metadata().map_or(0, |it| it.len()), 0),
        }
    }
}

// The record

const CLOSED: u8 = 0;
const OPEN: u8 = 1;
const CERTIFICATION: u8 = 2;

/// The record, and what is asked of it again and again.
pub struct Record {
    pub disk: Disk,
    gate: u64,
    entry: Vec<u8>,
    /// The views with a certificate of each kind, from the floor on.
    certificates: [BTreeSet<View>; 3],
    judged: BTreeSet<View>,
    pub last_nullify: Option<Vote>,
}

impl Record {
    /// An empty one.
    pub fn new(mut disk: Disk) -> io::Result<Self> {
        disk.write_at(0, &[CLOSED])?;
        disk.sync()?;
        disk.syncs = 0;
        Ok(Record {
            disk,
            gate: 0,
            entry: Vec::new(),
            certificates: Default::default(),
            judged: BTreeSet::new(),
            last_nullify: None,
        })
    }

    /// The length of the body, the body and a closed gate; then the gate before it is opened.
    fn append(&mut self, spell: impl FnOnce(&mut Vec<u8>)) -> io::Result<()> {
        self.entry.clear();
        self.entry.extend_from_slice(&[0; 4]);
        spell(&mut self.entry);
        let size = self.entry.len() as u32 - 4;
        self.entry[..4].copy_from_slice(&size.to_be_bytes());
        self.entry.push(CLOSED);
        self.disk.write_at(self.gate + 1, &self.entry)?;
        self.disk.sync()?;
        self.disk.write_at(self.gate, &[OPEN])?;
        self.disk.sync()?;
        self.gate += self.entry.len() as u64;
        Ok(())
    }

    pub fn vote(&mut self, vote: &Vote) -> io::Result<()> {
        let tag = match vote.kind() {
            Kind::Notarize => 0,
            Kind::Nullify => 3,
            Kind::Finalize => 5,
        };
        self.append(|bytes| spell_vote(bytes, tag, vote))?;
        if vote.kind() == Kind::Nullify {
            self.last_nullify = Some(*vote);
        }
        Ok(())
    }

    pub fn certificate(&mut self, certificate: &Made) -> io::Result<()> {
        let tag = match certificate.kind() {
            Kind::Notarize => 1,
            Kind::Nullify => 4,
            Kind::Finalize => 6,
        };
        self.append(|bytes| spell_certificate(bytes, tag, certificate))?;
        self.certificates[certificate.kind() as usize].insert(certificate.view());
        Ok(())
    }

    pub fn verdict(&mut self, view: View, ok: bool) -> io::Result<()> {
        self.append(|bytes| {
            bytes.push(CERTIFICATION);
            number(bytes, EPOCH);
            number(bytes, view);
            bytes.push(u8::from(ok));
        })?;
        self.judged.insert(view);
        Ok(())
    }

    pub fn has_like(&self, certificate: &Made) -> bool {
        self.certificates[certificate.kind() as usize].contains(&certificate.view())
    }

    pub fn is_judged(&self, view: View) -> bool {
        self.judged.contains(&view)
    }

    /// Certificates of views below the floor are refused unseen.
    pub fn forget_below(&mut self, floor: View) {
        for views in &mut self.certificates {
            while views.first().is_some_and(|view| *view < floor) {
                views.pop_first();
            }
        }
    }
}
