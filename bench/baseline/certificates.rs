//! Certificates in plain Rust: what reading, verifying and writing them is measured against.
//!
//! Takes the words and the input that `../certificates/main.rt.txt` takes, and prints the same. Like
//! the audit's baseline it is good portable code: no crates, no intrinsics.

use std::hint::black_box;
use std::io::{self, Read};
use std::process::ExitCode;

mod reader;
mod sha256;

use reader::Reader;
use sha256::{sha256, DIGEST_BYTES};

const NAMESPACE: &[u8; 16] = b"simplex_NOTARIZE";
const PAYLOAD_BYTES: usize = 32;
const CERTIFICATES: usize = 2;

fn main() -> ExitCode {
    match run() {
        Ok(line) => {
            println!("{line}");
            ExitCode::SUCCESS
        }
        Err(error) => {
            eprintln!("certificates: {error}");
            ExitCode::FAILURE
        }
    }
}

fn run() -> io::Result<String> {
    let words: Vec<String> = std::env::args().skip(1).collect();
    let [phase, participants, repetitions] = words.as_slice() else {
        return Err(io::Error::other(
            "usage: certificates PHASE PARTICIPANTS REPETITIONS",
        ));
    };
    let participants: u32 = participants.parse().map_err(io::Error::other)?;
    let repetitions: u32 = repetitions.parse().map_err(io::Error::other)?;
    let mut bytes = Vec::new();
    io::stdin().lock().read_to_end(&mut bytes)?;
    let unread = || io::Error::other("no two certificates");
    let certificates = read_all(&bytes, participants).ok_or_else(unread)?;
    let mut total = 0usize;
    match phase.as_str() {
        "read" => {
            for _ in 0..repetitions {
                let again = read_all(black_box(&bytes), participants).ok_or_else(unread)?;
                total += sum_of(black_box(&again));
            }
        }
        "verify" => {
            for _ in 0..repetitions {
                total += count_verified(black_box(&certificates), participants);
            }
        }
        "write" => {
            let mut out = Vec::new();
            write_all(&mut out, &certificates);
            for _ in 0..repetitions {
                write_all(black_box(&mut out), black_box(&certificates));
                total += out.len();
            }
            if out != bytes {
                return Err(io::Error::other("written otherwise than read"));
            }
        }
        _ => return Err(io::Error::other("a phase is read, verify or write")),
    }
    Ok(format!("{phase} {total}"))
}

fn read_all(bytes: &[u8], participants: u32) -> Option<Vec<Certificate>> {
    let mut reader = Reader {
        input: bytes,
        place: 0,
    };
    (0..CERTIFICATES)
        .map(|_| reader.certificate(participants))
        .collect()
}

fn count_verified(certificates: &[Certificate], participants: u32) -> usize {
    certificates
        .iter()
        .filter(|certificate| certificate.verifies(participants))
        .count()
}

fn write_all(out: &mut Vec<u8>, certificates: &[Certificate]) {
    out.clear();
    for certificate in certificates {
        certificate.append(out);
    }
}

/// How many attestations there are, and the index of the last signer.
fn sum_of(certificates: &[Certificate]) -> usize {
    certificates
        .iter()
        .map(|certificate| {
            let last = certificate.attestations.last();
            certificate.attestations.len() + last.map_or(0, |last| last.signer as usize)
        })
        .sum()
}

// The certificates

struct Proposal {
    epoch: u64,
    view: u64,
    parent: u64,
    payload: [u8; PAYLOAD_BYTES],
}

struct Attestation {
    signer: u32,
    signature: [u8; DIGEST_BYTES],
}

struct Certificate {
    proposal: Proposal,
    /// By ascending signer.
    attestations: Vec<Attestation>,
}

impl Certificate {
    fn verifies(&self, participants: u32) -> bool {
        let mut signed = Signed::new(&self.proposal);
        quorum(participants) <= self.attestations.len()
            && self.attestations.iter().all(|attestation| {
                attestation.signer < participants
                    && signed.signature(attestation.signer) == attestation.signature
            })
    }

    fn append(&self, out: &mut Vec<u8>) {
        self.proposal.append(out);
        put_varint(out, self.attestations.len() as u64);
        for attestation in &self.attestations {
            put_varint(out, u64::from(attestation.signer));
            out.extend_from_slice(&attestation.signature);
        }
    }
}

impl Proposal {
    fn append(&self, out: &mut Vec<u8>) {
        put_varint(out, self.epoch);
        put_varint(out, self.view);
        put_varint(out, self.parent);
        out.extend_from_slice(&self.payload);
    }
}

/// All but as many as may be faulty.
fn quorum(participants: u32) -> usize {
    let faulty = participants.saturating_sub(1) / 3;
    (participants - faulty) as usize
}

// The byte formats

/// An index of one byte and a signature.
const SHORTEST_ATTESTATION: usize = 1 + DIGEST_BYTES;

impl Reader<'_> {
    fn certificate(&mut self, participants: u32) -> Option<Certificate> {
        let proposal = Proposal {
            epoch: self.varint()?,
            view: self.varint()?,
            parent: self.varint()?,
            payload: *self.array()?,
        };
        let count = self.varint()?;
        if count > u64::from(participants) {
            return None;
        }
        let left = self.input.len() - self.place;
        let room = (count as usize).min(left / SHORTEST_ATTESTATION);
        let mut attestations = Vec::with_capacity(room);
        let mut low = 0;
        for _ in 0..count {
            let signer = u32::try_from(self.varint()?).ok()?;
            if signer < low || signer >= participants {
                return None;
            }
            low = signer + 1;
            attestations.push(Attestation {
                signer,
                signature: *self.array()?,
            });
        }
        Some(Certificate {
            proposal,
            attestations,
        })
    }
}

fn put_varint(out: &mut Vec<u8>, number: u64) {
    let mut rest = number;
    while rest >= 0x80 {
        out.push(rest as u8 | 0x80);
        rest >>= 7;
    }
    out.push(rest as u8);
}

// The signatures

/// What the members sign: an index, the namespace and the proposal.
struct Signed {
    bytes: Vec<u8>,
}

impl Signed {
    fn new(proposal: &Proposal) -> Self {
        let mut bytes = vec![0; 4];
        bytes.extend_from_slice(&(NAMESPACE.len() as u32).to_be_bytes());
        bytes.extend_from_slice(NAMESPACE);
        proposal.append(&mut bytes);
        Signed { bytes }
    }

    fn signature(&mut self, index: u32) -> [u8; DIGEST_BYTES] {
        self.bytes[..4].copy_from_slice(&index.to_be_bytes());
        sha256(&self.bytes)
    }
}
