//! The votes of a round in plain Rust: what taking and certifying them is measured against.
//!
//! Takes the words that `../batcher/main.rt.txt` takes, and prints the same. Like the audit's baseline it is good
//! portable code: no crates, no intrinsics. A member's votes stand in a row of a table, by its index.

use std::hint::black_box;
use std::io;
use std::process::ExitCode;

mod sha256;

use sha256::{sha256, DIGEST_BYTES};

const PAYLOAD: [u8; 32] = [0xaa; 32];
const EPOCH: u64 = 0;
const VIEW: u64 = 2;
const PARENT: u64 = 1;

fn main() -> ExitCode {
    match run() {
        Ok(line) => {
            println!("{line}");
            ExitCode::SUCCESS
        }
        Err(error) => {
            eprintln!("batcher: {error}");
            ExitCode::FAILURE
        }
    }
}

#[derive(Clone, Copy, PartialEq, Eq)]
enum Phase {
    Add,
    Construct,
    Fallback,
    Hold,
}

#[derive(Default)]
struct Total {
    added: usize,
    blocked: usize,
    reported: usize,
    listed: usize,
    processed: usize,
    invalid: usize,
}

fn run() -> io::Result<String> {
    let words: Vec<String> = std::env::args().skip(1).collect();
    let [phase, members, repetitions] = words.as_slice() else {
        return Err(io::Error::other("usage: batcher PHASE MEMBERS REPETITIONS"));
    };
    let phase = match phase.as_str() {
        "add" => Phase::Add,
        "construct" => Phase::Construct,
        "fallback" => Phase::Fallback,
        "hold" => Phase::Hold,
        _ => return Err(io::Error::other("a phase is add, construct, fallback or hold")),
    };
    let members: u32 = members.parse().map_err(io::Error::other)?;
    let repetitions: u32 = repetitions.parse().map_err(io::Error::other)?;
    let votes = votes_of(phase, members);
    let mut total = Total::default();
    for _ in 0..repetitions {
        play(phase, members, black_box(&votes), &mut total);
    }
    let Total {
        added,
        blocked,
        reported,
        listed,
        processed,
        invalid,
    } = total;
    Ok(format!(
        "{added} {blocked} {reported} {listed} {processed} {invalid}"
    ))
}

/// A round of a phase, from its beginning to its end.
fn play(phase: Phase, members: u32, votes: &[Vote], total: &mut Total) {
    let mut round = Round::new(position(), members);
    for vote in votes {
        let admission = round
            .add_network(vote.attestation().signer, vote.clone())
            .expect("a vote of the round");
        total.added += usize::from(admission.added);
        total.blocked += usize::from(admission.block);
        total.reported += usize::from(black_box(admission.report).is_some());
    }
    if matches!(phase, Phase::Add | Phase::Hold) {
        return;
    }
    round.set_leader(0);
    if let Some(batch) = round.try_construct() {
        total.processed += batch.processed;
        total.invalid += batch.invalid.len();
        if let Some(Certificate { attestations, .. }) = black_box(batch.certificate) {
            total.listed += attestations.len();
        }
    }
}

/// The votes of a phase, in the order in which they come in.
fn votes_of(phase: Phase, members: u32) -> Vec<Vote> {
    let notarize = |signer, attests: bool| {
        let signed = if attests { Kind::Notarize } else { Kind::Finalize };
        Vote::Notarize(proposal(), attestation(signed, signer))
    };
    let last = members - 1;
    let mut votes: Vec<Vote> = (0..members)
        .map(|signer| notarize(signer, phase != Phase::Fallback || signer < last))
        .collect();
    if phase == Phase::Add {
        votes.extend(
            (0..members)
                .map(|signer| Vote::Nullify(position(), attestation(Kind::Nullify, signer))),
        );
        votes.extend((0..members).map(|signer| notarize(signer, true)));
        votes.extend(
            (0..members)
                .map(|signer| Vote::Finalize(proposal(), attestation(Kind::Finalize, signer))),
        );
    }
    if phase == Phase::Hold {
        votes.extend((0..members).map(|signer| {
            if signer % 2 == 0 {
                Vote::Nullify(position(), attestation(Kind::Nullify, signer))
            } else {
                Vote::Finalize(proposal(), attestation(Kind::Finalize, signer))
            }
        }));
    }
    votes
}

// The votes

#[derive(Clone, Copy, PartialEq, Eq)]
struct Position {
    epoch: u64,
    view: u64,
}

#[derive(Clone, Copy, PartialEq, Eq)]
struct Proposal {
    position: Position,
    parent: u64,
    payload: [u8; 32],
}

#[derive(Clone, Copy, PartialEq, Eq)]
struct Attestation {
    signer: u32,
    signature: [u8; DIGEST_BYTES],
}

#[derive(Clone, Copy, PartialEq, Eq)]
enum Kind {
    Notarize,
    Nullify,
    Finalize,
}

#[derive(Clone, PartialEq, Eq)]
enum Vote {
    Notarize(Proposal, Attestation),
    Nullify(Position, Attestation),
    Finalize(Proposal, Attestation),
}

impl Vote {
    fn kind(&self) -> Kind {
        match self {
            Vote::Notarize(..) => Kind::Notarize,
            Vote::Nullify(..) => Kind::Nullify,
            Vote::Finalize(..) => Kind::Finalize,
        }
    }

    fn position(&self) -> Position {
        match self {
            Vote::Notarize(proposal, _) | Vote::Finalize(proposal, _) => proposal.position,
            Vote::Nullify(position, _) => *position,
        }
    }

    fn attestation(&self) -> &Attestation {
        match self {
            Vote::Notarize(_, attestation)
            | Vote::Nullify(_, attestation)
            | Vote::Finalize(_, attestation) => attestation,
        }
    }

    fn proposal(&self) -> Option<&Proposal> {
        match self {
            Vote::Notarize(proposal, _) | Vote::Finalize(proposal, _) => Some(proposal),
            Vote::Nullify(..) => None,
        }
    }

    /// Whether the vote is a nullify, or for this proposal.
    fn is_for(&self, proposal: &Proposal) -> bool {
        self.proposal().is_none_or(|voted| voted == proposal)
    }
}

fn position() -> Position {
    Position {
        epoch: EPOCH,
        view: VIEW,
    }
}

fn proposal() -> Proposal {
    Proposal {
        position: position(),
        parent: PARENT,
        payload: PAYLOAD,
    }
}

// The round

enum Report {
    Vote(#[allow(dead_code)] Vote),
    Evidence(#[allow(dead_code)] Vote, #[allow(dead_code)] Vote),
}

struct Admission {
    added: bool,
    block: bool,
    report: Option<Report>,
}

struct Certificate {
    #[allow(dead_code)]
    proposal: Option<Proposal>,
    /// By ascending signer.
    attestations: Vec<Attestation>,
}

struct Batch {
    certificate: Option<Certificate>,
    invalid: Vec<u32>,
    processed: usize,
}

#[derive(Default)]
struct Pool {
    waiting: Vec<Vote>,
    verified: Vec<Vote>,
    complete: bool,
}

/// Where a member's recorded votes stand.
#[derive(Clone, Default)]
struct Row {
    notarize: Option<Vote>,
    other: Option<Vote>,
}

struct Round {
    position: Position,
    leader: Option<u32>,
    selected: Option<Proposal>,
    is_fixed: bool,
    rows: Vec<Row>,
    pools: [Pool; 3],
}

impl Round {
    fn new(position: Position, members: u32) -> Self {
        Round {
            position,
            leader: None,
            selected: None,
            is_fixed: false,
            rows: vec![Row::default(); members as usize],
            pools: Default::default(),
        }
    }

    /// Nothing for a vote of another round.
    fn add_network(&mut self, sender: u32, vote: Vote) -> Option<Admission> {
        if vote.position() != self.position {
            return None;
        }
        let refused = |block, report| {
            Some(Admission {
                added: false,
                block,
                report,
            })
        };
        if vote.attestation().signer != sender {
            return refused(true, None);
        }
        let Some(row) = self.rows.get_mut(sender as usize) else {
            return refused(false, None);
        };
        let slot = match vote.kind() {
            Kind::Notarize => &mut row.notarize,
            _ => &mut row.other,
        };
        if let Some(recorded) = slot {
            if self.pools[recorded.kind() as usize].complete {
                let differ = recorded.kind() == vote.kind() && recorded.proposal() != vote.proposal();
                return refused(differ, None);
            }
            if *recorded == vote {
                return refused(false, None);
            }
            return refused(true, evidence(recorded, vote));
        }
        *slot = Some(vote.clone());
        let report = Some(Report::Vote(vote.clone()));
        self.hold(vote);
        Some(Admission {
            added: true,
            block: false,
            report,
        })
    }

    /// Holds a vote that waits, where it counts.
    fn hold(&mut self, vote: Vote) {
        if vote.kind() == Kind::Notarize && self.leader == Some(vote.attestation().signer) {
            self.lead(vote.proposal().copied());
        }
        let pool = &mut self.pools[vote.kind() as usize];
        if !pool.complete && self.selected.is_none_or(|selected| vote.is_for(&selected)) {
            pool.waiting.push(vote);
        }
    }

    fn set_leader(&mut self, leader: u32) {
        self.leader = Some(leader);
        let row = &self.rows[leader as usize];
        self.lead(row.notarize.as_ref().and_then(Vote::proposal).copied());
    }

    /// Selects the leader's proposal where none is selected yet.
    fn lead(&mut self, proposal: Option<Proposal>) {
        if self.selected.is_none() && proposal.is_some() {
            self.select(proposal);
        }
    }

    fn select(&mut self, proposal: Option<Proposal>) {
        self.selected = proposal;
        if let Some(selected) = &self.selected {
            for pool in &mut self.pools {
                pool.waiting.retain(|vote| vote.is_for(selected));
                pool.verified.retain(|vote| vote.is_for(selected));
            }
        }
    }

    fn try_construct(&mut self) -> Option<Batch> {
        [Kind::Notarize, Kind::Nullify, Kind::Finalize]
            .into_iter()
            .find_map(|kind| self.construct(kind))
    }

    /// All votes at once, or else each by itself, as a scheme that judges many at once is asked.
    fn construct(&mut self, kind: Kind) -> Option<Batch> {
        let needed = quorum(self.rows.len());
        let stated = match kind {
            Kind::Nullify => None,
            _ => Some(self.selected?),
        };
        let pool = &mut self.pools[kind as usize];
        if pool.complete || pool.verified.len() + pool.waiting.len() < needed {
            return None;
        }
        let waiting = std::mem::take(&mut pool.waiting);
        let processed = waiting.len();
        let mut signed = Signed::new(kind);
        let mut attests =
            |vote: &Vote| signed.signature(vote.attestation().signer) == vote.attestation().signature;
        let all = pool.verified.iter().chain(&waiting);
        let mut invalid = Vec::new();
        if all.clone().all(&mut attests) {
            pool.verified.extend(waiting);
        } else {
            for vote in waiting {
                if attests(&vote) {
                    pool.verified.push(vote);
                } else {
                    invalid.push(vote.attestation().signer);
                }
            }
            invalid.sort_unstable();
        }
        if pool.verified.len() < needed {
            return Some(Batch {
                certificate: None,
                invalid,
                processed,
            });
        }
        let mut attestations: Vec<Attestation> =
            pool.verified.drain(..).map(|vote| *vote.attestation()).collect();
        attestations.sort_unstable_by_key(|attestation| attestation.signer);
        pool.complete = true;
        if stated.is_some() && !self.is_fixed {
            self.is_fixed = true;
            if self.selected != stated {
                self.select(stated);
            }
        }
        Some(Batch {
            certificate: Some(Certificate {
                proposal: stated,
                attestations,
            }),
            invalid,
            processed,
        })
    }
}

/// The evidence of two unequal votes of one member, where they contradict each other.
fn evidence(recorded: &Vote, vote: Vote) -> Option<Report> {
    if recorded.kind() == vote.kind() && recorded.proposal() == vote.proposal() {
        return None;
    }
    Some(match vote {
        Vote::Nullify(..) => Report::Evidence(vote, recorded.clone()),
        _ => Report::Evidence(recorded.clone(), vote),
    })
}

/// All but as many as may be faulty.
fn quorum(members: usize) -> usize {
    members - members.saturating_sub(1) / 3
}

// The signatures

/// What the members sign: an index, the namespace, and the proposal or the round.
struct Signed {
    bytes: Vec<u8>,
}

impl Signed {
    fn new(kind: Kind) -> Self {
        let namespace: &[u8] = match kind {
            Kind::Notarize => b"simplex_NOTARIZE",
            Kind::Nullify => b"simplex_NULLIFY",
            Kind::Finalize => b"simplex_FINALIZE",
        };
        let mut bytes = vec![0; 4];
        bytes.extend_from_slice(&(namespace.len() as u32).to_be_bytes());
        bytes.extend_from_slice(namespace);
        // Each of these numbers is below 128, and so one byte.
        bytes.extend_from_slice(&[EPOCH as u8, VIEW as u8]);
        if kind != Kind::Nullify {
            bytes.push(PARENT as u8);
            bytes.extend_from_slice(&PAYLOAD);
        }
        Signed { bytes }
    }

    fn signature(&mut self, index: u32) -> [u8; DIGEST_BYTES] {
        self.bytes[..4].copy_from_slice(&index.to_be_bytes());
        sha256(&self.bytes)
    }
}

fn attestation(kind: Kind, signer: u32) -> Attestation {
    Attestation {
        signer,
        signature: Signed::new(kind).signature(signer),
    }
}
