//! The votes of all views that a node keeps: a row of a table for each member, by its index.

use std::collections::{BTreeMap, BTreeSet};

use crate::voter_round::{Attestation, Certificate, Nullification, Proposal, View};

pub const EPOCH: u64 = 0;
/// The byte of which all signatures are.
pub const SIGNED: u8 = 7;

#[derive(Clone, Copy, PartialEq, Eq)]
pub enum Kind {
    Notarize,
    Nullify,
    Finalize,
}

const KINDS: [Kind; 3] = [Kind::Notarize, Kind::Nullify, Kind::Finalize];

#[derive(Clone, Copy, PartialEq, Eq)]
pub struct Position {
    pub epoch: u64,
    pub view: View,
}

#[derive(Clone, Copy, PartialEq, Eq)]
pub enum Vote {
    Notarize(Proposal, Attestation),
    Nullify(Position, Attestation),
    Finalize(Proposal, Attestation),
}

impl Vote {
    pub fn kind(&self) -> Kind {
        match self {
            Vote::Notarize(..) => Kind::Notarize,
            Vote::Nullify(..) => Kind::Nullify,
            Vote::Finalize(..) => Kind::Finalize,
        }
    }

    pub fn epoch(&self) -> u64 {
        match self {
            Vote::Notarize(proposal, _) | Vote::Finalize(proposal, _) => proposal.epoch,
            Vote::Nullify(position, _) => position.epoch,
        }
    }

    pub fn view(&self) -> View {
        match self {
            Vote::Notarize(proposal, _) | Vote::Finalize(proposal, _) => proposal.view,
            Vote::Nullify(position, _) => position.view,
        }
    }

    pub fn attestation(&self) -> &Attestation {
        match self {
            Vote::Notarize(_, attestation)
            | Vote::Nullify(_, attestation)
            | Vote::Finalize(_, attestation) => attestation,
        }
    }

    pub fn proposal(&self) -> Option<&Proposal> {
        match self {
            Vote::Notarize(proposal, _) | Vote::Finalize(proposal, _) => Some(proposal),
            Vote::Nullify(..) => None,
        }
    }

    /// Whether the vote is a nullify, or for this proposal.
    fn is_for(&self, proposal: &Proposal) -> bool {
        self.proposal().is_none_or(|voted| voted == proposal)
    }
}

/// A certificate of any kind.
#[derive(Clone)]
pub enum Made {
    Notarization(Certificate),
    Nullification(Nullification),
    Finalization(Certificate),
}

impl Made {
    pub fn kind(&self) -> Kind {
        match self {
            Made::Notarization(_) => Kind::Notarize,
            Made::Nullification(_) => Kind::Nullify,
            Made::Finalization(_) => Kind::Finalize,
        }
    }

    pub fn view(&self) -> View {
        match self {
            Made::Notarization(certificate) | Made::Finalization(certificate) => {
                certificate.proposal.view
            }
            Made::Nullification(certificate) => certificate.view,
        }
    }

    pub fn proposal(&self) -> Option<&Proposal> {
        match self {
            Made::Notarization(certificate) | Made::Finalization(certificate) => {
                Some(&certificate.proposal)
            }
            Made::Nullification(_) => None,
        }
    }

    pub fn attestations(&self) -> &[Attestation] {
        match self {
            Made::Notarization(certificate) | Made::Finalization(certificate) => {
                &certificate.attestations
            }
            Made::Nullification(certificate) => &certificate.attestations,
        }
    }
}

// A round

#[derive(Clone, Copy, PartialEq, Eq)]
enum Mark {
    Aside,
    Waiting,
    Verified,
}

#[derive(Clone, Copy)]
struct Held {
    vote: Vote,
    mark: Mark,
}

/// A member's votes.
#[derive(Clone, Copy, Default)]
struct Row {
    notarize: Option<Held>,
    other: Option<Held>,
}

impl Row {
    fn cells(&mut self) -> impl Iterator<Item = &mut Held> {
        self.notarize.iter_mut().chain(&mut self.other)
    }

    fn of(&self, kind: Kind) -> Option<&Held> {
        match kind {
            Kind::Notarize => self.notarize.as_ref(),
            _ => self.other.as_ref(),
        }
    }
}

/// How many votes of a kind count.
#[derive(Clone, Copy, Default)]
struct Tally {
    waiting: usize,
    verified: usize,
    complete: bool,
}

pub struct Admission {
    pub added: bool,
    pub block: bool,
    /// The vote that contradicts an accepted one, and that one, as evidence holds them.
    pub evidence: Option<(Vote, Vote)>,
}

pub struct Batch {
    pub certificate: Option<Made>,
    pub invalid: Vec<u32>,
}

struct Round {
    members: u32,
    skipped: bool,
    forwarded: bool,
    leader: Option<u32>,
    selected: Option<Proposal>,
    is_fixed: bool,
    rows: Vec<Row>,
    tallies: [Tally; 3],
}

impl Round {
    fn new(members: u32, skipped: bool) -> Self {
        Round {
            members,
            skipped,
            forwarded: false,
            leader: None,
            selected: None,
            is_fixed: false,
            rows: Vec::new(),
            tallies: Default::default(),
        }
    }

    fn recorded(&self, vote: &Vote) -> Option<&Held> {
        let row = self.rows.get(vote.attestation().signer as usize)?;
        row.of(vote.kind())
    }

    fn add_network(&mut self, vote: &Vote) -> Admission {
        let refused = |block, evidence| Admission {
            added: false,
            block,
            evidence,
        };
        if let Some(held) = self.recorded(vote) {
            let recorded = held.vote;
            if self.skipped || self.tallies[recorded.kind() as usize].complete {
                let differ =
                    recorded.kind() == vote.kind() && recorded.proposal() != vote.proposal();
                return refused(differ, None);
            }
            return refused(recorded != *vote, evidence(&recorded, vote));
        }
        self.put(*vote, false);
        Admission {
            added: true,
            block: false,
            evidence: None,
        }
    }

    /// Takes an own vote: whether it is new.
    fn accept(&mut self, vote: Vote) -> bool {
        if self.recorded(&vote).is_some() {
            return false;
        }
        self.put(vote, true);
        true
    }

    fn put(&mut self, vote: Vote, is_verified: bool) {
        let signer = vote.attestation().signer;
        let fixes = is_verified && vote.kind() == Kind::Finalize;
        let leads = vote.kind() == Kind::Notarize && self.leader == Some(signer);
        if let Some(&proposal) = vote.proposal().filter(|_| fixes || leads) {
            self.choose(proposal, fixes);
        }
        if self.rows.is_empty() {
            self.rows = vec![Row::default(); self.members as usize];
        }
        let tally = &mut self.tallies[vote.kind() as usize];
        let counts = !self.skipped
            && !tally.complete
            && self
                .selected
                .is_none_or(|selected| vote.is_for(&selected));
        let mark = match (counts, is_verified) {
            (false, _) => Mark::Aside,
            (true, false) => Mark::Waiting,
            (true, true) => Mark::Verified,
        };
        match mark {
            Mark::Aside => {}
            Mark::Waiting => tally.waiting += 1,
            Mark::Verified => tally.verified += 1,
        }
        let row = &mut self.rows[signer as usize];
        let cell = match vote.kind() {
            Kind::Notarize => &mut row.notarize,
            _ => &mut row.other,
        };
        *cell = Some(Held { vote, mark });
    }

    /// Selects a proposal: the first leader's one, in whose place the first that is fixed comes.
    fn choose(&mut self, proposal: Proposal, fixes: bool) {
        if self.is_fixed || !fixes && self.selected.is_some() {
            return;
        }
        self.is_fixed = fixes;
        if self.selected.replace(proposal) == Some(proposal) {
            return;
        }
        for held in self.rows.iter_mut().flat_map(Row::cells) {
            if held.vote.is_for(&proposal) {
                continue;
            }
            let tally = &mut self.tallies[held.vote.kind() as usize];
            match held.mark {
                Mark::Aside => {}
                Mark::Waiting => tally.waiting -= 1,
                Mark::Verified => tally.verified -= 1,
            }
            held.mark = Mark::Aside;
        }
    }

    fn lead(&mut self, leader: u32) {
        self.leader = Some(leader);
        let notarize = self
            .rows
            .get(leader as usize)
            .and_then(|row| row.notarize.as_ref());
        if let Some(&proposal) = notarize.and_then(|held| held.vote.proposal()) {
            self.choose(proposal, false);
        }
    }

    /// A certificate of this kind and proposal is there.
    fn finish(&mut self, kind: Kind, proposal: Option<&Proposal>) {
        self.tallies[kind as usize] = Tally {
            complete: true,
            ..Tally::default()
        };
        if let Some(&proposal) = proposal {
            self.choose(proposal, true);
        }
    }

    /// The selected proposal, once, where another member leads.
    fn forward(&mut self, me: u32) -> Option<Proposal> {
        if self.forwarded || self.leader.is_none_or(|leader| leader == me) {
            return None;
        }
        let proposal = self.selected?;
        self.forwarded = true;
        Some(proposal)
    }

    fn construct(&mut self, view: View, kind: Kind) -> Option<Batch> {
        let needed = (self.members - (self.members - 1) / 3) as usize;
        let tally = self.tallies[kind as usize];
        if self.skipped || tally.complete || tally.verified + tally.waiting < needed {
            return None;
        }
        let stated = match kind {
            Kind::Nullify => None,
            _ => Some(self.selected?),
        };
        if tally.verified < needed && tally.waiting == 0 {
            return None;
        }
        let mut invalid = Vec::new();
        let mut attestations = Vec::with_capacity(tally.verified + tally.waiting);
        for row in &mut self.rows {
            let cell = match kind {
                Kind::Notarize => &mut row.notarize,
                _ => &mut row.other,
            };
            let Some(held) = cell.as_mut().filter(|held| held.vote.kind() == kind) else {
                continue;
            };
            let attestation = *held.vote.attestation();
            if held.mark == Mark::Waiting {
                held.mark = if attests(&attestation) {
                    Mark::Verified
                } else {
                    invalid.push(attestation.signer);
                    Mark::Aside
                };
            }
            if held.mark == Mark::Verified {
                attestations.push(attestation);
            }
        }
        let tally = &mut self.tallies[kind as usize];
        tally.waiting = 0;
        tally.verified = attestations.len();
        if attestations.len() < needed {
            return Some(Batch {
                certificate: None,
                invalid,
            });
        }
        self.finish(kind, stated.as_ref());
        let certificate = match stated {
            None => Made::Nullification(Nullification { view, attestations }),
            Some(proposal) => {
                let certificate = Certificate {
                    proposal,
                    attestations,
                };
                match kind {
                    Kind::Notarize => Made::Notarization(certificate),
                    _ => Made::Finalization(certificate),
                }
            }
        };
        Some(Batch {
            certificate: Some(certificate),
            invalid,
        })
    }
}

fn attests(attestation: &Attestation) -> bool {
    attestation.signature == [SIGNED; 32]
}

/// What proves that one of the two votes is a lie.
fn evidence(recorded: &Vote, vote: &Vote) -> Option<(Vote, Vote)> {
    if recorded.kind() == vote.kind() && recorded.proposal() == vote.proposal() {
        return None;
    }
    Some(match vote {
        Vote::Nullify(..) => (*vote, *recorded),
        _ => (*recorded, *vote),
    })
}

// All rounds

/// What was due of a view's votes.
pub enum Due {
    Forwards(View, Proposal),
    Constructed(Batch),
}

pub struct Votes {
    members: u32,
    me: u32,
    current: View,
    floor: View,
    rounds: BTreeMap<View, Round>,
    /// The views of which something may be due, and those whose leader isn't named.
    touched: BTreeSet<View>,
    unled: BTreeSet<View>,
}

impl Votes {
    pub fn new(members: u32, me: u32) -> Self {
        Votes {
            members,
            me,
            current: 0,
            floor: 0,
            rounds: BTreeMap::new(),
            touched: BTreeSet::new(),
            unled: BTreeSet::new(),
        }
    }

    fn round(&mut self, view: View) -> &mut Round {
        self.touched.insert(view);
        let (members, skipped) = (self.members, view < self.current);
        let unled = &mut self.unled;
        self.rounds.entry(view).or_insert_with(|| {
            unled.insert(view);
            Round::new(members, skipped)
        })
    }

    pub fn hear(&mut self, vote: &Vote) -> Admission {
        self.round(vote.view()).add_network(vote)
    }

    /// Takes an own vote.
    pub fn cast(&mut self, vote: Vote) {
        self.round(vote.view()).accept(vote);
    }

    /// Takes a certificate that came.
    pub fn certify(&mut self, certificate: &Made) {
        if certificate.view() >= self.floor {
            self.round(certificate.view())
                .finish(certificate.kind(), certificate.proposal());
        }
    }

    /// Enters the current view, and drops what is below the floor.
    pub fn enter(&mut self, current: View, floor: View) {
        if !self.rounds.contains_key(&current) {
            self.round(current);
        }
        self.current = current;
        self.floor = floor;
        while let Some(entry) = self.rounds.first_entry() {
            let view = *entry.key();
            if view >= floor {
                break;
            }
            entry.remove();
            self.touched.remove(&view);
            self.unled.remove(&view);
        }
    }

    /// Names the leader of the first view that waits for it, and whose leader is known: whether there is one.
    pub fn lead(&mut self, leader_of: impl Fn(View) -> Option<u32>) -> bool {
        let known = |view: &View| Some((*view, leader_of(*view)?));
        let Some((view, leader)) = self.unled.iter().find_map(known) else {
            return false;
        };
        self.unled.remove(&view);
        self.round(view).lead(leader);
        true
    }

    pub fn next_due(&mut self) -> Option<Due> {
        while let Some(&view) = self.touched.first() {
            let me = self.me;
            if let Some(round) = self.rounds.get_mut(&view) {
                if let Some(proposal) = round.forward(me) {
                    return Some(Due::Forwards(view, proposal));
                }
                let made = KINDS.into_iter().find_map(|kind| round.construct(view, kind));
                if let Some(batch) = made {
                    return Some(Due::Constructed(batch));
                }
            }
            self.touched.remove(&view);
        }
        None
    }

    pub fn has_nullify(&self, view: View, signer: u32) -> bool {
        self.rounds
            .get(&view)
            .and_then(|round| round.rows.get(signer as usize)?.other.as_ref())
            .is_some_and(|held| held.vote.kind() == Kind::Nullify)
    }
}
