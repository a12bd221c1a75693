//! A member's node: what comes to it is refused or taken, and all that is due behind it is done.

use std::collections::{BTreeMap, BTreeSet};
use std::io;

use crate::node_record::{ask_in, certificate_in, number, spell_certificate, spell_vote, vote_in};
use crate::node_record::{Disk, Record};
use crate::node_repair::Repair;
use crate::node_votes::{Due, Kind as Votes3, Made, Position, Vote, Votes, EPOCH};
use crate::voter_round::{Digest, Proposal, Reason, View};
use crate::voter_state::{Config, Context, Kind, State, Verify};

#[derive(Clone, Copy, PartialEq, Eq)]
pub enum Channel {
    Votes,
    Certificates,
    Fetches,
}

pub enum Event {
    Packet {
        sender: u32,
        channel: Channel,
        bytes: Vec<u8>,
    },
    Built(u64, Option<Digest>),
    Checked(u64, Option<bool>),
    Verdict(View, bool),
    Moment(u64),
}

#[derive(Clone, Copy, PartialEq, Eq)]
pub enum Refusal {
    UnknownSender = 1,
    OwnName,
    NotDecoded,
    WrongEpoch,
    ViewZero,
    OutsideWindow,
    NoRoom,
    ParentNotBelow,
    NotItsSigner,
    Contradiction,
    Repeated,
    /// No certificate is, under a scheme that costs nothing.
    #[allow(dead_code)]
    NotVerifying,
    UnknownAnswer,
    SecondVerdict,
    MomentFell,
}

impl Refusal {
    /// Whether the sender is blocked for it.
    fn blocks(self) -> bool {
        matches!(
            self,
            Refusal::NotDecoded | Refusal::ParentNotBelow | Refusal::NotItsSigner
        )
    }
}

pub enum Report {
    Vote(Vote),
    Certificate(Made),
    Certification(Made),
    Evidence(#[allow(dead_code)] Vote, #[allow(dead_code)] Vote),
}

pub enum Action {
    Send {
        to: Option<u32>,
        channel: Channel,
        bytes: Vec<u8>,
    },
    Block(u32),
    Build {
        number: u64,
        handoff: bool,
        context: Context,
    },
    Verify {
        number: u64,
        context: Context,
        proposal: Proposal,
    },
    Certify(Proposal),
    Forward {
        payload: Digest,
        handoff: bool,
        view: View,
    },
    Finalized(Proposal),
    Report(Report),
    Wake(u64),
}

pub struct Reply {
    pub refused: Option<Refusal>,
    pub actions: Vec<Action>,
}

type Taken = io::Result<Option<Refusal>>;

pub struct Node {
    members: u32,
    me: u32,
    /// For how long a leader may be silent.
    silence: u64,
    voter: State,
    votes: Votes,
    repair: Repair,
    record: Record,
    opened: u64,
    moment: u64,
    number: u64,
    builds: BTreeMap<u64, (Context, bool)>,
    checks: BTreeMap<u64, View>,
    verdicts: BTreeSet<View>,
    heard: Vec<Option<u64>>,
    asks: BTreeSet<(View, Kind, bool, Option<u32>)>,
    /// The views that may owe a notarize, and those that may owe a finalize.
    notarizes: BTreeSet<View>,
    finalizes: BTreeSet<View>,
}

fn drop_below(views: &mut BTreeSet<View>, floor: View) {
    while views.first().is_some_and(|view| *view < floor) {
        views.pop_first();
    }
}

impl Node {
    /// A node with an empty record, and its first actions.
    pub fn open(
        config: Config,
        genesis: Digest,
        silence: u64,
        disk: Disk,
        now: u64,
    ) -> io::Result<(Self, Vec<Action>)> {
        let (members, me) = (config.participants, config.me.unwrap_or(0));
        let repair = Repair::new(config.length);
        let mut voter = State::new(config);
        voter.set_genesis(now, genesis);
        let mut node = Node {
            members,
            me,
            silence,
            voter,
            votes: Votes::new(members, me),
            repair,
            record: Record::new(disk)?,
            opened: now,
            moment: now,
            number: 0,
            builds: BTreeMap::new(),
            checks: BTreeMap::new(),
            verdicts: BTreeSet::new(),
            heard: vec![None; members as usize],
            asks: BTreeSet::new(),
            notarizes: BTreeSet::new(),
            finalizes: BTreeSet::new(),
        };
        node.enter();
        let mut actions = Vec::new();
        node.settle(&mut actions)?;
        Ok((node, actions))
    }

    pub fn current_view(&self) -> View {
        self.voter.current_view()
    }

    pub fn last_finalized(&self) -> View {
        self.voter.last_finalized()
    }

    pub fn disk(&self) -> &Disk {
        &self.record.disk
    }

    pub fn step(&mut self, event: Event) -> io::Result<Reply> {
        let mut actions = Vec::new();
        let refused = self.take(event, &mut actions)?;
        if refused.is_none() {
            self.settle(&mut actions)?;
        }
        Ok(Reply { refused, actions })
    }

    // What comes

    fn take(&mut self, event: Event, out: &mut Vec<Action>) -> Taken {
        match event {
            Event::Packet {
                sender,
                channel,
                bytes,
            } => {
                let refused = self.receive(sender, channel, bytes, out)?;
                if refused.is_some_and(Refusal::blocks) {
                    out.push(Action::Block(sender));
                }
                Ok(refused)
            }
            Event::Built(number, payload) => Ok(self.take_built(number, payload, out)),
            Event::Checked(number, answer) => Ok(self.take_checked(number, answer)),
            Event::Verdict(view, ok) => self.take_verdict(view, ok, out),
            Event::Moment(now) => {
                if now < self.moment {
                    return Ok(Some(Refusal::MomentFell));
                }
                self.moment = now;
                Ok(None)
            }
        }
    }

    fn receive(
        &mut self,
        sender: u32,
        channel: Channel,
        bytes: Vec<u8>,
        out: &mut Vec<Action>,
    ) -> Taken {
        if sender >= self.members {
            return Ok(Some(Refusal::UnknownSender));
        }
        if sender == self.me {
            return Ok(Some(Refusal::OwnName));
        }
        match channel {
            Channel::Votes => Ok(match vote_in(&bytes) {
                Some(vote) => self.hear(sender, &vote, out),
                None => Some(Refusal::NotDecoded),
            }),
            Channel::Certificates => match certificate_in(&bytes, self.members) {
                Some((epoch, certificate)) => {
                    self.take_certificate(epoch, certificate, bytes, out)
                }
                None => Ok(Some(Refusal::NotDecoded)),
            },
            Channel::Fetches => Ok(match ask_in(&bytes) {
                Some(0) => Some(Refusal::ViewZero),
                Some(view) => {
                    if let Some(answer) = self.repair.served(view) {
                        let bytes = answer.clone();
                        let (to, channel) = (Some(sender), Channel::Certificates);
                        out.push(Action::Send { to, channel, bytes });
                    }
                    None
                }
                None => Some(Refusal::NotDecoded),
            }),
        }
    }

    fn hear(&mut self, sender: u32, vote: &Vote, out: &mut Vec<Action>) -> Option<Refusal> {
        let view = vote.view();
        if vote.epoch() != EPOCH {
            return Some(Refusal::WrongEpoch);
        }
        if view == 0 {
            return Some(Refusal::ViewZero);
        }
        if !self.voter.admits_vote(view) {
            return Some(Refusal::OutsideWindow);
        }
        if !self.voter.has_room(view) {
            return Some(Refusal::NoRoom);
        }
        if vote.proposal().is_some_and(|proposal| view <= proposal.parent) {
            return Some(Refusal::ParentNotBelow);
        }
        if vote.attestation().signer != sender {
            return Some(Refusal::NotItsSigner);
        }
        let admission = self.votes.hear(vote);
        if admission.added {
            self.heard[sender as usize] = Some(self.moment);
            out.push(Action::Report(Report::Vote(*vote)));
            return None;
        }
        if !admission.block {
            return Some(Refusal::Repeated);
        }
        out.push(Action::Block(sender));
        if let Some((first, second)) = admission.evidence {
            out.push(Action::Report(Report::Evidence(first, second)));
        }
        Some(Refusal::Contradiction)
    }

    fn take_certificate(
        &mut self,
        epoch: u64,
        certificate: Made,
        bytes: Vec<u8>,
        out: &mut Vec<Action>,
    ) -> Taken {
        let view = certificate.view();
        if epoch != EPOCH {
            return Ok(Some(Refusal::WrongEpoch));
        }
        if view == 0 {
            return Ok(Some(Refusal::ViewZero));
        }
        if !self.voter.admits_certificate(view) {
            return Ok(Some(Refusal::OutsideWindow));
        }
        if !self.voter.has_room(view) {
            return Ok(Some(Refusal::NoRoom));
        }
        let parent = certificate.proposal().map(|proposal| proposal.parent);
        if parent.is_some_and(|parent| view <= parent) {
            return Ok(Some(Refusal::ParentNotBelow));
        }
        if self.record.has_like(&certificate) {
            return Ok(Some(Refusal::Repeated));
        }
        self.votes.certify(&certificate);
        self.learn(certificate, bytes, out)?;
        Ok(None)
    }

    /// A certificate that came or was made: voter, record, repair and votes learn of it, and it is handed out.
    fn learn(
        &mut self,
        certificate: Made,
        bytes: Vec<u8>,
        out: &mut Vec<Action>,
    ) -> io::Result<()> {
        let low = self.voter.last_finalized();
        let mut finalized = None;
        match &certificate {
            Made::Notarization(it) => {
                self.voter.add_notarization(it.clone());
            }
            Made::Nullification(it) => {
                self.voter.add_nullification(self.moment, it.clone());
            }
            Made::Finalization(it) => {
                self.voter.add_finalization(self.moment, it.clone());
                finalized = Some(it.proposal).filter(|proposal| low < proposal.view);
            }
        }
        self.record.certificate(&certificate)?;
        self.repair.updated(&certificate, &bytes);
        if finalized.is_some() {
            self.prune();
        }
        self.enter();
        out.push(Action::Report(Report::Certificate(certificate)));
        let (to, channel) = (None, Channel::Certificates);
        out.push(Action::Send { to, channel, bytes });
        if let Some(proposal) = finalized {
            out.push(Action::Finalized(proposal));
        }
        Ok(())
    }

    fn prune(&mut self) {
        self.voter.prune();
        let (floor, last) = (self.voter.min_active(), self.voter.last_finalized());
        drop_below(&mut self.notarizes, floor);
        drop_below(&mut self.finalizes, last + 1);
        drop_below(&mut self.verdicts, last + 1);
        while self.asks.first().is_some_and(|ask| ask.0 <= last) {
            self.asks.pop_first();
        }
        self.record.forget_below(floor);
    }

    fn enter(&mut self) {
        let (current, floor) = (self.voter.current_view(), self.voter.min_active());
        self.votes.enter(current, floor);
    }

    fn take_built(
        &mut self,
        number: u64,
        payload: Option<Digest>,
        out: &mut Vec<Action>,
    ) -> Option<Refusal> {
        let Some((context, handoff)) = self.builds.remove(&number) else {
            return Some(Refusal::UnknownAnswer);
        };
        let view = context.view;
        let Some(payload) = payload else {
            let reason = Reason::MissingProposal;
            self.voter.trigger_timeout(self.moment, view, reason);
            return None;
        };
        if self.voter.proposed(self.moment, &context, payload) {
            self.notarizes.insert(view);
            out.push(Action::Forward {
                payload,
                handoff,
                view,
            });
        }
        None
    }

    fn take_checked(&mut self, number: u64, answer: Option<bool>) -> Option<Refusal> {
        let Some(view) = self.checks.remove(&number) else {
            return Some(Refusal::UnknownAnswer);
        };
        let reason = match answer {
            Some(true) => {
                if self.voter.verified(view) {
                    self.notarizes.insert(view);
                }
                return None;
            }
            Some(false) => Reason::InvalidProposal,
            None => Reason::IgnoredProposal,
        };
        self.voter.verification_failed(self.moment, view, reason);
        None
    }

    fn take_verdict(&mut self, view: View, ok: bool, out: &mut Vec<Action>) -> Taken {
        if self.record.is_judged(view) {
            return Ok(Some(Refusal::SecondVerdict));
        }
        if !self.verdicts.contains(&view) {
            return Ok(Some(Refusal::UnknownAnswer));
        }
        self.record.verdict(view, ok)?;
        let copy = self.voter.certified(self.moment, view, ok);
        let Some(certificate) = copy.map(Made::Notarization) else {
            return Ok(None);
        };
        let mut bytes = Vec::new();
        spell_certificate(&mut bytes, 0, &certificate);
        self.repair.judged(view, bytes, ok);
        if ok {
            self.finalizes.insert(view);
            out.push(Action::Report(Report::Certification(certificate)));
        }
        self.enter();
        Ok(None)
    }

    // What is due

    fn settle(&mut self, out: &mut Vec<Action>) -> io::Result<()> {
        while self.act(out)? {}
        if let Some(moment) = self.wake() {
            out.push(Action::Wake(moment));
        }
        Ok(())
    }

    /// Does the first thing that is due: whether there was any.
    fn act(&mut self, out: &mut Vec<Action>) -> io::Result<bool> {
        Ok(self.ask_verdicts(out)
            || self.ask_verification(out)
            || self.name_leader()
            || self.go_by_votes(out)?
            || self.follow_leader()
            || self.give_build_back()
            || self.ask_build(out)
            || self.ask_views(out)
            || self.give_silent_up()
            || self.notarize(out)?
            || self.finalize(out)?
            || self.nullify(out)?)
    }

    fn fetch(&mut self, view: View, kind: Kind, is_repair: bool, to: Option<u32>, out: &mut Vec<Action>) -> bool {
        if self.repair.is_settled(view, kind) || !self.asks.insert((view, kind, is_repair, to)) {
            return false;
        }
        let mut bytes = Vec::new();
        number(&mut bytes, view);
        let channel = Channel::Fetches;
        out.push(Action::Send { to, channel, bytes });
        true
    }

    fn ask_verdicts(&mut self, out: &mut Vec<Action>) -> bool {
        let (ready, fetches) = self.voter.certify_candidates();
        for wanted in &fetches {
            self.fetch(wanted.view, Kind::Notarization, false, None, out);
        }
        for proposal in &ready {
            self.voter.set_certify_handle(proposal.view, proposal.view);
            self.verdicts.insert(proposal.view);
            out.push(Action::Certify(*proposal));
        }
        !ready.is_empty() || !fetches.is_empty()
    }

    fn ask_verification(&mut self, out: &mut Vec<Action>) -> bool {
        match self.voter.try_verify(self.moment) {
            Verify::Wait => return false,
            Verify::Ready(context, proposal) => {
                let number = self.number;
                self.number += 1;
                self.checks.insert(number, context.view);
                out.push(Action::Verify {
                    number,
                    context,
                    proposal,
                });
            }
            Verify::Resolve {
                view, kind, target, ..
            } => {
                self.fetch(view, kind, false, Some(target), out);
            }
        }
        true
    }

    fn name_leader(&mut self) -> bool {
        let voter = &self.voter;
        self.votes.lead(|view| voter.leader(view))
    }

    fn go_by_votes(&mut self, out: &mut Vec<Action>) -> io::Result<bool> {
        match self.votes.next_due() {
            None => return Ok(false),
            Some(Due::Forwards(view, proposal)) => {
                self.voter.set_proposal(view, &proposal);
            }
            Some(Due::Constructed(batch)) => {
                out.extend(batch.invalid.into_iter().map(Action::Block));
                if let Some(certificate) = batch.certificate {
                    let mut bytes = Vec::new();
                    spell_certificate(&mut bytes, certificate.kind() as u8, &certificate);
                    self.learn(certificate, bytes, out)?;
                }
            }
        }
        Ok(true)
    }

    /// A view whose leader gave it up is given up too.
    fn follow_leader(&mut self) -> bool {
        let is_left = |(view, leader): &(View, u32)| {
            *leader != self.me && self.votes.has_nullify(*view, *leader)
        };
        let left: Vec<_> = self.voter.leaders().filter(is_left).collect();
        let mut views = left.into_iter();
        views.any(|(view, _)| {
            let reason = Reason::LeaderNullify;
            self.voter.trigger_timeout(self.moment, view, reason)
        })
    }

    fn give_build_back(&mut self) -> bool {
        let voter = &mut self.voter;
        let found = self
            .builds
            .iter()
            .find(|(_, (context, handoff))| voter.falls(context, *handoff));
        let Some((&number, _)) = found else {
            return false;
        };
        self.builds.remove(&number);
        true
    }

    fn ask_build(&mut self, out: &mut Vec<Action>) -> bool {
        let Some(context) = self.voter.try_propose() else {
            return false;
        };
        let handoff = self.voter.is_handoff(context.view, context.parent);
        let number = self.number;
        self.number += 1;
        self.builds.insert(number, (context, handoff));
        out.push(Action::Build {
            number,
            handoff,
            context,
        });
        true
    }

    fn ask_views(&mut self, out: &mut Vec<Action>) -> bool {
        if self.repair.outstanding.is_empty() {
            return false;
        }
        let views: Vec<View> = self.repair.outstanding.iter().copied().collect();
        let mut acted = false;
        for view in views {
            acted |= self.fetch(view, Kind::Nullification, true, None, out);
        }
        acted
    }

    fn silent_from(&self) -> Option<u64> {
        let leader = self.voter.leader(self.voter.current_view())?;
        if leader == self.me {
            return None;
        }
        Some(self.heard[leader as usize].unwrap_or(self.opened) + self.silence)
    }

    fn give_silent_up(&mut self) -> bool {
        self.silent_from()
            .is_some_and(|moment| moment <= self.moment)
            && self.voter.trigger_silence(self.moment)
    }

    // Own votes

    fn cast(&mut self, vote: Vote, out: &mut Vec<Action>) -> io::Result<bool> {
        self.record.vote(&vote)?;
        self.votes.cast(vote);
        let mut bytes = Vec::new();
        spell_vote(&mut bytes, vote.kind() as u8, &vote);
        let (to, channel) = (None, Channel::Votes);
        out.push(Action::Send { to, channel, bytes });
        out.push(Action::Report(Report::Vote(vote)));
        Ok(true)
    }

    fn notarize(&mut self, out: &mut Vec<Action>) -> io::Result<bool> {
        let voter = &mut self.voter;
        let due = |view: &View| Some((*view, voter.construct_notarize(*view)?));
        let Some((view, vote)) = self.notarizes.iter().find_map(due) else {
            return Ok(false);
        };
        self.notarizes.remove(&view);
        self.cast(Vote::Notarize(vote.proposal, vote.attestation), out)
    }

    fn finalize(&mut self, out: &mut Vec<Action>) -> io::Result<bool> {
        let voter = &mut self.voter;
        let due = |view: &View| Some((*view, voter.construct_finalize(*view)?));
        let Some((view, vote)) = self.finalizes.iter().find_map(due) else {
            return Ok(false);
        };
        self.finalizes.remove(&view);
        self.cast(Vote::Finalize(vote.proposal, vote.attestation), out)
    }

    fn nullify(&mut self, out: &mut Vec<Action>) -> io::Result<bool> {
        let is_due = self
            .voter
            .next_timeout(self.moment)
            .is_some_and(|(moment, _)| moment <= self.moment);
        if !is_due {
            return Ok(false);
        }
        let view = self.voter.current_view();
        let Some((repeats, attestation)) = self.voter.construct_nullify(view) else {
            return Ok(false);
        };
        let vote = Vote::Nullify(Position { epoch: EPOCH, view }, attestation);
        if !repeats {
            self.notarizes.remove(&view);
            self.finalizes.remove(&view);
            return self.cast(vote, out);
        }
        if let Some(vote) = &self.record.last_nullify {
            let mut bytes = Vec::new();
            spell_vote(&mut bytes, Votes3::Nullify as u8, vote);
            let (to, channel) = (None, Channel::Votes);
            out.push(Action::Send { to, channel, bytes });
        }
        Ok(true)
    }

    /// When the node wants to be told the time.
    fn wake(&mut self) -> Option<u64> {
        let (moment, reason) = self.voter.next_timeout(self.moment)?;
        if !self.voter.has_room(self.voter.current_view()) {
            return None;
        }
        if reason == Reason::Retry || !self.voter.counts_silence() {
            return Some(moment);
        }
        Some(self.silent_from().map_or(moment, |silent| moment.min(silent)))
    }
}
