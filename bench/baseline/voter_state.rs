//! What a member has learnt of its views, and what is due by that.

use std::collections::{BTreeMap, BTreeSet};
use std::mem::take;
use std::ops::Bound;

use crate::voter_round::{
    Attestation, Certificate, Digest, Nullification, Proposal, Reason, Round, View,
};

const EPOCH: u64 = 0;

pub struct Config {
    pub participants: u32,
    pub me: Option<u32>,
    /// The views of a term, and how many of them are optimistic.
    pub length: u64,
    pub optimistic: u64,
    pub stall_timeout: Option<u64>,
    pub retention: u64,
    pub leader_timeout: u64,
    pub certification_timeout: u64,
    pub timeout_retry: u64,
    pub skip_budget: u64,
}

#[derive(Clone, Copy)]
pub struct Context {
    pub view: View,
    pub leader: u32,
    pub parent: (View, Digest),
}

#[derive(Clone, Copy, PartialEq, Eq, PartialOrd, Ord)]
pub enum Kind {
    Nullification,
    Notarization,
}

pub enum Verify {
    Ready(Context, Proposal),
    Resolve {
        proposal: View,
        view: View,
        kind: Kind,
        target: u32,
    },
    Wait,
}

pub struct Fetch {
    pub proposal: View,
    pub view: View,
}

pub struct Vote {
    pub proposal: Proposal,
    pub attestation: Attestation,
}

enum Fault {
    Invalid,
    Uncovered(View),
    Missing,
}

fn drop_below(views: &mut BTreeSet<View>, floor: View) {
    while views.first().is_some_and(|view| *view < floor) {
        views.pop_first();
    }
}

pub struct State {
    config: Config,
    view: View,
    last_finalized: View,
    genesis: Option<Digest>,
    rounds: BTreeMap<View, Round>,
    /// The views that nullifications cover: the last of each span by its first.
    covered: BTreeMap<View, View>,
    /// Nullifications of dropped views whose term is not behind.
    reaching: BTreeMap<View, Nullification>,
    nullified: BTreeSet<View>,
    failed: BTreeSet<View>,
    certified: BTreeSet<View>,
    candidates: BTreeSet<View>,
    /// No view before this one has a stall deadline that counts.
    stall_anchor: View,
}

impl State {
    pub fn new(config: Config) -> Self {
        State {
            config,
            view: 0,
            last_finalized: 0,
            genesis: None,
            rounds: BTreeMap::new(),
            covered: BTreeMap::new(),
            reaching: BTreeMap::new(),
            nullified: BTreeSet::new(),
            failed: BTreeSet::new(),
            certified: BTreeSet::new(),
            candidates: BTreeSet::new(),
            stall_anchor: 0,
        }
    }

    pub fn set_genesis(&mut self, now: u64, payload: Digest) {
        self.genesis = Some(payload);
        self.enter(now, 1);
        self.set_leader(1);
    }

    pub fn current_view(&self) -> View {
        self.view
    }

    // Positions and windows

    pub fn term_index(&self, view: View) -> u64 {
        if view == 0 {
            return 0;
        }
        (view - 1) / self.config.length + 1
    }

    pub fn term_start(&self, view: View) -> View {
        if view == 0 {
            return 0;
        }
        view - (view - 1) % self.config.length
    }

    pub fn term_end(&self, view: View) -> View {
        if view == 0 {
            return 0;
        }
        self.term_start(view) + (self.config.length - 1)
    }

    fn is_term_start(&self, view: View) -> bool {
        self.term_start(view) == view
    }

    pub fn has_room(&self, view: View) -> bool {
        let length = u128::from(self.config.length);
        u128::from(view) + 4 * length < u128::from(u64::MAX)
    }

    fn admits_outbound(&self, view: View) -> bool {
        if !self.has_room(view) {
            return false;
        }
        let (end, reach) = (self.term_end(self.view), self.view + self.config.optimistic);
        view <= self.view || view <= end.min(reach) || view == end + 1 && end <= reach
    }

    /// Whether votes of the view are listened to, and its certificates taken.
    pub fn admits_vote(&self, view: View) -> bool {
        if !self.admits_certificate(view) {
            return false;
        }
        let (end, optimistic) = (self.term_end(self.view), self.config.optimistic);
        let (next, later) = (end + 1, end + 1 + self.config.length);
        view <= self.view
            || view <= end.min(self.view + 2 * optimistic + 1)
            || next <= view && view < next + optimistic.max(1).min(self.config.length)
            || view == later
            || view == later + 1
    }

    pub fn admits_certificate(&self, view: View) -> bool {
        view > 0 && self.min_active() <= view
    }

    fn issuance_floor(&self, view: View) -> Option<View> {
        if self.config.optimistic == 0 || self.is_term_start(view) {
            return None;
        }
        Some(view.saturating_sub(self.config.optimistic + 1))
    }

    fn is_in_window(&self, view: View) -> bool {
        let Some(floor) = self.issuance_floor(view) else {
            return false;
        };
        floor == 0
            || self
                .rounds
                .range(floor..view)
                .any(|(_, round)| round.is_direct())
    }

    pub fn last_finalized(&self) -> View {
        self.last_finalized
    }

    pub fn min_active(&self) -> View {
        self.last_finalized.saturating_sub(self.config.retention)
    }

    // Leaders

    pub fn elect(&self, view: View) -> u32 {
        (EPOCH.wrapping_add(self.term_index(view)) % u64::from(self.config.participants)) as u32
    }

    fn leads_by_schedule(&self, view: View) -> bool {
        Some(self.elect(view)) == self.config.me
    }

    pub fn leader(&self, view: View) -> Option<u32> {
        self.rounds.get(&view)?.leader
    }

    fn set_leader(&mut self, view: View) {
        let leader = self.elect(view);
        self.rounds
            .entry(view)
            .or_default()
            .leader
            .get_or_insert(leader);
    }

    /// Hands the leader of a view on to the next one: whether that became known.
    fn inherit(&mut self, view: View) -> bool {
        let next = view + 1;
        if self.leader(next).is_some() {
            return false;
        }
        let Some(leader) = self.leader(view) else {
            return false;
        };
        self.rounds.entry(next).or_default().leader = Some(leader);
        true
    }

    /// The next view has the leader of one that was proposed or voted for.
    fn prepare_successor(&mut self, view: View) {
        if self.is_in_window(view + 1) {
            self.inherit(view);
        }
    }

    /// All views that a certificate's window reaches have its view's leader.
    fn slide(&mut self, anchor: View) {
        let mut view = anchor;
        while self
            .issuance_floor(view + 1)
            .is_some_and(|floor| floor <= anchor)
        {
            self.inherit(view);
            view += 1;
        }
    }

    // Coverage

    fn span_of(&self, view: View) -> Option<(View, View)> {
        let (first, last) = self.covered.range(..=view).next_back()?;
        (view <= *last).then_some((*first, *last))
    }

    fn cover(&mut self, first: View, last: View) {
        let start = self.span_of(first - 1).map_or(first, |(start, _)| start);
        let end = self.span_of(last + 1).map_or(last, |(_, end)| end);
        let inside = (Bound::Excluded(start), Bound::Included(end));
        while let Some((&inner, _)) = self.covered.range(inside).next() {
            self.covered.remove(&inner);
        }
        let reach = self.covered.entry(start).or_insert(end);
        *reach = end.max(*reach);
    }

    fn first_uncovered(&self, after: View, before: View) -> Option<View> {
        let first = match self.span_of(after + 1) {
            Some((_, last)) => last + 1,
            None => after + 1,
        };
        (first < before).then_some(first)
    }

    // Parents

    fn explicit_payload(&self, view: View) -> Option<Digest> {
        if view == 0 {
            return self.genesis;
        }
        self.rounds.get(&view)?.certified_payload()
    }

    fn has_failed(&self, view: View) -> bool {
        let first = self.term_start(view).max(self.last_finalized + 1);
        first <= view && self.failed.range(first..=view).next().is_some()
    }

    fn optimistic_payload(&self, view: View) -> Option<Digest> {
        if view == 0 {
            return self.genesis;
        }
        let round = self.rounds.get(&view)?;
        if round.is_direct() {
            return round
                .certificate_payload()
                .filter(|_| !self.has_failed(view));
        }
        if !round.has_notarized() || !round.is_verified() {
            return None;
        }
        if !self.is_in_window(view + 1) && !self.is_handoff_parent(view) {
            return None;
        }
        let held = round.proposal?;
        if held.parent < self.last_finalized || self.first_uncovered(held.parent, view).is_some() {
            return None;
        }
        let below = self.optimistic_payload(held.parent)?;
        if round.binding.is_some_and(|(_, bound)| bound != below) {
            return None;
        }
        Some(held.payload)
    }

    fn supported_payload(&self, view: View, parent: View) -> Option<Digest> {
        if self.is_in_window(view) {
            self.optimistic_payload(parent)
        } else {
            self.explicit_payload(parent)
        }
    }

    fn check_span(&self, view: View, parent: View) -> Result<(), Fault> {
        if view <= parent
            || parent < self.last_finalized
            || !self.is_term_start(view) && view != parent + 1
        {
            return Err(Fault::Invalid);
        }
        match self.first_uncovered(parent, view) {
            Some(first) => Err(Fault::Uncovered(first)),
            None => Ok(()),
        }
    }

    fn parent_payload(&self, view: View, parent: View) -> Result<Digest, Fault> {
        self.check_span(view, parent)?;
        self.supported_payload(view, parent).ok_or(Fault::Missing)
    }

    /// The parent to build on.
    fn find_parent(&self, view: View) -> Option<(View, Digest)> {
        if !self.is_term_start(view) {
            let parent = view - 1;
            return Some((parent, self.supported_payload(view, parent)?));
        }
        self.explicit_parent(view).or_else(|| self.handed_over(view))
    }

    fn explicit_parent(&self, view: View) -> Option<(View, Digest)> {
        let parent = self
            .certified
            .range(..view)
            .next_back()
            .copied()
            .unwrap_or(0);
        if self.first_uncovered(parent, view).is_some() {
            return None;
        }
        Some((parent, self.explicit_payload(parent)?))
    }

    /// The view before a term's start, where this member may build on it before it is decided.
    fn handed_over(&self, view: View) -> Option<(View, Digest)> {
        let parent = view - 1;
        if !self.is_handoff_parent(parent) {
            return None;
        }
        Some((parent, self.optimistic_payload(parent)?))
    }

    /// Whether this member leads the term behind the view, which isn't covered.
    fn is_handoff_parent(&self, view: View) -> bool {
        view > 0
            && self.is_term_start(view + 1)
            && self.leads_by_schedule(view + 1)
            && self.first_uncovered(view - 1, view + 1).is_some()
    }

    fn allows(&self, view: View, parent: (View, Digest)) -> bool {
        self.parent_payload(view, parent.0)
            .is_ok_and(|payload| payload == parent.1)
    }

    /// Whether what the view's proposal was bound to hasn't fallen.
    fn is_steady(&self, view: View) -> bool {
        let Some(round) = self.rounds.get(&view) else {
            return true;
        };
        let Some((proposal, payload)) = round.binding else {
            return true;
        };
        if round.proposal != Some(proposal) {
            return false;
        }
        let parent = (proposal.parent, payload);
        self.allows(view, parent)
            || round.leader.is_some()
                && round.leader == self.config.me
                && self.find_parent(view) == Some(parent)
    }

    /// The view that has to be explicit before the view is certified or finalized.
    fn required_parent(&self, view: View, parent: View) -> Option<View> {
        let before = view.checked_sub(1)?;
        if !self.is_term_start(view) {
            return Some(before);
        }
        let is_own = parent == before
            && self.leads_by_schedule(view)
            && self.rounds.get(&view).is_some_and(Round::has_notarized);
        is_own.then_some(before)
    }

    // Builds and verifications

    /// The views from the current one on whose leaders are known.
    pub fn leaders(&self) -> impl Iterator<Item = (View, u32)> + '_ {
        let known = self.rounds.range(self.view..);
        known.filter_map(|(view, round)| Some((*view, round.leader?)))
    }

    /// The first view from this one on of which something is known.
    fn first_tracked(&self, from: View) -> Option<View> {
        self.rounds.range(from..).next().map(|(view, _)| *view)
    }

    /// The views from the current one on of which something may be asked.
    fn next_open(&self, from: View) -> Option<View> {
        let last = self.term_end(self.view) + 1;
        self.first_tracked(from).filter(|view| *view <= last)
    }

    pub fn try_propose(&mut self) -> Option<Context> {
        let mut from = self.view;
        while let Some(view) = self.next_open(from) {
            from = view + 1;
            let may_ask =
                self.admits_outbound(view) && self.rounds[&view].should_propose(self.config.me);
            if !may_ask {
                continue;
            }
            let Some(parent) = self.find_parent(view) else {
                continue;
            };
            if self.is_handoff(view, parent) && self.has_given_up(self.view) {
                continue;
            }
            let round = self.rounds.get_mut(&view)?;
            round.request_build();
            return Some(Context {
                view,
                leader: round.leader?,
                parent,
            });
        }
        None
    }

    /// Whether a build on this parent is for a term's start, and ahead of the view before.
    pub fn is_handoff(&self, view: View, parent: (View, Digest)) -> bool {
        self.is_term_start(view) && self.explicit_payload(parent.0) != Some(parent.1)
    }

    pub fn has_given_up(&self, view: View) -> bool {
        self.rounds.get(&view).is_some_and(Round::has_nullified)
    }

    /// Whether a build on this parent may still be used.
    fn is_captured(&self, view: View, parent: (View, Digest)) -> bool {
        self.find_parent(view) == Some(parent) || self.allows(view, parent)
    }

    /// Gives a build back where it can't be used any more: whether it is, or its view is behind.
    pub fn falls(&mut self, context: &Context, is_handoff: bool) -> bool {
        let Context { view, parent, .. } = *context;
        if view < self.view {
            return true;
        }
        let is_captured = self.is_captured(view, parent);
        let stops = is_handoff
            && self.explicit_payload(parent.0) != Some(parent.1)
            && (self.has_given_up(self.view) || !is_captured);
        if !stops && (is_captured || self.find_parent(view).is_none()) {
            return false;
        }
        if let Some(round) = self.rounds.get_mut(&view) {
            round.release_build();
        }
        true
    }

    pub fn proposed(&mut self, now: u64, context: &Context, payload: Digest) -> bool {
        let Context { view, parent, .. } = *context;
        if !self.is_captured(view, parent) {
            return false;
        }
        let proposal = Proposal {
            epoch: EPOCH,
            view,
            parent: parent.0,
            payload,
        };
        self.rounds
            .entry(view)
            .or_default()
            .proposed(now, proposal, parent.1)
    }

    pub fn set_proposal(&mut self, view: View, proposal: &Proposal) -> bool {
        let is_first = self.rounds.entry(view).or_default().set_proposal(proposal);
        self.prepare_successor(view);
        is_first
    }

    pub fn try_verify(&mut self, now: u64) -> Verify {
        let mut from = self.view;
        while let Some(view) = self.next_open(from) {
            from = view + 1;
            if !self.admits_outbound(view) {
                continue;
            }
            let Some((leader, proposal)) = self.rounds[&view].pending_verification(self.config.me)
            else {
                continue;
            };
            let (missing, kind) = match self.parent_payload(view, proposal.parent) {
                Ok(payload) => return self.ask_verification(view, leader, proposal, payload),
                Err(Fault::Invalid) => {
                    self.trigger_timeout(now, view, Reason::InvalidProposal);
                    continue;
                }
                Err(Fault::Uncovered(first)) => (first, Kind::Nullification),
                Err(Fault::Missing) if self.is_in_window(view) => continue,
                Err(Fault::Missing) => (proposal.parent, Kind::Notarization),
            };
            if self
                .rounds
                .get_mut(&view)
                .is_some_and(|round| round.request(missing))
            {
                return Verify::Resolve {
                    proposal: view,
                    view: missing,
                    kind,
                    target: leader,
                };
            }
        }
        Verify::Wait
    }

    fn ask_verification(
        &mut self,
        view: View,
        leader: u32,
        proposal: Proposal,
        payload: Digest,
    ) -> Verify {
        if let Some(round) = self.rounds.get_mut(&view) {
            round.request_verify(proposal, payload);
        }
        let context = Context {
            view,
            leader,
            parent: (proposal.parent, payload),
        };
        Verify::Ready(context, proposal)
    }

    /// Takes it that the view's proposal wasn't found good: whether that is the first reason to give the view up.
    pub fn verification_failed(&mut self, now: u64, view: View, reason: Reason) -> bool {
        if self.is_steady(view) {
            return self.trigger_timeout(now, view, reason);
        }
        if let Some(round) = self.rounds.get_mut(&view) {
            round.binding = None;
        }
        false
    }

    pub fn verified(&mut self, view: View) -> bool {
        let is_steady = self.is_steady(view);
        let Some(round) = self.rounds.get_mut(&view) else {
            return false;
        };
        if !is_steady {
            round.binding = None;
            return false;
        }
        round.verified()
    }

    // Verdicts

    pub fn certify_candidates(&mut self) -> (Vec<Proposal>, Vec<Fetch>) {
        let (mut ready, mut fetches) = (Vec::new(), Vec::new());
        for view in take(&mut self.candidates) {
            let Some(proposal) = self
                .rounds
                .get(&view)
                .and_then(Round::pending_certification)
            else {
                continue;
            };
            if view <= self.last_finalized || !self.has_room(view) || view <= proposal.parent {
                continue;
            }
            let required = self.required_parent(view, proposal.parent);
            let Some(required) = required else {
                ready.push(proposal);
                continue;
            };
            if self.check_span(view, proposal.parent).is_err() {
                continue;
            }
            if self.explicit_payload(required).is_some() {
                ready.push(proposal);
            } else if self
                .rounds
                .get(&required)
                .is_none_or(|round| round.notarization.is_none())
            {
                fetches.push(Fetch {
                    proposal: view,
                    view: required,
                });
            }
        }
        (ready, fetches)
    }

    /// A view that waits for this one's verdict is looked at again.
    fn wake(&mut self, parent: View) {
        let child = parent + 1;
        if child <= self.last_finalized {
            return;
        }
        let notarization = self
            .rounds
            .get(&child)
            .and_then(|round| round.notarization.as_ref());
        if notarization
            .is_some_and(|it| self.required_parent(child, it.proposal.parent) == Some(parent))
        {
            self.candidates.insert(child);
        }
    }

    pub fn set_certify_handle(&mut self, view: View, handle: u64) {
        if let Some(round) = self.rounds.get_mut(&view) {
            round.ask_verdict(handle);
        }
    }

    pub fn certified(&mut self, now: u64, view: View, is_success: bool) -> Option<Certificate> {
        if !self.has_room(view) {
            return None;
        }
        let round = self.rounds.get_mut(&view)?;
        let copy = round.notarization.clone()?;
        round.judge(is_success);
        if is_success {
            self.certified.insert(view);
            self.enter(now, view + 1);
            self.wake(view);
        } else {
            if view > self.last_finalized {
                self.failed.insert(view);
            }
            self.trigger_timeout(now, view, Reason::FailedCertification);
        }
        Some(copy)
    }

    // Certificates

    fn enter(&mut self, now: u64, view: View) {
        if view <= self.view {
            return;
        }
        let stall = self.config.stall_timeout.map(|timeout| now + timeout);
        let leader = now + self.config.leader_timeout;
        let certification = now + self.config.certification_timeout;
        self.rounds
            .entry(view)
            .or_default()
            .enter(now, leader, certification, stall);
        self.view = view;
    }

    pub fn add_notarization(&mut self, certificate: Certificate) -> (bool, Option<u32>) {
        let view = certificate.proposal.view;
        if !self.has_room(view) {
            return (false, None);
        }
        let round = self.rounds.entry(view).or_default();
        if round.notarization.is_some() {
            return (false, None);
        }
        let key = round.add_notarization(certificate);
        if view > self.last_finalized {
            self.candidates.insert(view);
        }
        self.set_leader(view + 1);
        self.slide(view);
        (true, key)
    }

    pub fn add_nullification(&mut self, now: u64, certificate: Nullification) -> bool {
        let view = certificate.view;
        if !self.has_room(view) || self.reaching.contains_key(&view) {
            return false;
        }
        let round = self.rounds.entry(view).or_default();
        if round.nullification.is_some() {
            return false;
        }
        round.nullification = Some(certificate);
        let end = self.term_end(view);
        self.cover(view, end);
        self.enter(now, end + 1);
        self.set_leader(end + 1);
        true
    }

    pub fn add_finalization(&mut self, now: u64, certificate: Certificate) -> (bool, Option<u32>) {
        let view = certificate.proposal.view;
        if !self.has_room(view) {
            return (false, None);
        }
        let round = self.rounds.entry(view).or_default();
        if round.finalization.is_some() {
            return (false, None);
        }
        let key = round.add_finalization(certificate);
        self.certified.insert(view);
        if view > self.last_finalized {
            self.last_finalized = view;
            drop_below(&mut self.failed, view + 1);
            drop_below(&mut self.candidates, view + 1);
        }
        self.enter(now, view + 1);
        self.set_leader(view + 1);
        self.slide(view);
        self.wake(view);
        (true, key)
    }

    // Votes

    fn vote(&self, proposal: Proposal) -> Option<Vote> {
        let attestation = Attestation {
            signer: self.config.me?,
            signature: [7; 32],
        };
        Some(Vote {
            proposal,
            attestation,
        })
    }

    pub fn construct_notarize(&mut self, view: View) -> Option<Vote> {
        self.config.me?;
        if view < self.min_active() || !self.admits_outbound(view) {
            return None;
        }
        if !self.rounds.get(&view)?.may_notarize() {
            return None;
        }
        if self.is_in_window(view) && self.optimistic_payload(view - 1).is_none() {
            return None;
        }
        if !self.is_steady(view) {
            return None;
        }
        let round = self.rounds.get_mut(&view)?;
        round.notarize();
        let proposal = round.proposal?;
        self.prepare_successor(view);
        self.prepare_handoff(view);
        self.vote(proposal)
    }

    /// This member leads the next term, where a schedule says so and nobody is known to.
    fn prepare_handoff(&mut self, view: View) {
        if self.is_term_start(view + 1) && self.leads_by_schedule(view + 1) {
            self.set_leader(view + 1);
        }
    }

    pub fn construct_finalize(&mut self, view: View) -> Option<Vote> {
        self.config.me?;
        if view <= self.last_finalized || !self.admits_outbound(view) {
            return None;
        }
        let round = self.rounds.get(&view)?;
        if !round.may_finalize() {
            return None;
        }
        let first = self.term_start(view).max(self.last_finalized + 1);
        if first < view && self.nullified.range(first..view).next().is_some() {
            return None;
        }
        let proposal = round.proposal?;
        if let Some(required) = self.required_parent(view, proposal.parent) {
            self.explicit_payload(required)?;
        }
        self.rounds.get_mut(&view)?.finalize();
        self.vote(proposal)
    }

    pub fn construct_nullify(&mut self, view: View) -> Option<(bool, Attestation)> {
        let signer = self.config.me?;
        if view == 0 || view != self.view || !self.has_room(view) {
            return None;
        }
        let repeats = self.rounds.entry(view).or_default().nullify()?;
        self.nullified.insert(view);
        let attestation = Attestation {
            signer,
            signature: [7; 32],
        };
        Some((repeats, attestation))
    }

    // What is handed out

    pub fn broadcast_notarization(&mut self, view: View) -> Option<Certificate> {
        let round = self
            .rounds
            .get_mut(&view)
            .filter(|round| !round.sent_notarization)?;
        let copy = round.notarization.clone()?;
        round.sent_notarization = true;
        Some(copy)
    }

    pub fn broadcast_nullification(&mut self, view: View) -> Option<Nullification> {
        let round = self
            .rounds
            .get_mut(&view)
            .filter(|round| !round.sent_nullification)?;
        let copy = round.nullification.clone()?;
        round.sent_nullification = true;
        Some(copy)
    }

    pub fn broadcast_finalization(&mut self, view: View) -> Option<Certificate> {
        let round = self
            .rounds
            .get_mut(&view)
            .filter(|round| !round.sent_finalization)?;
        let copy = round.finalization.clone()?;
        round.sent_finalization = true;
        Some(copy)
    }

    // Timeouts

    fn has_budget(&self) -> bool {
        let first = self.term_index(self.last_finalized + 1);
        self.term_index(self.view).saturating_sub(first) < self.config.skip_budget
    }

    pub fn next_timeout(&mut self, now: u64) -> Option<(u64, Reason)> {
        if self.view == 0 {
            return None;
        }
        let (retry, budget) = (self.config.timeout_retry, self.has_budget());
        let round = self.rounds.entry(self.view).or_default();
        let own = round.next_timeout(now, retry, budget);
        if round.finalization.is_some() || round.has_voted() {
            return own;
        }
        match (own, self.stall_deadline()) {
            (None, Some(stall)) => Some((stall, Reason::StallTimeout)),
            (Some((moment, _)), Some(stall)) if stall <= moment && now < moment => {
                Some((stall, Reason::StallTimeout))
            }
            _ => own,
        }
    }

    /// The stall deadline of the oldest entered view of the term that isn't finalized.
    fn stall_deadline(&mut self) -> Option<u64> {
        self.config.stall_timeout?;
        let start = self.term_start(self.view).max(self.last_finalized + 1);
        let first = start.max(self.stall_anchor);
        let (&view, round) = self
            .rounds
            .range(first..=self.view)
            .find(|(_, round)| round.entered_at.is_some())?;
        let deadline = round.stall_deadline();
        self.stall_anchor = view;
        deadline
    }

    pub fn trigger_timeout(&mut self, now: u64, view: View, reason: Reason) -> bool {
        if view < self.view {
            return false;
        }
        let Some(round) = self.rounds.get_mut(&view) else {
            return false;
        };
        round.latch(now, reason)
    }

    /// Whether it would count now that the current view's leader is silent.
    pub fn counts_silence(&self) -> bool {
        self.has_budget() && self.may_be_silent()
    }

    fn may_be_silent(&self) -> bool {
        self.rounds
            .get(&self.view)
            .is_some_and(|round| !round.has_unequivocated_proposal())
    }

    /// The current view is given up for its leader's silence: whether that is the first reason.
    pub fn trigger_silence(&mut self, now: u64) -> bool {
        self.may_be_silent() && self.trigger_timeout(now, self.view, Reason::Inactivity)
    }

    // What is dropped

    pub fn prune(&mut self) -> Vec<View> {
        let (floor, last) = (self.min_active(), self.last_finalized);
        let mut dropped = Vec::new();
        while let Some(entry) = self
            .rounds
            .first_entry()
            .filter(|entry| *entry.key() < floor)
        {
            let (view, round) = entry.remove_entry();
            dropped.push(view);
            if let Some(certificate) = round.nullification.filter(|_| self.term_end(view) > last) {
                self.reaching.insert(view, certificate);
            }
        }
        let first = self.term_start(last + 1).min(floor);
        while let Some(entry) = self
            .reaching
            .first_entry()
            .filter(|entry| *entry.key() < first)
        {
            entry.remove();
        }
        drop_below(&mut self.nullified, floor);
        drop_below(&mut self.certified, floor);
        while let Some(span) = self
            .covered
            .first_entry()
            .filter(|span| *span.get() <= last)
        {
            span.remove();
        }
        dropped
    }
}
