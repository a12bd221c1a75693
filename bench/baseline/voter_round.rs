//! What a member knows of one view, and the values that are said of it.

pub type Digest = [u8; 32];
pub type View = u64;

#[derive(Clone, Copy, PartialEq, Eq)]
pub struct Proposal {
    pub epoch: u64,
    pub view: View,
    pub parent: View,
    pub payload: Digest,
}

#[derive(Clone, Copy, PartialEq, Eq)]
pub struct Attestation {
    pub signer: u32,
    pub signature: [u8; 32],
}

/// A notarization or finalization of its proposal.
#[derive(Clone)]
pub struct Certificate {
    pub proposal: Proposal,
    pub attestations: Vec<Attestation>,
}

#[derive(Clone)]
pub struct Nullification {
    pub view: View,
    pub attestations: Vec<Attestation>,
}

#[derive(Clone, Copy, PartialEq, Eq)]
pub enum Reason {
    Retry,
    LeaderTimeout,
    CertificationTimeout,
    StallTimeout,
    InvalidProposal,
    FailedCertification,
    LeaderNullify,
    Inactivity,
    MissingProposal,
    IgnoredProposal,
}

impl Reason {
    pub fn as_str(self) -> &'static str {
        match self {
            Reason::Retry => "Retry",
            Reason::LeaderTimeout => "LeaderTimeout",
            Reason::CertificationTimeout => "CertificationTimeout",
            Reason::StallTimeout => "StallTimeout",
            Reason::InvalidProposal => "InvalidProposal",
            Reason::FailedCertification => "FailedCertification",
            Reason::LeaderNullify => "LeaderNullify",
            Reason::Inactivity => "Inactivity",
            Reason::MissingProposal => "MissingProposal",
            Reason::IgnoredProposal => "IgnoredProposal",
        }
    }
}

#[derive(Clone, Copy, PartialEq, Eq, Default)]
enum Status {
    #[default]
    Unverified,
    Verified,
    Equivocated,
}

/// The own nullify or finalize, and when the view is given up.
enum Decision {
    Open {
        leader: Option<u64>,
        certification: Option<u64>,
        latch: Option<(u64, Reason)>,
    },
    Nullify {
        retry: Option<u64>,
    },
    Finalize,
}

impl Default for Decision {
    fn default() -> Self {
        Decision::Open {
            leader: None,
            certification: None,
            latch: None,
        }
    }
}

#[derive(Default, PartialEq, Eq)]
enum Verdict {
    #[default]
    Open,
    /// Asked for, under this name.
    Asked(u64),
    Given(bool),
}

#[derive(Default)]
pub struct Round {
    pub leader: Option<u32>,
    pub proposal: Option<Proposal>,
    status: Status,
    requested_build: bool,
    requested_verify: bool,
    decision: Decision,
    stall: Option<u64>,
    pub entered_at: Option<u64>,
    pub proposed_at: Option<u64>,
    pub notarization: Option<Certificate>,
    pub nullification: Option<Nullification>,
    pub finalization: Option<Certificate>,
    pub sent_notarization: bool,
    pub sent_nullification: bool,
    pub sent_finalization: bool,
    voted_notarize: bool,
    verdict: Verdict,
    last_asked: Option<View>,
    /// The proposal that was checked or built, and its parent's payload.
    pub binding: Option<(Proposal, Digest)>,
}

impl Round {
    pub fn enter(&mut self, now: u64, leader_by: u64, certified_by: u64, stall_by: Option<u64>) {
        self.entered_at.get_or_insert(now);
        if let Decision::Open {
            leader,
            certification,
            ..
        } = &mut self.decision
        {
            *leader = Some(leader_by);
            *certification = Some(certified_by);
        }
        self.stall = stall_by;
    }

    pub fn has_nullified(&self) -> bool {
        matches!(self.decision, Decision::Nullify { .. })
    }

    pub fn has_voted(&self) -> bool {
        !matches!(self.decision, Decision::Open { .. })
    }

    pub fn has_notarized(&self) -> bool {
        self.voted_notarize
    }

    pub fn is_direct(&self) -> bool {
        self.notarization.is_some() || self.finalization.is_some()
    }

    pub fn is_verified(&self) -> bool {
        self.proposal.is_some() && self.status == Status::Verified
    }

    pub fn has_unequivocated_proposal(&self) -> bool {
        self.proposal.is_some() && self.status != Status::Equivocated
    }

    pub fn is_certified(&self) -> bool {
        self.verdict == Verdict::Given(true)
    }

    pub fn certified_payload(&self) -> Option<Digest> {
        if self.finalization.is_none() && !self.is_certified() {
            return None;
        }
        self.proposal.map(|held| held.payload)
    }

    pub fn certificate_payload(&self) -> Option<Digest> {
        if let Some(finalization) = &self.finalization {
            return Some(finalization.proposal.payload);
        }
        if self.verdict == Verdict::Given(false) {
            return None;
        }
        self.notarization
            .as_ref()
            .map(|notarization| notarization.proposal.payload)
    }

    /// The leader's proposal: whether it is the first.
    pub fn set_proposal(&mut self, proposal: &Proposal) -> bool {
        if self.has_nullified()
            || self
                .proposal
                .is_some_and(|_| self.status == Status::Equivocated)
        {
            return false;
        }
        match &self.proposal {
            None => {
                self.proposal = Some(*proposal);
                true
            }
            Some(held) => {
                if held != proposal {
                    self.status = Status::Equivocated;
                }
                false
            }
        }
    }

    /// A certificate's proposal takes the place of another one: whether it did.
    fn recover(&mut self, proposal: &Proposal) -> bool {
        match &self.proposal {
            None => {
                self.proposal = Some(*proposal);
                false
            }
            Some(held) if held == proposal => false,
            Some(_) => {
                self.proposal = Some(*proposal);
                self.status = Status::Equivocated;
                self.requested_build = true;
                self.requested_verify = true;
                true
            }
        }
    }

    pub fn add_notarization(&mut self, certificate: Certificate) -> Option<u32> {
        let replaced = self.recover(&certificate.proposal);
        self.notarization = Some(certificate);
        self.leader.filter(|_| replaced)
    }

    pub fn add_finalization(&mut self, certificate: Certificate) -> Option<u32> {
        let replaced = self.recover(&certificate.proposal);
        self.finalization = Some(certificate);
        self.leader.filter(|_| replaced)
    }

    pub fn should_propose(&self, me: Option<u32>) -> bool {
        self.leader.is_some()
            && self.leader == me
            && !self.has_nullified()
            && !self.requested_build
            && self.proposal.is_none()
    }

    pub fn request_build(&mut self) {
        self.requested_build = true;
    }

    pub fn release_build(&mut self) {
        self.requested_build = false;
    }

    /// An own build: whether it is held.
    pub fn proposed(&mut self, now: u64, proposal: Proposal, parent_payload: Digest) -> bool {
        if self.has_nullified() || self.proposal.is_some_and(|held| held != proposal) {
            return false;
        }
        self.proposal = Some(proposal);
        if self.status != Status::Equivocated {
            self.status = Status::Verified;
        }
        self.requested_build = true;
        self.requested_verify = true;
        self.proposed_at = Some(now);
        self.binding = Some((proposal, parent_payload));
        true
    }

    /// The leader and the proposal that is to be verified.
    pub fn pending_verification(&self, me: Option<u32>) -> Option<(u32, Proposal)> {
        let leader = self.leader.filter(|leader| Some(*leader) != me)?;
        if self.has_nullified() || self.requested_verify {
            return None;
        }
        Some((leader, self.proposal?))
    }

    pub fn request_verify(&mut self, proposal: Proposal, parent_payload: Digest) {
        self.requested_verify = true;
        self.binding = Some((proposal, parent_payload));
    }

    /// Whether another view was asked for last.
    pub fn request(&mut self, view: View) -> bool {
        self.last_asked.replace(view) != Some(view)
    }

    pub fn verified(&mut self) -> bool {
        let becomes =
            self.proposal.is_some() && self.status == Status::Unverified && !self.has_nullified();
        if becomes {
            self.status = Status::Verified;
        }
        becomes
    }

    pub fn may_notarize(&self) -> bool {
        !self.voted_notarize && !self.has_nullified() && self.is_verified()
    }

    pub fn notarize(&mut self) {
        self.voted_notarize = true;
    }

    pub fn may_finalize(&self) -> bool {
        !self.has_voted()
            && self.status != Status::Equivocated
            && self.notarization.is_some()
            && self.is_certified()
    }

    pub fn finalize(&mut self) {
        self.decision = Decision::Finalize;
    }

    /// Whether this repeats an own nullify; none behind an own finalize.
    pub fn nullify(&mut self) -> Option<bool> {
        let repeats = match self.decision {
            Decision::Finalize => return None,
            Decision::Nullify { .. } => true,
            Decision::Open { .. } => false,
        };
        self.decision = Decision::Nullify { retry: None };
        Some(repeats)
    }

    pub fn pending_certification(&self) -> Option<Proposal> {
        if self.verdict != Verdict::Open {
            return None;
        }
        self.notarization
            .as_ref()
            .map(|notarization| notarization.proposal)
    }

    pub fn ask_verdict(&mut self, name: u64) {
        if !matches!(self.verdict, Verdict::Given(_)) {
            self.verdict = Verdict::Asked(name);
        }
    }

    pub fn judge(&mut self, is_success: bool) {
        if !matches!(self.verdict, Verdict::Given(_)) {
            self.verdict = Verdict::Given(is_success);
        }
    }

    /// Whether this is the first reason.
    pub fn latch(&mut self, now: u64, reason: Reason) -> bool {
        match &mut self.decision {
            Decision::Open { latch, .. } if latch.is_none() => {
                *latch = Some((now, reason));
                true
            }
            _ => false,
        }
    }

    pub fn stall_deadline(&self) -> Option<u64> {
        self.stall.filter(|_| self.finalization.is_none())
    }

    pub fn next_timeout(
        &mut self,
        now: u64,
        retry_interval: u64,
        latch_counts: bool,
    ) -> Option<(u64, Reason)> {
        if self.finalization.is_some() {
            return None;
        }
        let (is_held, is_certified) = (self.proposal.is_some(), self.is_certified());
        match &mut self.decision {
            Decision::Finalize => None,
            Decision::Nullify { retry } => {
                let moment = *retry.get_or_insert(now + retry_interval);
                Some((moment, Reason::Retry))
            }
            Decision::Open {
                latch: Some(latch), ..
            } if latch_counts => Some(*latch),
            Decision::Open {
                leader: Some(moment),
                ..
            } if !is_held => Some((*moment, Reason::LeaderTimeout)),
            Decision::Open {
                certification: Some(moment),
                ..
            } if !is_certified => Some((*moment, Reason::CertificationTimeout)),
            Decision::Open { .. } => None,
        }
    }
}
