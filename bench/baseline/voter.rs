//! A member that votes, in plain Rust: what `simplex_state` is measured against.
//!
//! Takes the words that `../voter/main.rt.txt` takes, makes the same calls in the same order, and prints the same sum over
//! the answers, and the nanoseconds of its own median chunk. Like the other baselines it is good portable code: no crates, no intrinsics.

use std::process::ExitCode;
use std::time::Instant;

// A node asks more of them.
#[allow(dead_code)]
mod voter_round;
#[allow(dead_code)]
mod voter_state;

use voter_round::{Attestation, Certificate, Digest, Nullification, Proposal, Reason, View};
use voter_state::{Config, Context, Fetch, Kind, State, Verify, Vote};

/// So many views or looks are measured at once, with their certificates made before the clock goes on.
const CHUNK: u64 = 12;
/// How many milliseconds a view takes that is finalized, and one that is given up.
const QUICK: u64 = 100;
const SLOW: u64 = 2000;

#[derive(Clone, Copy, PartialEq, Eq)]
enum Shape {
    Finalized,
    Terms,
    Nullified,
    Mixed,
    Polls,
    Hole,
}

impl Shape {
    fn named(word: &str) -> Option<Self> {
        Some(match word {
            "finalized" => Shape::Finalized,
            "terms" => Shape::Terms,
            "nullified" => Shape::Nullified,
            "mixed" => Shape::Mixed,
            "polls" => Shape::Polls,
            "hole" => Shape::Hole,
            _ => return None,
        })
    }

    fn finalizes(self, view: View) -> bool {
        match self {
            Shape::Finalized | Shape::Terms => true,
            Shape::Mixed => view % 3 != 0,
            Shape::Nullified | Shape::Polls | Shape::Hole => false,
        }
    }

    /// Whether the measured steps are only looks.
    fn only_looks(self) -> bool {
        matches!(self, Shape::Polls | Shape::Hole)
    }
}

/// A sum over what was answered.
struct Answers(u64);

impl Answers {
    fn add(&mut self, number: u64) {
        self.0 = self.0.wrapping_mul(31).wrapping_add(number);
    }

    fn timeout(&mut self, next: Option<(u64, Reason)>) {
        let (moment, reason) =
            next.map_or((0, 0), |(moment, reason)| (moment, reason.as_str().len()));
        self.add(moment);
        self.add(reason as u64);
    }

    fn context(&mut self, context: &Context) {
        self.add(context.view);
        self.add(u64::from(context.leader));
        self.add(context.parent.0);
        self.add(u64::from(context.parent.1[0]));
    }

    fn verify(&mut self, answer: &Verify) {
        match answer {
            Verify::Ready(context, proposal) => {
                self.context(context);
                self.proposal(proposal);
            }
            Verify::Resolve {
                proposal,
                view,
                kind,
                target,
            } => {
                self.add(*proposal);
                self.add(*view);
                self.add(match kind {
                    Kind::Nullification => 1,
                    Kind::Notarization => 2,
                });
                self.add(u64::from(*target));
            }
            Verify::Wait => self.add(3),
        }
    }

    fn proposal(&mut self, proposal: &Proposal) {
        self.add(proposal.epoch);
        self.add(proposal.view);
        self.add(proposal.parent);
        self.add(u64::from(proposal.payload[0]));
    }

    fn candidates(&mut self, (ready, fetches): &(Vec<Proposal>, Vec<Fetch>)) {
        for proposal in ready {
            self.proposal(proposal);
        }
        for fetch in fetches {
            self.add(fetch.proposal);
            self.add(fetch.view);
        }
        self.add((ready.len() + fetches.len()) as u64);
    }

    fn vote(&mut self, vote: Option<Vote>) {
        match vote {
            Some(vote) => {
                self.proposal(&vote.proposal);
                self.attestation(&vote.attestation);
            }
            None => self.add(0),
        }
    }

    fn attestation(&mut self, attestation: &Attestation) {
        self.add(u64::from(attestation.signer));
        self.add(u64::from(attestation.signature == [7; 32]));
    }

    fn added(&mut self, (is_first, key): (bool, Option<u32>)) {
        self.add(u64::from(is_first));
        self.add(u64::from(key.is_some()));
    }

    fn copy(&mut self, copy: Option<Certificate>) {
        match copy {
            Some(copy) => {
                self.proposal(&copy.proposal);
                self.list(&copy.attestations);
            }
            None => self.add(0),
        }
    }

    fn list(&mut self, attestations: &[Attestation]) {
        self.add(attestations.len() as u64);
        self.add(attestations.last().map_or(0, |last| u64::from(last.signer)));
    }

    fn views(&mut self, views: &[View]) {
        for view in views {
            self.add(*view);
        }
        self.add(views.len() as u64);
    }
}

/// What happens to a view, with the certificates made.
enum Outcome {
    Finalized(Certificate, Certificate),
    Nullified(Nullification),
}

struct Step {
    proposal: Proposal,
    outcome: Outcome,
}

fn payload(view: View) -> Digest {
    [view as u8; 32]
}

/// The member, what its committee certifies with, and the moment.
struct Play {
    shape: Shape,
    state: State,
    attestations: Vec<Attestation>,
    answers: Answers,
    now: u64,
    next: View,
    parent: View,
}

impl Play {
    fn new(shape: Shape, members: u32, behind: u64) -> Self {
        let me = match shape {
            // The member leads the view where it looks, or the next member does.
            Shape::Hole => (behind + 1) % u64::from(members),
            Shape::Polls => (behind + 2) % u64::from(members),
            _ => 0,
        };
        let terms = shape == Shape::Terms;
        let mut state = State::new(Config {
            participants: members,
            me: Some(me as u32),
            length: if terms { 5 } else { 1 },
            optimistic: if terms { 2 } else { 0 },
            stall_timeout: terms.then_some(3000),
            retention: 10,
            leader_timeout: 1000,
            certification_timeout: 2000,
            timeout_retry: 5000,
            skip_budget: u64::from(members),
        });
        state.set_genesis(0, payload(0));
        let quorum = members - (members - 1) / 3;
        let attestations = (0..quorum).map(|signer| Attestation {
            signer,
            signature: [7; 32],
        });
        Play {
            shape,
            state,
            attestations: attestations.collect(),
            answers: Answers(0),
            now: 0,
            next: 1,
            parent: 0,
        }
    }

    /// The next view's certificates.
    fn step(&mut self) -> Step {
        let view = self.next;
        let proposal = Proposal {
            epoch: 0,
            view,
            parent: self.parent,
            payload: payload(view),
        };
        let certificate = || Certificate {
            proposal,
            attestations: self.attestations.clone(),
        };
        let finalizes = self.shape.finalizes(view);
        let outcome = if finalizes {
            Outcome::Finalized(certificate(), certificate())
        } else {
            Outcome::Nullified(Nullification {
                view,
                attestations: self.attestations.clone(),
            })
        };
        self.next += 1;
        if finalizes {
            self.parent = view;
        }
        Step { proposal, outcome }
    }

    /// So many views go by: the nanoseconds that this took, without those of making certificates.
    fn go(&mut self, count: u64) -> u128 {
        let steps: Vec<Step> = (0..count).map(|_| self.step()).collect();
        let start = Instant::now();
        for step in steps {
            self.take(step);
        }
        start.elapsed().as_nanos()
    }

    /// So many views go by.
    fn pass(&mut self, count: u64) {
        let mut left = count;
        while left > 0 {
            self.go(left.min(CHUNK));
            left = left.saturating_sub(CHUNK);
        }
    }

    /// The nanoseconds of the median of so many chunks.
    fn median(&mut self, chunks: u64) -> u128 {
        let looks = self.shape.only_looks();
        let mut taken: Vec<u128> = (0..chunks)
            .map(|_| if looks { self.stand() } else { self.go(CHUNK) })
            .collect();
        taken.sort_unstable();
        taken.get(taken.len() / 2).copied().unwrap_or(0)
    }

    fn take(&mut self, step: Step) {
        let Step { proposal, outcome } = step;
        match outcome {
            Outcome::Finalized(notarization, finalization) => {
                self.finalize(&proposal, notarization, finalization);
            }
            Outcome::Nullified(nullification)
                if self.shape == Shape::Hole && proposal.view == 1 =>
            {
                drop(nullification);
            }
            Outcome::Nullified(nullification) => self.nullify(proposal.view, nullification),
        }
    }

    /// Builds where this member leads: whether it did.
    fn build(&mut self, view: View) -> bool {
        let Some(context) = self.state.try_propose() else {
            return false;
        };
        self.answers.context(&context);
        let taken = self.state.proposed(self.now, &context, payload(view));
        self.answers.add(u64::from(taken));
        true
    }

    /// A view from entry to finalization.
    fn finalize(
        &mut self,
        proposal: &Proposal,
        notarization: Certificate,
        finalization: Certificate,
    ) {
        let view = proposal.view;
        self.look();
        if !self.build(view) {
            self.answers
                .add(u64::from(self.state.set_proposal(view, proposal)));
            self.answers.verify(&self.state.try_verify(self.now));
            self.answers.add(u64::from(self.state.verified(view)));
        }
        self.answers.vote(self.state.construct_notarize(view));
        self.look();
        self.answers
            .added(self.state.add_notarization(notarization));
        self.certify();
        self.answers.copy(self.state.broadcast_notarization(view));
        self.now += QUICK;
        self.answers
            .copy(self.state.certified(self.now, view, true));
        self.answers.vote(self.state.construct_finalize(view));
        self.answers
            .added(self.state.add_finalization(self.now, finalization));
        self.answers.copy(self.state.broadcast_finalization(view));
        self.answers.views(&self.state.prune());
    }

    /// A view from entry to nullification.
    fn nullify(&mut self, view: View, nullification: Nullification) {
        self.look();
        if self.build(view) {
            self.answers.vote(self.state.construct_notarize(view));
        }
        self.answers.verify(&self.state.try_verify(self.now));
        self.certify();
        self.now += SLOW;
        self.look();
        match self.state.construct_nullify(view) {
            Some((repeats, attestation)) => {
                self.answers.add(u64::from(repeats));
                self.answers.attestation(&attestation);
            }
            None => self.answers.add(0),
        }
        self.look();
        let is_first = self.state.add_nullification(self.now, nullification);
        self.answers.add(u64::from(is_first));
        match self.state.broadcast_nullification(view) {
            Some(copy) => self.answers.list(&copy.attestations),
            None => self.answers.add(0),
        }
        self.answers.views(&self.state.prune());
    }

    fn look(&mut self) {
        self.answers.timeout(self.state.next_timeout(self.now));
    }

    fn certify(&mut self) {
        let candidates = self.state.certify_candidates();
        self.answers.candidates(&candidates);
        for proposal in &candidates.0 {
            self.state.set_certify_handle(proposal.view, proposal.view);
        }
    }

    /// A chunk of looks with nothing due: the nanoseconds that they took.
    fn stand(&mut self) -> u128 {
        let view = self.state.current_view();
        let start = Instant::now();
        for _ in 0..CHUNK {
            self.look();
            self.build(view);
            self.answers.verify(&self.state.try_verify(self.now));
            self.certify();
            self.answers.vote(self.state.construct_notarize(view));
            self.answers.vote(self.state.construct_finalize(view));
            self.answers.views(&self.state.prune());
        }
        start.elapsed().as_nanos()
    }
}

fn main() -> ExitCode {
    let words: Vec<String> = std::env::args().skip(1).collect();
    let [shape, members, behind, chunks] = words.iter().map(String::as_str).collect::<Vec<_>>()[..]
    else {
        return ExitCode::FAILURE;
    };
    let (Some(shape), Ok(members), Ok(behind), Ok(chunks)) = (
        Shape::named(shape),
        members.parse::<u32>(),
        behind.parse::<u64>(),
        chunks.parse::<u64>(),
    ) else {
        return ExitCode::FAILURE;
    };
    let mut play = Play::new(shape, members, behind);
    play.pass(behind);
    let taken = play.median(chunks);
    play.answers.add(play.state.current_view());
    println!("{} {}", play.answers.0, taken);
    ExitCode::SUCCESS
}
