//! The audit in plain Rust that puts verifying off: what `simplex audit COUNT` is measured against where
//! honest votes cost no hash.
//!
//! It reads the reports twice, as `simplex` does. The first time it keeps of each round what its first vote is
//! for, looking at the last round first, and of the other votes only whose they are: the contested. The second time it
//! weighs the votes of the contested alone, and where nobody is contested there is no second time. Of those the first
//! vote of a round is a claim that nobody verified, and a vote is verified only where it can change what is kept.

use std::collections::{BTreeMap, BTreeSet, btree_map::Entry};
use std::process::ExitCode;

mod lines;
mod messages;
mod reader;
mod sha256;

use lines::{Kind, Line, Suspect, Verdict};
use messages::{Activity, Attestation, Choice, Round, Signed, Statement, Subject};
use reader::Reader;
use sha256::DIGEST_BYTES;

fn main() -> ExitCode {
    lines::run(audit)
}

/// Surveys the votes up to the first place without a whole message, then gathers those of the contested.
fn audit(input: &[u8], count: u64) -> Verdict<'_> {
    let mut survey = Survey::default();
    let fault = read(input, count, |subject, attestations| survey.note(subject, attestations));
    let contested = survey.contested();
    if contested.is_empty() {
        return (Vec::new(), fault);
    }
    let mut ledger = Ledger { count, contested, ..Ledger::default() };
    read(input, count, |subject, attestations| ledger.record(subject, attestations));
    (ledger.lines(), fault)
}

/// Takes the votes of each report up to the first place without a whole one, and gives that place.
fn read<'a>(
    input: &'a [u8],
    count: u64,
    mut take: impl FnMut(&Subject<'a>, &[Attestation<'a>]),
) -> Option<usize> {
    let mut reader = Reader { input, place: 0 };
    while reader.place < input.len() {
        let start = reader.place;
        match reader.activity(count) {
            Some(Activity::Vote(vote)) => take(&vote.subject, &[vote.attestation]),
            Some(Activity::Evidence(first, second)) => {
                take(&first.subject, &[first.attestation]);
                take(&second.subject, &[second.attestation]);
            }
            Some(Activity::Certificate(subject, listed)) => take(&subject, &listed),
            None => return Some(start),
        }
    }
    None
}

/// By rounds what the first vote is for.
#[derive(Default)]
struct Choices<'a> {
    /// The rounds that came in order, each above all that came before.
    ascending: Vec<(Round, Choice<'a>)>,
    /// The rounds that came late, when one above them had come.
    late: BTreeMap<Round, Choice<'a>>,
}

impl<'a> Choices<'a> {
    /// What the round's first vote is for: this, where it has none.
    fn choose(&mut self, round: Round, choice: Choice<'a>) -> Choice<'a> {
        match self.ascending.last() {
            Some((last, first)) if *last == round => return *first,
            Some((last, _)) if *last > round => {}
            _ => {
                self.ascending.push((round, choice));
                return choice;
            }
        }
        match self.place_of(&round) {
            Ok(place) => self.ascending[place].1,
            Err(_) => *self.late.entry(round).or_insert(choice),
        }
    }

    /// Where the round stands among those that came in order, or would stand.
    fn place_of(&self, round: &Round) -> Result<usize, usize> {
        self.ascending.binary_search_by_key(round, |(round, _)| *round)
    }

    fn contains(&self, round: &Round) -> bool {
        self.place_of(round).is_ok() || self.late.contains_key(round)
    }
}

/// What the votes of one kind are for.
#[derive(Default)]
struct Proposed<'a> {
    chosen: Choices<'a>,
    /// Who voted for something else.
    contested: BTreeSet<Suspect>,
}

impl<'a> Proposed<'a> {
    fn note(&mut self, round: Round, choice: Choice<'a>, attestations: &[Attestation]) {
        if self.chosen.choose(round, choice) != choice {
            self.contested.extend(attestations.iter().map(|attestation| (round, attestation.signer)));
        }
    }
}

#[derive(Default)]
struct Survey<'a> {
    notarizes: Proposed<'a>,
    finalizes: Proposed<'a>,
    nullifies: BTreeSet<Suspect>,
}

impl<'a> Survey<'a> {
    /// Notes what the votes for the subject are for.
    fn note(&mut self, subject: &Subject<'a>, attestations: &[Attestation]) {
        match subject.statement {
            Statement::Notarize(choice) => self.notarizes.note(subject.round, choice, attestations),
            Statement::Finalize(choice) => self.finalizes.note(subject.round, choice, attestations),
            Statement::Nullify => {
                let suspects = attestations.iter().map(|vote| (subject.round, vote.signer));
                self.nullifies.extend(suspects);
            }
        }
    }

    /// Whose votes may contradict each other.
    fn contested(mut self) -> BTreeSet<Suspect> {
        let mut contested = self.notarizes.contested;
        contested.append(&mut self.finalizes.contested);
        let finalized = &self.finalizes.chosen;
        contested.extend(self.nullifies.iter().filter(|(round, _)| finalized.contains(round)));
        contested
    }
}

/// A vote of a known signer.
#[derive(Clone, Copy)]
struct Cast<'a> {
    subject: Subject<'a>,
    signature: Signature,
}

type Signature = [u8; DIGEST_BYTES];

impl<'a> Cast<'a> {
    fn choice(&self) -> Option<Choice<'a>> {
        match self.subject.statement {
            Statement::Notarize(choice) | Statement::Finalize(choice) => Some(choice),
            Statement::Nullify => None,
        }
    }

    /// Whether the two are one vote, to the last byte.
    fn is_same(&self, other: &Cast) -> bool {
        self.signature == other.signature && self.choice() == other.choice()
    }

    fn verifies(&self, count: u64, signer: u32) -> bool {
        u64::from(signer) < count && Signed::new(&self.subject).signature(signer) == self.signature
    }
}

/// What is kept of a contested signer: of the first votes that verify for the least two proposals
/// one or both, or the vote that stands for all.
enum Kept<'a> {
    Claim(Cast<'a>),
    One(Cast<'a>),
    Two(Box<[Cast<'a>; 2]>),
}

impl<'a> Kept<'a> {
    /// Weighs one more vote.
    fn weigh(&mut self, count: u64, signer: u32, cast: Cast<'a>) {
        if let Kept::Claim(claim) = self {
            if claim.is_same(&cast) {
                return;
            }
            if !claim.verifies(count, signer) {
                *claim = cast;
                return;
            }
            *self = Kept::One(*claim);
        }
        self.add(count, signer, cast);
    }

    /// Adds a vote to those that were verified, where it verifies and is to be kept.
    fn add(&mut self, count: u64, signer: u32, cast: Cast<'a>) {
        let choice = cast.choice();
        match self {
            Kept::Claim(_) => {}
            Kept::One(only) => {
                if choice == only.choice() || !cast.verifies(count, signer) {
                    return;
                }
                let both = if choice < only.choice() { [cast, *only] } else { [*only, cast] };
                *self = Kept::Two(Box::new(both));
            }
            Kept::Two(both) => {
                let [least, next] = &mut **both;
                let placed = choice != least.choice() && choice < next.choice();
                if !placed || !cast.verifies(count, signer) {
                    return;
                }
                *next = cast;
                if choice < least.choice() {
                    std::mem::swap(least, next);
                }
            }
        }
    }

    /// The least proposal of those that verify.
    fn least(&self, count: u64, signer: u32) -> Option<Choice<'a>> {
        match self {
            Kept::Claim(claim) if !claim.verifies(count, signer) => None,
            Kept::Claim(cast) | Kept::One(cast) => cast.choice(),
            Kept::Two(both) => both[0].choice(),
        }
    }
}

#[derive(Default)]
struct Ballots<'a> {
    kept: BTreeMap<Suspect, Kept<'a>>,
}

impl<'a> Ballots<'a> {
    fn count(&mut self, count: u64, signer: u32, cast: Cast<'a>) {
        match self.kept.entry((cast.subject.round, signer)) {
            Entry::Occupied(mut entry) => entry.get_mut().weigh(count, signer, cast),
            Entry::Vacant(entry) => {
                entry.insert(Kept::Claim(cast));
            }
        }
    }

    /// The least proposal that the suspect's votes that verify are for.
    fn least(&self, count: u64, suspect: &Suspect) -> Option<Choice<'a>> {
        self.kept.get(suspect)?.least(count, suspect.1)
    }

    /// Whether a vote of the suspect that is kept verifies.
    fn verifies(&self, count: u64, suspect: &Suspect) -> bool {
        match self.kept.get(suspect) {
            Some(Kept::Claim(claim)) => claim.verifies(count, suspect.1),
            found => found.is_some(),
        }
    }

    fn conflicts(&self, kind: Kind) -> impl Iterator<Item = Line<'a>> + use<'a, '_> {
        self.kept.iter().filter_map(move |(suspect, kept)| match kept {
            Kept::Two(both) => Some((*suspect, kind, both[0].choice()?, both[1].choice())),
            _ => None,
        })
    }

    /// Each suspect of whom a vote is kept.
    fn suspects(&self) -> impl Iterator<Item = Suspect> + use<'a, '_> {
        self.kept.keys().copied()
    }
}

#[derive(Default)]
struct Ledger<'a> {
    /// How many participants there are: a signer from this index on attests nothing.
    count: u64,
    /// Whose votes are weighed.
    contested: BTreeSet<Suspect>,
    notarizes: Ballots<'a>,
    nullifies: Ballots<'a>,
    finalizes: Ballots<'a>,
}

impl<'a> Ledger<'a> {
    /// Counts the votes for the subject.
    fn record(&mut self, subject: &Subject<'a>, attestations: &[Attestation<'a>]) {
        let ballots = match subject.statement {
            Statement::Notarize(_) => &mut self.notarizes,
            Statement::Nullify => &mut self.nullifies,
            Statement::Finalize(_) => &mut self.finalizes,
        };
        for Attestation { signer, signature } in attestations {
            if !self.contested.contains(&(subject.round, *signer)) {
                continue;
            }
            let cast = Cast { subject: *subject, signature: **signature };
            ballots.count(self.count, *signer, cast);
        }
    }

    fn lines(&self) -> Vec<Line<'a>> {
        let mut lines = Vec::new();
        lines.extend(self.notarizes.conflicts(Kind::ConflictingNotarize));
        lines.extend(self.finalizes.conflicts(Kind::ConflictingFinalize));
        lines.extend(self.nullifies.suspects().filter_map(|suspect| {
            let least = self.finalizes.least(self.count, &suspect)?;
            let given_up = self.nullifies.verifies(self.count, &suspect);
            given_up.then_some((suspect, Kind::NullifyFinalize, least, None))
        }));
        lines.sort_unstable();
        lines.dedup();
        lines
    }
}
