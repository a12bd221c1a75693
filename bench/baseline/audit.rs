//! The audit in plain Rust: what `simplex audit COUNT` is measured against.
//!
//! Reads `Activity` messages from standard input to its end and prints the signers of whom two votes
//! contradict each other: loose votes, both votes of evidence, and those that certificates list. Each vote
//! is verified as it is read. It is meant to be good portable code, so that the comparison is a fair one: no
//! crates, no intrinsics, no allocation for a vote.

use std::collections::btree_map::{BTreeMap, Entry};
use std::collections::BTreeSet;
use std::process::ExitCode;

mod lines;
mod messages;
mod reader;
mod sha256;

use lines::{Kind, Line, Suspect, Verdict};
use messages::{Activity, Attestation, Choice, Signed, Statement, Subject};
use reader::Reader;

fn main() -> ExitCode {
    lines::run(audit)
}

/// Gathers the votes up to the first place without a whole message, and gives that place.
fn audit(input: &[u8], count: u64) -> Verdict<'_> {
    let mut ledger = Ledger {
        count,
        notarizes: BTreeMap::new(),
        nullifies: BTreeSet::new(),
        finalizes: BTreeMap::new(),
    };
    let mut reader = Reader { input, place: 0 };
    while reader.place < input.len() {
        let start = reader.place;
        match reader.activity(count) {
            Some(Activity::Vote(vote)) => ledger.record(&vote.subject, &[vote.attestation]),
            Some(Activity::Evidence(first, second)) => {
                ledger.record(&first.subject, &[first.attestation]);
                ledger.record(&second.subject, &[second.attestation]);
            }
            Some(Activity::Certificate(subject, listed)) => ledger.record(&subject, &listed),
            None => return (ledger.lines(), Some(start)),
        }
    }
    (ledger.lines(), None)
}

/// The two least of the proposals that one signer voted for in one round.
struct Least<'a> {
    first: Choice<'a>,
    second: Option<Choice<'a>>,
}

impl<'a> Least<'a> {
    fn add(&mut self, choice: Choice<'a>) {
        if choice < self.first {
            self.second = Some(self.first);
            self.first = choice;
        } else if choice != self.first && self.second.is_none_or(|second| choice < second) {
            self.second = Some(choice);
        }
    }
}

type Choices<'a> = BTreeMap<Suspect, Least<'a>>;

struct Ledger<'a> {
    /// How many participants there are: a signer from this index on attests nothing.
    count: u64,
    notarizes: Choices<'a>,
    nullifies: BTreeSet<Suspect>,
    finalizes: Choices<'a>,
}

impl<'a> Ledger<'a> {
    /// Counts the verifying votes for the subject among these.
    fn record(&mut self, subject: &Subject<'a>, attestations: &[Attestation]) {
        let mut signed = Signed::new(subject);
        for Attestation { signer, signature } in attestations {
            if u64::from(*signer) < self.count && signed.signature(*signer) == **signature {
                self.add(subject, *signer);
            }
        }
    }

    fn add(&mut self, subject: &Subject<'a>, signer: u32) {
        let suspect = (subject.round, signer);
        match subject.statement {
            Statement::Notarize(choice) => add_choice(&mut self.notarizes, suspect, choice),
            Statement::Finalize(choice) => add_choice(&mut self.finalizes, suspect, choice),
            Statement::Nullify => {
                self.nullifies.insert(suspect);
            }
        }
    }

    fn lines(&self) -> Vec<Line<'a>> {
        let mut lines = Vec::new();
        lines.extend(conflicts(&self.notarizes, Kind::ConflictingNotarize));
        lines.extend(conflicts(&self.finalizes, Kind::ConflictingFinalize));
        lines.extend(self.nullifies.iter().filter_map(|suspect| {
            let least = self.finalizes.get(suspect)?;
            Some((*suspect, Kind::NullifyFinalize, least.first, None))
        }));
        lines
    }
}

fn add_choice<'a>(choices: &mut Choices<'a>, suspect: Suspect, choice: Choice<'a>) {
    match choices.entry(suspect) {
        Entry::Occupied(entry) => entry.into_mut().add(choice),
        Entry::Vacant(entry) => {
            entry.insert(Least {
                first: choice,
                second: None,
            });
        }
    }
}

fn conflicts<'a, 'b>(
    choices: &'b Choices<'a>,
    kind: Kind,
) -> impl Iterator<Item = Line<'a>> + use<'a, 'b> {
    choices
        .iter()
        .filter(|(_, least)| least.second.is_some())
        .map(move |(suspect, least)| (*suspect, kind, least.first, least.second))
}
