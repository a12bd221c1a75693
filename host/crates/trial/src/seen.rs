//! All that was seen in a trial, and what the checks find in it.

use crate::acknowledged::{self, Versions};
use crate::chains::{self, Link};
use crate::history::{self, Call, Entry};
use crate::linearizable::{self, Verdict};
use crate::votes::{self, Vote};
use crate::workload::LocalRead;
use serde::{Deserialize, Serialize};
use std::collections::{BTreeMap, BTreeSet};
use std::fmt;

/// What was seen. Of members only those that are to be correct: nobody answers for a liar's store.
#[derive(Clone, Debug, Default, PartialEq, Serialize, Deserialize)]
pub struct Seen {
    /// The base of the committee's votes.
    pub base: Vec<u8>,
    /// Who lied on purpose.
    pub liars: BTreeSet<u32>,
    /// What clients saw.
    pub entries: Vec<Entry>,
    /// Each member's last blocks.
    pub chains: Vec<Vec<Link>>,
    /// Each member's versions of each key, read at the end, when it had carried out all that was answered.
    pub versions: Vec<BTreeMap<String, Versions>>,
    /// What was read in members' states, without the log.
    pub local_reads: Vec<LocalRead>,
    /// The votes in the reports of all members, signed with their members' keys.
    pub votes: Vec<Vote>,
    /// Whom each member blocks, by its place in `chains`.
    pub blocked: Vec<BTreeSet<u32>>,
    /// Whom the judge convicted by the files of the others than the liars.
    pub convicted: BTreeSet<u32>,
}

/// Which check found something.
#[derive(Clone, Copy, Debug, PartialEq, Eq, PartialOrd, Ord)]
pub enum Check {
    /// The history isn't one.
    History,
    /// A key's calls have no order that explains them.
    Linearizable,
    /// A key's calls were too many for the search: nothing is known of it.
    Undecided,
    /// Something acknowledged isn't there.
    Acknowledged,
    /// A call was carried out before one that had ended when it began.
    Order,
    /// A member's state was another than its view says.
    LocalRead,
    /// A member ended by itself, or didn't end cleanly when it was to.
    Ended,
    /// A member carried nothing out, though all ran and all links were whole.
    Progress,
    /// Members carried out different blocks, or keep different versions.
    Blocks,
    /// A member that is to be correct took a vote back.
    Votes,
    /// A member that is to be correct is blocked by one.
    Blocked,
    /// The judge convicted one that is to be correct, or didn't convict the liar.
    Convicted,
}

/// Something that shouldn't be.
#[derive(Clone, Debug, PartialEq, Eq, PartialOrd, Ord)]
pub struct Finding {
    /// Which check found it.
    pub check: Check,
    /// What it found.
    pub line: String,
}

impl fmt::Display for Finding {
    fn fmt(&self, f: &mut fmt::Formatter<'_>) -> fmt::Result {
        write!(f, "{:?}: {}", self.check, self.line)
    }
}

impl Finding {
    /// That this check found this.
    pub fn new(check: Check, line: impl ToString) -> Finding {
        let line = line.to_string();
        Finding { check, line }
    }
}

/// Whether the calls of a key have an order that explains them.
fn of_key((key, calls): (&String, &Vec<Call>)) -> Option<Finding> {
    match linearizable::check(calls, linearizable::BUDGET) {
        Verdict::Linearizable => None,
        Verdict::Undecided => {
            let line = format!("{key}: the search over {} calls was given up", calls.len());
            Some(Finding::new(Check::Undecided, line))
        }
        Verdict::Not { taken, stuck } => {
            let last = taken.last().map(|at| &calls[*at]);
            let line = format!("{key}: {:?} isn't explained behind {last:?}", calls[stuck]);
            Some(Finding::new(Check::Linearizable, line))
        }
    }
}

impl Seen {
    /// What shouldn't be: nothing, where all is well.
    pub fn findings(&self) -> Vec<Finding> {
        let mut findings = self.of_clients();
        findings.extend(self.of_blocks());
        findings.extend(self.of_votes());
        findings
    }

    /// The checks that were found wanting.
    pub fn failed(&self) -> BTreeSet<Check> {
        self.findings()
            .into_iter()
            .map(|finding| finding.check)
            .collect()
    }

    fn of_clients(&self) -> Vec<Finding> {
        let calls = match history::calls(&self.entries) {
            Ok(calls) => calls,
            Err(why) => return vec![Finding::new(Check::History, why)],
        };
        let mut findings: Vec<Finding> = calls.iter().filter_map(of_key).collect();
        for (member, versions) in self.versions.iter().enumerate() {
            let lost = acknowledged::lost(&calls, versions).into_iter();
            let lost = lost.map(|line| format!("member {member}: {line}"));
            findings.extend(lost.map(|line| Finding::new(Check::Acknowledged, line)));
        }
        if let Some(versions) = self.versions.first() {
            let wrong = acknowledged::wrong_reads(&self.local_reads, versions).into_iter();
            findings.extend(wrong.map(|line| Finding::new(Check::LocalRead, line)));
        }
        let unordered = acknowledged::out_of_order(&self.entries).into_iter();
        findings.extend(unordered.map(|line| Finding::new(Check::Order, line)));
        findings
    }

    fn of_blocks(&self) -> Vec<Finding> {
        let mut lines = Vec::new();
        if let Err(fork) = chains::agree(&self.chains) {
            lines.push(fork.to_string());
        }
        if let Err(unordered) = chains::rise(&self.chains) {
            lines.push(format!("{unordered:?}"));
        }
        for (member, pair) in self.versions.windows(2).enumerate() {
            let keys: BTreeSet<_> = pair[0].keys().chain(pair[1].keys()).collect();
            let differing = keys
                .into_iter()
                .filter(|key| pair[0].get(*key) != pair[1].get(*key));
            lines.extend(differing.map(|key| {
                format!(
                    "members {member} and {} keep different versions of {key}",
                    member + 1
                )
            }));
        }
        lines
            .into_iter()
            .map(|line| Finding {
                check: Check::Blocks,
                line,
            })
            .collect()
    }

    fn of_votes(&self) -> Vec<Finding> {
        let mut findings = Vec::new();
        for taken_back in votes::taken_back(&self.votes, &self.base) {
            if !self.liars.contains(&taken_back.signer) {
                let line = taken_back.to_string();
                findings.push(Finding {
                    check: Check::Votes,
                    line,
                });
            }
        }
        for (member, blocked) in self.blocked.iter().enumerate() {
            for other in blocked.difference(&self.liars) {
                let line = format!("member {member} blocks {other}");
                findings.push(Finding {
                    check: Check::Blocked,
                    line,
                });
            }
        }
        for member in self.convicted.symmetric_difference(&self.liars) {
            let line = format!("convicted {:?}, but {member}", self.convicted);
            findings.push(Finding {
                check: Check::Convicted,
                line,
            });
        }
        findings
    }
}
