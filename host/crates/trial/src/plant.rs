//! Faults that are put into what was seen, to know that the checks find them.

use crate::history::{Call, Happened, Operation, Told, calls};
use crate::random::Random;
use crate::seen::Seen;
use crate::votes::{Proposal, Subject, Vote};

/// A fault.
#[derive(Clone, Copy, Debug, PartialEq, Eq, clap::ValueEnum)]
pub enum Fault {
    /// An acknowledged write is gone: those who read it read what was before, and no member has it.
    LostWrite,
    /// Two writes, one behind the other, were carried out the other way round.
    ReorderedWrite,
    /// A member that is correct votes against a vote of its own.
    VoteTakenBack,
    /// A member carried out another block than the others.
    WrongBlock,
    /// One read is answered from an older state.
    StaleRead,
}

impl Fault {
    /// All of them.
    pub const ALL: [Fault; 5] = [
        Fault::LostWrite,
        Fault::ReorderedWrite,
        Fault::VoteTakenBack,
        Fault::WrongBlock,
        Fault::StaleRead,
    ];

    /// Puts the fault somewhere into what was seen: where, in words; none if there is no place for it.
    pub fn plant(self, seen: &mut Seen, random: &mut Random) -> Option<String> {
        match self {
            Fault::LostWrite => lose_write(seen, random),
            Fault::ReorderedWrite => reorder_writes(seen, random),
            Fault::VoteTakenBack => take_vote_back(seen, random),
            Fault::WrongBlock => change_block(seen, random),
            Fault::StaleRead => answer_stale(seen, random),
        }
    }
}

/// Two acknowledged writes of a key, the second behind the first, and a read of the second behind both.
struct Place {
    key: String,
    older: String,
    newer: String,
    /// Places of both ends in the history, and of the read's.
    ends: [usize; 3],
}

/// Where a write that was carried out begins and ends, and what it left.
fn write_of(call: &Call) -> Option<(usize, usize, &str)> {
    let end = call.end.as_ref().filter(|end| end.told == Told::Written)?;
    match &call.operation {
        Operation::Put(value) | Operation::CompareAndSet(_, Some(value)) => {
            Some((call.invoked, end.at, value))
        }
        _ => None,
    }
}

fn places(seen: &Seen) -> Vec<Place> {
    let mut found = Vec::new();
    for (key, calls) in calls(&seen.entries).unwrap_or_default() {
        let writes: Vec<_> = calls.iter().filter_map(write_of).collect();
        for read in &calls {
            let Some(end) = &read.end else { continue };
            let Told::Read(Some(value)) = &end.told else {
                continue;
            };
            let newer = writes
                .iter()
                .find(|write| write.2 == value && write.1 < read.invoked);
            let Some(newer) = newer else { continue };
            if let Some(older) = writes.iter().rfind(|write| write.1 < newer.0) {
                found.push(Place {
                    key: key.clone(),
                    older: older.2.to_owned(),
                    newer: value.clone(),
                    ends: [older.1, newer.1, end.at],
                });
            }
        }
    }
    found
}

fn a_place(seen: &Seen, random: &mut Random) -> Option<Place> {
    let mut places = places(seen);
    if places.is_empty() {
        return None;
    }
    let at = random.below(places.len() as u64) as usize;
    Some(places.swap_remove(at))
}

/// Has all reads of `from` tell `to`.
fn retell(seen: &mut Seen, from: &str, to: &str) {
    for entry in &mut seen.entries {
        if let Happened::Ok {
            told: Told::Read(Some(value)),
            ..
        } = &mut entry.happened
            && value == from
        {
            to.clone_into(value);
        }
    }
}

fn view_at(seen: &mut Seen, at: usize) -> Option<&mut u64> {
    match &mut seen.entries[at].happened {
        Happened::Ok { view, .. } => Some(view),
        _ => None,
    }
}

fn lose_write(seen: &mut Seen, random: &mut Random) -> Option<String> {
    let Place {
        key, older, newer, ..
    } = a_place(seen, random)?;
    retell(seen, &newer, &older);
    for versions in &mut seen.versions {
        if let Some(kept) = versions.get_mut(&key) {
            kept.versions
                .retain(|version| version.value.as_deref() != Some(&newer));
        }
    }
    Some(format!("{key}: {newer} is lost, {older} is read"))
}

fn reorder_writes(seen: &mut Seen, random: &mut Random) -> Option<String> {
    let Place {
        key,
        older,
        newer,
        ends,
    } = a_place(seen, random)?;
    retell(seen, &newer, &older);
    let [first, second] = [*view_at(seen, ends[0])?, *view_at(seen, ends[1])?];
    *view_at(seen, ends[0])? = second;
    *view_at(seen, ends[1])? = first;
    for kept in seen
        .versions
        .iter_mut()
        .filter_map(|versions| versions.get_mut(&key))
    {
        for version in &mut kept.versions {
            match version.value.as_mut() {
                Some(value) if *value == older => newer.clone_into(value),
                Some(value) if *value == newer => older.clone_into(value),
                _ => {}
            }
        }
    }
    Some(format!("{key}: {newer} stands before {older}"))
}

fn answer_stale(seen: &mut Seen, random: &mut Random) -> Option<String> {
    let Place {
        key,
        older,
        newer,
        ends,
    } = a_place(seen, random)?;
    if let Happened::Ok {
        told: Told::Read(Some(value)),
        ..
    } = &mut seen.entries[ends[2]].happened
    {
        older.clone_into(value);
    }
    Some(format!(
        "{key}: line {} reads {older}, and {newer} was written",
        ends[2]
    ))
}

fn take_vote_back(seen: &mut Seen, random: &mut Random) -> Option<String> {
    let is_correct = |vote: &&Vote| !seen.liars.contains(&vote.signer);
    let votes: Vec<Vote> = seen.votes.iter().filter(is_correct).cloned().collect();
    let vote = votes.get(random.below(votes.len().max(1) as u64) as usize)?;
    let other = Proposal {
        parent: 0,
        payload: [random.bits() as u8; 32],
    };
    let against = match vote.subject {
        Subject::Notarize(_) => Subject::Notarize(other),
        Subject::Nullify => Subject::Finalize(other),
        Subject::Finalize(_) => Subject::Nullify,
    };
    let Vote {
        epoch,
        view,
        signer,
        ..
    } = *vote;
    let base = seen.base.clone();
    seen.votes
        .push(Vote::attested(&base, epoch, view, signer, against));
    Some(format!(
        "member {signer} takes its vote of view {view} back"
    ))
}

fn change_block(seen: &mut Seen, random: &mut Random) -> Option<String> {
    // A block that another member has too, not the last one alone.
    let members = seen.chains.len() as u64;
    let member = random.below(members.max(1)) as usize;
    let others = seen
        .chains
        .iter()
        .enumerate()
        .filter(|(other, _)| *other != member);
    let views: Vec<u64> = others
        .flat_map(|(_, chain)| chain.iter().map(|link| link.view))
        .collect();
    let chain = seen.chains.get_mut(member)?;
    let shared: Vec<usize> = (0..chain.len())
        .filter(|at| views.contains(&chain[*at].view))
        .collect();
    let at = *shared.get(random.below(shared.len().max(1) as u64) as usize)?;
    let another = |text: &str| text.chars().rev().chain(['f']).collect::<String>();
    chain[at].payload = another(&chain[at].payload);
    for link in &mut chain[at..] {
        link.chain = another(&link.chain);
    }
    Some(format!(
        "member {member} has another block in view {}",
        chain[at].view
    ))
}

#[cfg(test)]
mod tests {
    use super::*;
    use crate::seen::Check;
    use crate::simulated::simulate;
    use std::collections::BTreeSet;

    #[test]
    fn without_a_fault_nothing_is_found() {
        for seed in 0..12 {
            let seen = simulate(seed);
            assert!(seen.entries.len() > 100, "seed {seed}");
            assert_eq!(seen.findings(), [], "seed {seed}");
        }
    }

    /// Each fault is found wherever it is planted, and by the check that is to find it.
    #[test]
    fn each_planted_fault_is_found() {
        let expected = [
            (
                Fault::LostWrite,
                vec![Check::Linearizable, Check::Acknowledged],
            ),
            (
                Fault::ReorderedWrite,
                vec![Check::Linearizable, Check::Order],
            ),
            (Fault::VoteTakenBack, vec![Check::Votes]),
            (Fault::WrongBlock, vec![Check::Blocks]),
            (Fault::StaleRead, vec![Check::Linearizable]),
        ];
        assert_eq!(expected.each_ref().map(|(fault, _)| *fault), Fault::ALL);
        for (fault, checks) in expected {
            for seed in 0..12 {
                let mut seen = simulate(seed);
                let mut random = Random::new(seed);
                let place = fault
                    .plant(&mut seen, &mut random)
                    .expect("there is a place for it");
                let failed = seen.failed();
                let expected: BTreeSet<Check> = checks.iter().copied().collect();
                assert!(
                    failed.is_superset(&expected),
                    "seed {seed}, {place}: {failed:?}"
                );
            }
        }
    }

    /// What a single check looks at is planted alone: no other one has to help.
    #[test]
    fn order_and_acknowledgements_are_found_without_a_read() {
        for seed in 0..20 {
            let mut seen = simulate(seed);
            let place = a_place(&seen, &mut Random::new(seed)).unwrap();
            for versions in &mut seen.versions {
                let kept = versions.get_mut(&place.key).unwrap();
                kept.versions
                    .retain(|version| version.value.as_deref() != Some(&place.newer));
            }
            assert_eq!(
                seen.failed(),
                BTreeSet::from([Check::Acknowledged]),
                "seed {seed}"
            );
            let mut seen = simulate(seed);
            let first = *view_at(&mut seen, place.ends[0]).unwrap();
            *view_at(&mut seen, place.ends[2]).unwrap() = first;
            assert_eq!(seen.failed(), BTreeSet::from([Check::Order]), "seed {seed}");
        }
    }

    #[test]
    fn a_liar_has_to_be_convicted_and_nobody_else_may_be() {
        let mut seen = simulate(1);
        seen.liars.insert(3);
        assert_eq!(seen.failed(), BTreeSet::from([Check::Convicted]));
        seen.convicted.insert(3);
        seen.blocked[0].insert(3);
        assert_eq!(seen.findings(), []);
        seen.convicted.insert(2);
        assert_eq!(seen.failed(), BTreeSet::from([Check::Convicted]));
        seen.blocked[1].insert(0);
        assert_eq!(
            seen.failed(),
            BTreeSet::from([Check::Convicted, Check::Blocked])
        );
    }

    #[test]
    fn nothing_is_planted_where_there_is_no_place() {
        for fault in Fault::ALL {
            let mut seen = Seen::default();
            assert_eq!(fault.plant(&mut seen, &mut Random::new(1)), None);
            assert_eq!(seen, Seen::default());
        }
    }
}
