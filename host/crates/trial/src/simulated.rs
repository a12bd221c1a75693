//! What would be seen of a committee without a fault, by seed, for the checks' own tests.

use crate::acknowledged::{Version, Versions};
use crate::chains::Link;
use crate::history::{Happened, Operation, Recorder, Told};
use crate::random::Random;
use crate::seen::Seen;
use crate::votes::{Proposal, Subject, Vote};
use std::collections::BTreeMap;

const MEMBERS: usize = 3;
const BASE: &[u8] = b"simplex";

/// A client between two steps.
enum Client {
    Idle,
    /// It asked, and the block comes.
    Asked(String, Operation),
    /// The block was carried out, and the answer is on its way.
    Answered(Told, u64),
}

#[derive(Default)]
struct Store {
    versions: BTreeMap<String, Versions>,
    chain: Vec<Link>,
    votes: Vec<Vote>,
    view: u64,
}

impl Store {
    /// A block of one request, in the next view or one of those behind it.
    fn carry_out(&mut self, random: &mut Random, key: &str, operation: &Operation) -> (Told, u64) {
        self.view += 1 + random.below(3);
        let payload = [self.view as u8; 32];
        let (view, chain) = (self.view, format!("chain {}", self.view));
        self.chain.push(Link {
            view,
            payload: hex::encode(payload),
            chain,
        });
        let proposal = Proposal {
            parent: view - 1,
            payload,
        };
        for signer in 0..MEMBERS as u32 {
            for subject in [
                Subject::Notarize(proposal.clone()),
                Subject::Finalize(proposal.clone()),
            ] {
                self.votes
                    .push(Vote::attested(BASE, 0, view, signer, subject));
            }
        }
        let kept = self.versions.entry(key.to_owned()).or_default();
        let value = kept
            .versions
            .last()
            .and_then(|version| version.value.clone());
        let written = match operation {
            Operation::Get => return (Told::Read(value), view),
            Operation::CompareAndSet(expected, _) if *expected != value => {
                return (Told::Mismatch, view);
            }
            Operation::Put(new) => Some(new.clone()),
            Operation::Delete => None,
            Operation::CompareAndSet(_, new) => new.clone(),
        };
        kept.versions.push(Version {
            view,
            position: 0,
            value: written,
        });
        (Told::Written, view)
    }

    fn value(&self, key: &str) -> Option<String> {
        self.versions.get(key)?.versions.last()?.value.clone()
    }
}

fn choose(random: &mut Random, store: &Store, key: &str, count: usize) -> Operation {
    match random.below(10) {
        0..=3 => Operation::Get,
        4..=7 => Operation::Put(format!("v{count}")),
        8 => {
            let expected = if random.percent(70) {
                store.value(key)
            } else {
                None
            };
            Operation::CompareAndSet(expected, Some(format!("v{count}")))
        }
        _ => Operation::Delete,
    }
}

/// Some clients, some keys, some unknown ends.
pub fn simulate(seed: u64) -> Seen {
    let mut random = Random::new(seed);
    let (mut store, recorder) = (Store::default(), Recorder::default());
    let mut clients: Vec<(u64, Client)> = (0..5).map(|process| (process, Client::Idle)).collect();
    let mut processes = 5;
    for count in 0..400 {
        let at = random.below(5) as usize;
        let (process, client) = &mut clients[at];
        *client = match std::mem::replace(client, Client::Idle) {
            Client::Idle => {
                let key = (*random.of(&["a", "b"])).to_owned();
                let operation = choose(&mut random, &store, &key, count);
                let invoke = Happened::Invoke {
                    key: key.clone(),
                    operation: operation.clone(),
                };
                recorder.record(*process, invoke);
                Client::Asked(key, operation)
            }
            Client::Asked(key, operation) if random.percent(97) => {
                let (told, view) = store.carry_out(&mut random, &key, &operation);
                Client::Answered(told, view)
            }
            Client::Answered(told, view) if random.percent(97) => {
                recorder.record(*process, Happened::Ok { told, view });
                Client::Idle
            }
            // It is given up: nobody tells whether it was carried out.
            _ => {
                recorder.record(*process, Happened::Info);
                *process = processes;
                processes += 1;
                Client::Idle
            }
        };
    }
    Seen {
        base: BASE.to_vec(),
        entries: recorder.entries(),
        chains: vec![store.chain; MEMBERS],
        versions: vec![store.versions; MEMBERS],
        votes: store.votes,
        blocked: vec![Default::default(); MEMBERS],
        ..Seen::default()
    }
}
