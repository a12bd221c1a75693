//! What clients do: they put, get, delete and compare-and-set, and send again what wasn't answered.

use crate::client::{Attempt, Connections, Numbered};
use crate::history::{Happened, Operation, Recorder, Told};
use crate::random::Random;
use anyhow::{Context, Result, bail};
use serde::{Deserialize, Serialize};
use std::net::SocketAddr;
use std::sync::atomic::{AtomicU64, Ordering};
use std::sync::{Arc, Mutex, PoisonError};
use std::time::Duration;
use tokio::task::JoinSet;
use tokio::time::{Instant, sleep, timeout};

/// Calls on a key before the next one takes its place: so many a search bears, and a key's versions are
/// nearly all kept.
const CALLS_OF_A_KEY: u64 = 50;
/// Keys that are in use at a time.
const KEYS: u64 = 3;
/// Attempts of a request.
const ATTEMPTS: u32 = 4;
/// How long an attempt may take.
const WITHIN: Duration = Duration::from_millis(2_500);

/// How long a read at the end may take: the longest that the store waits.
const LAST_WITHIN: Duration = Duration::from_secs(60);

/// A value that was read in a member's state, without the log.
#[derive(Clone, Debug, PartialEq, Eq, Serialize, Deserialize)]
pub struct LocalRead {
    /// At which member.
    pub member: usize,
    /// Of which key.
    pub key: String,
    /// The view of the state.
    pub view: u64,
    /// The value.
    pub value: Option<String>,
}

/// What all clients share.
#[derive(Debug)]
pub struct Workload {
    /// Where the members answer that are to be correct.
    pub members: Vec<SocketAddr>,
    /// What they did and saw.
    pub recorder: Recorder,
    /// What they read without the log.
    pub local_reads: Mutex<Vec<LocalRead>>,
    connections: Connections,
    calls: AtomicU64,
    processes: AtomicU64,
}

impl Workload {
    /// Clients of these members.
    pub fn new(members: Vec<SocketAddr>) -> Workload {
        Workload {
            members,
            recorder: Recorder::default(),
            local_reads: Mutex::default(),
            connections: Connections::default(),
            calls: AtomicU64::new(0),
            processes: AtomicU64::new(0),
        }
    }

    /// The keys that were in use until now.
    pub fn keys(&self) -> Vec<String> {
        let generations = self.calls.load(Ordering::SeqCst) / (KEYS * CALLS_OF_A_KEY) + 1;
        (0..generations * KEYS).map(key_name).collect()
    }

    /// A key, in turn one of those in use.
    fn key(&self, random: &mut Random) -> String {
        let call = self.calls.fetch_add(1, Ordering::SeqCst);
        let generation = call / (KEYS * CALLS_OF_A_KEY);
        key_name(generation * KEYS + random.below(KEYS))
    }

    /// One client until the end, with a pause between its calls.
    pub async fn client(self: Arc<Self>, mut random: Random, until: Instant) {
        let mut client = Name::new(&self, &mut random);
        let mut last: Option<(String, Option<String>)> = None;
        while Instant::now() < until {
            let key = self.key(&mut random);
            let known = last
                .take()
                .filter(|(of, _)| *of == key)
                .map(|(_, value)| value);
            let operation = choose(&mut random, &client, known);
            match self.call(&mut client, &mut random, &key, &operation).await {
                Some(told) => last = left(&operation, told).map(|value| (key, value)),
                None => client = Name::new(&self, &mut random),
            }
            if random.percent(20) {
                self.read_locally(&mut random).await;
            }
            sleep(random.millis(1, 60)).await;
        }
    }

    /// One call, at any members; none where its end is unknown.
    async fn call(
        &self,
        client: &mut Name,
        random: &mut Random,
        key: &str,
        operation: &Operation,
    ) -> Option<Told> {
        client.number += 1;
        let invoke = Happened::Invoke {
            key: key.to_owned(),
            operation: operation.clone(),
        };
        self.recorder.record(client.process, invoke);
        let asked = Numbered {
            client: &client.digits,
            number: client.number,
            key,
            operation,
        };
        let end = self.attempts(random, &asked).await;
        let happened = match &end {
            Attempt::Done(told, view) => Happened::Ok {
                told: told.clone(),
                view: *view,
            },
            Attempt::Refused | Attempt::Never => Happened::Fail,
            // A get that wasn't answered changed nothing.
            Attempt::Unknown if *operation == Operation::Get => Happened::Fail,
            Attempt::Unknown => Happened::Info,
        };
        self.recorder.record(client.process, happened);
        match end {
            Attempt::Done(told, _) => Some(told),
            _ => None,
        }
    }

    /// The same request again and again, until something is known of it. What an attempt left unknown no
    /// later refusal makes known.
    async fn attempts(&self, random: &mut Random, asked: &Numbered<'_>) -> Attempt {
        let mut so_far = Attempt::Refused;
        for _ in 0..ATTEMPTS {
            let member = *random.of(&self.members);
            match self.connections.attempt(member, asked, WITHIN).await {
                done @ (Attempt::Done(..) | Attempt::Never) => return done,
                Attempt::Unknown => so_far = Attempt::Unknown,
                Attempt::Refused => {}
            }
            sleep(random.millis(10, 200)).await;
        }
        so_far
    }

    /// A read in a member's state. What can't be read now isn't recorded.
    async fn read_locally(&self, random: &mut Random) {
        let key = self.key(random);
        let member = random.below(self.members.len() as u64) as usize;
        let read = self
            .connections
            .read_local(self.members[member], &key, WITHIN)
            .await;
        if let Ok((view, value)) = read {
            let mut reads = self
                .local_reads
                .lock()
                .unwrap_or_else(PoisonError::into_inner);
            reads.push(LocalRead {
                member,
                key,
                view,
                value,
            });
        }
    }

    /// Has each member answer: a put through each, until it is answered.
    ///
    /// # Errors
    ///
    /// Where a member carries out no put within this time.
    pub async fn all_answer(
        self: &Arc<Self>,
        random: &mut Random,
        patience: Duration,
    ) -> Result<()> {
        let mut answers = JoinSet::new();
        for member in self.members.clone() {
            let answering = self.clone().answers(member, random.fork());
            answers.spawn(async move {
                let answered = timeout(patience, answering).await;
                answered.with_context(|| format!("{member} carries out nothing in {patience:?}"))
            });
        }
        while let Some(answered) = answers.join_next().await {
            answered??;
        }
        Ok(())
    }

    async fn answers(self: Arc<Self>, member: SocketAddr, mut random: Random) {
        let operation = Operation::Put("reached".to_owned());
        loop {
            let client = Name::new(&self, &mut random);
            let asked = Numbered {
                client: &client.digits,
                number: 1,
                key: "reached",
                operation: &operation,
            };
            let end = self.connections.attempt(member, &asked, WITHIN).await;
            if matches!(end, Attempt::Done(Told::Written, _)) {
                return;
            }
            sleep(Duration::from_millis(200)).await;
        }
    }

    /// Reads each key at each member through the log, as further calls of the history.
    ///
    /// # Errors
    ///
    /// Where a read isn't answered.
    pub async fn read_all(self: &Arc<Self>, random: &mut Random) -> Result<()> {
        let mut reads = JoinSet::new();
        for member in self.members.clone() {
            for key in self.keys() {
                let client = Name::new(self, random);
                reads.spawn(self.clone().read_at_end(client, member, key));
            }
        }
        while let Some(read) = reads.join_next().await {
            read??;
        }
        Ok(())
    }

    async fn read_at_end(
        self: Arc<Self>,
        client: Name,
        member: SocketAddr,
        key: String,
    ) -> Result<()> {
        let operation = Operation::Get;
        let invoke = Happened::Invoke {
            key: key.clone(),
            operation: Operation::Get,
        };
        self.recorder.record(client.process, invoke);
        let asked = Numbered {
            client: &client.digits,
            number: 1,
            key: &key,
            operation: &operation,
        };
        let end = Instant::now() + LAST_WITHIN;
        let answered = loop {
            match self.connections.attempt(member, &asked, LAST_WITHIN).await {
                // It wasn't taken in: a member has room for so many calls at a time.
                Attempt::Refused if Instant::now() < end => sleep(Duration::from_millis(200)).await,
                other => break other,
            }
        };
        match answered {
            Attempt::Done(told, view) => {
                self.recorder
                    .record(client.process, Happened::Ok { told, view });
                Ok(())
            }
            other => bail!("{member} answers {other:?} to a get of {key} at the end"),
        }
    }

    /// The connections to the members.
    pub fn connections(&self) -> &Connections {
        &self.connections
    }
}

fn key_name(number: u64) -> String {
    format!("k{number}")
}

/// A client's name, and its process in the history.
struct Name {
    process: u64,
    digits: String,
    number: u64,
}

impl Name {
    fn new(workload: &Workload, random: &mut Random) -> Name {
        let process = workload.processes.fetch_add(1, Ordering::SeqCst);
        let digits = format!("{process:016x}{:016x}", random.bits());
        Name {
            process,
            digits,
            number: 0,
        }
    }
}

/// No value comes twice: a read tells which write it saw.
fn choose(random: &mut Random, client: &Name, known: Option<Option<String>>) -> Operation {
    let fresh = format!("{}.{}", client.process, client.number + 1);
    match random.below(100) {
        0..40 => Operation::Get,
        40..70 => Operation::Put(fresh),
        70..80 => Operation::Delete,
        _ => {
            // What the key had last for this client, if it knows: that may be the case still.
            let expected = known.unwrap_or_else(|| random.percent(50).then(|| "0.0".to_owned()));
            let new = random.percent(80).then_some(fresh);
            Operation::CompareAndSet(expected, new)
        }
    }
}

/// What a key has behind a call, as far as the call tells.
fn left(operation: &Operation, told: Told) -> Option<Option<String>> {
    match (operation, told) {
        (_, Told::Read(value)) => Some(value),
        (Operation::Put(value), Told::Written) => Some(Some(value.clone())),
        (Operation::Delete, Told::Written) => Some(None),
        (Operation::CompareAndSet(_, new), Told::Written) => Some(new.clone()),
        _ => None,
    }
}
