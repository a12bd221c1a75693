//! One trial: a committee, clients, faults by seed, and what was seen.

use crate::committee::{Committee, Lie, Programs};
use crate::history::Happened;
use crate::nemesis::{self, Done, Shared};
use crate::random::Random;
use crate::seen::{Check, Finding, Seen};
use crate::votes;
use crate::workload::Workload;
use anyhow::{Context, Result, ensure};
use serde::Deserialize;
use std::collections::{BTreeMap, BTreeSet};
use std::fmt;
use std::path::{Path, PathBuf};
use std::process::Command;
use std::sync::Arc;
use std::time::Duration;
use tokio::sync::Mutex;
use tokio::time::{Instant, sleep};
use voumlis_core::judge::is_signed;
use voumlis_core::reports::read_all;
use voumlisd::settings::Members;

/// What a trial is.
#[derive(Clone, Debug)]
pub struct Plan {
    /// By which all faults and all calls are chosen.
    pub seed: u64,
    /// How long things go wrong.
    pub span: Duration,
    /// How many members.
    pub members: u16,
    /// How many clients at a time.
    pub clients: usize,
    /// Which member lies, and how, if one does.
    pub liar: Option<(usize, Lie)>,
    /// How long the start may take, and how long the end.
    pub patience: Duration,
    /// Where all of it is kept.
    pub folder: PathBuf,
    /// What is run.
    pub programs: Programs,
}

/// What a trial came to.
#[derive(Debug)]
pub struct Outcome {
    /// Its seed.
    pub seed: u64,
    /// What was seen.
    pub seen: Seen,
    /// What went wrong on purpose.
    pub done: Done,
    /// What shouldn't be.
    pub findings: Vec<Finding>,
    /// The highest view that a block came from.
    pub view: u64,
}

impl fmt::Display for Outcome {
    fn fmt(&self, f: &mut fmt::Formatter<'_>) -> fmt::Result {
        let count = |is: fn(&Happened) -> bool| {
            self.seen.entries.iter().filter(|e| is(&e.happened)).count()
        };
        write!(
            f,
            "seed {}: {} calls, {} answered, {} refused, {} unknown; {} local reads; view {}",
            self.seed,
            count(|h| matches!(h, Happened::Invoke { .. })),
            count(|h| matches!(h, Happened::Ok { .. })),
            count(|h| matches!(h, Happened::Fail)),
            count(|h| matches!(h, Happened::Info)),
            self.seen.local_reads.len(),
            self.view,
        )?;
        let done = self
            .done
            .iter()
            .map(|(what, times)| format!("{what} {times}"));
        write!(f, "; {}", done.collect::<Vec<_>>().join(", "))?;
        if !self.seen.liars.is_empty() {
            write!(
                f,
                "; liar {:?}, convicted {:?}",
                self.seen.liars, self.seen.convicted
            )?;
        }
        match self.findings.len() {
            0 => write!(f, ": nothing found"),
            more => write!(f, ": {more} FOUND"),
        }
    }
}

/// Runs a trial.
///
/// # Errors
///
/// Where it can't be run: what the committee does wrong is a finding.
pub async fn run(plan: &Plan) -> Result<Outcome> {
    let mut random = Random::new(plan.seed);
    let mut committee = Committee::make(
        &plan.folder,
        plan.programs.clone(),
        plan.members,
        plan.liar,
        plan.seed,
    )
    .await?;
    (0..committee.size()).try_for_each(|member| committee.start(member))?;
    let correct = committee.correct();
    let addresses = correct.iter().map(|member| committee.http(*member));
    let workload = Arc::new(Workload::new(addresses.collect()));
    let shared: Shared = Arc::new(Mutex::new(committee));
    let started = workload.all_answer(&mut random, plan.patience).await;
    started.context("at the start")?;

    let ended = Ended::default();
    let supervisor = tokio::spawn(supervise(shared.clone(), ended.clone()));
    let done = disturb(plan, &shared, &workload, &mut random).await?;
    let (mut findings, mut seen) = (Vec::new(), Seen::default());
    // Whatever was killed is there again, and every link: now all have to answer.
    match workload.all_answer(&mut random, plan.patience).await {
        Err(why) => findings.push(Finding::new(Check::Progress, why)),
        Ok(()) => gather(&workload, &mut random, &mut seen, plan.patience).await?,
    }
    supervisor.abort();
    let mut committee = shared.lock().await;
    let mut wrong = committee.stop()?;
    wrong.append(&mut *ended.lock().await);
    findings.extend(
        wrong
            .into_iter()
            .map(|line| Finding::new(Check::Ended, line)),
    );
    seen.entries = workload.recorder.entries();
    seen.liars = plan.liar.iter().map(|(liar, _)| *liar as u32).collect();
    judge(&committee, &correct, &mut seen)?;
    findings.extend(seen.findings());
    Ok(Outcome {
        seed: plan.seed,
        view: last_view(&seen),
        seen,
        done,
        findings,
    })
}

fn last_view(seen: &Seen) -> u64 {
    let last = seen.chains.iter().filter_map(|chain| chain.last());
    last.map(|link| link.view).max().unwrap_or(0)
}

/// What members that ended by themselves said.
type Ended = Arc<Mutex<Vec<String>>>;

/// Members that end by themselves are started again, and told: none should.
async fn supervise(committee: Shared, ended: Ended) {
    loop {
        sleep(Duration::from_millis(500)).await;
        if let Ok(more) = committee.lock().await.revive() {
            let lines = more
                .into_iter()
                .map(|(member, how)| format!("member {member} ended: {how}"));
            ended.lock().await.extend(lines);
        }
    }
}

/// Clients, and what goes wrong meanwhile.
async fn disturb(
    plan: &Plan,
    committee: &Shared,
    workload: &Arc<Workload>,
    random: &mut Random,
) -> Result<Done> {
    let until = Instant::now() + plan.span;
    let clients: Vec<_> = (0..plan.clients)
        .map(|_| tokio::spawn(workload.clone().client(random.fork(), until)))
        .collect();
    let processes = tokio::spawn(nemesis::of_processes(
        committee.clone(),
        random.fork(),
        until,
    ));
    let links = tokio::spawn(nemesis::of_links(committee.clone(), random.fork(), until));
    let mut done = processes.await??;
    done.extend(links.await?);
    for client in clients {
        client.await?;
    }
    Ok(done)
}

#[derive(Deserialize)]
struct Status {
    blocked: BTreeMap<u32, String>,
}

/// Reads all that there is to compare, when all members answer.
async fn gather(
    workload: &Arc<Workload>,
    random: &mut Random,
    seen: &mut Seen,
    within: Duration,
) -> Result<()> {
    workload.read_all(random).await?;
    // The longest that a member waits for a view.
    let within = within.min(Duration::from_secs(60));
    let views = workload
        .recorder
        .entries()
        .into_iter()
        .filter_map(|entry| match entry.happened {
            Happened::Ok { view, .. } => Some(view),
            _ => None,
        });
    let last = views.max().context("nothing was answered")?;
    for member in &workload.members {
        let mut versions = BTreeMap::new();
        for key in workload.keys() {
            let of_key = workload
                .connections()
                .versions(*member, &key, last, within)
                .await?;
            versions.insert(key, of_key);
        }
        seen.versions.push(versions);
    }
    for member in &workload.members {
        let status: Status = workload
            .connections()
            .get_json(*member, "/status", within)
            .await?;
        seen.blocked.push(status.blocked.into_keys().collect());
        seen.chains
            .push(workload.connections().chain(*member, within).await?);
    }
    seen.local_reads =
        std::mem::take(&mut *workload.local_reads.lock().expect("no client panicked"));
    Ok(())
}

/// The votes in the files of the members that don't lie, and what the judge says by these files alone.
fn judge(committee: &Committee, correct: &[usize], seen: &mut Seen) -> Result<()> {
    let keys = Members::read(&committee.list())?.committee()?;
    let files: Vec<PathBuf> = correct
        .iter()
        .map(|member| committee.reports(*member))
        .collect();
    seen.base = voumlis_core::plain::BASE.into();
    let mut votes_seen = BTreeSet::new();
    for file in &files {
        let (reports, _) = read_all(&std::fs::read(file)?);
        for signed in reports.iter().filter(|signed| is_signed(&keys, signed)) {
            let votes = votes::read(&signed.plain, committee.size() as u32);
            votes_seen
                .extend(votes.map_err(|fault| anyhow::anyhow!("a report isn't read: {fault:?}"))?);
        }
    }
    seen.votes = votes_seen.into_iter().collect();
    seen.convicted = convicted(committee, &files)?;
    Ok(())
}

fn convicted(committee: &Committee, files: &[PathBuf]) -> Result<BTreeSet<u32>> {
    let programs = committee.programs();
    let judged = Command::new(&programs.kv)
        .arg("judge")
        .args(files)
        .arg(committee.list())
        .arg("--program")
        .arg(&programs.simplex)
        .output()?;
    let said = String::from_utf8(judged.stdout)?;
    let error = String::from_utf8_lossy(&judged.stderr);
    ensure!(
        matches!(judged.status.code(), Some(0 | 3)),
        "judge: {} {error}",
        judged.status
    );
    let convicted: BTreeSet<u32> = said.lines().filter_map(member_named).collect();
    ensure!(
        (judged.status.code() == Some(3)) != convicted.is_empty(),
        "judge: {said}"
    );
    Ok(convicted)
}

/// Whom a line of the judge convicts.
fn member_named(line: &str) -> Option<u32> {
    line.strip_prefix("member ")?
        .split_once(' ')?
        .0
        .parse()
        .ok()
}

/// Writes what was seen.
///
/// # Errors
///
/// Those of the file.
pub fn write(seen: &Seen, path: &Path) -> Result<()> {
    let file = std::io::BufWriter::new(std::fs::File::create(path)?);
    Ok(serde_json::to_writer(file, seen)?)
}

/// Reads what was seen.
///
/// # Errors
///
/// Those of the file.
pub fn read(path: &Path) -> Result<Seen> {
    let file = std::io::BufReader::new(std::fs::File::open(path)?);
    serde_json::from_reader(file).with_context(|| path.display().to_string())
}
