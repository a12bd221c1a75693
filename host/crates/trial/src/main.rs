//! `trial run` tries a committee, `trial check` looks at what was seen, with a planted fault or without.

use anyhow::{Context, Result, bail};
use clap::{Parser, Subcommand, ValueEnum};
use std::path::{Path, PathBuf};
use std::process::ExitCode;
use std::time::Duration;
use tokio::signal::unix::{SignalKind, signal};
use trial::committee::{Lie, Programs};
use trial::plant::Fault;
use trial::random::Random;
use trial::run::Plan;

/// Trials of a committee of real processes on this machine.
#[derive(Parser)]
struct Words {
    #[command(subcommand)]
    command: Command,
}

#[derive(Subcommand)]
enum Command {
    /// Run trials: one a seed. Status 3 where something was found.
    Run(Run),
    /// Check what was seen in a trial. Status 3 where something is found.
    Check {
        /// The file `seen.json` of a trial.
        file: PathBuf,
        /// Put this fault into it first.
        #[arg(long)]
        plant: Option<Fault>,
        /// Where the fault is put.
        #[arg(long, default_value_t = 1)]
        seed: u64,
    },
}

#[derive(clap::Args)]
struct Run {
    /// The first seed.
    #[arg(long, default_value_t = 1)]
    seed: u64,
    /// How many seeds.
    #[arg(long, default_value_t = 1)]
    seeds: u64,
    /// For how many seconds things go wrong.
    #[arg(long, default_value_t = 60)]
    seconds: u64,
    /// Members.
    #[arg(long, default_value_t = 4)]
    members: u16,
    /// Clients at a time.
    #[arg(long, default_value_t = 8)]
    clients: usize,
    /// Have a member lie so; without a word, the seed decides who lies, how, and whether.
    #[arg(long)]
    lie: Option<Lie>,
    /// No member lies.
    #[arg(long, conflicts_with = "lie")]
    honest: bool,
    /// For how many seconds a start, or an end, is waited.
    #[arg(long, default_value_t = 120)]
    patience: u64,
    /// Where all of it is kept: a folder for each seed, with the members' files where something was found.
    #[arg(long)]
    folder: PathBuf,
    /// The program `simplex`, for audits.
    #[arg(long)]
    simplex: PathBuf,
    /// The program `simplex_tool`, which runs the nodes; else the one beside `simplex`.
    #[arg(long)]
    tool: Option<PathBuf>,
    /// The folder of the programs `kv` and `liar`; else that of this program.
    #[arg(long)]
    programs: Option<PathBuf>,
}

impl Run {
    fn programs(&self) -> Result<Programs> {
        let own = std::env::current_exe()?;
        let folder = match &self.programs {
            Some(folder) => folder.clone(),
            None => own
                .parent()
                .context("this program is in a folder")?
                .to_owned(),
        };
        let beside = self.simplex.with_file_name("simplex_tool");
        let programs = Programs {
            kv: folder.join("kv"),
            liar: folder.join("liar"),
            simplex: self.simplex.clone(),
            tool: self.tool.clone().unwrap_or(beside),
        };
        for program in [
            &programs.kv,
            &programs.liar,
            &programs.simplex,
            &programs.tool,
        ] {
            if !program.exists() {
                bail!("there is no program {}", program.display());
            }
        }
        Ok(programs)
    }

    /// Three seeds in four have a liar: each kind of lie, and no lie, come in turn.
    fn liar(&self, seed: u64) -> Option<(usize, Lie)> {
        let lies = Lie::value_variants();
        let who = Random::new(seed).below(self.members.into()) as usize;
        let by_seed = lies.get(seed as usize % (lies.len() + 1)).copied();
        let lie = self.lie.or(by_seed).filter(|_| !self.honest)?;
        Some((who, lie))
    }

    fn plan(&self, seed: u64) -> Result<Plan> {
        Ok(Plan {
            seed,
            span: Duration::from_secs(self.seconds),
            members: self.members,
            clients: self.clients,
            liar: self.liar(seed),
            patience: Duration::from_secs(self.patience),
            folder: self.folder.join(format!("seed-{seed}")),
            programs: self.programs()?,
        })
    }

    /// Whether nothing was found.
    async fn run(&self) -> Result<bool> {
        let mut is_clear = true;
        for seed in self.seed..self.seed + self.seeds {
            let plan = self.plan(seed)?;
            let members = plan.folder.join("members");
            std::fs::create_dir_all(&plan.folder)?;
            let seen = plan.folder.join("seen.json");
            let outcome = trial::run::run(&Plan {
                folder: members.clone(),
                ..plan
            })
            .await;
            let outcome = outcome.with_context(|| format!("seed {seed}"))?;
            trial::run::write(&outcome.seen, &seen)?;
            println!("{outcome}");
            outcome
                .findings
                .iter()
                .for_each(|finding| println!("    {finding}"));
            if outcome.findings.is_empty() {
                std::fs::remove_dir_all(&members)?;
            }
            is_clear &= outcome.findings.is_empty();
        }
        Ok(is_clear)
    }
}

fn check(file: &Path, plant: Option<Fault>, seed: u64) -> Result<bool> {
    let mut seen = trial::run::read(file)?;
    if let Some(fault) = plant {
        let place = fault.plant(&mut seen, &mut Random::new(seed));
        println!(
            "planted: {}",
            place.context("there is no place for this fault")?
        );
    }
    let findings = seen.findings();
    findings.iter().for_each(|finding| println!("{finding}"));
    println!("{} found", findings.len());
    Ok(findings.is_empty())
}

/// Runs trials until they are done, or a signal ends them: their processes are killed then.
fn run(words: &Run) -> Result<bool> {
    let runtime = tokio::runtime::Runtime::new()?;
    runtime.block_on(async {
        let mut terminate = signal(SignalKind::terminate())?;
        tokio::select! {
            is_clear = words.run() => is_clear,
            _ = terminate.recv() => bail!("stopped by SIGTERM"),
            _ = tokio::signal::ctrl_c() => bail!("stopped by SIGINT"),
        }
    })
}

fn main() -> ExitCode {
    let is_clear = match Words::parse().command {
        Command::Run(words) => run(&words),
        Command::Check { file, plant, seed } => check(&file, plant, seed),
    };
    match is_clear {
        Ok(true) => ExitCode::SUCCESS,
        Ok(false) => ExitCode::from(3),
        Err(error) => {
            eprintln!("error: {error:#}");
            ExitCode::FAILURE
        }
    }
}
