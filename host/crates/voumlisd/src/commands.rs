//! What is said on the command line.

use crate::member::{self, Service};
use crate::settings::{self, Limits, Members, Paces, Place, RECORD, SETTINGS, Settings, Times};
use anyhow::{Context, Result, bail, ensure};
use clap::{Parser, Subcommand};
use std::fs;
use std::net::{IpAddr, Ipv4Addr, SocketAddr};
use std::os::unix::fs::DirBuilderExt;
use std::path::{Path, PathBuf};
use std::process::{self, ExitCode, Output, Stdio};
use tracing::{Level, warn};
use tracing_subscriber::filter::Targets;
use tracing_subscriber::layer::{Layer as _, SubscriberExt as _};
use tracing_subscriber::{fmt, util::SubscriberInitExt as _};
use voumlis_core::committee::{Committee, SecretKey};
use voumlis_core::judge::{Judgement, judge};
use voumlis_core::member::NodeSettings;
use voumlis_core::plain::BASE;
use voumlis_core::reports::{SignedReport, aside, read_all};

/// One member of a committee, over a record on a disk.
#[derive(Parser)]
#[command(version)]
struct Words {
    #[command(subcommand)]
    command: Command,
}

#[derive(Subcommand)]
enum Command {
    /// Make a new secret key in a new file of mode 0600, and print its public key.
    Keygen {
        /// The file.
        file: PathBuf,
    },
    /// Make the folders of a committee on one machine: a key and settings each, and the list of the members.
    Init {
        /// The folder of the folders: a new one, or an empty one.
        folder: PathBuf,
        /// How many members.
        #[arg(long, default_value_t = 4)]
        members: u16,
        /// The address at which all of them listen for their peers. HTTP, which has no key, is at the loopback.
        #[arg(long, default_value = "127.0.0.1")]
        host: IpAddr,
        /// The first port: of each member one for peers, and behind all of these one for HTTP.
        #[arg(long, default_value_t = 7100)]
        port: u16,
        /// The program `simplex`, for audits.
        #[arg(long)]
        program: PathBuf,
        /// The program `simplex_tool`, which runs the nodes; else the one beside `simplex`.
        #[arg(long)]
        tool: Option<PathBuf>,
        /// A file of settings, as `simplex_tool settings` reads it, by which all nodes are set up.
        #[arg(long)]
        node: Option<PathBuf>,
        /// Have the node as the library in the process.
        #[arg(long)]
        library: bool,
        /// Have applications in other processes: that of member 0 answers at this port of the same address, and so on.
        #[arg(long)]
        applications: Option<u16>,
    },
    /// Say whether a member can work with the settings of its folder, and warn of what they don't bear.
    Check {
        /// The folder.
        folder: PathBuf,
    },
    /// Run the member of a folder until SIGTERM or SIGINT.
    Run {
        /// The folder.
        folder: PathBuf,
    },
    /// Print what a running member tells of itself.
    Status {
        /// The folder.
        folder: PathBuf,
    },
    /// Say who lied, by reports with signatures and the members' public keys: status 3 where somebody did.
    Judge {
        /// Files of reports, and behind them a file that lists the members: settings, or what init made.
        #[arg(required = true, num_args = 2..)]
        files: Vec<PathBuf>,
        /// The program `simplex`.
        #[arg(long)]
        program: PathBuf,
    },
    /// Say who lied, by the reports of members' folders.
    Audit {
        /// The folders.
        #[arg(required = true)]
        folders: Vec<PathBuf>,
    },
}

/// Does what the words of the command line say, with this service for `run`.
pub fn command_line(make: impl FnOnce(&Settings) -> Result<Service>) -> ExitCode {
    let words = Words::parse();
    log_to_standard_error();
    match carry_out(words.command, make) {
        Ok(code) => code,
        Err(error) => {
            eprintln!("error: {error:#}");
            ExitCode::FAILURE
        }
    }
}

/// Libraries of which nothing below the level info is logged: what they tell of each request drowns all else.
const TALKATIVE: [&str; 2] = ["hyper", "rustls"];

/// Logs at the level that `VOUMLIS_LOG` names: error, warn, info, debug or trace.
fn log_to_standard_error() {
    let named = std::env::var("VOUMLIS_LOG").ok();
    let level = named.as_deref().map_or(Ok(Level::INFO), str::parse);
    let is_known = level.is_ok();
    let level = level.unwrap_or(Level::INFO);
    let limits = TALKATIVE.map(|name| (name, level.min(Level::INFO)));
    let targets = Targets::new().with_default(level).with_targets(limits);
    let lines = fmt::layer().with_writer(std::io::stderr).with_ansi(false);
    tracing_subscriber::registry()
        .with(lines.with_filter(targets))
        .init();
    if !is_known {
        warn!(?named, "VOUMLIS_LOG names no level: it is taken for info");
    }
}

fn carry_out(
    command: Command,
    make: impl FnOnce(&Settings) -> Result<Service>,
) -> Result<ExitCode> {
    match command {
        Command::Keygen { file } => keygen(&file)?,
        Command::Init {
            folder,
            members,
            host,
            port,
            program,
            tool,
            node,
            library,
            applications,
        } => {
            let first = port;
            let ports = Ports {
                host,
                first,
                applications,
            };
            let nodes = Nodes {
                program,
                tool,
                file: node,
                library,
            };
            init(&folder, members, &ports, &nodes)?;
        }
        Command::Check { folder } => check(&folder)?,
        Command::Run { folder } => member::run(&folder, make)?,
        Command::Status { folder } => println!("{}", status(&folder)?),
        Command::Judge { mut files, program } => {
            let members = files.pop().context("a file that lists the members")?;
            let members = Members::read(&members)?;
            audits_over(&members.node)?;
            return judged(&members.committee()?, &files, &program);
        }
        Command::Audit { folders } => {
            let settings = Settings::read(&folders[0])?;
            audits_over(&settings.node)?;
            let logs = folders.iter().map(|one| one.join("reports"));
            let files: Vec<PathBuf> = logs
                .flat_map(|log| [Some(aside(&log)).filter(|old| old.exists()), Some(log)])
                .flatten()
                .collect();
            return judged(&settings.committee()?, &files, &settings.program);
        }
    }
    Ok(ExitCode::SUCCESS)
}

fn keygen(file: &Path) -> Result<()> {
    let key = SecretKey::generate()?;
    key.write(file)?;
    println!("{}", hex::encode(key.public()));
    Ok(())
}

/// The addresses of a committee on one machine.
struct Ports {
    host: IpAddr,
    first: u16,
    applications: Option<u16>,
}

impl Ports {
    fn at(&self, place: u32) -> Result<SocketAddr> {
        self.behind(self.first, place)
    }

    /// Where this place's HTTP is: nobody but this machine reaches it until the settings say otherwise.
    fn http(&self, place: u32) -> Result<SocketAddr> {
        let mut address = self.at(place)?;
        if !self.host.is_loopback() {
            address.set_ip(Ipv4Addr::LOCALHOST.into());
        }
        Ok(address)
    }

    /// Where the application of this member answers, if it is one in another process.
    fn application(&self, member: u32) -> Result<Option<SocketAddr>> {
        self.applications
            .map(|first| self.behind(first, member))
            .transpose()
    }

    fn behind(&self, first: u16, place: u32) -> Result<SocketAddr> {
        let port = u32::from(first) + place;
        let port = u16::try_from(port).context("there are no such ports")?;
        Ok(SocketAddr::new(self.host, port))
    }
}

/// What runs the nodes of a new committee, and how they are set up.
struct Nodes {
    program: PathBuf,
    tool: Option<PathBuf>,
    file: Option<PathBuf>,
    library: bool,
}

/// The whole path of a file that is there.
fn whole(path: &Path) -> Result<PathBuf> {
    fs::canonicalize(path).with_context(|| path.display().to_string())
}

fn init(folder: &Path, members: u16, ports: &Ports, nodes: &Nodes) -> Result<()> {
    ensure!(members > 0, "a committee has a member");
    let program = whole(&nodes.program)?;
    let tool = nodes.tool.as_deref().map(whole).transpose()?;
    let node = match &nodes.file {
        Some(file) => settings::node_of(file)?,
        None => NodeSettings::default(),
    };
    fs::create_dir_all(folder)?;
    ensure!(
        fs::read_dir(folder)?.next().is_none(),
        "{} isn't empty: keys and records are never written over",
        folder.display()
    );
    let mut places = Vec::new();
    for member in 0..members {
        let own = folder.join(format!("member-{member}"));
        fs::DirBuilder::new().mode(0o700).create(&own)?;
        let key = SecretKey::generate()?;
        key.write(&own.join("key"))?;
        places.push(Place {
            key: hex::encode(key.public()),
            address: ports.at(u32::from(member))?,
        });
    }
    for (member, place) in places.iter().enumerate() {
        let settings = Settings {
            key: "key".into(),
            listen: place.address,
            http: ports.http(u32::from(members) + member as u32)?,
            program: program.clone(),
            tool: tool.clone(),
            library: nodes.library,
            application: ports.application(member as u32)?,
            node: node.clone(),
            named: None,
            limits: Limits::default(),
            times: Times::default(),
            pace: Paces::default(),
            members: places.clone(),
        };
        if member == 0 && !nodes.library && !settings.tool().exists() {
            let tool = settings.tool();
            eprintln!(
                "warning: there is no program {}: --tool names one",
                tool.display()
            );
        }
        settings.write(&folder.join(format!("member-{member}")))?;
        // They are the same for all.
        let warnings = settings.warnings().into_iter().filter(|_| member == 0);
        warnings.for_each(|told| eprintln!("warning: {told}"));
    }
    let members_of = Members {
        node,
        members: places,
    };
    let listed = toml::to_string(&members_of)?;
    fs::write(folder.join("committee.toml"), listed)?;
    println!("{members} members in {}: run each with", folder.display());
    println!(
        "    voumlisd run {}/member-0    # and so on",
        folder.display()
    );
    Ok(())
}

/// What can be said of settings, and of the key that they name, without a node.
fn check(folder: &Path) -> Result<()> {
    let settings = Settings::read(folder)?;
    let committee = settings.committee()?;
    let key = SecretKey::read(&settings.key)?;
    let me = committee.member_of(&key.public());
    let me = me.with_context(|| format!("{} is no member's key", settings.key.display()))?;
    settings.check_named(me)?;
    check_node(&settings, me, committee.size())?;
    println!(
        "{}: member {me} of {}, of whom {} may fail",
        folder.join(SETTINGS).display(),
        committee.size(),
        committee.liars()
    );
    for told in settings.warnings() {
        println!("warning: {told}");
    }
    Ok(())
}

/// What the program says of the node's settings, where the node isn't a library.
fn check_node(settings: &Settings, me: u32, members: u32) -> Result<()> {
    if settings.library {
        return Ok(());
    }
    let tool = settings.tool();
    let room = std::env::temp_dir().join(format!("voumlisd-check-{}", std::process::id()));
    fs::DirBuilder::new().mode(0o700).create(&room)?;
    let asked = || -> Result<Output> {
        let file = settings
            .node
            .write_beside(&room.join(RECORD), me, members)?;
        let mut asked = process::Command::new(&tool);
        let asked = asked.arg("settings").arg(file).stdin(Stdio::null());
        asked
            .output()
            .with_context(|| format!("the program {}", tool.display()))
    };
    let said = asked();
    fs::remove_dir_all(&room)?;
    let said = said?;
    ensure!(
        said.status.success(),
        "no node can be opened so: {}",
        String::from_utf8_lossy(&said.stderr).trim()
    );
    Ok(())
}

fn status(folder: &Path) -> Result<String> {
    let settings = Settings::read(folder)?;
    let runtime = tokio::runtime::Builder::new_current_thread()
        .enable_all()
        .build()?;
    runtime.block_on(async {
        let address = format!("http://{}/status", settings.http).parse()?;
        let answered = hyper::Client::new().get(address).await;
        let answered =
            answered.with_context(|| format!("no member answers at {}", settings.http))?;
        let body = hyper::body::to_bytes(answered.into_body()).await?;
        Ok(String::from_utf8(body.to_vec())?)
    })
}

/// The reports of a file. One that ends in a torn report is read up to there: its member may have been killed inside a write.
fn reports(file: &Path) -> Result<Vec<SignedReport>> {
    let bytes = fs::read(file).with_context(|| file.display().to_string())?;
    let (all, size) = read_all(&bytes);
    if all.is_empty() && !bytes.is_empty() {
        bail!("{} holds no reports with signatures", file.display());
    }
    if size < bytes.len() {
        eprintln!(
            "{}: what begins at byte {size} is no whole report",
            file.display()
        );
    }
    Ok(all)
}

/// Whether audits are of what these nodes sign.
fn audits_over(node: &NodeSettings) -> Result<()> {
    ensure!(
        node.base == BASE,
        "these nodes sign over the base {:?}, and audits are over \"{BASE}\"",
        node.base
    );
    Ok(())
}

fn judged(committee: &Committee, files: &[PathBuf], program: &Path) -> Result<ExitCode> {
    let each = files.iter().map(|file| reports(file));
    let all = each.collect::<Result<Vec<_>>>()?.concat();
    let said: Judgement = judge(committee, &all, program)?;
    said.lines.iter().for_each(|line| println!("{line}"));
    println!(
        "{} reports counted, {} with a signature that doesn't verify",
        said.counted, said.forged
    );
    for member in &said.convicted {
        let key = committee.key(*member).map(hex::encode).unwrap_or_default();
        println!("member {member} with key {key} signed what no correct member signs both");
    }
    let is_clear = said.convicted.is_empty();
    Ok(if is_clear {
        ExitCode::SUCCESS
    } else {
        ExitCode::from(3)
    })
}
