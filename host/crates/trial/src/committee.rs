//! Four real processes on this machine, and the links between them.

use crate::proxy::{Condition, Proxy};
use anyhow::{Context, Result, bail, ensure};
use nix::errno::Errno;
use nix::sys::signal::{Signal, kill, killpg};
use nix::unistd::Pid;
use std::fs::File;
use std::net::{SocketAddr, TcpListener};
use std::os::unix::process::CommandExt;
use std::path::{Path, PathBuf};
use std::process::{Child, Command, Stdio};
use std::time::{Duration, Instant};
use voumlisd::Settings;

/// The programs that are run.
#[derive(Clone, Debug)]
pub struct Programs {
    /// A member with the store on it.
    pub kv: PathBuf,
    /// The same, that lies.
    pub liar: PathBuf,
    /// The audit.
    pub simplex: PathBuf,
    /// The node.
    pub tool: PathBuf,
}

/// How a liar lies.
#[derive(Clone, Copy, Debug, PartialEq, Eq, clap::ValueEnum)]
pub enum Lie {
    /// It signs a second notarize for another payload, and sends both to all.
    Notarize,
    /// It signs both, and sends the second to one member alone, in place of the first.
    Split,
    /// It finalizes a view, and gives it up as well.
    Nullify,
}

impl Lie {
    /// Its name for the liar's environment.
    pub fn name(self) -> &'static str {
        match self {
            Lie::Notarize => "notarize",
            Lie::Split => "split",
            Lie::Nullify => "nullify",
        }
    }
}

/// One member.
#[derive(Debug)]
struct Member {
    folder: PathBuf,
    http: SocketAddr,
    child: Option<Child>,
}

/// A committee on this machine. Dropped, its processes are killed.
#[derive(Debug)]
pub struct Committee {
    folder: PathBuf,
    programs: Programs,
    members: Vec<Member>,
    /// The link by which the first dials the second.
    links: Vec<Vec<Option<Proxy>>>,
    liar: Option<(usize, Lie)>,
}

/// Below the ports that systems give to connections: a member that is dead finds its own free again.
const PORTS: std::ops::Range<u16> = 10_000..32_000;
/// Views between two snapshots: few, so that a short trial has some.
const SNAPSHOT_VIEWS: u64 = 64;
/// How long a member may take for a clean stop.
const STOPPING: Duration = Duration::from_secs(30);

fn free_ports(count: u16, seed: u64) -> Result<Vec<u16>> {
    let room = u64::from(PORTS.end - PORTS.start - count);
    let tried = (0..200).map(|at| PORTS.start + ((seed * 331 + at * 97) % room) as u16);
    for first in tried {
        let ports: Vec<u16> = (first..first + count).collect();
        let is_free = |port: &u16| TcpListener::bind(("127.0.0.1", *port)).is_ok();
        if ports.iter().all(is_free) {
            return Ok(ports);
        }
    }
    bail!("no {count} free ports")
}

/// Puts a member's addresses into its settings: of each peer that of a link of its own.
async fn wire(
    folder: &Path,
    member: usize,
    peers: &[SocketAddr],
    http: SocketAddr,
) -> Result<Vec<Option<Proxy>>> {
    let mut settings = Settings::read(folder)?;
    settings.key = "key".into();
    settings.listen = peers[member];
    settings.http = http;
    settings.limits.snapshot_views = SNAPSHOT_VIEWS;
    let mut dialed = Vec::new();
    for (peer, place) in settings.members.iter_mut().enumerate() {
        place.address = peers[peer];
        let mut proxy = None;
        if peer != member {
            let started = Proxy::start(peers[peer]).await?;
            place.address = started.address();
            proxy = Some(started);
        }
        dialed.push(proxy);
    }
    settings.write(folder)?;
    Ok(dialed)
}

impl Committee {
    /// Makes the folders of a committee, with links between its members that can be cut. None runs yet.
    ///
    /// # Errors
    ///
    /// Where a program, a port or the folder isn't to be had.
    pub async fn make(
        folder: &Path,
        programs: Programs,
        size: u16,
        liar: Option<(usize, Lie)>,
        seed: u64,
    ) -> Result<Committee> {
        let made = Command::new(&programs.kv)
            .args(["init", "--members", &size.to_string(), "--program"])
            .arg(&programs.simplex)
            .arg("--tool")
            .arg(&programs.tool)
            .arg(folder)
            .output()
            .with_context(|| programs.kv.display().to_string())?;
        ensure!(
            made.status.success(),
            "init: {}",
            String::from_utf8_lossy(&made.stderr)
        );
        let ports = free_ports(2 * size, seed)?;
        let address = |place: usize| SocketAddr::from(([127, 0, 0, 1], ports[place]));
        let addresses: Vec<SocketAddr> = (0..2 * usize::from(size)).map(address).collect();
        let (peers, https) = addresses.split_at(size.into());
        let (mut members, mut links) = (Vec::new(), Vec::new());
        for (member, http) in https.iter().enumerate() {
            let folder = folder.join(format!("member-{member}"));
            links.push(wire(&folder, member, peers, *http).await?);
            members.push(Member {
                folder,
                http: *http,
                child: None,
            });
        }
        let folder = folder.to_owned();
        Ok(Committee {
            folder,
            programs,
            members,
            links,
            liar,
        })
    }

    /// How many members there are.
    pub fn size(&self) -> usize {
        self.members.len()
    }

    /// The members that don't lie.
    pub fn correct(&self) -> Vec<usize> {
        let liar = self.liar.map(|(liar, _)| liar);
        (0..self.size())
            .filter(|member| Some(*member) != liar)
            .collect()
    }

    /// Where a member answers.
    pub fn http(&self, member: usize) -> SocketAddr {
        self.members[member].http
    }

    /// The file of a member's reports.
    pub fn reports(&self, member: usize) -> PathBuf {
        self.members[member].folder.join("reports")
    }

    /// The file that lists the members' keys.
    pub fn list(&self) -> PathBuf {
        self.folder.join("committee.toml")
    }

    /// The programs.
    pub fn programs(&self) -> &Programs {
        &self.programs
    }

    /// Starts a member that doesn't run.
    ///
    /// # Errors
    ///
    /// Where it runs, or its program can't be started.
    pub fn start(&mut self, member: usize) -> Result<()> {
        ensure!(self.members[member].child.is_none(), "member {member} runs");
        let lie = self
            .liar
            .filter(|(liar, _)| *liar == member)
            .map(|(_, lie)| lie);
        let program = if lie.is_some() {
            &self.programs.liar
        } else {
            &self.programs.kv
        };
        let log = self.folder.join(format!("log-{member}"));
        let log = File::options().create(true).append(true).open(log)?;
        let child = Command::new(program)
            .arg("run")
            .arg(&self.members[member].folder)
            .env("VOUMLIS_LIE", lie.map_or("", Lie::name))
            .stdin(Stdio::null())
            .stdout(Stdio::null())
            .stderr(log)
            // With its node it is a group of its own, which a signal reaches as a whole.
            .process_group(0)
            .spawn()
            .with_context(|| program.display().to_string())?;
        self.members[member].child = Some(child);
        Ok(())
    }

    /// Sends a signal to a member and its node.
    ///
    /// # Errors
    ///
    /// Where there is no such process.
    pub fn signal(&self, member: usize, signal: Signal) -> Result<()> {
        if let Some(child) = &self.members[member].child {
            killpg(Pid::from_raw(child.id() as i32), signal)?;
        }
        Ok(())
    }

    /// Kills a member by signal 9 with its node, or alone: the node then ends with its input.
    ///
    /// # Errors
    ///
    /// Where there is no such process.
    pub fn kill(&mut self, member: usize, alone: bool) -> Result<()> {
        let Some(mut child) = self.members[member].child.take() else {
            return Ok(());
        };
        let group = Pid::from_raw(child.id() as i32);
        if alone {
            kill(group, Signal::SIGKILL)?;
        } else {
            killpg(group, Signal::SIGKILL)?;
        }
        child.wait()?;
        // The node has the record until it is gone.
        for _ in 0..100 {
            if killpg(group, None) == Err(Errno::ESRCH) {
                break;
            }
            std::thread::sleep(Duration::from_millis(10));
        }
        Ok(())
    }

    /// The members that ended by themselves, and how; they are started again, as a supervisor does.
    ///
    /// # Errors
    ///
    /// Where one can't be started.
    pub fn revive(&mut self) -> Result<Vec<(usize, String)>> {
        let mut ended = Vec::new();
        for member in 0..self.size() {
            let Some(child) = &mut self.members[member].child else {
                continue;
            };
            if let Some(status) = child.try_wait()? {
                self.members[member].child = None;
                self.start(member)?;
                ended.push((member, status.to_string()));
            }
        }
        Ok(ended)
    }

    /// The link between two members, dialed by either.
    pub fn set_link(&self, one: usize, other: usize, condition: Condition) {
        let turned = Condition {
            forth: condition.back,
            back: condition.forth,
            ..condition
        };
        if let Some(proxy) = &self.links[one][other] {
            proxy.set(condition);
        }
        if let Some(proxy) = &self.links[other][one] {
            proxy.set(turned);
        }
    }

    /// All links are as if there were none.
    pub fn mend_links(&self) {
        self.links
            .iter()
            .flatten()
            .flatten()
            .for_each(|proxy| proxy.set(Condition::default()));
    }

    /// Has all members end cleanly: what those said that didn't.
    ///
    /// # Errors
    ///
    /// Where a signal can't be sent.
    pub fn stop(&mut self) -> Result<Vec<String>> {
        for child in self
            .members
            .iter()
            .filter_map(|member| member.child.as_ref())
        {
            kill(Pid::from_raw(child.id() as i32), Signal::SIGTERM)?;
        }
        let until = Instant::now() + STOPPING;
        let mut said = Vec::new();
        for member in 0..self.size() {
            let Some(mut child) = self.members[member].child.take() else {
                continue;
            };
            loop {
                if let Some(status) = child.try_wait()? {
                    if !status.success() {
                        said.push(format!("member {member} ended with {status}"));
                    }
                    break;
                }
                if Instant::now() > until {
                    said.push(format!("member {member} didn't stop in {STOPPING:?}"));
                    killpg(Pid::from_raw(child.id() as i32), Signal::SIGKILL)?;
                    child.wait()?;
                    break;
                }
                std::thread::sleep(Duration::from_millis(20));
            }
        }
        Ok(said)
    }
}

impl Drop for Committee {
    fn drop(&mut self) {
        for member in 0..self.size() {
            // One that is gone already is what is wanted.
            let _ = self.kill(member, false);
        }
    }
}
