//! A committee of real processes on the loopback, for tests.
#![allow(dead_code, reason = "each test uses a part of it")]

use serde_json::Value;
use std::collections::BTreeMap;
use std::fs::{self, File};
use std::io::{Read, Write};
use std::net::{SocketAddr, TcpListener, TcpStream};
use std::os::unix::process::CommandExt;
use std::path::{Path, PathBuf};
use std::process::{Child, Command, ExitStatus, Output, Stdio};
use std::sync::atomic::{AtomicU32, Ordering};
use std::thread;
use std::time::{Duration, Instant};
use tempfile::TempDir;
use voumlisd::Settings;

/// How long anything may take: a program that isn't proved is slow, and where the machine has more to do than processors it takes as many
/// times longer. `VOUMLIS_PATIENCE` says a number of seconds, for runs in which a test is to fail.
pub fn patience() -> Duration {
    if let Ok(named) = std::env::var("VOUMLIS_PATIENCE") {
        return Duration::from_secs(named.parse().expect("a number of seconds"));
    }
    let load = fs::read_to_string("/proc/loadavg").unwrap_or_default();
    let load: f64 = load.split(' ').next().unwrap().parse().unwrap_or(0.0);
    let processors = thread::available_parallelism().map_or(1.0, |it| it.get() as f64);
    Duration::from_secs(180).mul_f64((load / processors).max(1.0))
}

/// A program: the one that this variable names, the one beside that of `VOUMLIS_PROGRAM`, or a proved one.
///
/// # Panics
///
/// Where there is none: a test of members tests nothing without.
fn named(variable: &str, name: &str) -> PathBuf {
    if let Some(named) = std::env::var_os(variable) {
        return named.into();
    }
    let simplex = std::env::var_os("VOUMLIS_PROGRAM").map(PathBuf::from);
    let beside = simplex.map(|it| it.with_file_name(name));
    let top = Path::new(env!("CARGO_MANIFEST_DIR")).join("../../..");
    let proved = top.join("crates").join(name).join("out").join(name);
    let found = beside.filter(|it| it.exists()).unwrap_or(proved);
    assert!(
        found.exists(),
        "name a program {name} in {variable}: host/program {name} builds one, and prints its path"
    );
    found
}

/// The program `simplex`, for audits.
pub fn program() -> PathBuf {
    named("VOUMLIS_PROGRAM", "simplex")
}

/// The program `simplex_tool`, which runs nodes.
pub fn tool() -> PathBuf {
    named("VOUMLIS_TOOL", "simplex_tool")
}

/// Waits until this gives something.
pub fn until<T>(what: &str, mut look: impl FnMut() -> Option<T>) -> T {
    let end = Instant::now() + patience();
    loop {
        if let Some(found) = look() {
            return found;
        }
        assert!(Instant::now() < end, "waited in vain: {what}");
        thread::sleep(Duration::from_millis(50));
    }
}

/// Addresses of the loopback that nobody listens at, below those that systems give to connections: none is taken until a member listens.
pub fn free_addresses(count: usize) -> Vec<SocketAddr> {
    static NEXT: AtomicU32 = AtomicU32::new(0);
    let begin = std::process::id() % 150 * 140;
    let ports = std::iter::repeat_with(|| {
        let at = begin + NEXT.fetch_add(1, Ordering::Relaxed);
        10_000 + (at % 22_000) as u16
    });
    let addresses = ports.map(|port| SocketAddr::from(([127, 0, 0, 1], port)));
    let is_free = |address: &SocketAddr| TcpListener::bind(address).is_ok();
    addresses.filter(is_free).take(count).collect()
}

/// A committee: its folder, its members' settings, and the processes that run.
pub struct Committee {
    pub folder: TempDir,
    pub settings: Vec<Settings>,
    pub processes: BTreeMap<usize, Child>,
    /// What was seen to be final: a view's payload.
    pub seen: BTreeMap<u64, String>,
}

impl Committee {
    /// So many members, whose settings are changed so.
    pub fn new(members: usize, change: impl Fn(&mut Settings)) -> Committee {
        let folder = tempfile::tempdir().unwrap();
        let made = Command::new(env!("CARGO_BIN_EXE_voumlisd"))
            .args(["init", "--members", &members.to_string(), "--program"])
            .arg(program())
            .arg("--tool")
            .arg(tool())
            .arg(folder.path())
            .output()
            .unwrap();
        assert!(made.status.success(), "{made:?}");
        let addresses = free_addresses(2 * members);
        let mut committee = Committee {
            folder,
            settings: Vec::new(),
            processes: BTreeMap::new(),
            seen: BTreeMap::new(),
        };
        for member in 0..members {
            let own = committee.member(member);
            let mut settings = Settings::read(&own).unwrap();
            for (place, address) in settings.members.iter_mut().zip(&addresses) {
                place.address = *address;
            }
            settings.listen = addresses[member];
            settings.http = addresses[members + member];
            settings.times.idle = 20;
            // On a busy machine a handshake takes its time.
            settings.times.greeting = 60_000;
            change(&mut settings);
            settings.write(&own).unwrap();
            committee.settings.push(settings);
        }
        committee
    }

    pub fn member(&self, member: usize) -> PathBuf {
        self.folder.path().join(format!("member-{member}"))
    }

    fn command(&self, binary: &Path, member: usize) -> Command {
        let log = self.folder.path().join(format!("log-{member}"));
        let mut options = File::options();
        let log = options.create(true).append(true).open(log).unwrap();
        let mut command = Command::new(binary);
        command.arg("run").arg(self.member(member));
        command.stdout(Stdio::null()).stderr(log);
        // As a terminal does.
        command.process_group(0);
        command
    }

    pub fn start(&mut self, member: usize) {
        self.start_as(Path::new(env!("CARGO_BIN_EXE_voumlisd")), member);
    }

    pub fn start_as(&mut self, binary: &Path, member: usize) {
        let process = self.command(binary, member).spawn().unwrap();
        self.processes.insert(member, process);
    }

    pub fn start_all(&mut self) {
        (0..self.settings.len()).for_each(|member| self.start(member));
    }

    /// As `kill -9`.
    pub fn kill(&mut self, member: usize) {
        let mut process = self.processes.remove(&member).unwrap();
        process.kill().unwrap();
        process.wait().unwrap();
    }

    pub fn terminate(&mut self, member: usize) -> ExitStatus {
        let mut process = self.processes.remove(&member).unwrap();
        let killed = Command::new("kill").arg(process.id().to_string()).status();
        assert!(killed.unwrap().success());
        until("a member ends at SIGTERM", || process.try_wait().unwrap())
    }

    /// As Ctrl-C in a terminal, which goes to all processes of its group.
    pub fn interrupt(&mut self, member: usize) -> ExitStatus {
        let group = format!("-{}", self.processes[&member].id());
        let killed = Command::new("kill").args(["-INT", "--", &group]).status();
        assert!(killed.unwrap().success());
        self.ended(member)
    }

    /// Waits until a member ends by itself.
    pub fn ended(&mut self, member: usize) -> ExitStatus {
        let mut process = self.processes.remove(&member).unwrap();
        until("a member ends", || process.try_wait().unwrap())
    }

    pub fn get(&self, member: usize, path: &str) -> Option<String> {
        let mut stream = TcpStream::connect(self.settings[member].http).ok()?;
        stream.set_read_timeout(Some(patience())).ok()?;
        write!(
            stream,
            "GET {path} HTTP/1.1\r\nHost: member\r\nConnection: close\r\n\r\n"
        )
        .ok()?;
        let mut text = String::new();
        stream.read_to_string(&mut text).ok()?;
        let (_, body) = text.split_once("\r\n\r\n")?;
        Some(body.to_owned())
    }

    /// What a member tells of itself. What it says is final may contradict nothing that a member said before.
    pub fn status(&mut self, member: usize) -> Option<Value> {
        let status: Value = serde_json::from_str(&self.get(member, "/status")?).unwrap();
        for name in ["finalized", "applied"] {
            let view = status[name]["view"].as_u64().unwrap();
            let payload = status[name]["payload"].as_str().unwrap().to_owned();
            let known = self.seen.entry(view).or_insert_with(|| payload.clone());
            assert_eq!(*known, payload, "view {view} at member {member}");
        }
        Some(status)
    }

    pub fn applied(&mut self, member: usize) -> u64 {
        self.status(member)
            .map_or(0, |status| status["applied"]["view"].as_u64().unwrap())
    }

    /// Waits until these members have carried out blocks up to this view.
    pub fn reach(&mut self, members: &[usize], view: u64) {
        for member in members {
            until(&format!("member {member} reaches view {view}"), || {
                (self.applied(*member) >= view).then_some(())
            });
        }
    }

    pub fn highest(&mut self) -> u64 {
        let running: Vec<usize> = self.processes.keys().copied().collect();
        let applied = running.into_iter().map(|member| self.applied(member));
        applied.max().unwrap_or(0)
    }

    /// The counter of this name and labels, as `/metrics` has it; 0 where it isn't there.
    pub fn metric(&self, member: usize, name: &str) -> f64 {
        let text = self.get(member, "/metrics").unwrap_or_default();
        let line = text.lines().find_map(|line| line.strip_prefix(name));
        line.map_or(0.0, |value| value.trim().parse().unwrap())
    }

    pub fn log(&self, member: usize) -> String {
        fs::read_to_string(self.folder.path().join(format!("log-{member}"))).unwrap()
    }

    /// Runs another command of the program.
    pub fn run(&self, words: &[&str]) -> Output {
        Command::new(env!("CARGO_BIN_EXE_voumlisd"))
            .args(words)
            .output()
            .unwrap()
    }

    /// The processes of nodes by the file of settings beside this member's record.
    pub fn nodes(&self, member: usize) -> usize {
        let file = self.member(member).join("record.toml");
        let file = file.to_str().unwrap().to_owned();
        let processes = fs::read_dir("/proc").unwrap().flatten();
        processes
            .filter_map(|process| fs::read(process.path().join("cmdline")).ok())
            .filter(|words| {
                words
                    .split(|byte| *byte == 0)
                    .any(|word| word == file.as_bytes())
            })
            .count()
    }
}

impl Drop for Committee {
    /// No process outlives its test, and where it failed one sees what the members said.
    fn drop(&mut self) {
        for process in self.processes.values_mut() {
            let _ = process.kill();
            let _ = process.wait();
        }
        if thread::panicking() {
            for member in 0..self.settings.len() {
                let path = self.folder.path().join(format!("log-{member}"));
                let log = fs::read_to_string(path).unwrap_or_default();
                eprintln!("---- member {member}\n{log}");
            }
        }
    }
}
