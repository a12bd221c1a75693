//! The settings of a member, and the list of the committee.

use anyhow::{Context, Result, bail, ensure};
use serde::{Deserialize, Serialize};
use std::fs;
use std::net::SocketAddr;
use std::path::{Path, PathBuf};
use std::time::Duration;
use tokio::sync::Semaphore;
use toml::Value;
use toml::value::Table;
use voumlis_core::chain::ChainSettings;
use voumlis_core::committee::{Committee, PublicKey};
use voumlis_core::engine::EngineSettings;
use voumlis_core::frame::LONGEST_FRAME;
use voumlis_core::growth::REWRITTEN_FROM;
use voumlis_core::member::NodeSettings;
use voumlis_core::pace::{LONGEST_ROW, PaceSettings, SLOWEST};
use voumlis_core::plain::BASE;

/// The name of a member's settings in its folder.
pub const SETTINGS: &str = "settings.toml";

/// The name of a member's record in its folder; that of its second file has `.2` behind it.
pub const RECORD: &str = "record";

/// The name of the program that runs a node, beside the program `simplex` where it isn't named.
const TOOL: &str = "simplex_tool";

/// One member's place in the committee: the same in all settings.
#[derive(Clone, Debug, Deserialize, Serialize)]
#[serde(deny_unknown_fields)]
pub struct Place {
    /// Its Ed25519 public key, in hexadecimal digits.
    pub key: String,
    /// Where its peers reach it.
    pub address: SocketAddr,
}

/// The members in order, and how their nodes are set up. A file of settings is one too: what else it holds is passed over.
#[derive(Clone, Debug, Deserialize, Serialize)]
pub struct Members {
    /// How the nodes are set up.
    #[serde(default, skip_serializing_if = "NodeSettings::is_default")]
    pub node: NodeSettings,
    /// The members, of whom the first has index 0.
    pub members: Vec<Place>,
}

/// What a member is set up with.
#[derive(Clone, Debug, Deserialize, Serialize)]
#[serde(deny_unknown_fields)]
pub struct Settings {
    /// The file of the secret key. Paths are from the folder of the settings.
    pub key: PathBuf,
    /// Where this member listens for its peers.
    pub listen: SocketAddr,
    /// Where it answers HTTP: everybody who reaches this may read, and use the application.
    pub http: SocketAddr,
    /// The program `simplex`, for audits.
    pub program: PathBuf,
    /// The program `simplex_tool`, which runs the node as a child where that isn't a library. Where it isn't named: beside `program`.
    #[serde(default, skip_serializing_if = "Option::is_none")]
    pub tool: Option<PathBuf>,
    /// Whether the node is the static library in this process; for this the host is built with the feature `library`.
    #[serde(default)]
    pub library: bool,
    /// Where the application answers, if it is one in another process: see `remote`.
    #[serde(default, skip_serializing_if = "Option::is_none")]
    pub application: Option<SocketAddr>,
    /// How the node is set up. In a file it may be the path of a file of settings, as `simplex_tool settings` reads it, too.
    #[serde(default, skip_serializing_if = "NodeSettings::is_default")]
    pub node: NodeSettings,
    /// Whose index the file of settings names, where the node is set up by one.
    #[serde(skip)]
    pub(crate) named: Option<u32>,
    /// What is bounded.
    #[serde(default)]
    pub limits: Limits,
    /// How long is waited.
    #[serde(default)]
    pub times: Times,
    /// How slow the node may be told the time.
    #[serde(default)]
    pub pace: Paces,
    /// The members, of whom the first has index 0.
    pub members: Vec<Place>,
}

/// Bounds. Those of blocks and snapshots have to be the same for all members.
#[derive(Clone, Debug, Deserialize, Serialize)]
#[serde(default, deny_unknown_fields)]
pub struct Limits {
    /// The most bytes of a block's contents.
    pub block_bytes: usize,
    /// A snapshot is taken with the first final block of each run of so many views.
    pub snapshot_views: u64,
    /// The most bytes of the log of reports: then it is put aside, in place of the one that was before.
    pub report_bytes: u64,
    /// The record is rewritten where it has doubled since it was opened or rewritten, and has so many bytes at least, unless the node
    /// does it of itself, by `node.rewrite-views`.
    pub record_bytes: u64,
    /// The most bytes that wait for one peer.
    pub queue_bytes: usize,
    /// Bytes that a peer may send at once, and each second.
    pub peer_bytes: (f64, f64),
    /// What a peer may ask for at once, and each second: certificates, blocks, pieces of snapshots.
    pub peer_asks: (f64, f64),
    /// Connections of HTTP at a time.
    pub http_connections: usize,
    /// Connections at a time that haven't shown a member's key yet; as many more from addresses of members.
    pub strangers: usize,
}

impl Default for Limits {
    fn default() -> Limits {
        let chain = ChainSettings::default();
        Limits {
            block_bytes: chain.longest_contents,
            snapshot_views: chain.snapshot_views,
            report_bytes: 1 << 30,
            record_bytes: REWRITTEN_FROM,
            queue_bytes: 16 << 20,
            peer_bytes: (64e6, 32e6),
            peer_asks: (500.0, 100.0),
            http_connections: 1024,
            strangers: 32,
        }
    }
}

/// Times, in milliseconds.
#[derive(Clone, Debug, Deserialize, Serialize)]
#[serde(default, deny_unknown_fields)]
pub struct Times {
    /// How long a leader without work waits before it has an empty block built: below the leader's deadline, `node.leader-timeout`.
    pub idle: u64,
    /// How long a check waits for a block that is on its way, of the time that the node is told.
    pub patience: u64,
    /// The record is opened again where no view was entered for so long, of the time that the node is told.
    pub reopen_after: u64,
    /// The longest time before that, which doubles while it doesn't help.
    pub reopen_at_most: u64,
    /// How long a connection may take until its key is shown and it has said of which committee it is.
    pub greeting: u64,
    /// A connection of HTTP over which nothing goes for so long is closed: longer than any answer takes.
    pub http_silence: u64,
}

impl Default for Times {
    fn default() -> Times {
        let milliseconds = |time: Duration| time.as_millis() as u64;
        let (chain, engine) = (ChainSettings::default(), EngineSettings::default());
        Times {
            idle: milliseconds(chain.idle),
            patience: milliseconds(chain.patience),
            reopen_after: milliseconds(engine.reopen_after),
            reopen_at_most: milliseconds(engine.reopen_at_most),
            greeting: 5_000,
            http_silence: 90_000,
        }
    }
}

/// The fewest members of whom one may fail.
const BEARS_A_FAULT: usize = 4;

/// The most of a time: a day.
const LONGEST: u64 = 24 * 60 * 60 * 1000;

impl Times {
    /// Whether the loops can wait so long.
    fn check(&self, node: &NodeSettings) -> Result<()> {
        ensure!(
            self.idle < node.leader_timeout,
            "times.idle has to be below node.leader-timeout, {}, at which the others give the leader up",
            node.leader_timeout
        );
        for (name, time) in [
            ("patience", self.patience),
            ("reopen_after", self.reopen_after),
            ("reopen_at_most", self.reopen_at_most),
            ("greeting", self.greeting),
            ("http_silence", self.http_silence),
        ] {
            ensure!(
                (1..=LONGEST).contains(&time),
                "times.{name} has to be from 1 to {LONGEST}"
            );
        }
        ensure!(
            self.reopen_after <= self.reopen_at_most,
            "times.reopen_at_most has to be times.reopen_after or more"
        );
        Ok(())
    }
}

/// How slow the node may be told the time: the only back-off that there is.
#[derive(Clone, Debug, Deserialize, Serialize)]
#[serde(default, deny_unknown_fields)]
pub struct Paces {
    /// So many times slower at most. 1 is never.
    pub slowest: u32,
    /// Twice as slow behind so many terms in a row that this member gave up. Where it isn't there: one more than members may fail, and two
    /// at least.
    #[serde(skip_serializing_if = "Option::is_none")]
    pub slower_after: Option<u32>,
    /// Twice as fast behind so many views that became final since it changed.
    pub faster_after: u32,
}

impl Default for Paces {
    fn default() -> Paces {
        let pace = PaceSettings::default();
        Paces {
            slowest: pace.slowest,
            slower_after: pace.slower_after,
            faster_after: pace.faster_after,
        }
    }
}

impl Paces {
    fn check(&self) -> Result<()> {
        let counted = self.slower_after.unwrap_or(1);
        for (name, count, most) in [
            ("slowest", self.slowest, SLOWEST),
            ("slower_after", counted, LONGEST_ROW),
            ("faster_after", self.faster_after, LONGEST_ROW),
        ] {
            ensure!(
                (1..=most).contains(&count),
                "pace.{name} has to be from 1 to {most}"
            );
        }
        Ok(())
    }
}

impl Limits {
    /// Whether a member can work within them.
    fn check(&self) -> Result<()> {
        ensure!(
            self.block_bytes < LONGEST_FRAME - 1024,
            "limits.block_bytes is more than a frame holds"
        );
        for (name, count) in [
            ("snapshot_views", self.snapshot_views),
            ("report_bytes", self.report_bytes),
            ("record_bytes", self.record_bytes),
            ("queue_bytes", self.queue_bytes as u64),
            ("http_connections", self.http_connections as u64),
            ("strangers", self.strangers as u64),
        ] {
            ensure!(count > 0, "limits.{name} has to be above 0");
        }
        for (name, (at_once, a_second)) in [
            ("peer_bytes", self.peer_bytes),
            ("peer_asks", self.peer_asks),
        ] {
            let is_enough = |count: f64| count.is_finite() && count >= 1.0;
            ensure!(
                is_enough(at_once) && is_enough(a_second),
                "limits.{name} has to be two numbers from 1 on"
            );
        }
        let most = Semaphore::MAX_PERMITS;
        ensure!(
            self.http_connections.max(self.strangers) <= most,
            "limits.http_connections and limits.strangers are at most {most}"
        );
        Ok(())
    }
}

fn public_key(digits: &str) -> Result<PublicKey> {
    let mut key = [0; 32];
    hex::decode_to_slice(digits, &mut key)
        .with_context(|| format!("{digits} is no key of 64 hexadecimal digits"))?;
    Ok(key)
}

/// What a file says, and whose index the file of settings names that it names itself, if it does.
fn read<T: serde::de::DeserializeOwned>(path: &Path) -> Result<(T, Option<u32>)> {
    let text = fs::read_to_string(path).with_context(|| path.display().to_string())?;
    let said = match toml::from_str::<Table>(&text) {
        Ok(table) if table.get("node").is_some_and(Value::is_str) => with_node(table, path),
        _ => toml::from_str(&text)
            .map(|it| (it, None))
            .map_err(Into::into),
    };
    said.with_context(|| path.display().to_string())
}

/// What a file says that names a file of settings for the node. That one may also be one of its members, with what a host decides.
fn with_node<T: serde::de::DeserializeOwned>(
    mut table: Table,
    path: &Path,
) -> Result<(T, Option<u32>)> {
    let named = table
        .get("node")
        .and_then(Value::as_str)
        .unwrap_or_default();
    let file = path.with_file_name(named);
    let read = || -> Result<(Table, Option<u32>)> {
        let mut node: Table = toml::from_str(&fs::read_to_string(&file)?)?;
        let count = table.get("members").and_then(Value::as_array);
        let count = count.map_or(0, Vec::len);
        if let Some(members) = node.remove("members") {
            let is_so = members.as_integer() == i64::try_from(count).ok();
            ensure!(is_so, "members is {members}, and there are {count}");
        }
        if let Some(record) = node.remove("record") {
            let is_so = record.as_str() == Some(RECORD);
            ensure!(is_so, "record is {record}, and a host has \"{RECORD}\"");
        }
        let Some(member) = node.remove("member") else {
            return Ok((node, None));
        };
        match member.as_integer().map(u32::try_from) {
            Some(Ok(index)) => Ok((node, Some(index))),
            _ => bail!("member is {member}, which is no index"),
        }
    };
    let (node, index) = read().with_context(|| file.display().to_string())?;
    table.insert("node".to_owned(), Value::Table(node));
    Ok((Value::Table(table).try_into()?, index))
}

/// How nodes are set up that a file of settings is for, whichever member it names.
///
/// # Errors
///
/// Where it can't be read, or no host can have such nodes.
pub fn node_of(file: &Path) -> Result<NodeSettings> {
    let read = || -> Result<NodeSettings> {
        let mut node: Table = toml::from_str(&fs::read_to_string(file)?)?;
        for key in ["members", "member", "record"] {
            node.remove(key);
        }
        let node: NodeSettings = Value::Table(node).try_into()?;
        node.check()?;
        Ok(node)
    };
    read().with_context(|| file.display().to_string())
}

impl Members {
    /// The members that a file names.
    ///
    /// # Errors
    ///
    /// Where it can't be read, or names none.
    pub fn read(path: &Path) -> Result<Members> {
        Ok(read(path)?.0)
    }

    /// The committee of their keys.
    ///
    /// # Errors
    ///
    /// Where a key is none, or comes twice.
    pub fn committee(&self) -> Result<Committee> {
        committee(&self.members, &self.node)
    }
}

fn committee(members: &[Place], node: &NodeSettings) -> Result<Committee> {
    let keys = members.iter().map(|place| public_key(&place.key));
    Committee::set_up(keys.collect::<Result<_>>()?, node)
}

impl Settings {
    /// The settings of the member in this folder, with paths that begin there.
    ///
    /// # Errors
    ///
    /// Where they can't be read, or ask for what can't be.
    pub fn read(folder: &Path) -> Result<Settings> {
        let (mut settings, named): (Settings, _) = read(&folder.join(SETTINGS))?;
        settings.named = named;
        settings.key = folder.join(&settings.key);
        settings.program = folder.join(&settings.program);
        settings.tool = settings.tool.map(|tool| folder.join(tool));
        settings.node.check()?;
        settings.times.check(&settings.node)?;
        settings.pace.check()?;
        settings.limits.check()?;
        Ok(settings)
    }

    /// The program `simplex_tool`.
    pub fn tool(&self) -> PathBuf {
        let beside = || self.program.with_file_name(TOOL);
        self.tool.clone().unwrap_or_else(beside)
    }

    /// Whether the file of settings that the node is set up by is one of this member.
    ///
    /// # Errors
    ///
    /// Where it names another.
    pub fn check_named(&self, me: u32) -> Result<()> {
        match self.named {
            Some(named) if named != me => {
                bail!("the node's file of settings is of member {named}, and this is member {me}")
            }
            _ => Ok(()),
        }
    }

    /// What a member can work with, and its operator should know of.
    pub fn warnings(&self) -> Vec<String> {
        let mut told = Vec::new();
        let count = self.members.len();
        if count < BEARS_A_FAULT {
            told.push(format!(
                "a committee of {count} bears no fault: where one member is down, or lies, nothing becomes final"
            ));
        }
        if count == 1 {
            told.push(
                "a committee of one may stand for good behind one bad verdict of its application"
                    .to_owned(),
            );
        }
        let retry = self.node.retry_timeout;
        if self.times.reopen_after < retry {
            told.push(format!(
                "times.reopen_after is below the {retry} ms behind which a node says again that it gives a view up, and asks again"
            ));
        }
        if self.node.base != BASE {
            told.push(format!(
                "audits are over the base \"{BASE}\", so with node.base = {:?} they convict nobody",
                self.node.base
            ));
        }
        told
    }

    /// Writes them to a member's folder.
    ///
    /// # Errors
    ///
    /// Those of the file.
    pub fn write(&self, folder: &Path) -> Result<()> {
        let path = folder.join(SETTINGS);
        fs::write(&path, toml::to_string(self)?).with_context(|| path.display().to_string())
    }

    /// The committee of the members' keys.
    ///
    /// # Errors
    ///
    /// Where a key is none, or comes twice.
    pub fn committee(&self) -> Result<Committee> {
        committee(&self.members, &self.node)
    }

    /// How the application's thread is set up.
    pub fn chain(&self) -> ChainSettings {
        ChainSettings {
            idle: Duration::from_millis(self.times.idle),
            patience: Duration::from_millis(self.times.patience),
            longest_contents: self.limits.block_bytes,
            snapshot_views: self.limits.snapshot_views,
        }
    }

    /// How the loop is set up.
    pub fn engine(&self) -> EngineSettings {
        EngineSettings {
            reopen_after: Duration::from_millis(self.times.reopen_after),
            reopen_at_most: Duration::from_millis(self.times.reopen_at_most),
            pace: PaceSettings {
                slowest: self.pace.slowest,
                slower_after: self.pace.slower_after,
                faster_after: self.pace.faster_after,
            },
            rewritten_from: self.limits.record_bytes,
            term: self.node.term_length.into(),
        }
    }
}

#[cfg(test)]
mod tests {
    use super::*;

    /// What is said of settings that have this behind those that have to be there.
    fn read_with(more: &str) -> Result<Settings, String> {
        read_of(1, more)
    }

    /// The same of so many members.
    fn read_of(members: usize, more: &str) -> Result<Settings, String> {
        let folder = tempfile::tempdir().unwrap();
        let member = format!(
            "[[members]]\nkey = \"{}\"\naddress = \"127.0.0.1:7100\"\n",
            "0".repeat(64)
        );
        let text = format!(
            "key = \"key\"\nlisten = \"127.0.0.1:7100\"\nhttp = \"127.0.0.1:7101\"\nprogram = \"simplex\"\n{more}\n{}",
            member.repeat(members)
        );
        fs::write(folder.path().join(SETTINGS), text).unwrap();
        Settings::read(folder.path()).map_err(|told| format!("{told:#}"))
    }

    #[test]
    fn settings_that_no_member_can_work_with_are_refused_by_name() {
        let read = read_with("[limits]\npeer_asks = [10, 1]\n[times]\nidle = 50").unwrap();
        assert_eq!((read.limits.peer_asks, read.times.idle), ((10.0, 1.0), 50));
        for (table, name, value) in [
            ("times", "idle", "1000"),
            ("times", "patience", "0"),
            ("times", "reopen_after", "0"),
            ("times", "reopen_after", "9000000000000000000"),
            ("times", "reopen_at_most", "29999"),
            ("times", "reopen_at_most", "9000000000000000000"),
            ("pace", "slowest", "0"),
            ("pace", "slowest", "65"),
            ("pace", "slower_after", "0"),
            ("pace", "slower_after", "-1"),
            ("pace", "faster_after", "0"),
            ("pace", "faster_after", "1048577"),
            ("pace", "slowness", "1"),
            ("times", "greeting", "0"),
            ("times", "http_silence", "0"),
            ("times", "unknown", "1"),
            ("limits", "block_bytes", "9000000000000000000"),
            ("limits", "snapshot_views", "0"),
            ("limits", "queue_bytes", "0"),
            ("limits", "record_bytes", "0"),
            ("limits", "http_connections", "0"),
            ("limits", "http_connections", "9000000000000000000"),
            ("limits", "strangers", "0"),
            ("limits", "peer_bytes", "[64e6, 0.0]"),
            ("limits", "peer_bytes", "[64e6, 1e-300]"),
            ("limits", "peer_asks", "[-1.0, 100.0]"),
            ("limits", "peer_asks", "[nan, inf]"),
            ("node", "term-length", "0"),
            ("node", "genesis", "\"01\""),
            ("node", "leader-timout", "1"),
            ("node", "leader-timeout", "50"),
            ("node", "members", "1"),
        ] {
            let told = read_with(&format!("[{table}]\n{name} = {value}")).unwrap_err();
            assert!(told.contains(name), "{name} = {value}: {told}");
        }
    }

    #[test]
    fn the_loop_is_set_up_as_the_file_says() {
        let told = "[times]\nreopen_after = 7000\nreopen_at_most = 9000\n[pace]\nslowest = 3\nslower_after = 5\nfaster_after = 6";
        let engine = read_with(told).unwrap().engine();
        let times = [engine.reopen_after, engine.reopen_at_most].map(|time| time.as_millis());
        assert_eq!(times, [7000, 9000]);
        let pace = engine.pace;
        assert_eq!(
            (pace.slowest, pace.slower_after, pace.faster_after),
            (3, Some(5), 6)
        );
        let pace = read_with("").unwrap().engine().pace;
        assert_eq!(
            (pace.slowest, pace.slower_after, pace.faster_after),
            (8, None, 32)
        );
    }

    #[test]
    fn a_node_is_set_up_by_a_table_or_by_a_file_of_settings() {
        let node = |more: &str| read_with(more).map(|it| it.node);
        assert!(node("").unwrap().is_default());
        let table = node("[node]\nleader-timeout = 700\nrepair = \"once\"").unwrap();
        assert_eq!(table.leader_timeout, 700);
        assert_eq!(table.repair, voumlis_core::member::Repair::Once);

        let folder = tempfile::tempdir().unwrap();
        let file = folder.path().join("member.toml");
        let by_file = |text: &str| {
            fs::write(&file, text).unwrap();
            read_with(&format!("node = \"{}\"", file.display()))
        };
        // Such a file may be a member's, as far as it is this one.
        let whole = "members = 1\nmember = 0\nrecord = \"record\"\n";
        let read = by_file(&format!("{whole}leader-timeout = 700\nrepair = \"once\"")).unwrap();
        assert_eq!(read.node, table);
        assert!(read.check_named(0).is_ok() && read.check_named(1).is_err());
        assert!(by_file("").unwrap().check_named(1).is_ok());
        for (text, named) in [
            ("members = 2", "members"),
            ("member = -1", "member"),
            ("record = \"elsewhere\"", "record"),
            ("leader-timout = 1", "leader-timout"),
            ("leader-timeout = 50", "leader-timeout"),
        ] {
            let told = by_file(text).unwrap_err();
            assert!(told.contains(named), "{text}: {told}");
        }
        fs::remove_file(&file).unwrap();
        let told = read_with(&format!("node = \"{}\"", file.display())).unwrap_err();
        assert!(told.contains("member.toml"), "{told}");
    }

    #[test]
    fn a_member_of_before_settings_could_be_chosen_has_the_program_beside_the_other() {
        let read = read_with("").unwrap();
        assert_eq!(read.tool(), read.program.with_file_name("simplex_tool"));
        let read = read_with("tool = \"/bin/other\"").unwrap();
        assert_eq!(read.tool(), Path::new("/bin/other"));
    }

    #[test]
    fn a_committee_that_bears_no_fault_is_warned_of() {
        let told = |members, more| read_of(members, more).unwrap().warnings().join("\n");
        for members in 1..4 {
            let told = told(members, "");
            assert!(
                told.contains(&format!("a committee of {members} bears no fault")),
                "{told}"
            );
            assert_eq!(told.contains("bad verdict"), members == 1);
        }
        assert_eq!(told(4, ""), "");
        assert!(told(7, "[times]\nreopen_after = 4999").contains("times.reopen_after"));
        assert_eq!(
            told(
                7,
                "[times]\nreopen_after = 4999\n[node]\nretry-timeout = 4000"
            ),
            ""
        );
        assert!(told(7, "[node]\nbase = \"other\"").contains("convict nobody"));
    }
}
