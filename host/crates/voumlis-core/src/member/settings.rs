//! How a member's node is set up: what a file of settings says, which `simplex_tool member FILE` reads and docs/FORMATS.md explains.

use crate::files;
use crate::plain::BASE;
use anyhow::{Context, Result, ensure};
use serde::{Deserialize, Serialize};
use std::path::{Path, PathBuf};

/// What may be chosen of a node, by the names and with the defaults of a file of settings. Durations are milliseconds. The first seven
/// have to be alike at all members; these and the member's index stay as they are through all lives of a record.
#[derive(Clone, Debug, PartialEq, Eq, Deserialize, Serialize)]
#[serde(default, deny_unknown_fields, rename_all = "kebab-case")]
pub struct NodeSettings {
    /// All messages are of this epoch.
    pub epoch: u64,
    /// View 0 stands for this payload.
    #[serde(with = "digits")]
    pub genesis: [u8; 32],
    /// The base of what is signed.
    pub base: String,
    /// The views that a member leads in a row.
    pub term_length: u32,
    /// A term without progress for so long is given up.
    pub stall_timeout: u64,
    /// The views of a term that may be taken up before the ones before them are certified.
    pub optimistic_views: u64,
    /// By which the order of leaders is shuffled.
    #[serde(with = "some_digits", skip_serializing_if = "Option::is_none")]
    pub seed: Option<Vec<u8>>,
    /// How long a leader has for a proposal.
    pub leader_timeout: u64,
    /// How long a view has for a true verdict.
    pub certification_timeout: u64,
    /// How long until a vote to give a view up is sent again.
    pub retry_timeout: u64,
    /// The views that are kept before the last final one.
    pub retention: u64,
    /// Whether views may be given up before their deadlines.
    pub skips: bool,
    /// Behind so much silence of its leader.
    pub skip_timeout: u64,
    /// The terms that may be skipped since the last final view; as many as members where there is none.
    #[serde(skip_serializing_if = "Option::is_none")]
    pub skip_budget: Option<u64>,
    /// To whom payloads of the view before are forwarded.
    pub forwarding: Forwarding,
    /// Whether what nothing settled is asked for again.
    pub repair: Repair,
    /// How many views to leave behind are asked for at once; 0 for all.
    pub repair_window: u64,
    /// Whether votes behind a certificate, and of views that were skipped, are kept.
    pub historical_votes: bool,
    /// The record is rewritten once so many views more are final; 0 leaves it to the host.
    pub rewrite_views: u64,
}

/// To whom payloads of the view before are forwarded.
#[derive(Clone, Copy, Debug, PartialEq, Eq, Deserialize, Serialize)]
#[serde(rename_all = "kebab-case")]
pub enum Forwarding {
    /// To nobody.
    Disabled,
    /// To all whose vote for it isn't known.
    SilentVoters,
    /// To the leader, where its vote for it isn't known.
    SilentLeader,
}

/// Whether what others have, and nothing settled, is asked for again.
#[derive(Clone, Copy, Debug, PartialEq, Eq, Deserialize, Serialize)]
#[serde(rename_all = "kebab-case")]
pub enum Repair {
    /// It is asked for once in a life.
    Once,
    /// With each vote to give a view up that is sent again.
    WithNullify,
}

impl Default for NodeSettings {
    fn default() -> NodeSettings {
        NodeSettings {
            epoch: 0,
            genesis: [0; 32],
            base: BASE.to_owned(),
            term_length: 4,
            stall_timeout: 10_000,
            optimistic_views: 2,
            seed: None,
            leader_timeout: 1_000,
            certification_timeout: 2_000,
            retry_timeout: 5_000,
            retention: 10,
            skips: true,
            skip_timeout: 8_000,
            skip_budget: None,
            forwarding: Forwarding::Disabled,
            repair: Repair::WithNullify,
            repair_window: 1_024,
            historical_votes: true,
            rewrite_views: 1_000,
        }
    }
}

/// The path of the file of settings that a host writes beside a record.
pub fn file_beside(record: &Path) -> PathBuf {
    let mut path = record.as_os_str().to_owned();
    path.push(".toml");
    path.into()
}

impl NodeSettings {
    /// Whether all is as where nothing is said.
    pub fn is_default(&self) -> bool {
        *self == NodeSettings::default()
    }

    /// The file of settings of `member` of `members` over this record.
    ///
    /// # Errors
    ///
    /// Where the record's path is no text.
    pub fn text(&self, record: &Path, member: u32, members: u32) -> Result<String> {
        let record = record.to_str().context("the record's path is no text")?;
        let record = toml::Value::String(record.to_owned());
        let rest = toml::to_string(self).context("the settings of the node")?;
        Ok(format!(
            "# Written by the host at each start, by the settings of its member.\n\
             members = {members}\nmember = {member}\nrecord = {record}\n{rest}"
        ))
    }

    /// Writes that file beside the record, where it isn't there as it is to be, and answers its path. Behind a crash there is the old one
    /// or the whole new one.
    ///
    /// # Errors
    ///
    /// As of [`NodeSettings::text`], and those of the file.
    pub fn write_beside(&self, record: &Path, member: u32, members: u32) -> Result<PathBuf> {
        let path = file_beside(record);
        let text = self.text(record, member, members)?;
        let named = || path.display().to_string();
        if files::read_or_empty(&path).with_context(named)? != text.as_bytes() {
            files::replace(&path, &[text.as_bytes()]).with_context(named)?;
        }
        Ok(path)
    }

    /// What has to be alike at all members beside epoch and genesis, as bytes: none where it is as where nothing is said.
    pub fn alike(&self) -> Vec<u8> {
        let usual = NodeSettings::default();
        let usual = NodeSettings {
            base: usual.base,
            term_length: usual.term_length,
            stall_timeout: usual.stall_timeout,
            optimistic_views: usual.optimistic_views,
            seed: usual.seed,
            ..self.clone()
        };
        if *self == usual {
            return Vec::new();
        }
        let seed = self.seed.as_deref().unwrap_or_default();
        [
            &self.term_length.to_be_bytes()[..],
            &self.stall_timeout.to_be_bytes(),
            &self.optimistic_views.to_be_bytes(),
            &[u8::from(self.seed.is_some())],
            &(self.base.len() as u64).to_be_bytes(),
            self.base.as_bytes(),
            seed,
        ]
        .concat()
    }

    /// Whether a host of this crate can be a host of it. What else no node can be opened with its program tells.
    ///
    /// # Errors
    ///
    /// The key that it can't, by its name.
    pub fn check(&self) -> Result<()> {
        ensure!(self.term_length > 0, "node.term-length has to be above 0");
        ensure!(
            self.genesis == [0; 32],
            "node.genesis has to be zeros, where the blocks of this host begin"
        );
        Ok(())
    }
}

/// Bytes as hexadecimal digits.
mod digits {
    use serde::de::Error;
    use serde::{Deserialize, Deserializer, Serializer};

    pub fn serialize<S: Serializer>(bytes: &[u8; 32], to: S) -> Result<S::Ok, S::Error> {
        to.serialize_str(&hex::encode(bytes))
    }

    pub fn deserialize<'de, D: Deserializer<'de>>(from: D) -> Result<[u8; 32], D::Error> {
        let mut bytes = [0; 32];
        hex::decode_to_slice(String::deserialize(from)?, &mut bytes)
            .map_err(|_| D::Error::custom("64 hexadecimal digits are wanted"))?;
        Ok(bytes)
    }
}

/// The same of any number of bytes, if there are any.
mod some_digits {
    use serde::de::Error;
    use serde::{Deserialize, Deserializer, Serializer};

    pub fn serialize<S: Serializer>(bytes: &Option<Vec<u8>>, to: S) -> Result<S::Ok, S::Error> {
        to.serialize_str(&hex::encode(bytes.as_deref().unwrap_or_default()))
    }

    pub fn deserialize<'de, D: Deserializer<'de>>(from: D) -> Result<Option<Vec<u8>>, D::Error> {
        let bytes = hex::decode(String::deserialize(from)?);
        let wanted = |_| D::Error::custom("an even number of hexadecimal digits is wanted");
        bytes.map(Some).map_err(wanted)
    }
}

#[cfg(test)]
mod tests {
    use super::*;
    use std::fs;

    #[test]
    fn settings_are_told_as_a_file_of_settings_and_read_back() {
        let settings = NodeSettings {
            seed: Some(vec![0xc0, 0xff]),
            repair: Repair::Once,
            skip_budget: Some(3),
            ..NodeSettings::default()
        };
        let text = settings.text(Path::new("a \"b\"/record"), 2, 7).unwrap();
        let mut table: toml::value::Table = toml::from_str(&text).unwrap();
        let place = ["members", "member", "record"].map(|key| table.remove(key).unwrap());
        assert_eq!(place[0].as_integer(), Some(7));
        assert_eq!(place[1].as_integer(), Some(2));
        assert_eq!(place[2].as_str(), Some("a \"b\"/record"));
        let read: NodeSettings = toml::Value::Table(table).try_into().unwrap();
        assert_eq!(read, settings);
        assert!(
            text.contains("repair = \"once\"") && text.contains("seed = \"c0ff\""),
            "{text}"
        );
    }

    #[test]
    fn the_defaults_are_those_of_the_file_that_has_them_all() {
        let all = Path::new(env!("CARGO_MANIFEST_DIR")).join("../../../demo/member.toml");
        let mut table: toml::value::Table =
            toml::from_str(&fs::read_to_string(all).unwrap()).unwrap();
        for key in ["members", "member", "record"] {
            table.remove(key).unwrap();
        }
        let keys: Vec<String> = table.keys().cloned().collect();
        let written = toml::Value::try_from(NodeSettings::default()).unwrap();
        let ours: Vec<String> = written.as_table().unwrap().keys().cloned().collect();
        assert_eq!(keys, ours);
        let read: NodeSettings = toml::Value::Table(table).try_into().unwrap();
        assert!(read.is_default());
    }

    #[test]
    fn a_file_is_written_where_it_is_another_alone() {
        let folder = tempfile::tempdir().unwrap();
        let record = folder.path().join("record");
        let usual = NodeSettings::default();
        let path = usual.write_beside(&record, 0, 4).unwrap();
        assert_eq!(path, folder.path().join("record.toml"));
        let first = fs::metadata(&path).unwrap().modified().unwrap();
        usual.write_beside(&record, 0, 4).unwrap();
        assert_eq!(fs::metadata(&path).unwrap().modified().unwrap(), first);
        usual.write_beside(&record, 1, 4).unwrap();
        assert!(fs::read_to_string(&path).unwrap().contains("member = 1\n"));
        assert_eq!(fs::read_dir(folder.path()).unwrap().count(), 1);
    }

    #[test]
    fn what_is_no_setting_of_this_host_is_told_by_its_name() {
        for (text, told) in [
            ("leader-timout = 1", "leader-timout"),
            ("leader_timeout = 1", "leader_timeout"),
            ("epoch = -1", "-1"),
            ("genesis = \"00\"", "64 hexadecimal digits"),
            ("seed = \"abc\"", "even number"),
            ("repair = \"always\"", "always"),
        ] {
            let said = toml::from_str::<NodeSettings>(text).unwrap_err();
            assert!(said.to_string().contains(told), "{text}: {said}");
        }
        let checked = |text: &str| toml::from_str::<NodeSettings>(text).unwrap().check();
        let genesis = format!("genesis = \"{}\"", "01".repeat(32));
        for (text, named) in [("term-length = 0", "term-length"), (&genesis, "genesis")] {
            assert!(checked(text).unwrap_err().to_string().contains(named));
        }
        assert!(checked("").is_ok());
    }

    #[test]
    fn what_has_to_be_alike_is_told_apart_from_what_may_differ() {
        let alike = |text: &str| toml::from_str::<NodeSettings>(text).unwrap().alike();
        // Epoch and genesis are told by themselves.
        for text in ["", "leader-timeout = 7", "epoch = 3"] {
            assert!(alike(text).is_empty(), "{text}");
        }
        let others = [
            "base = \"b\"",
            "term-length = 5",
            "stall-timeout = 9",
            "optimistic-views = 1",
            "seed = \"\"",
            "seed = \"00\"",
        ];
        let all: std::collections::HashSet<Vec<u8>> = others.iter().map(|it| alike(it)).collect();
        assert!(all.len() == others.len() && !all.contains(&Vec::new()));
    }
}
