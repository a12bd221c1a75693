//! Members of whom nothing more is taken: a file with a line for each, which stays from run to run. Whoever runs the member forgives one
//! by taking its line out while the member is stopped.

use anyhow::{Context, Result};
use std::fs::{self, File};
use std::io::{ErrorKind, Write};
use std::os::unix::fs::OpenOptionsExt;
use std::path::Path;
use std::sync::{Arc, Mutex};
use tracing::{error, warn};
use voumlis_core::metrics::Status;

/// The list.
pub struct BlockList {
    status: Arc<Status>,
    file: Mutex<File>,
}

impl BlockList {
    /// Reads the list in this file, or makes an empty one.
    ///
    /// # Errors
    ///
    /// Where the file can't be read, or a line begins with no member's index.
    pub fn open(path: &Path, status: Arc<Status>) -> Result<BlockList> {
        let named = || format!("the list of blocked members {}", path.display());
        let text = match fs::read_to_string(path) {
            Err(error) if error.kind() == ErrorKind::NotFound => String::new(),
            other => other.with_context(named)?,
        };
        for line in text.lines().filter(|line| !line.trim().is_empty()) {
            let (member, why) = line.split_once(' ').unwrap_or((line, ""));
            let member = member.parse().with_context(named)?;
            status.change(|state| state.blocked.insert(member, why.to_owned()));
        }
        let mut options = File::options();
        let file = options.create(true).append(true).mode(0o600).open(path);
        Ok(BlockList {
            status,
            file: Mutex::new(file.with_context(named)?),
        })
    }

    /// Whether nothing is taken of this member.
    pub fn has(&self, member: u32) -> bool {
        self.status
            .change(|state| state.blocked.contains_key(&member))
    }

    /// Takes nothing more of this member.
    pub fn add(&self, member: u32, why: &str) {
        let is_new = self.status.change(|state| {
            let is_new = !state.blocked.contains_key(&member);
            state
                .blocked
                .entry(member)
                .or_insert_with(|| why.to_owned());
            is_new
        });
        if !is_new {
            return;
        }
        warn!(member, why, "blocked");
        let mut file = self.file.lock().expect("no thread failed with it");
        if let Err(told) = writeln!(file, "{member} {why}") {
            error!(%told, "the list of blocked members isn't written");
        }
    }
}

#[cfg(test)]
mod tests {
    use super::*;

    #[test]
    fn a_blocked_member_stays_blocked_until_its_line_is_taken_out() {
        let folder = tempfile::tempdir().unwrap();
        let path = folder.path().join("blocked");
        let list = BlockList::open(&path, Arc::default()).unwrap();
        assert!(!list.has(2));
        list.add(2, "a forged signature");
        list.add(2, "another");
        assert_eq!(fs::read_to_string(&path).unwrap(), "2 a forged signature\n");
        let status = Arc::new(Status::default());
        let again = BlockList::open(&path, status.clone()).unwrap();
        assert!(again.has(2) && !again.has(1));
        assert_eq!(status.get().blocked[&2], "a forged signature");
        fs::write(&path, "").unwrap();
        let forgiven = BlockList::open(&path, Arc::default()).unwrap();
        assert!(!forgiven.has(2));
    }
}
