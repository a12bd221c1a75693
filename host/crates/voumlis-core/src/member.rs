//! A member's node: what takes events and answers actions, over a record on a disk, in two files that belong together for good.

use crate::wire::{Event, Reply};
use anyhow::Result;
use std::fmt;
use std::fs;
use std::io::{Error, ErrorKind};
use std::path::{Path, PathBuf};

mod child;
#[cfg(feature = "library")]
mod library;
mod settings;

pub use child::Child;
#[cfg(feature = "library")]
pub use library::Library;
pub use settings::{Forwarding, NodeSettings, Repair, file_beside};

/// A node that was opened. What a reply says is in the record when the reply is there.
pub trait Member {
    /// Hands an event in, and answers the reply.
    ///
    /// # Errors
    ///
    /// One behind which the node has ended: its record can be opened again.
    fn step(&mut self, event: &Event) -> Result<Reply>;

    /// How many bytes the record's files have, between two events.
    ///
    /// # Errors
    ///
    /// Where the system doesn't tell.
    fn record_bytes(&self) -> Result<[u64; 2]>;

    /// Between two events has the record begin with the last finalization, so that what doesn't reach above it is dropped.
    ///
    /// # Errors
    ///
    /// As of a step.
    fn rewrite(&mut self) -> Result<Rewriting>;

    /// Lets the node go between two events.
    ///
    /// # Errors
    ///
    /// Where it ended otherwise.
    fn close(self: Box<Self>) -> Result<()>;
}

/// What a node did that was to rewrite its record.
#[derive(Clone, Copy, Debug, PartialEq, Eq)]
pub enum Rewriting {
    /// It did: the record begins with the finalization of this view. `None` where there was nothing to drop.
    Done(Option<u64>),
    /// Nothing yet: it rewrites its record where it is let go, and that is then to be opened again.
    AtItsEnd,
    /// Nothing: by its settings it rewrites its record of itself, once so many views more are final.
    OfItself,
}

/// The path of a record's second file.
pub fn second_path(record: &Path) -> PathBuf {
    let mut path = record.as_os_str().to_owned();
    path.push(".2");
    path.into()
}

/// How many bytes the files of the record at this path have; none where one isn't there.
///
/// # Errors
///
/// Where the system doesn't tell.
pub fn record_bytes(record: &Path) -> Result<[u64; 2], Error> {
    let length = |path: &Path| match fs::metadata(path) {
        Ok(found) => Ok(found.len()),
        Err(error) if error.kind() == ErrorKind::NotFound => Ok(0),
        Err(error) => Err(error),
    };
    Ok([length(record)?, length(&second_path(record))?])
}

/// Why a record isn't opened now, where it may be later: another process has it, and may be ending, or memory ran out.
#[derive(Debug)]
pub struct NotYet(pub String);

impl fmt::Display for NotYet {
    fn fmt(&self, f: &mut fmt::Formatter<'_>) -> fmt::Result {
        f.write_str(&self.0)
    }
}

impl std::error::Error for NotYet {}

/// Opens the record, and answers the node and what is due at once.
pub type Open = dyn FnMut() -> Result<(Box<dyn Member>, Reply)> + Send;
