//! The audit of reports, the check of a record, the reading of messages and certificates, and a member's node, by code that is proved.
//!
//! Safe Rust over the static library `simplex_c`. Its functions ask nothing of numbers and bytes, each slice is passed with its own
//! length, and a node's handle is written by the library alone, so no call from safe code is undefined. Trusted, beside the proofs:
//! the declarations of foreign functions here, which nothing compares with the library's, and the heap of the module `heap`.

mod attesting;
mod files;
mod handle;
mod heap;
mod light;
mod node;
mod requests;
mod settings;
pub mod wire;

pub use attesting::{Attestation, attestations};
pub use files::second_path;
use handle::Handle;
pub use light::{Broken, Certified, Uncertified, certifies, finalized_in};
pub use node::{Ending, Node, Views};
pub use settings::{Forwarding, Repair, Settings, SettingsError, SettingsFault, Skips};

/// What a call tells beside its status.
#[repr(C)]
#[derive(Default)]
struct Found {
    length: usize,
    place: u64,
    named: u32,
}

unsafe extern "C" {
    fn voumlis_proved_audit(
        members: u16,
        reports: *const u8,
        reports_length: usize,
        evidence: *mut u8,
        evidence_length: usize,
        found: *mut Found,
    ) -> u32;
    fn voumlis_proved_first_refused(
        members: u16,
        epoch: u64,
        term: u32,
        member: u16,
        record: *const u8,
        length: usize,
        found: *mut Found,
    ) -> u32;
    fn voumlis_proved_decode(
        kind: u32,
        members: u32,
        bytes: *const u8,
        length: usize,
        found: *mut Found,
    ) -> u32;
}

/// Why there is no answer.
#[derive(Clone, Copy, Debug, PartialEq, Eq)]
pub enum Error {
    /// Memory ran out.
    Memory,
    /// A committee of no members, or a term of no view.
    Argument,
}

/// What an audit found.
#[derive(Clone, Debug, PartialEq, Eq)]
pub struct Audit {
    /// The evidence, as reports.
    pub evidence: Vec<u8>,
    /// The place of the first byte at which no whole report stands, if there is one.
    pub fault: Option<u64>,
}

/// What a record is.
#[derive(Clone, Copy, Debug, PartialEq, Eq)]
pub enum Record {
    /// Lawful, of so many entries.
    Lawful(usize),
    /// This entry, counted from 0, is the first that a lawful record refuses.
    Refused(u64),
    /// At this byte stands an entry that is no artifact.
    Foreign(u64),
}

/// Kinds of messages.
#[derive(Clone, Copy, Debug, PartialEq, Eq)]
pub enum Kind {
    /// A vote.
    Vote,
    /// A certificate.
    Certificate,
    /// An artifact of a record.
    Artifact,
    /// A report.
    Report,
}

/// Why no message was read: the first trouble from the left.
#[derive(Clone, Copy, Debug, PartialEq, Eq)]
pub enum Refusal {
    /// The bytes end within a value.
    End,
    /// A byte or a value can't stand there.
    Invalid,
    /// A count is above its bound.
    TooLong,
    /// Memory ran out.
    Memory,
}

impl std::fmt::Display for Error {
    fn fmt(&self, f: &mut std::fmt::Formatter<'_>) -> std::fmt::Result {
        f.write_str(match self {
            Error::Memory => "memory ran out",
            Error::Argument => "no members, or a term of no view",
        })
    }
}

impl std::error::Error for Error {}

impl Found {
    fn named(&self) -> Option<u64> {
        (self.named != 0).then_some(self.place)
    }
}

/// The evidence that an audit of these reports of a committee finds, under the plain scheme over the base `simplex`.
///
/// # Errors
///
/// [`Error::Argument`] where there are no members, and [`Error::Memory`].
pub fn audit(members: u16, reports: &[u8]) -> Result<Audit, Error> {
    let mut evidence = vec![0; 4096];
    loop {
        let mut found = Found::default();
        // SAFETY: two slices with their lengths, the second lent to be written, and a `Found` of this frame.
        let status = unsafe {
            voumlis_proved_audit(
                members,
                reports.as_ptr(),
                reports.len(),
                evidence.as_mut_ptr(),
                evidence.len(),
                &mut found,
            )
        };
        match status {
            0 => {
                evidence.truncate(found.length);
                return Ok(Audit {
                    evidence,
                    fault: found.named(),
                });
            }
            3 => evidence = vec![0; found.length],
            2 => return Err(Error::Argument),
            _ => return Err(Error::Memory),
        }
    }
}

/// The first entry that a lawful record of this member refuses of the record that these bytes hold, if there is one.
///
/// # Errors
///
/// [`Error::Argument`] where there are no members or a term has no view, and [`Error::Memory`].
pub fn first_refused(
    members: u16,
    epoch: u64,
    term: u32,
    member: u16,
    record: &[u8],
) -> Result<Record, Error> {
    let mut found = Found::default();
    // SAFETY: a slice with its length, and a `Found` of this frame.
    let status = unsafe {
        voumlis_proved_first_refused(
            members,
            epoch,
            term,
            member,
            record.as_ptr(),
            record.len(),
            &mut found,
        )
    };
    match status {
        0 => Ok(Record::Lawful(found.length)),
        7 => Ok(Record::Refused(found.place)),
        8 => Ok(Record::Foreign(found.place)),
        2 => Err(Error::Argument),
        _ => Err(Error::Memory),
    }
}

/// Reads the message at the front of these bytes, and tells how many it takes.
///
/// # Errors
///
/// The first trouble from the left, or [`Refusal::Memory`].
pub fn decode(kind: Kind, members: u32, bytes: &[u8]) -> Result<usize, Refusal> {
    let mut found = Found::default();
    // SAFETY: a slice with its length, and a `Found` of this frame.
    let status = unsafe {
        voumlis_proved_decode(
            kind as u32,
            members,
            bytes.as_ptr(),
            bytes.len(),
            &mut found,
        )
    };
    match status {
        0 => Ok(found.length),
        4 => Err(Refusal::End),
        5 => Err(Refusal::Invalid),
        6 => Err(Refusal::TooLong),
        _ => Err(Refusal::Memory),
    }
}
