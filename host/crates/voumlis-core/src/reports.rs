//! The log of a member's reports, with the signatures of their attestations, so that whoever has the public keys can judge by it.
//!
//! An entry is the report's size in 4 bytes, the most significant first, the report, and a signature of 64 bytes for each attestation
//! in it, in order. What a node tells anew isn't written again: of its record when it is opened again, and evidence each time that a liar
//! repeats itself. Where the log is long it is put aside, in place of the one that was before, and a new one begins with all evidence.

use crate::committee::Signature;
use crate::files;
use crate::plain::sha256;
use crate::wire::{LARGEST, Report};
use anyhow::{Context, Result};
use std::collections::{HashMap, HashSet};
use std::fs::{self, File};
use std::io::{BufReader, ErrorKind, Read, Write};
use std::path::{Path, PathBuf};

/// A report with its signatures.
#[derive(Clone, Debug, PartialEq, Eq)]
pub struct SignedReport {
    /// The report's bytes.
    pub plain: Vec<u8>,
    /// What they say.
    pub report: Report,
    /// A signature for each attestation.
    pub signatures: Vec<Signature>,
}

impl SignedReport {
    fn is_evidence(&self) -> bool {
        matches!(self.report, Report::Evidence(..))
    }

    /// The entry's bytes.
    pub fn bytes(&self) -> Vec<u8> {
        let size = (self.plain.len() as u32).to_be_bytes();
        [&size[..], &self.plain, &self.signatures.concat()].concat()
    }

    /// The next entry; `None` where no whole one stands there.
    fn read(reader: &mut impl Read) -> Result<Option<SignedReport>, std::io::Error> {
        let Some(size) = whole(reader, 4)? else {
            return Ok(None);
        };
        let size = size
            .iter()
            .fold(0, |size, byte| size << 8 | u64::from(*byte));
        let Some(plain) = whole(reader, size)? else {
            return Ok(None);
        };
        let Ok(report) = Report::read(LARGEST, &plain) else {
            return Ok(None);
        };
        let count = report.attestations().len() as u64;
        let Some(signatures) = whole(reader, 64 * count)? else {
            return Ok(None);
        };
        let signatures = signatures.chunks_exact(64);
        Ok(Some(SignedReport {
            signatures: signatures
                .map(|one| one.try_into().expect("64 bytes"))
                .collect(),
            plain,
            report,
        }))
    }
}

/// So many bytes, or nothing where there are fewer: no more memory is taken than there are.
fn whole(reader: &mut impl Read, size: u64) -> Result<Option<Vec<u8>>, std::io::Error> {
    let mut bytes = Vec::new();
    reader.take(size).read_to_end(&mut bytes)?;
    Ok((bytes.len() as u64 == size).then_some(bytes))
}

/// Hands each whole entry at the front over, and answers how many bytes they take.
fn each(
    mut reader: impl Read,
    mut take: impl FnMut(SignedReport),
) -> Result<usize, std::io::Error> {
    let mut place = 0;
    while let Some(signed) = SignedReport::read(&mut reader)? {
        place += 4 + signed.plain.len() + 64 * signed.signatures.len();
        take(signed);
    }
    Ok(place)
}

/// The same of a file, or of none.
fn each_of(path: &Path, take: impl FnMut(SignedReport)) -> Result<usize, std::io::Error> {
    match File::open(path) {
        Ok(file) => each(BufReader::with_capacity(1 << 16, file), take),
        Err(error) if error.kind() == ErrorKind::NotFound => Ok(0),
        Err(error) => Err(error),
    }
}

/// The whole entries at the front of these bytes, and how many bytes they take.
pub fn read_all(bytes: &[u8]) -> (Vec<SignedReport>, usize) {
    let mut all = Vec::new();
    let place = each(bytes, |signed| all.push(signed)).expect("bytes that are there are read");
    (all, place)
}

/// Where the log is put aside that is at this path.
pub fn aside(path: &Path) -> PathBuf {
    path.with_extension("old")
}

/// Of views so far below the last one that was reported nothing is remembered: it was written long ago, and is on the disk.
const REMEMBERED_VIEWS: u64 = 10_000;

/// The log's file. One thread has it.
///
/// At its opening a node tells the reports of its record: so which there are is remembered for that time alone. Later it tells each once in
/// a life, but evidence.
pub struct ReportLog {
    path: PathBuf,
    file: File,
    most: u64,
    /// Below this view all is taken for written.
    below: u64,
    found: HashSet<[u8; 32]>,
    evidence: HashMap<[u8; 32], Vec<u8>>,
    /// How many bytes it has.
    pub size: u64,
}

impl ReportLog {
    /// Opens the log, or makes one; a torn end is cut. It is put aside where it would have more than `most` bytes.
    ///
    /// # Errors
    ///
    /// Those of the file.
    pub fn open(path: &Path, most: u64) -> Result<ReportLog> {
        let named = || format!("the reports {}", path.display());
        let size = each_of(path, |_| {}).with_context(named)? as u64;
        Ok(ReportLog {
            path: path.to_owned(),
            file: files::open_to_append(path, size).with_context(named)?,
            most,
            below: 0,
            found: HashSet::new(),
            evidence: HashMap::new(),
            size,
        })
    }

    /// Reads which reports there are: a node is to be opened, and tells them anew.
    ///
    /// # Errors
    ///
    /// Those of the file.
    pub fn remember(&mut self) -> Result<()> {
        let mut last = 0;
        for path in [aside(&self.path), self.path.clone()] {
            each_of(&path, |signed| last = last.max(signed.report.view()))?;
        }
        self.below = last.saturating_sub(REMEMBERED_VIEWS);
        for path in [aside(&self.path), self.path.clone()] {
            each_of(&path, |signed| {
                let hash = sha256(&[&signed.plain]);
                if signed.is_evidence() {
                    self.evidence.insert(hash, signed.bytes());
                } else if signed.report.view() >= self.below {
                    self.found.insert(hash);
                }
            })?;
        }
        Ok(())
    }

    /// Forgets which there are, but evidence: the node was opened.
    pub fn forget(&mut self) {
        self.below = 0;
        self.found = HashSet::new();
    }

    /// Whether this report is there, as far as it is remembered.
    pub fn has(&self, plain: &[u8], report: &Report) -> bool {
        let hash = sha256(&[plain]);
        match report {
            Report::Evidence(..) => self.evidence.contains_key(&hash),
            _ => report.view() < self.below || self.found.contains(&hash),
        }
    }

    /// Writes a report. It isn't synced: what a crash of the machine takes the node tells anew, as long as its record has it.
    ///
    /// # Errors
    ///
    /// Those of the file.
    pub fn append(&mut self, signed: &SignedReport) -> Result<()> {
        let bytes = signed.bytes();
        if self.size + bytes.len() as u64 > self.most && self.size > 0 {
            self.begin_anew()?;
        }
        self.write(&bytes)?;
        if signed.is_evidence() {
            self.evidence.insert(sha256(&[&signed.plain]), bytes);
        }
        Ok(())
    }

    fn write(&mut self, bytes: &[u8]) -> Result<()> {
        self.file.write_all(bytes)?;
        self.size += bytes.len() as u64;
        Ok(())
    }

    fn begin_anew(&mut self) -> Result<()> {
        fs::rename(&self.path, aside(&self.path))?;
        self.file = files::open_to_append(&self.path, 0)?;
        self.size = 0;
        let evidence = self.evidence.values().flatten().copied();
        self.write(&evidence.collect::<Vec<u8>>())
    }
}

#[cfg(test)]
mod tests {
    use super::*;
    use crate::plain::{BASE, attestation};
    use crate::wire::{Attestation, On, Proposal, Round, Vote, VoteKind};

    const MOST: u64 = 1 << 20;

    fn signed(view: u64) -> SignedReport {
        let on = On::Round(Round { epoch: 0, view });
        let vote = Vote {
            kind: VoteKind::Nullify,
            on,
            attestation: Attestation {
                signer: 1,
                hash: attestation(BASE, VoteKind::Nullify, &on, 1),
            },
        };
        let mut plain = vote.bytes();
        plain[0] = 3; // the tag of a nullify among reports
        SignedReport {
            report: Report::read(4, &plain).unwrap(),
            plain,
            signatures: vec![[7; 64]],
        }
    }

    #[test]
    fn reports_are_read_behind_a_torn_end_and_remembered_when_asked() {
        let folder = tempfile::tempdir().unwrap();
        let path = folder.path().join("reports");
        let mut log = ReportLog::open(&path, MOST).unwrap();
        log.append(&signed(1)).unwrap();
        let torn = signed(2).bytes();
        let mut bytes = std::fs::read(&path).unwrap();
        assert_eq!(bytes, signed(1).bytes());
        bytes.extend(&torn[..torn.len() - 1]);
        std::fs::write(&path, bytes).unwrap();
        let mut log = ReportLog::open(&path, MOST).unwrap();
        let has = |log: &ReportLog, one: SignedReport| log.has(&one.plain, &one.report);
        log.remember().unwrap();
        assert!(has(&log, signed(1)) && !has(&log, signed(2)));
        log.append(&signed(2)).unwrap();
        log.forget();
        assert!(!has(&log, signed(1)));
        let (all, _) = read_all(&std::fs::read(&path).unwrap());
        assert_eq!(all, [signed(1), signed(2)]);
        // Of what was reported long ago each is taken for written, where the node tells it anew.
        let far = REMEMBERED_VIEWS + 50;
        log.append(&signed(far)).unwrap();
        log.remember().unwrap();
        assert!(has(&log, signed(49)) && !has(&log, signed(50)) && has(&log, signed(far)));
    }

    /// Two votes of member 1 that contradict each other.
    fn evidence() -> SignedReport {
        let votes = [3, 4].map(|payload| {
            let round = Round { epoch: 0, view: 7 };
            let on = On::Proposal(Proposal {
                round,
                parent: 6,
                payload: [payload; 32],
            });
            let (kind, hash) = (VoteKind::Notarize, [payload; 32]);
            let attestation = Attestation { signer: 1, hash };
            Vote {
                kind,
                on,
                attestation,
            }
        });
        let plain = [&[7], &votes[0].bytes()[1..], &votes[1].bytes()[1..]].concat();
        SignedReport {
            report: Report::read(4, &plain).unwrap(),
            plain,
            signatures: vec![[7; 64]; 2],
        }
    }

    #[test]
    fn a_long_log_is_put_aside_and_evidence_stays() {
        let folder = tempfile::tempdir().unwrap();
        let path = folder.path().join("reports");
        let most = (evidence().bytes().len() + 10 * signed(1).bytes().len()) as u64;
        let mut log = ReportLog::open(&path, most).unwrap();
        log.append(&evidence()).unwrap();
        (1..=35).for_each(|view| log.append(&signed(view)).unwrap());
        let read = |path: &Path| read_all(&std::fs::read(path).unwrap()).0;
        let (before, now) = (read(&aside(&path)), read(&path));
        let views = |from: u64, to| [evidence()].into_iter().chain((from..=to).map(signed));
        assert_eq!(before, views(21, 30).collect::<Vec<_>>());
        assert_eq!(now, views(31, 35).collect::<Vec<_>>());
        // Behind a restart both are remembered.
        let mut log = ReportLog::open(&path, most).unwrap();
        log.remember().unwrap();
        for one in before.iter().chain(&now) {
            assert!(log.has(&one.plain, &one.report));
        }
    }
}
