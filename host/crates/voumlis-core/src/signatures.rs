//! The signatures that were seen to verify, so that this member can send on what its node hands out.
//!
//! A node knows attestations alone. So the host keeps, for each (signer, hash) that came in with a signature that verifies, that
//! signature: in memory, and in a file that is written behind each batch of events and synced before anything that rests on it leaves. A
//! kill may lose what wasn't written, a crash of the machine what wasn't synced, and a torn end is cut when the file is opened. What is
//! lost so this member can't show until it hears it again: that is why own votes go out again behind each opening.

use crate::committee::Signature;
use crate::files;
use crate::wire::Attestation;
use anyhow::{Context, Result};
use std::collections::HashMap;
use std::fs::File;
use std::io::Write;
use std::path::{Path, PathBuf};
use std::sync::Mutex;

/// View, signer, hash, signature.
const ENTRY: usize = 8 + 4 + 32 + 64;

/// How many views below the last final one signatures are kept: a node answers asks for few below it.
pub const KEPT_VIEWS: u64 = 64;

#[derive(Clone, Copy)]
struct Kept {
    view: u64,
    signature: Signature,
    is_on_disk: bool,
}

/// The signatures in memory, for any number of threads.
#[derive(Default)]
pub struct Signatures {
    kept: Mutex<HashMap<Attestation, Kept>>,
}

impl Signatures {
    /// The signature that was kept for an attestation.
    pub fn get(&self, attestation: &Attestation) -> Option<Signature> {
        let kept = self.kept.lock().expect("no thread failed with it");
        kept.get(attestation).map(|kept| kept.signature)
    }

    fn is_on_disk(&self, attestation: &Attestation) -> bool {
        let kept = self.kept.lock().expect("no thread failed with it");
        kept.get(attestation).is_some_and(|kept| kept.is_on_disk)
    }

    fn insert(&self, attestation: Attestation, kept: Kept) {
        let mut all = self.kept.lock().expect("no thread failed with it");
        all.insert(attestation, kept);
    }

    /// How many there are.
    pub fn count(&self) -> usize {
        self.kept.lock().expect("no thread failed with it").len()
    }
}

/// The file of signatures. One thread has it.
pub struct SignatureFile {
    path: PathBuf,
    file: File,
    entries: usize,
    waiting: Vec<u8>,
    /// Something was written that wasn't synced.
    is_unsynced: bool,
}

fn spelled(attestation: &Attestation, view: u64, signature: &Signature) -> [u8; ENTRY] {
    let mut entry = [0; ENTRY];
    entry[..8].copy_from_slice(&view.to_be_bytes());
    entry[8..12].copy_from_slice(&attestation.signer.to_be_bytes());
    entry[12..44].copy_from_slice(&attestation.hash);
    entry[44..].copy_from_slice(signature);
    entry
}

fn read(entry: &[u8]) -> Option<(Attestation, Kept)> {
    let (view, rest) = entry.split_first_chunk()?;
    let (signer, rest) = rest.split_first_chunk()?;
    let (hash, rest) = rest.split_first_chunk()?;
    let attestation = Attestation {
        signer: u32::from_be_bytes(*signer),
        hash: *hash,
    };
    let kept = Kept {
        view: u64::from_be_bytes(*view),
        signature: rest.try_into().ok()?,
        is_on_disk: true,
    };
    Some((attestation, kept))
}

impl SignatureFile {
    /// Opens the file, or makes one, and takes in what it holds. Only entries that `verifies` says yes to are taken, so that a byte that
    /// rotted makes no false signature of a good one.
    ///
    /// # Errors
    ///
    /// Those of the file.
    pub fn open(
        path: &Path,
        signatures: &Signatures,
        verifies: impl Fn(&Attestation, &Signature) -> bool,
    ) -> Result<SignatureFile> {
        let named = || format!("the signatures {}", path.display());
        let stored = files::read_or_empty(path).with_context(named)?;
        let whole = stored.len() - stored.len() % ENTRY;
        for entry in stored[..whole].chunks_exact(ENTRY) {
            if let Some((attestation, kept)) = read(entry)
                && verifies(&attestation, &kept.signature)
            {
                signatures.insert(attestation, kept);
            }
        }
        let file = files::open_to_append(path, whole as u64).with_context(named)?;
        Ok(SignatureFile {
            path: path.to_owned(),
            file,
            entries: whole / ENTRY,
            waiting: Vec::new(),
            is_unsynced: false,
        })
    }

    /// Keeps a signature that verified. It is on the disk once [`SignatureFile::sync`] has answered.
    pub fn keep(
        &mut self,
        signatures: &Signatures,
        attestation: Attestation,
        view: u64,
        signature: Signature,
    ) {
        if signatures.is_on_disk(&attestation) {
            return;
        }
        let is_on_disk = true;
        let entry = spelled(&attestation, view, &signature);
        self.waiting.extend(entry);
        let kept = Kept {
            view,
            signature,
            is_on_disk,
        };
        signatures.insert(attestation, kept);
    }

    /// Writes what was kept: it survives the end of this process, however it comes.
    ///
    /// # Errors
    ///
    /// Those of the file: what waits is then not known to be there, and this member can't go on.
    pub fn write(&mut self) -> Result<()> {
        if self.waiting.is_empty() {
            return Ok(());
        }
        self.is_unsynced = true;
        self.file.write_all(&self.waiting)?;
        self.entries += self.waiting.len() / ENTRY;
        self.waiting.clear();
        Ok(())
    }

    /// Makes sure that all that was kept survives a crash, and answers whether anything had to be synced for it.
    ///
    /// # Errors
    ///
    /// As of [`SignatureFile::write`].
    pub fn sync(&mut self) -> Result<bool> {
        self.write()?;
        if !self.is_unsynced {
            return Ok(false);
        }
        self.file.sync_data()?;
        self.is_unsynced = false;
        Ok(true)
    }

    /// Forgets signatures of views far below this final one, and writes the file anew where most of it was forgotten.
    ///
    /// # Errors
    ///
    /// Those of the files: the old one stays then.
    pub fn prune(&mut self, signatures: &Signatures, finalized: u64) -> Result<()> {
        let floor = finalized.saturating_sub(KEPT_VIEWS);
        let left: Vec<u8> = {
            let mut all = signatures.kept.lock().expect("no thread failed with it");
            all.retain(|_, kept| kept.view >= floor);
            if self.entries < 2 * all.len() + 1024 {
                return Ok(());
            }
            all.iter()
                .flat_map(|(attestation, kept)| spelled(attestation, kept.view, &kept.signature))
                .collect()
        };
        files::replace(&self.path, &[&left])?;
        self.file = files::open_to_append(&self.path, left.len() as u64)?;
        self.entries = left.len() / ENTRY;
        self.waiting.clear();
        self.is_unsynced = false;
        Ok(())
    }
}

#[cfg(test)]
mod tests {
    use super::*;
    use std::fs;

    fn attestation(byte: u8) -> Attestation {
        Attestation {
            signer: u32::from(byte),
            hash: [byte; 32],
        }
    }

    fn all(_: &Attestation, _: &Signature) -> bool {
        true
    }

    #[test]
    fn what_was_synced_is_there_behind_a_torn_end() {
        let folder = tempfile::tempdir().unwrap();
        let path = folder.path().join("signatures");
        let signatures = Signatures::default();
        let mut file = SignatureFile::open(&path, &signatures, all).unwrap();
        file.keep(&signatures, attestation(1), 5, [1; 64]);
        file.keep(&signatures, attestation(1), 5, [1; 64]);
        assert!(file.sync().unwrap());
        assert!(!file.sync().unwrap(), "nothing waits");
        let mut bytes = fs::read(&path).unwrap();
        assert_eq!(bytes.len(), ENTRY, "an entry is written once");
        bytes.extend([9; ENTRY - 1]);
        fs::write(&path, &bytes).unwrap();

        let again = Signatures::default();
        let mut file = SignatureFile::open(&path, &again, all).unwrap();
        assert_eq!(again.get(&attestation(1)), Some([1; 64]));
        assert_eq!(again.count(), 1);
        file.keep(&again, attestation(2), 6, [2; 64]);
        file.sync().unwrap();
        let third = Signatures::default();
        SignatureFile::open(&path, &third, all).unwrap();
        assert_eq!(third.get(&attestation(2)), Some([2; 64]));
    }

    #[test]
    fn what_was_written_is_there_once_and_is_synced_once() {
        let folder = tempfile::tempdir().unwrap();
        let path = folder.path().join("signatures");
        let signatures = Signatures::default();
        let mut file = SignatureFile::open(&path, &signatures, all).unwrap();
        file.keep(&signatures, attestation(1), 5, [1; 64]);
        file.write().unwrap();
        file.write().unwrap();
        assert_eq!(fs::read(&path).unwrap().len(), ENTRY);
        assert!(file.sync().unwrap(), "it was written and not synced");
        assert!(!file.sync().unwrap(), "nothing waits");
    }

    #[test]
    fn what_does_not_verify_any_more_is_not_taken() {
        let folder = tempfile::tempdir().unwrap();
        let path = folder.path().join("signatures");
        let signatures = Signatures::default();
        let mut file = SignatureFile::open(&path, &signatures, all).unwrap();
        file.keep(&signatures, attestation(1), 5, [1; 64]);
        file.sync().unwrap();
        let again = Signatures::default();
        SignatureFile::open(&path, &again, |_, _| false).unwrap();
        assert_eq!(again.get(&attestation(1)), None);
    }

    #[test]
    fn old_views_are_forgotten_in_memory_and_in_the_file() {
        let folder = tempfile::tempdir().unwrap();
        let path = folder.path().join("signatures");
        let signatures = Signatures::default();
        let mut file = SignatureFile::open(&path, &signatures, all).unwrap();
        for view in 0..3000_u64 {
            let mut hash = [0; 32];
            hash[..8].copy_from_slice(&view.to_be_bytes());
            let attestation = Attestation { signer: 0, hash };
            file.keep(&signatures, attestation, view, [1; 64]);
        }
        file.sync().unwrap();
        file.prune(&signatures, 2999).unwrap();
        assert_eq!(signatures.count() as u64, KEPT_VIEWS + 1);
        let size = fs::metadata(&path).unwrap().len();
        assert_eq!(size, (KEPT_VIEWS + 1) * ENTRY as u64);
        file.keep(&signatures, attestation(9), 3000, [3; 64]);
        file.sync().unwrap();
        let again = Signatures::default();
        SignatureFile::open(&path, &again, all).unwrap();
        assert_eq!(again.get(&attestation(9)), Some([3; 64]));
    }
}
