//! The application's state behind a final block: on this disk for a restart, and for members that join late.

use crate::committee::Committee;
use crate::files;
use crate::frame::{Offer, PIECE};
use crate::plain::sha256;
use anyhow::{Context, Result, ensure};
use application::BlockId;
use std::collections::{BTreeSet, HashMap};
use std::path::{Path, PathBuf};
use std::time::{Duration, Instant};

/// The last snapshot.
#[derive(Clone, Debug, PartialEq, Eq)]
pub struct Snapshot {
    offer: Offer,
    bytes: Vec<u8>,
}

impl Snapshot {
    /// The application's bytes behind this block.
    pub fn new(at: BlockId, bytes: Vec<u8>) -> Snapshot {
        // Whoever takes it from here asks for many pieces: it is hashed once.
        let offer = Offer {
            at,
            size: bytes.len() as u64,
            digest: sha256(&[&bytes]),
        };
        Snapshot { offer, bytes }
    }

    /// The last block that it holds.
    pub fn at(&self) -> BlockId {
        self.offer.at
    }

    /// The application's bytes.
    pub fn bytes(&self) -> &[u8] {
        &self.bytes
    }

    /// What is told others of it.
    pub fn offer(&self) -> Offer {
        self.offer
    }

    /// The piece that begins at this place, if there is one.
    pub fn piece(&self, from: u64) -> Option<&[u8]> {
        let rest = self.bytes.get(usize::try_from(from).ok()?..)?;
        (!rest.is_empty()).then(|| &rest[..rest.len().min(PIECE)])
    }
}

/// The snapshot's file: view in 8 bytes, the most significant first, payload, SHA-256 of the bytes, the bytes.
#[derive(Clone)]
pub struct SnapshotFile {
    path: PathBuf,
}

impl SnapshotFile {
    /// The file at this path.
    pub fn new(path: &Path) -> SnapshotFile {
        SnapshotFile {
            path: path.to_owned(),
        }
    }

    /// The snapshot in it, if there is one.
    ///
    /// # Errors
    ///
    /// Where it can't be read, or isn't as it was written.
    pub fn read(&self) -> Result<Option<Snapshot>> {
        let named = || format!("the snapshot {}", self.path.display());
        let stored = files::read_or_empty(&self.path).with_context(named)?;
        if stored.is_empty() {
            return Ok(None);
        }
        ensure!(stored.len() >= 72, "{} is cut", named());
        let (head, bytes) = stored.split_at(72);
        let at = BlockId {
            view: u64::from_be_bytes(head[..8].try_into()?),
            payload: head[8..40].try_into()?,
        };
        let snapshot = Snapshot::new(at, bytes.to_vec());
        ensure!(
            snapshot.offer.digest == head[40..],
            "{} isn't as it was written",
            named()
        );
        Ok(Some(snapshot))
    }

    /// Writes a snapshot in the place of the one before. Behind a crash there is one of the two.
    ///
    /// # Errors
    ///
    /// Those of the files.
    pub fn write(&self, snapshot: &Snapshot) -> Result<()> {
        let parts = [
            &snapshot.offer.at.view.to_be_bytes()[..],
            &snapshot.offer.at.payload,
            &snapshot.offer.digest,
            &snapshot.bytes,
        ];
        files::replace(&self.path, &parts).with_context(|| format!("{}", self.path.display()))
    }
}

/// The most bytes of a snapshot that is taken from others.
const LARGEST: u64 = 1 << 30;

/// How long a piece is waited for, or enough equal offers.
const PATIENCE: Duration = Duration::from_secs(2);

/// The taking of a snapshot from others: one that f+1 members offer alike, so that a correct one of them vouches for it. All of its pieces
/// are taken from one of them, and in another try from another, since a piece alone tells nobody whether it is right.
pub struct Joining {
    tries: usize,
    offers: HashMap<Offer, BTreeSet<u32>>,
    taking: Option<Taking>,
    until: Instant,
}

struct Taking {
    offer: Offer,
    holder: u32,
    bytes: Vec<u8>,
}

/// What is to be done next.
#[derive(Debug, PartialEq, Eq)]
pub enum Next {
    /// Nothing, until something comes.
    Wait,
    /// Ask this member for the piece that begins here.
    Ask(u32, [u8; 32], u64),
    /// It is here.
    Done(Snapshot),
}

impl Joining {
    /// A beginning behind so many others, behind which all are asked.
    pub fn new(now: Instant, tries: usize) -> Joining {
        Joining {
            tries,
            offers: HashMap::new(),
            taking: None,
            until: now + PATIENCE,
        }
    }

    /// Whether nothing came for so long that it is better begun again.
    pub fn is_stuck(&self, now: Instant) -> bool {
        now >= self.until
    }

    /// A member's offer.
    pub fn offered(&mut self, committee: &Committee, sender: u32, offer: Offer) -> Next {
        if self.taking.is_some() || offer.size > LARGEST {
            return Next::Wait;
        }
        // A member has one snapshot: what it offered before counts no more.
        self.offers.retain(|_, holders| {
            holders.remove(&sender);
            !holders.is_empty()
        });
        let holders = self.offers.entry(offer).or_default();
        holders.insert(sender);
        if holders.len() as u32 <= committee.liars() {
            return Next::Wait;
        }
        let holder = holders.iter().nth(self.tries % holders.len());
        self.taking = holder.map(|holder| Taking {
            offer,
            holder: *holder,
            bytes: Vec::new(),
        });
        self.next()
    }

    /// A piece that a member sent. It counts if it is the one that this member was asked for, and whole.
    pub fn piece(
        &mut self,
        now: Instant,
        sender: u32,
        digest: [u8; 32],
        from: u64,
        piece: &[u8],
    ) -> Next {
        let Some(taking) = &mut self.taking else {
            return Next::Wait;
        };
        let have = taking.bytes.len() as u64;
        let is_asked = sender == taking.holder && digest == taking.offer.digest && from == have;
        let left = taking.offer.size.saturating_sub(have);
        if !is_asked || piece.len() as u64 != left.min(PIECE as u64) {
            return Next::Wait;
        }
        taking.bytes.extend(piece);
        self.until = now + PATIENCE;
        self.next()
    }

    fn next(&mut self) -> Next {
        let Some(taking) = self.taking.take() else {
            return Next::Wait;
        };
        let have = taking.bytes.len() as u64;
        if have < taking.offer.size {
            let next = Next::Ask(taking.holder, taking.offer.digest, have);
            self.taking = Some(taking);
            return next;
        }
        let snapshot = Snapshot::new(taking.offer.at, taking.bytes);
        if snapshot.offer != taking.offer {
            // The holder lied. All are asked again when the patience ends, and then it is taken from another.
            self.offers.clear();
            return Next::Wait;
        }
        Next::Done(snapshot)
    }
}

#[cfg(test)]
mod tests {
    use super::*;
    use crate::committee::SecretKey;

    fn committee() -> Committee {
        let key = |byte| SecretKey::of_seed([byte; 32]).unwrap().public();
        Committee::new((1..5).map(key).collect()).unwrap()
    }

    fn snapshot(byte: u8) -> Snapshot {
        let (view, payload) = (256, [1; 32]);
        Snapshot::new(BlockId { view, payload }, vec![byte; PIECE + 5])
    }

    #[test]
    fn a_snapshot_is_read_as_it_was_written_or_not_at_all() {
        let folder = tempfile::tempdir().unwrap();
        let path = folder.path().join("snapshot");
        let file = SnapshotFile::new(&path);
        assert_eq!(file.read().unwrap(), None);
        file.write(&snapshot(1)).unwrap();
        file.write(&snapshot(2)).unwrap();
        assert_eq!(file.read().unwrap(), Some(snapshot(2)));
        let mut bytes = std::fs::read(&path).unwrap();
        bytes[80] ^= 1;
        std::fs::write(&path, bytes).unwrap();
        assert!(file.read().is_err());
    }

    #[test]
    fn one_member_alone_makes_nobody_take_a_snapshot() {
        let now = Instant::now();
        let mut joining = Joining::new(now, 1);
        let committee = committee();
        let false_one = snapshot(9).offer();
        for _ in 0..3 {
            assert_eq!(joining.offered(&committee, 3, false_one), Next::Wait);
        }
        let true_one = snapshot(1);
        let digest = true_one.offer().digest;
        let mut offered = |member| joining.offered(&committee, member, true_one.offer());
        assert_eq!(offered(0), Next::Wait);
        assert_eq!(offered(1), Next::Ask(1, digest, 0));
        let first = true_one.piece(0).unwrap();
        let mut piece = |sender, from, bytes| joining.piece(now, sender, digest, from, bytes);
        // Others than the one that was asked say nothing, nor does a part of a piece.
        let false_one = snapshot(9);
        assert_eq!(piece(3, 0, false_one.piece(0).unwrap()), Next::Wait);
        assert_eq!(piece(1, 0, &first[..1]), Next::Wait);
        assert_eq!(piece(1, 0, first), Next::Ask(1, digest, PIECE as u64));
        assert_eq!(piece(1, 0, first), Next::Wait);
        let rest = true_one.piece(PIECE as u64).unwrap();
        let done = piece(1, PIECE as u64, rest);
        assert_eq!(done, Next::Done(true_one));
    }

    #[test]
    fn in_another_try_another_member_is_asked_and_offers_that_change_take_no_room() {
        let (now, committee) = (Instant::now(), committee());
        let true_one = snapshot(1).offer();
        let asked = (0..3).map(|tries| {
            let mut joining = Joining::new(now, tries);
            for size in 0..1000 {
                let false_one = Offer { size, ..true_one };
                joining.offered(&committee, 0, false_one);
            }
            assert_eq!(joining.offers.len(), 1);
            joining.offered(&committee, 0, true_one);
            match joining.offered(&committee, 2, true_one) {
                Next::Ask(holder, ..) => holder,
                other => panic!("{other:?}"),
            }
        });
        assert_eq!(asked.collect::<Vec<_>>(), [0, 2, 0]);
    }

    #[test]
    fn other_bytes_than_were_offered_are_not_taken() {
        let now = Instant::now();
        let mut joining = Joining::new(now, 0);
        let (committee, offer) = (committee(), snapshot(1).offer());
        joining.offered(&committee, 0, offer);
        joining.offered(&committee, 1, offer);
        let other = snapshot(2);
        joining.piece(now, 0, offer.digest, 0, other.piece(0).unwrap());
        let rest = other.piece(PIECE as u64).unwrap();
        let end = joining.piece(now, 0, offer.digest, PIECE as u64, rest);
        assert_eq!(end, Next::Wait);
        assert!(joining.is_stuck(now + PATIENCE));
    }
}
