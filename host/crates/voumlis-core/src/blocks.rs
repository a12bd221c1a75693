//! The blocks that a member keeps, by their payloads: in memory, and in a file that is synced before a vote rests on them.

use crate::files;
use crate::plain::sha256;
use crate::wire::Payload;
use anyhow::{Context, Result};
use application::{Block, BlockId};
use std::collections::{BTreeMap, HashMap, VecDeque};
use std::fs::{self, File};
use std::io::Write;
use std::path::{Path, PathBuf};

/// The payload of a block with these bytes.
pub fn payload_of(bytes: &[u8]) -> Payload {
    sha256(&[bytes])
}

/// The blocks on the disk. One thread has them.
///
/// They are in a file that is appended to, and in files that were: these have its name with a number behind it, and are removed once none
/// of their blocks is kept any more. An entry is the size of the block's bytes in 4 bytes, the most significant first, their SHA-256, and
/// the bytes.
pub struct BlockFile {
    path: PathBuf,
    file: File,
    /// What is appended to: its last view and its bytes.
    part: Part,
    /// The files that were, by their numbers.
    parts: BTreeMap<u64, Part>,
    blocks: HashMap<Payload, Block>,
    is_synced: bool,
}

/// What one file holds.
#[derive(Clone, Copy, Default)]
struct Part {
    /// The last view of its blocks.
    last: u64,
    /// How many bytes it has.
    size: u64,
}

impl Part {
    fn add(&mut self, block: &Block, size: usize) {
        self.last = self.last.max(block.id.view);
        self.size += size as u64;
    }
}

const HEAD: usize = 4 + 32;

fn entry(block: &Block) -> Vec<u8> {
    let bytes = Block::bytes(block.id.view, block.parent, &block.contents);
    let size = (bytes.len() as u32).to_be_bytes();
    [&size[..], &block.id.payload, &bytes].concat()
}

/// The entry at the front, if a whole one stands there whose hash is right.
fn read(stored: &[u8]) -> Option<(Block, usize)> {
    let (size, rest) = stored.split_first_chunk()?;
    let size = u32::from_be_bytes(*size) as usize;
    let (payload, rest) = rest.split_first_chunk()?;
    let bytes = rest.get(..size)?;
    if payload_of(bytes) != *payload {
        return None;
    }
    Some((Block::read(*payload, bytes)?, HEAD + size))
}

impl BlockFile {
    /// Opens the file, or makes one; what stands behind the last whole entry is cut.
    ///
    /// # Errors
    ///
    /// Those of the file.
    pub fn open(path: &Path) -> Result<BlockFile> {
        let mut blocks = HashMap::new();
        let mut take = |path: &Path| {
            let named = || format!("the blocks {}", path.display());
            take_in(path, &mut blocks).with_context(named)
        };
        let mut parts = BTreeMap::new();
        for number in numbers(path)? {
            parts.insert(number, take(&numbered(path, number))?);
        }
        let part = take(path)?;
        let named = || format!("the blocks {}", path.display());
        Ok(BlockFile {
            path: path.to_owned(),
            file: files::open_to_append(path, part.size).with_context(named)?,
            part,
            parts,
            blocks,
            is_synced: true,
        })
    }

    /// How many bytes there are on the disk.
    pub fn size(&self) -> u64 {
        let parts = self.parts.values().chain([&self.part]);
        parts.map(|part| part.size).sum()
    }

    /// The block of this payload, if it is kept.
    pub fn get(&self, payload: &Payload) -> Option<&Block> {
        self.blocks.get(payload)
    }

    /// How many blocks are kept.
    pub fn count(&self) -> usize {
        self.blocks.len()
    }

    /// Keeps a block. It is on the disk once [`BlockFile::sync`] has answered.
    ///
    /// # Errors
    ///
    /// Those of the file.
    pub fn keep(&mut self, block: Block) -> Result<()> {
        if self.blocks.contains_key(&block.id.payload) {
            return Ok(());
        }
        let bytes = entry(&block);
        self.file.write_all(&bytes)?;
        self.part.add(&block, bytes.len());
        self.is_synced = false;
        self.blocks.insert(block.id.payload, block);
        Ok(())
    }

    /// Makes sure that all that was kept survives a crash, and answers whether anything had to be written for it.
    ///
    /// # Errors
    ///
    /// Those of the file.
    pub fn sync(&mut self) -> Result<bool> {
        if self.is_synced {
            return Ok(false);
        }
        self.file.sync_data()?;
        self.is_synced = true;
        Ok(true)
    }

    /// Forgets the blocks of views below this one, and begins a new file. What has no block any more is removed; nothing is written again.
    ///
    /// # Errors
    ///
    /// Those of the files.
    pub fn prune(&mut self, below: u64) -> Result<()> {
        self.blocks.retain(|_, block| block.id.view >= below);
        if self.part.size > 0 {
            self.sync()?;
            let number = self.parts.last_key_value().map_or(1, |(last, _)| last + 1);
            fs::rename(&self.path, numbered(&self.path, number))?;
            self.parts.insert(number, std::mem::take(&mut self.part));
            self.file = files::open_to_append(&self.path, 0)?;
        }
        let over = self.parts.iter().filter(|(_, part)| part.last < below);
        let over: Vec<u64> = over.map(|(number, _)| *number).collect();
        for number in over {
            fs::remove_file(numbered(&self.path, number))?;
            self.parts.remove(&number);
        }
        Ok(())
    }
}

fn numbered(path: &Path, number: u64) -> PathBuf {
    path.with_extension(number.to_string())
}

/// The numbers of the files that were appended to before this one.
fn numbers(path: &Path) -> Result<Vec<u64>> {
    let folder = path.parent().context("it is in a folder")?;
    let mut numbers = Vec::new();
    for entry in fs::read_dir(folder)? {
        let one = entry?.path();
        let number = one.extension().and_then(|text| text.to_str()?.parse().ok());
        numbers.extend(number.filter(|number| one == numbered(path, *number)));
    }
    Ok(numbers)
}

/// Takes the blocks of a file in, up to the first entry that isn't whole.
fn take_in(path: &Path, blocks: &mut HashMap<Payload, Block>) -> Result<Part, std::io::Error> {
    let stored = files::read_or_empty(path)?;
    let mut part = Part::default();
    while let Some((block, size)) = read(&stored[part.size as usize..]) {
        part.add(&block, size);
        blocks.insert(block.id.payload, block);
    }
    Ok(part)
}

/// Blocks that peers sent and nobody asked for yet: so many of each peer's, the oldest of which goes first, so that nobody fills the
/// memory. They are in no file.
pub struct Pool {
    room: usize,
    by_peer: HashMap<u32, Sent>,
}

/// Blocks that one peer sent.
#[derive(Default)]
struct Sent {
    blocks: HashMap<Payload, Block>,
    /// Their payloads as they came, and some that were taken since.
    order: VecDeque<Payload>,
    bytes: usize,
}

impl Sent {
    fn insert(&mut self, block: Block, room: usize) {
        let payload = block.id.payload;
        self.bytes += cost(&block);
        if let Some(known) = self.blocks.insert(payload, block) {
            self.bytes -= cost(&known);
            return;
        }
        self.order.push_back(payload);
        while (self.bytes > room || self.order.len() > room / HEAD_COST)
            && let Some(oldest) = self.order.pop_front()
        {
            self.take(&oldest);
        }
    }

    fn take(&mut self, payload: &Payload) -> Option<Block> {
        let block = self.blocks.remove(payload)?;
        self.bytes -= cost(&block);
        Some(block)
    }

    fn prune(&mut self, view: u64) {
        self.blocks.retain(|_, block| block.id.view > view);
        self.order
            .retain(|payload| self.blocks.contains_key(payload));
        self.bytes = self.blocks.values().map(cost).sum();
    }
}

/// What a block counts for beside its contents.
const HEAD_COST: usize = 256;

fn cost(block: &Block) -> usize {
    HEAD_COST + block.contents.len()
}

impl Pool {
    /// An empty pool, for at most so many bytes of contents of each peer.
    pub fn new(room: usize) -> Pool {
        Pool {
            room,
            by_peer: HashMap::new(),
        }
    }

    /// Puts a block in.
    pub fn insert(&mut self, sender: u32, block: Block) {
        let sent = self.by_peer.entry(sender).or_default();
        sent.insert(block, self.room);
    }

    /// Takes the block of this payload out, if somebody sent it.
    pub fn take(&mut self, payload: &Payload) -> Option<Block> {
        self.by_peer
            .values_mut()
            .find_map(|sent| sent.take(payload))
    }

    /// Forgets the blocks of views up to this one.
    pub fn prune(&mut self, view: u64) {
        self.by_peer.values_mut().for_each(|sent| sent.prune(view));
    }
}

/// A new block of these contents.
pub fn block(view: u64, parent: BlockId, contents: Vec<u8>) -> Block {
    let payload = payload_of(&Block::bytes(view, parent, &contents));
    Block {
        id: BlockId { view, payload },
        parent,
        contents,
    }
}

#[cfg(test)]
mod tests {
    use super::*;

    fn viewed(view: u64) -> Block {
        block(view, BlockId::GENESIS, vec![view as u8; 10])
    }

    #[test]
    fn blocks_are_there_behind_a_torn_end_and_a_rotten_one_is_not() {
        let folder = tempfile::tempdir().unwrap();
        let path = folder.path().join("blocks");
        let mut file = BlockFile::open(&path).unwrap();
        for view in 1..4 {
            file.keep(viewed(view)).unwrap();
        }
        assert!(file.sync().unwrap() && !file.sync().unwrap());
        let mut bytes = fs::read(&path).unwrap();
        assert_eq!(bytes.len() as u64, file.size());
        bytes.extend(&entry(&viewed(4))[..40]);
        fs::write(&path, &bytes).unwrap();
        let file = BlockFile::open(&path).unwrap();
        assert_eq!(file.get(&viewed(3).id.payload), Some(&viewed(3)));
        assert_eq!(fs::metadata(&path).unwrap().len(), file.size());
        let last = bytes.len() - 41;
        bytes[last] ^= 1;
        fs::write(&path, &bytes).unwrap();
        let file = BlockFile::open(&path).unwrap();
        assert_eq!(file.count(), 2, "a block whose hash is wrong is cut");
    }

    #[test]
    fn pruned_blocks_are_gone_and_the_others_stay() {
        let folder = tempfile::tempdir().unwrap();
        let path = folder.path().join("blocks");
        let mut file = BlockFile::open(&path).unwrap();
        for view in 1..9 {
            file.keep(viewed(view)).unwrap();
        }
        file.prune(6).unwrap();
        assert_eq!(file.count(), 3);
        assert_eq!(file.get(&viewed(5).id.payload), None);
        file.keep(viewed(9)).unwrap();
        // A block that came late is in the last file with those of later views.
        file.keep(viewed(7)).unwrap();
        file.prune(8).unwrap();
        file.keep(viewed(10)).unwrap();
        file.prune(9).unwrap();
        file.keep(viewed(11)).unwrap();
        file.sync().unwrap();
        let there = |file: &BlockFile, views: &[u64]| {
            let mut views = views.iter();
            views.all(|view| file.get(&viewed(*view).id.payload) == Some(&viewed(*view)))
        };
        assert_eq!(file.count(), 3);
        let file = BlockFile::open(&path).unwrap();
        assert!(there(&file, &[9, 10, 11]));
        let names = || {
            let files = fs::read_dir(folder.path()).unwrap();
            let names = files.map(|one| one.unwrap().file_name().into_string().unwrap());
            let mut names: Vec<String> = names.collect();
            names.sort();
            names
        };
        assert_eq!(names(), ["blocks", "blocks.2", "blocks.3"]);
        let mut file = file;
        file.prune(11).unwrap();
        assert_eq!(names(), ["blocks", "blocks.4"]);
        assert!(there(&BlockFile::open(&path).unwrap(), &[11]));
    }

    #[test]
    fn a_peer_that_sends_many_blocks_loses_its_own_oldest() {
        let mut pool = Pool::new(10 * 266);
        pool.insert(1, viewed(1));
        for view in 2..50 {
            pool.insert(2, viewed(view));
        }
        assert!(pool.take(&viewed(1).id.payload).is_some());
        assert!(pool.take(&viewed(39).id.payload).is_none());
        assert!(pool.take(&viewed(40).id.payload).is_some());
    }
}
