//! What a member of a committee asks of its application.
//!
//! A committee orders **blocks**: contents that its members build in turn, each behind a parent. What is final is one chain of
//! blocks, the same at every correct member. The member's host keeps the blocks, fetches those that it lacks from its peers, and calls
//! the [`Application`] to build, to judge and to carry out; all calls come from one thread, one after another, so a call that takes
//! long holds up this member's votes. An application keeps its state in memory: behind a restart the host gives it the last snapshot
//! that was written, and then the blocks behind it.

use std::fmt;
use std::sync::Arc;

/// The name of a block: the view in which it was proposed, and the hash that was voted on.
///
/// The payload is the SHA-256 of [`Block::bytes`], which hold the view, the parent's name and the contents: so a name stands for its
/// block and for all its ancestors, and whoever has a block's name can take the block from anybody.
#[derive(Clone, Copy, Debug, PartialEq, Eq, PartialOrd, Ord, Hash)]
pub struct BlockId {
    /// The view of the proposal. Views of a chain rise, and some are skipped.
    pub view: u64,
    /// The hash of the block.
    pub payload: [u8; 32],
}

impl BlockId {
    /// The name that the first block has as its parent's. No block stands behind it.
    pub const GENESIS: BlockId = BlockId {
        view: 0,
        payload: [0; 32],
    };
}

impl fmt::Display for BlockId {
    fn fmt(&self, f: &mut fmt::Formatter<'_>) -> fmt::Result {
        write!(f, "{}:", self.view)?;
        self.payload[..6]
            .iter()
            .try_for_each(|byte| write!(f, "{byte:02x}"))
    }
}

/// A block: contents behind a parent.
#[derive(Clone, Debug, PartialEq, Eq)]
pub struct Block {
    /// Its name.
    pub id: BlockId,
    /// Its parent's name.
    pub parent: BlockId,
    /// What the application built.
    pub contents: Vec<u8>,
}

/// What stands before the contents in a block's bytes.
const HEAD: usize = 8 + 8 + 32;

impl Block {
    /// What the payload is the SHA-256 of: view and parent's view in 8 bytes each, the most significant first, the parent's payload in
    /// 32, the contents.
    pub fn bytes(view: u64, parent: BlockId, contents: &[u8]) -> Vec<u8> {
        let mut bytes = Vec::with_capacity(HEAD + contents.len());
        bytes.extend(view.to_be_bytes());
        bytes.extend(parent.view.to_be_bytes());
        bytes.extend(parent.payload);
        bytes.extend(contents);
        bytes
    }

    /// The block that these bytes are, if `payload` is their SHA-256; `None` where the head is cut.
    pub fn read(payload: [u8; 32], bytes: &[u8]) -> Option<Block> {
        let (view, rest) = bytes.split_first_chunk()?;
        let (parent_view, rest) = rest.split_first_chunk()?;
        let (parent_payload, contents) = rest.split_first_chunk()?;
        Some(Block {
            id: BlockId {
                view: u64::from_be_bytes(*view),
                payload,
            },
            parent: BlockId {
                view: u64::from_be_bytes(*parent_view),
                payload: *parent_payload,
            },
            contents: contents.to_vec(),
        })
    }
}

/// Where a block is to stand.
#[derive(Clone, Copy, Debug, PartialEq, Eq)]
pub struct Context {
    /// The view that it is proposed in.
    pub view: u64,
    /// The index of the member that proposes in this view.
    pub leader: u32,
    /// What it is built behind.
    pub parent: BlockId,
}

/// Why a snapshot isn't one.
#[derive(Clone, Debug, PartialEq, Eq)]
pub struct RestoreError(pub String);

impl fmt::Display for RestoreError {
    fn fmt(&self, f: &mut fmt::Formatter<'_>) -> fmt::Result {
        write!(f, "no snapshot of this application: {}", self.0)
    }
}

impl std::error::Error for RestoreError {}

/// Tells the host that [`Application::has_work`] may have become true. It may be called from any thread, and costs little.
#[derive(Clone)]
pub struct Wake(Arc<dyn Fn() + Send + Sync>);

impl Wake {
    /// A handle that calls this function.
    pub fn new(call: impl Fn() + Send + Sync + 'static) -> Wake {
        Wake(Arc::new(call))
    }

    /// Has the host look at once.
    pub fn wake(&self) {
        (self.0)();
    }
}

impl fmt::Debug for Wake {
    fn fmt(&self, f: &mut fmt::Formatter<'_>) -> fmt::Result {
        f.write_str("Wake")
    }
}

/// Tells the applications of the other members something. It may be called from any thread, and costs little.
///
/// What is told may be lost, as where a connection ends or there is no room, and it may come late: nothing that has to arrive goes this
/// way. At most [`LONGEST_MESSAGE`] bytes are told; longer ones are dropped.
#[derive(Clone)]
pub struct Gossip(Arc<Tell>);

/// Tells these bytes.
type Tell = dyn Fn(&[u8]) + Send + Sync;

/// The most bytes of a message between applications.
pub const LONGEST_MESSAGE: usize = 1 << 18;

impl Gossip {
    /// A handle that calls this function.
    pub fn new(call: impl Fn(&[u8]) + Send + Sync + 'static) -> Gossip {
        Gossip(Arc::new(call))
    }

    /// Tells all other members' applications this.
    pub fn tell(&self, message: &[u8]) {
        if message.len() <= LONGEST_MESSAGE {
            (self.0)(message);
        }
    }
}

impl fmt::Debug for Gossip {
    fn fmt(&self, f: &mut fmt::Formatter<'_>) -> fmt::Result {
        f.write_str("Gossip")
    }
}

/// What a member asks of its application. All calls come from one thread, in order.
///
/// **All correct members have to judge alike.** So `verify` and `certify` look at what they are given and at the state behind the last
/// final block alone, never at a clock, a random number or what only this member was told: who finds bad what the others find good
/// gives views up for it. Nothing that an application answers makes two members disagree about what is final.
pub trait Application: Send {
    /// The contents of a new block behind `context.parent`, or `None` where none can be built: then the view may be given up at once.
    /// `ancestors` are the blocks up to the parent that are not final yet, oldest first.
    fn build(&mut self, context: &Context, ancestors: &[Block]) -> Option<Vec<u8>>;

    /// Whether `contents` may stand behind `context.parent`; `ancestors` as for [`Application::build`].
    fn verify(&mut self, context: &Context, ancestors: &[Block], contents: &[u8]) -> bool;

    /// Whether a notarized block may be built on. Its contents and those of its ancestors are here by then. A quorum voted for it, so
    /// that a correct member found it good by `verify`.
    fn certify(&mut self, block: &Block) -> bool {
        let _ = block;
        true
    }

    /// A block became final. Called once for each block of the chain, in the chain's order, ancestors first; behind a restart for those
    /// behind the snapshot that was restored.
    fn finalized(&mut self, block: &Block);

    /// The state behind the last final block, for members that join late and for a restart. **The same bytes at every member** behind
    /// the same block: members take a snapshot from others where enough of them have the same.
    fn snapshot(&self) -> Vec<u8>;

    /// Takes a snapshot in, in place of all state: it is that behind the block `at`.
    ///
    /// # Errors
    ///
    /// Where the bytes are none; the state is then as it was.
    fn restore(&mut self, at: &BlockId, snapshot: &[u8]) -> Result<(), RestoreError>;

    /// Handed over once, before any other call: whoever brings the application work calls it.
    fn attach(&mut self, wake: Wake) {
        let _ = wake;
    }

    /// Handed over once, before any other call but `attach`: it reaches the other members' applications.
    fn introduce(&mut self, gossip: Gossip) {
        let _ = gossip;
    }

    /// What the application of another member told, or that member in its place: it may be anything.
    fn hear(&mut self, from: u32, message: &[u8]) {
        let _ = (from, message);
    }

    /// Whether it can't be asked any more, since the host stops and it is out of reach: then nothing that it answered is kept.
    fn is_lost(&self) -> bool {
        false
    }

    /// Whether there is something to propose. Where there isn't, the host waits a while (a setting) for a [`Wake`] before it has a block
    /// built, so that an idle committee doesn't pass views as fast as it can. `build` is called in the end either way.
    fn has_work(&self) -> bool {
        true
    }
}

#[cfg(test)]
mod tests {
    use super::*;

    #[test]
    fn a_block_is_read_as_it_was_spelled() {
        let parent = BlockId {
            view: 7,
            payload: [9; 32],
        };
        let bytes = Block::bytes(300, parent, b"contents");
        let block = Block::read([1; 32], &bytes).unwrap();
        assert_eq!(block.id.view, 300);
        assert_eq!(block.parent, parent);
        assert_eq!(block.contents, b"contents");
        assert_eq!(
            Block::bytes(block.id.view, block.parent, &block.contents),
            bytes
        );
    }

    #[test]
    fn a_cut_head_is_no_block() {
        let bytes = Block::bytes(1, BlockId::GENESIS, b"");
        assert!(Block::read([0; 32], &bytes).is_some());
        assert_eq!(Block::read([0; 32], &bytes[..bytes.len() - 1]), None);
    }
}
