use application::{Application, Block, BlockId, Context, RestoreError};
use std::hash::{BuildHasher, RandomState};

/// An application that orders nothing: its blocks hold a number of the process that built them, and its state is how many are final.
#[derive(Debug)]
pub struct Counting {
    blocks: u64,
    /// So no two processes build the same block: members that began again from nothing would be seen to.
    process: u64,
}

impl Default for Counting {
    fn default() -> Counting {
        Counting {
            blocks: 0,
            // Its keys are drawn anew for each.
            process: RandomState::new().hash_one(()),
        }
    }
}

impl Application for Counting {
    fn build(&mut self, _: &Context, _: &[Block]) -> Option<Vec<u8>> {
        Some(self.process.to_be_bytes().to_vec())
    }

    fn verify(&mut self, _: &Context, _: &[Block], contents: &[u8]) -> bool {
        contents.len() == size_of::<u64>()
    }

    fn finalized(&mut self, _: &Block) {
        self.blocks += 1;
    }

    fn snapshot(&self) -> Vec<u8> {
        self.blocks.to_be_bytes().to_vec()
    }

    fn restore(&mut self, _: &BlockId, snapshot: &[u8]) -> Result<(), RestoreError> {
        let bytes = snapshot
            .try_into()
            .map_err(|_| RestoreError("not 8 bytes".to_owned()))?;
        self.blocks = u64::from_be_bytes(bytes);
        Ok(())
    }

    fn has_work(&self) -> bool {
        false
    }
}
