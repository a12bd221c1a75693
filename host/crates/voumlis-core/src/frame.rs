//! What goes between two hosts: packets of their nodes, and what the hosts ask of each other.

use crate::envelope::Sealed;
use crate::wire::{Channel, Payload, Reader, Trouble};
use application::BlockId;

/// The most bytes of a frame. A certificate of a thousand members takes a hundred thousand, a block as many as are set.
pub const LONGEST_FRAME: usize = 1 << 22;

/// The most bytes of a snapshot's piece.
pub const PIECE: usize = 1 << 18;

/// What one host sends another.
#[derive(Clone, Debug, PartialEq, Eq)]
pub enum Frame {
    /// A packet of the node's.
    Packet(Sealed),
    /// A block, asked for or not, as [`application::Block::bytes`] has it.
    Block(Vec<u8>),
    /// Asks for a block and its ancestors above a view.
    AskBlocks {
        /// The block's payload.
        payload: Payload,
        /// The view above which ancestors are wanted.
        above: u64,
    },
    /// The block that was asked for isn't there.
    Lacks(Payload),
    /// Asks which snapshot there is.
    AskSnapshot,
    /// The snapshot that there is.
    Offer(Offer),
    /// Asks for the piece of a snapshot that begins here.
    AskPiece {
        /// The snapshot's SHA-256.
        digest: [u8; 32],
        /// The place of its first byte.
        from: u64,
    },
    /// A piece of a snapshot.
    Piece {
        /// The snapshot's SHA-256.
        digest: [u8; 32],
        /// The place of its first byte.
        from: u64,
        /// The bytes.
        bytes: Vec<u8>,
    },
    /// What an application tells the others.
    Told(Vec<u8>),
}

/// A snapshot that a member has.
#[derive(Clone, Copy, Debug, PartialEq, Eq, Hash)]
pub struct Offer {
    /// The last block that it holds.
    pub at: BlockId,
    /// How many bytes it has.
    pub size: u64,
    /// Its SHA-256.
    pub digest: [u8; 32],
}

impl Frame {
    /// The frame as bytes.
    pub fn bytes(&self) -> Vec<u8> {
        let mut bytes = Vec::new();
        match self {
            Frame::Packet(sealed) => {
                bytes.extend([0, sealed.channel as u8]);
                bytes.extend((sealed.plain.len() as u32).to_be_bytes());
                bytes.extend(&sealed.plain);
                bytes.extend(sealed.signatures.concat());
            }
            Frame::Block(block) => {
                bytes.push(1);
                bytes.extend(block);
            }
            Frame::AskBlocks { payload, above } => {
                bytes.push(2);
                bytes.extend(payload);
                bytes.extend(above.to_be_bytes());
            }
            Frame::Lacks(payload) => {
                bytes.push(3);
                bytes.extend(payload);
            }
            Frame::AskSnapshot => bytes.push(4),
            Frame::Offer(offer) => {
                bytes.push(5);
                bytes.extend(offer.at.view.to_be_bytes());
                bytes.extend(offer.at.payload);
                bytes.extend(offer.size.to_be_bytes());
                bytes.extend(offer.digest);
            }
            Frame::AskPiece { digest, from } => {
                bytes.push(6);
                bytes.extend(digest);
                bytes.extend(from.to_be_bytes());
            }
            Frame::Piece {
                digest,
                from,
                bytes: piece,
            } => {
                bytes.push(7);
                bytes.extend(digest);
                bytes.extend(from.to_be_bytes());
                bytes.extend(piece);
            }
            Frame::Told(message) => {
                bytes.push(8);
                bytes.extend(message);
            }
        }
        bytes
    }

    /// The frame that these bytes are exactly.
    ///
    /// # Errors
    ///
    /// The first trouble from the left.
    pub fn read(bytes: &[u8]) -> Result<Frame, Trouble> {
        let mut reader = Reader::new(bytes);
        let frame = match reader.one_of(9)? {
            0 => Frame::Packet(reader.sealed()?),
            1 => Frame::Block(reader.rest().to_vec()),
            2 => Frame::AskBlocks {
                payload: reader.payload()?,
                above: reader.fixed()?,
            },
            3 => Frame::Lacks(reader.payload()?),
            4 => Frame::AskSnapshot,
            5 => Frame::Offer(Offer {
                at: BlockId {
                    view: reader.fixed()?,
                    payload: reader.payload()?,
                },
                size: reader.fixed()?,
                digest: reader.array()?,
            }),
            6 => Frame::AskPiece {
                digest: reader.array()?,
                from: reader.fixed()?,
            },
            7 => Frame::Piece {
                digest: reader.array()?,
                from: reader.fixed()?,
                bytes: reader.rest().to_vec(),
            },
            _ => Frame::Told(reader.rest().to_vec()),
        };
        if reader.is_at_end() {
            Ok(frame)
        } else {
            Err(Trouble::Invalid)
        }
    }
}

impl Reader<'_> {
    fn fixed(&mut self) -> Result<u64, Trouble> {
        Ok(u64::from_be_bytes(self.array()?))
    }

    fn sealed(&mut self) -> Result<Sealed, Trouble> {
        let channel = Channel::of(self.byte()?).ok_or(Trouble::Invalid)?;
        let size = u32::from_be_bytes(self.array()?);
        let plain = self.take(size as usize)?.to_vec();
        let signatures = self.rest().chunks(64).map(<[u8; 64]>::try_from);
        Ok(Sealed {
            channel,
            plain,
            signatures: signatures
                .collect::<Result<_, _>>()
                .map_err(|_| Trouble::End)?,
        })
    }
}

#[cfg(test)]
mod tests {
    use super::*;

    fn frames() -> Vec<Frame> {
        let sealed = |count| Sealed {
            channel: Channel::Certificates,
            plain: vec![1, 2, 3],
            signatures: vec![[5; 64]; count],
        };
        let digest = [7; 32];
        vec![
            Frame::Packet(sealed(2)),
            Frame::Packet(sealed(0)),
            Frame::Block(vec![4; 50]),
            Frame::AskBlocks {
                payload: [3; 32],
                above: 300,
            },
            Frame::Lacks([3; 32]),
            Frame::AskSnapshot,
            Frame::Offer(Offer {
                at: BlockId {
                    view: 9,
                    payload: [1; 32],
                },
                size: 1 << 40,
                digest,
            }),
            Frame::AskPiece { digest, from: 4 },
            Frame::Piece {
                digest,
                from: 4,
                bytes: vec![8; 9],
            },
            Frame::Told(vec![6; 20]),
        ]
    }

    #[test]
    fn a_frame_is_read_as_it_was_spelled() {
        for frame in frames() {
            assert_eq!(Frame::read(&frame.bytes()), Ok(frame));
        }
    }

    #[test]
    fn a_cut_or_longer_frame_is_none_or_another() {
        for frame in frames() {
            let bytes = frame.bytes();
            for size in 0..bytes.len() {
                assert_ne!(Frame::read(&bytes[..size]), Ok(frame.clone()), "{size}");
            }
            let longer = [&bytes[..], &[0]].concat();
            assert_ne!(Frame::read(&longer), Ok(frame));
        }
        assert_eq!(Frame::read(&[9]), Err(Trouble::Invalid));
        assert_eq!(Frame::read(&[]), Err(Trouble::End));
        // A packet that claims 2^32-1 bytes takes no memory for them.
        assert_eq!(
            Frame::read(&[0, 0, 255, 255, 255, 255, 1]),
            Err(Trouble::End)
        );
    }
}
