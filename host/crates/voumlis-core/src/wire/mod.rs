//! What comes to a node, what it answers, and the messages inside, as bytes, for the plain scheme: docs/FORMATS.md.

mod events;
mod messages;
mod reader;
mod words;

pub use events::{Action, Channel, Context, Event, Plan, Reply};
pub use messages::{
    Attestation, Certificate, Message, On, Proposal, Report, Round, Vote, VoteKind,
};
pub use reader::{Reader, Trouble};

/// The size of the largest committee: where the committee's size isn't known, a message is read alike in each.
pub const LARGEST: u32 = 65_535;

/// The most bytes of a packet.
pub const LONGEST_PACKET: u64 = 16_777_216;

/// The digest of what is proposed.
pub type Payload = [u8; 32];

/// Appends a number as it is spelled: seven bits a byte, the least significant first.
pub fn put_number(bytes: &mut Vec<u8>, number: u64) {
    let mut rest = number;
    while rest > 127 {
        bytes.push(rest as u8 | 128);
        rest >>= 7;
    }
    bytes.push(rest as u8);
}
