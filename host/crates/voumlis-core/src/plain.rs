//! The plain scheme: what a member's attestation of a subject is. It has no secret; the envelope's signatures over it have.

use crate::wire::{On, VoteKind, put_number};
use ring::digest::{Context, SHA256};

/// The base of the names of what is voted on, as the program `simplex` has it.
pub const BASE: &str = "simplex";

/// The attestation of this member over this subject: 32 bytes that anyone can make.
pub fn attestation(base: &str, kind: VoteKind, on: &On, signer: u32) -> [u8; 32] {
    let name = match kind {
        VoteKind::Notarize => "_NOTARIZE",
        VoteKind::Nullify => "_NULLIFY",
        VoteKind::Finalize => "_FINALIZE",
    };
    let mut hashed = Vec::new();
    hashed.extend(signer.to_be_bytes());
    hashed.extend(((base.len() + name.len()) as u32).to_be_bytes());
    hashed.extend(base.bytes());
    hashed.extend(name.bytes());
    put_number(&mut hashed, on.round().epoch);
    put_number(&mut hashed, on.round().view);
    if let On::Proposal(proposal) = on {
        put_number(&mut hashed, proposal.parent);
        hashed.extend(proposal.payload);
    }
    sha256(&[&hashed])
}

/// The SHA-256 of these bytes, one part behind the other.
pub fn sha256(parts: &[&[u8]]) -> [u8; 32] {
    let mut context = Context::new(&SHA256);
    parts.iter().for_each(|part| context.update(part));
    let digest = context.finish();
    digest.as_ref().try_into().expect("32 bytes of SHA-256")
}
