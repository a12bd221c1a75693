//! Who attests in a message, for hosts that have keys.

use crate::{Found, Kind, Refusal};

/// An attestation of a message.
#[repr(C)]
#[derive(Clone, Copy, Debug, Default, PartialEq, Eq)]
pub struct Attestation {
    /// The place of the signature's first byte in the message.
    pub place: u64,
    /// The index of the member in whose name it stands.
    pub signer: u32,
    /// The plain scheme's signature, which names what is attested: what that member's key signs, where members have keys.
    pub hash: [u8; 32],
}

unsafe extern "C" {
    fn voumlis_proved_attestations(
        kind: u32,
        members: u32,
        bytes: *const u8,
        length: usize,
        room: *mut Attestation,
        room_length: usize,
        found: *mut Found,
    ) -> u32;
}

/// The attestations of the message of this kind at the front of these bytes, in their order, in a committee of so many members.
///
/// # Errors
///
/// The first trouble from the left, or [`Refusal::Memory`].
pub fn attestations(kind: Kind, members: u32, bytes: &[u8]) -> Result<Vec<Attestation>, Refusal> {
    let mut room = vec![Attestation::default(); 128];
    loop {
        let mut found = Found::default();
        // SAFETY: slices with their lengths, the second lent to be written, and a `Found` of this frame.
        let status = unsafe {
            voumlis_proved_attestations(
                kind as u32,
                members,
                bytes.as_ptr(),
                bytes.len(),
                room.as_mut_ptr(),
                room.len(),
                &mut found,
            )
        };
        match status {
            0 => {
                room.truncate(found.length);
                return Ok(room);
            }
            3 => room = vec![Attestation::default(); found.length],
            4 => return Err(Refusal::End),
            5 => return Err(Refusal::Invalid),
            6 => return Err(Refusal::TooLong),
            _ => return Err(Refusal::Memory),
        }
    }
}
