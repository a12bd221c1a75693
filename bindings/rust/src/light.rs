//! What certificates certify, for whoever only wants to check what is final.

use crate::settings::{Numbers, Settings, SettingsError};
use crate::wire::{Payload, Proposal, Round};
use crate::{Found, Refusal};
use std::fmt;

/// What a certificate certifies.
#[derive(Clone, Copy, Debug, PartialEq, Eq)]
pub enum Certified {
    /// That a proposal may be built on.
    Notarization(Proposal),
    /// That a round is given up.
    Nullification(Round),
    /// That a proposal is final.
    Finalization(Proposal),
}

/// Why bytes certify nothing.
#[derive(Clone, Copy, Debug, PartialEq, Eq)]
pub enum Uncertified {
    /// The settings are none of a committee.
    Settings(SettingsError),
    /// The bytes aren't just one certificate: the first trouble from the left, or memory ran out.
    Unread(Refusal),
    /// The certificate is of another epoch.
    OtherEpoch,
    /// It isn't signed as a certificate of these members.
    NotCertifying,
}

/// Where and why a chain of finalizations breaks off.
#[derive(Clone, Copy, Debug, PartialEq, Eq)]
pub struct Broken {
    /// The place of the first byte of the certificate that is none of the chain.
    pub place: u64,
    /// Why it certifies nothing, or nothing where it is no finalization or not of a later view.
    pub why: Option<Uncertified>,
}

/// What a certificate certifies, as the library tells it.
#[repr(C)]
#[derive(Clone, Copy, Default)]
struct Told {
    kind: u32,
    epoch: u64,
    view: u64,
    parent: u64,
    payload: Payload,
}

unsafe extern "C" {
    fn voumlis_proved_certifies(
        numbers: *const Numbers,
        base: *const u8,
        base_length: usize,
        seed: *const u8,
        seed_length: usize,
        bytes: *const u8,
        length: usize,
        certified: *mut Told,
        found: *mut Found,
    ) -> u32;
    fn voumlis_proved_finalized_in(
        numbers: *const Numbers,
        base: *const u8,
        base_length: usize,
        seed: *const u8,
        seed_length: usize,
        bytes: *const u8,
        length: usize,
        room: *mut Told,
        room_length: usize,
        found: *mut Found,
    ) -> u32;
}

impl fmt::Display for Uncertified {
    fn fmt(&self, f: &mut fmt::Formatter<'_>) -> fmt::Result {
        match self {
            Uncertified::Settings(why) => write!(f, "{why}"),
            Uncertified::Unread(trouble) => write!(f, "no certificate: {trouble:?}"),
            Uncertified::OtherEpoch => f.write_str("a certificate of another epoch"),
            Uncertified::NotCertifying => f.write_str("no certificate of these members"),
        }
    }
}

impl std::error::Error for Uncertified {}

impl fmt::Display for Broken {
    fn fmt(&self, f: &mut fmt::Formatter<'_>) -> fmt::Result {
        match self.why {
            Some(why) => write!(f, "at byte {}: {why}", self.place),
            None => write!(f, "at byte {}: no finalization of a later view", self.place),
        }
    }
}

impl std::error::Error for Broken {}

impl Told {
    fn round(&self) -> Round {
        Round {
            epoch: self.epoch,
            view: self.view,
        }
    }

    fn proposal(&self) -> Proposal {
        Proposal {
            round: self.round(),
            parent: self.parent,
            payload: self.payload,
        }
    }
}

impl Uncertified {
    fn told(status: u32, found: &Found) -> Uncertified {
        match status {
            4 => Uncertified::Unread(Refusal::End),
            5 => Uncertified::Unread(Refusal::Invalid),
            6 => Uncertified::Unread(Refusal::TooLong),
            15 => Uncertified::OtherEpoch,
            16 => Uncertified::NotCertifying,
            1 => Uncertified::Unread(Refusal::Memory),
            _ => Uncertified::Settings(SettingsError::told(status, found)),
        }
    }
}

/// What a certificate of the members of these settings certifies, of which these are the bytes. Of the settings, which are any member's,
/// the base, the number of members and the epoch count.
///
/// # Errors
///
/// Why the bytes certify nothing.
pub fn certifies(settings: &Settings, bytes: &[u8]) -> Result<Certified, Uncertified> {
    let mut found = Found::default();
    let mut told = Told::default();
    let (numbers, base, seed) = settings.parts();
    // SAFETY: numbers in the library's form, slices with their lengths, and values of this frame.
    let status = unsafe {
        voumlis_proved_certifies(
            &numbers,
            base.as_ptr(),
            base.len(),
            seed.as_ptr(),
            seed.len(),
            bytes.as_ptr(),
            bytes.len(),
            &mut told,
            &mut found,
        )
    };
    match (status, told.kind) {
        (0, 0) => Ok(Certified::Notarization(told.proposal())),
        (0, 1) => Ok(Certified::Nullification(told.round())),
        (0, _) => Ok(Certified::Finalization(told.proposal())),
        _ => Err(Uncertified::told(status, &found)),
    }
}

/// The proposals that these certificates, one behind another, make final for the members of these settings, each of a later view than
/// the one before.
///
/// # Errors
///
/// The place of the first certificate that is none such, and why.
pub fn finalized_in(settings: &Settings, bytes: &[u8]) -> Result<Vec<Proposal>, Broken> {
    let (numbers, base, seed) = settings.parts();
    let mut room = vec![Told::default(); 64];
    loop {
        let mut found = Found::default();
        // SAFETY: numbers in the library's form, slices with their lengths, the last lent to be written, and a `Found` of this frame.
        let status = unsafe {
            voumlis_proved_finalized_in(
                &numbers,
                base.as_ptr(),
                base.len(),
                seed.as_ptr(),
                seed.len(),
                bytes.as_ptr(),
                bytes.len(),
                room.as_mut_ptr(),
                room.len(),
                &mut found,
            )
        };
        match status {
            0 => return Ok(room[..found.length].iter().map(Told::proposal).collect()),
            3 => room = vec![Told::default(); found.length],
            _ => {
                let place = found.named().filter(|_| status != 13).unwrap_or(0);
                let why = (status != 17).then(|| Uncertified::told(status, &found));
                return Err(Broken { place, why });
            }
        }
    }
}
