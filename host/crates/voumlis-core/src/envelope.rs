//! The envelope: a plain packet, and behind it one signature for each attestation in it, in order.
//!
//! **Coming in**, a packet is handed to the node only if each signature verifies under the key of its signer: so a vote in the name of
//! a member whose key is its own is one that this member's host signed. **Going out**, an own attestation is signed now, when the node
//! has handed it out and so recorded it, and never before; another's signature is the one that was kept when it came in.

use crate::committee::{Committee, SecretKey, Signature};
use crate::signatures::Signatures;
use crate::wire::{Attestation, Channel, Message, Report};
use std::sync::Arc;

/// A packet as it goes between hosts.
#[derive(Clone, Debug, PartialEq, Eq)]
pub struct Sealed {
    /// What it is sent on.
    pub channel: Channel,
    /// The packet as the node handed it out.
    pub plain: Vec<u8>,
    /// A signature for each attestation in it.
    pub signatures: Vec<Signature>,
}

/// A packet that was read, and whose signatures verify.
#[derive(Clone, Debug)]
pub struct Opened {
    /// The packet.
    pub sealed: Sealed,
    /// What it says.
    pub message: Message,
}

/// Why a packet isn't handed on. No correct member sends such a one.
#[derive(Clone, Copy, Debug, PartialEq, Eq)]
pub enum Refused {
    /// The bytes are no message of this channel.
    Unreadable,
    /// There are fewer or more signatures than attestations.
    Count,
    /// This member's signature doesn't verify.
    Signature(u32),
}

impl Refused {
    /// The name under which it is counted.
    pub fn name(self) -> &'static str {
        match self {
            Refused::Unreadable => "unreadable",
            Refused::Count => "signature-count",
            Refused::Signature(_) => "signature",
        }
    }
}

/// This attestation's signature isn't kept any more.
#[derive(Clone, Copy, Debug, PartialEq, Eq)]
pub struct Missing(pub Attestation);

/// One member's keeping of signatures, its own and others'. Any number of threads may use it.
#[derive(Clone)]
pub struct Sealer {
    /// The members.
    pub committee: Arc<Committee>,
    /// This member's index.
    pub me: u32,
    key: Arc<SecretKey>,
    /// What was seen to verify.
    pub signatures: Arc<Signatures>,
}

impl Sealer {
    /// The sealer of the member that has this key.
    ///
    /// # Errors
    ///
    /// Where the key is none of the committee's.
    pub fn new(committee: Arc<Committee>, key: SecretKey) -> anyhow::Result<Sealer> {
        let me = committee
            .member_of(&key.public())
            .ok_or_else(|| anyhow::anyhow!("this key is no member's of the committee"))?;
        Ok(Sealer {
            committee,
            me,
            key: Arc::new(key),
            signatures: Arc::default(),
        })
    }

    /// Whether this signature is the signer's. What was seen to verify isn't computed again.
    pub fn verifies(&self, attestation: &Attestation, signature: &Signature) -> bool {
        self.signatures.get(attestation).as_ref() == Some(signature)
            || self.committee.verifies(attestation, signature)
    }

    /// Reads a packet that came in.
    ///
    /// # Errors
    ///
    /// Where it isn't to be handed to the node, and its sender is to blame.
    pub fn open(&self, sealed: Sealed) -> Result<Opened, Refused> {
        let message = Message::read(sealed.channel, self.committee.size(), &sealed.plain)
            .map_err(|_| Refused::Unreadable)?;
        let attestations = message.attestations();
        if attestations.len() != sealed.signatures.len() {
            return Err(Refused::Count);
        }
        let forged = attestations
            .iter()
            .zip(&sealed.signatures)
            .find(|(attestation, signature)| !self.verifies(attestation, signature));
        if let Some((attestation, _)) = forged {
            return Err(Refused::Signature(attestation.signer));
        }
        Ok(Opened { sealed, message })
    }

    /// Puts signatures behind a packet that the node handed out.
    ///
    /// # Errors
    ///
    /// Where another's signature isn't there any more: this member can't send the packet.
    ///
    /// # Panics
    ///
    /// Where a node handed out bytes that are no message: it is none then.
    pub fn seal(&self, channel: Channel, plain: Vec<u8>) -> Result<(Sealed, Message), Missing> {
        let message = Message::read(channel, self.committee.size(), &plain)
            .expect("a node hands out messages");
        let signatures = self.signatures_of(message.attestations())?;
        let sealed = Sealed {
            channel,
            plain,
            signatures,
        };
        Ok((sealed, message))
    }

    /// The signatures of a report that the node handed out.
    ///
    /// # Errors
    ///
    /// As of [`Sealer::seal`].
    pub fn seal_report(&self, report: &Report) -> Result<Vec<Signature>, Missing> {
        self.signatures_of(&report.attestations())
    }

    fn signatures_of(&self, attestations: &[Attestation]) -> Result<Vec<Signature>, Missing> {
        let signature = |attestation: &Attestation| {
            if attestation.signer == self.me {
                return Ok(self.key.sign(&self.committee, &attestation.hash));
            }
            self.signatures
                .get(attestation)
                .ok_or(Missing(*attestation))
        };
        attestations.iter().map(signature).collect()
    }
}

#[cfg(test)]
mod tests {
    use super::*;
    use crate::plain::{BASE, attestation};
    use crate::signatures::SignatureFile;
    use crate::wire::{On, Proposal, Round, Vote, VoteKind, put_number};

    fn sealers() -> Vec<Sealer> {
        let key = |byte: u8| SecretKey::of_seed([byte + 1; 32]).unwrap();
        let keys = (0..4).map(|byte| key(byte).public()).collect();
        let committee = Arc::new(Committee::new(keys).unwrap());
        (0..4)
            .map(|byte| Sealer::new(committee.clone(), key(byte)).unwrap())
            .collect()
    }

    fn vote(signer: u32) -> Vote {
        let on = On::Proposal(Proposal {
            round: Round { epoch: 0, view: 2 },
            parent: 1,
            payload: [0xaa; 32],
        });
        let kind = VoteKind::Notarize;
        Vote {
            kind,
            on,
            attestation: Attestation {
                signer,
                hash: attestation(BASE, kind, &on, signer),
            },
        }
    }

    /// The notarization of these members, as a node would hand it out.
    fn notarization(signers: &[u32]) -> Vec<u8> {
        let mut bytes = vote(0).bytes();
        bytes.truncate(bytes.len() - 33);
        put_number(&mut bytes, signers.len() as u64);
        for signer in signers {
            put_number(&mut bytes, u64::from(*signer));
            bytes.extend(vote(*signer).attestation.hash);
        }
        bytes
    }

    fn sealed_vote(sealers: &[Sealer], signer: u32) -> Sealed {
        let sealed = sealers[signer as usize].seal(Channel::Votes, vote(signer).bytes());
        sealed.unwrap().0
    }

    fn sealed_certificate(sealers: &[Sealer]) -> Sealed {
        Sealed {
            channel: Channel::Certificates,
            plain: notarization(&[0, 1, 3]),
            signatures: [0, 1, 3]
                .map(|signer| sealed_vote(sealers, signer).signatures[0])
                .to_vec(),
        }
    }

    #[test]
    fn what_a_member_sealed_is_opened_by_the_others() {
        let sealers = sealers();
        let opened = sealers[2].open(sealed_vote(&sealers, 1)).unwrap();
        assert_eq!(opened.message, Message::Vote(vote(1)));
        assert!(sealers[2].open(sealed_certificate(&sealers)).is_ok());
        let ask = sealers[0].seal(Channel::Fetches, vec![9]).unwrap().0;
        assert_eq!(sealers[1].open(ask).unwrap().message, Message::Fetch(9));
    }

    #[test]
    fn a_forged_signature_is_refused() {
        let sealers = sealers();
        // Member 3 speaks in the name of member 1: the attestation is right, since anyone can make it, but the key is another.
        let mut forged = sealed_vote(&sealers, 3);
        forged.plain = vote(1).bytes();
        let refused = |sealed| sealers[2].open(sealed).unwrap_err();
        assert_eq!(refused(forged), Refused::Signature(1));
        let certificate = sealed_certificate(&sealers);
        for place in 0..certificate.signatures.len() {
            for bit in [0, 300, 511] {
                let mut changed = certificate.clone();
                changed.signatures[place][bit / 8] ^= 1 << (bit % 8);
                let signer = [0, 1, 3][place];
                assert_eq!(refused(changed), Refused::Signature(signer));
            }
        }
        let mut swapped = certificate.clone();
        swapped.signatures.swap(0, 1);
        assert_eq!(refused(swapped), Refused::Signature(0));
    }

    #[test]
    fn fewer_or_more_signatures_and_other_bytes_are_refused() {
        let sealers = sealers();
        let certificate = sealed_certificate(&sealers);
        let refused = |sealed| sealers[2].open(sealed).unwrap_err();
        let mut fewer = certificate.clone();
        fewer.signatures.pop();
        assert_eq!(refused(fewer), Refused::Count);
        let mut more = certificate.clone();
        more.signatures.push(more.signatures[0]);
        assert_eq!(refused(more), Refused::Count);
        for size in 0..certificate.plain.len() {
            let mut cut = certificate.clone();
            cut.plain.truncate(size);
            assert_eq!(refused(cut), Refused::Unreadable);
        }
        let mut longer = certificate.clone();
        longer.plain.push(0);
        assert_eq!(refused(longer), Refused::Unreadable);
        let mut elsewhere = certificate;
        elsewhere.channel = Channel::Votes;
        assert_eq!(refused(elsewhere), Refused::Unreadable);
    }

    #[test]
    fn what_was_signed_for_another_committee_is_refused() {
        let sealers = sealers();
        let key = |byte: u8| SecretKey::of_seed([byte + 1; 32]).unwrap();
        let others = [0, 1, 2, 9].map(|byte| key(byte).public()).to_vec();
        let committee = Arc::new(Committee::new(others).unwrap());
        let elsewhere = Sealer::new(committee, key(1)).unwrap();
        let (sealed, _) = elsewhere.seal(Channel::Votes, vote(1).bytes()).unwrap();
        let refused = sealers[2].open(sealed).unwrap_err();
        assert_eq!(refused, Refused::Signature(1));
    }

    #[test]
    fn a_certificate_goes_out_once_its_signatures_were_kept() {
        let sealers = sealers();
        let folder = tempfile::tempdir().unwrap();
        let path = folder.path().join("signatures");
        let me = &sealers[1];
        let mut file = SignatureFile::open(&path, &me.signatures, |_, _| true).unwrap();
        let seal = || me.seal(Channel::Certificates, notarization(&[0, 1, 3]));
        assert_eq!(seal().unwrap_err(), Missing(vote(0).attestation));
        for signer in [0, 3] {
            let opened = me.open(sealed_vote(&sealers, signer)).unwrap();
            let attestation = opened.message.attestations()[0];
            file.keep(&me.signatures, attestation, 2, opened.sealed.signatures[0]);
        }
        let (sealed, _) = seal().unwrap();
        assert_eq!(sealed, sealed_certificate(&sealers));
    }
}
