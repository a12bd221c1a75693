//! Who the members are: their public keys in order, and the secret key of one.

use crate::member::NodeSettings;
use crate::plain::sha256;
use crate::wire::Attestation;
use anyhow::{Context, Result, bail, ensure};
use ring::rand::{SecureRandom, SystemRandom};
use ring::signature::{ED25519, Ed25519KeyPair, KeyPair, UnparsedPublicKey};
use std::collections::HashSet;
use std::fs::{self, File};
use std::io::Write;
use std::os::unix::fs::{OpenOptionsExt, PermissionsExt};
use std::path::Path;

/// An Ed25519 public key.
pub type PublicKey = [u8; 32];

/// An Ed25519 signature.
pub type Signature = [u8; 64];

/// What stands before all that a key signs: no signature of another use of the key counts here, nor one from here there.
const SIGNED: &[u8] = b"voumlis 1";

/// The members' keys in order, with what all of them are set up with alike.
#[derive(Clone, Debug, PartialEq, Eq)]
pub struct Committee {
    keys: Vec<PublicKey>,
    hash: [u8; 32],
}

impl Committee {
    /// The committee of these keys, set up as where nothing is said.
    ///
    /// # Errors
    ///
    /// As of [`Committee::set_up`].
    pub fn new(keys: Vec<PublicKey>) -> Result<Committee> {
        Committee::set_up(keys, &NodeSettings::default())
    }

    /// The committee of these keys, whose nodes are set up so. What may differ from member to member counts for nothing here.
    ///
    /// # Errors
    ///
    /// Where there are none, more than 65,535, or one twice.
    pub fn set_up(keys: Vec<PublicKey>, node: &NodeSettings) -> Result<Committee> {
        ensure!(!keys.is_empty(), "a committee has a member");
        ensure!(keys.len() <= 65_535, "more than 65535 members");
        let distinct: HashSet<&PublicKey> = keys.iter().collect();
        ensure!(
            distinct.len() == keys.len(),
            "two members have the same key"
        );
        let listed = keys.concat();
        let hash = sha256(&[
            b"voumlis committee 1",
            &(keys.len() as u32).to_be_bytes(),
            &listed,
            &node.epoch.to_be_bytes(),
            &node.genesis,
            &node.alike(),
        ]);
        Ok(Committee { keys, hash })
    }

    /// How many members there are.
    pub fn size(&self) -> u32 {
        self.keys.len() as u32
    }

    /// How many may lie.
    pub fn liars(&self) -> u32 {
        (self.size() - 1) / 3
    }

    /// The key of a member, if there is one of this index.
    pub fn key(&self, member: u32) -> Option<&PublicKey> {
        self.keys.get(member as usize)
    }

    /// Whose key this is.
    pub fn member_of(&self, key: &[u8]) -> Option<u32> {
        let place = self.keys.iter().position(|one| one == key)?;
        Some(place as u32)
    }

    /// What stands for keys, their order, and what the nodes are set up with alike: a part of all that is signed, so nothing that was signed
    /// for one committee counts in another.
    pub fn hash(&self) -> &[u8; 32] {
        &self.hash
    }

    fn signed(&self, hash: &[u8; 32]) -> Vec<u8> {
        [SIGNED, &self.hash, hash].concat()
    }

    /// Whether this is the signer's signature of its attestation. It isn't where there is no such member.
    pub fn verifies(&self, attestation: &Attestation, signature: &Signature) -> bool {
        let Some(key) = self.key(attestation.signer) else {
            return false;
        };
        UnparsedPublicKey::new(&ED25519, key)
            .verify(&self.signed(&attestation.hash), signature)
            .is_ok()
    }
}

/// The secret key of one member.
pub struct SecretKey {
    seed: [u8; 32],
    pair: Ed25519KeyPair,
}

impl SecretKey {
    /// A new key, from the system's source of random bytes.
    ///
    /// # Errors
    ///
    /// Where that source fails.
    pub fn generate() -> Result<SecretKey> {
        let mut seed = [0; 32];
        if SystemRandom::new().fill(&mut seed).is_err() {
            bail!("the system gives no random bytes");
        }
        SecretKey::of_seed(seed)
    }

    /// The key of this seed.
    ///
    /// # Errors
    ///
    /// None that is known: each 32 bytes are the seed of a key.
    pub fn of_seed(seed: [u8; 32]) -> Result<SecretKey> {
        match Ed25519KeyPair::from_seed_unchecked(&seed) {
            Ok(pair) => Ok(SecretKey { seed, pair }),
            Err(_) => bail!("no key has this seed"),
        }
    }

    /// The key in this file, which nobody but its owner may read.
    ///
    /// # Errors
    ///
    /// Where the file can't be read, others may read it, or it holds no key.
    pub fn read(path: &Path) -> Result<SecretKey> {
        let named = || format!("the key file {}", path.display());
        let mode = fs::metadata(path).with_context(named)?.permissions().mode();
        ensure!(
            mode & 0o077 == 0,
            "{} may be read by others: its mode is {:o}, and has to be 600",
            named(),
            mode & 0o777
        );
        let text = fs::read_to_string(path).with_context(named)?;
        let mut seed = [0; 32];
        hex::decode_to_slice(text.trim(), &mut seed)
            .with_context(|| format!("{} holds no 64 hexadecimal digits", named()))?;
        SecretKey::of_seed(seed)
    }

    /// Writes the key to a new file that its owner alone may read.
    ///
    /// # Errors
    ///
    /// Where there is a file of this name already, or it can't be written.
    pub fn write(&self, path: &Path) -> Result<()> {
        let named = || format!("the key file {}", path.display());
        let mut file = File::options()
            .write(true)
            .create_new(true)
            .mode(0o600)
            .open(path)
            .with_context(named)?;
        writeln!(file, "{}", hex::encode(self.seed)).with_context(named)?;
        file.sync_all().with_context(named)
    }

    /// The seed: who has it has the key.
    pub fn seed(&self) -> &[u8; 32] {
        &self.seed
    }

    /// The public key.
    pub fn public(&self) -> PublicKey {
        let key = self.pair.public_key().as_ref();
        key.try_into().expect("32 bytes of Ed25519")
    }

    /// The signature of an attestation in this committee. The same each time, so it need not be kept.
    pub fn sign(&self, committee: &Committee, hash: &[u8; 32]) -> Signature {
        let signature = self.pair.sign(&committee.signed(hash));
        signature.as_ref().try_into().expect("64 bytes of Ed25519")
    }
}

impl std::fmt::Debug for SecretKey {
    fn fmt(&self, f: &mut std::fmt::Formatter<'_>) -> std::fmt::Result {
        write!(f, "the secret key of {}", hex::encode(self.public()))
    }
}

#[cfg(test)]
mod tests {
    use super::*;

    fn keys(count: u8) -> Vec<SecretKey> {
        (0..count)
            .map(|byte| SecretKey::of_seed([byte + 1; 32]).unwrap())
            .collect()
    }

    fn committee(keys: &[SecretKey]) -> Committee {
        Committee::new(keys.iter().map(SecretKey::public).collect()).unwrap()
    }

    #[test]
    fn a_signature_counts_for_its_signer_hash_and_committee_alone() {
        let keys = keys(4);
        let committee = committee(&keys);
        let attestation = Attestation {
            signer: 2,
            hash: [7; 32],
        };
        let signature = keys[2].sign(&committee, &attestation.hash);
        assert!(committee.verifies(&attestation, &signature));
        let another = |signer, hash| Attestation { signer, hash };
        assert!(!committee.verifies(&another(1, [7; 32]), &signature));
        assert!(!committee.verifies(&another(2, [8; 32]), &signature));
        assert!(!committee.verifies(&another(4, [7; 32]), &signature));
        let swapped = Committee::new(
            [0, 1, 3, 2]
                .map(|place: usize| keys[place].public())
                .to_vec(),
        )
        .unwrap();
        assert!(!swapped.verifies(&another(3, [7; 32]), &signature));
    }

    #[test]
    fn what_is_to_be_alike_makes_another_committee_and_what_may_differ_none() {
        let keys: Vec<PublicKey> = keys(4).iter().map(SecretKey::public).collect();
        let set_up = |change: fn(&mut NodeSettings)| {
            let mut node = NodeSettings::default();
            change(&mut node);
            *Committee::set_up(keys.clone(), &node).unwrap().hash()
        };
        let usual = *Committee::new(keys.clone()).unwrap().hash();
        assert_eq!(set_up(|node| node.leader_timeout = 7), usual);
        assert_eq!(set_up(|node| node.rewrite_views = 0), usual);
        assert_ne!(set_up(|node| node.epoch = 1), usual);
        assert_ne!(set_up(|node| node.term_length = 5), usual);
        // As it was before settings could be chosen: what was signed then counts.
        let listed = keys.concat();
        let parts = [
            &b"voumlis committee 1"[..],
            &[0, 0, 0, 4],
            &listed,
            &[0; 40],
        ];
        assert_eq!(sha256(&parts), usual);
    }

    #[test]
    fn no_member_comes_twice() {
        let keys = keys(1);
        assert!(Committee::new(vec![keys[0].public(), keys[0].public()]).is_err());
        assert!(Committee::new(Vec::new()).is_err());
    }

    #[test]
    fn a_key_file_is_for_its_owner_alone() {
        let folder = tempfile::tempdir().unwrap();
        let path = folder.path().join("key");
        let key = SecretKey::generate().unwrap();
        key.write(&path).unwrap();
        assert_eq!(SecretKey::read(&path).unwrap().public(), key.public());
        assert!(key.write(&path).is_err(), "a key is never written over");
        fs::set_permissions(&path, fs::Permissions::from_mode(0o640)).unwrap();
        let told = SecretKey::read(&path).unwrap_err().to_string();
        assert!(told.contains("640"), "{told}");
    }
}
