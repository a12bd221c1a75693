//! TLS 1.3 with the members' keys pinned on both sides.
//!
//! A member's certificate is self-signed with its Ed25519 key, and made anew at each start. Of a certificate nothing counts but its
//! public key: it has to be a member's, and its holder has to sign the handshake with it, which rustls checks. No session is resumed.

use anyhow::{Context, Result};
use openssl::asn1::Asn1Time;
use openssl::bn::BigNum;
use openssl::hash::MessageDigest;
use openssl::pkey::{Id, PKey, Private};
use openssl::x509::extension::SubjectAlternativeName;
use openssl::x509::{X509, X509NameBuilder};
use rustls::client::{NoClientSessionStorage, ServerCertVerified, ServerCertVerifier};
use rustls::server::{ClientCertVerified, ClientCertVerifier, NoServerSessionStorage};
use rustls::version::TLS13;
use rustls::{
    Certificate, ClientConfig, DistinguishedNames, Error, PrivateKey, ServerConfig, ServerName,
};
use std::sync::Arc;
use std::time::SystemTime;
use tokio_rustls::{TlsAcceptor, TlsConnector};
use voumlis_core::committee::{Committee, PublicKey, SecretKey};

/// What a member shows: its certificate, and the key that proves it.
#[derive(Clone)]
struct Identity {
    certificate: Certificate,
    key: PrivateKey,
}

impl Identity {
    fn new(key: &SecretKey) -> Result<Identity> {
        let pair = PKey::private_key_from_raw_bytes(key.seed(), Id::ED25519)?;
        Ok(Identity {
            certificate: Certificate(self_signed(&pair)?.to_der()?),
            // Of an Ed25519 key this is the form that rustls wants.
            key: PrivateKey(pair.private_key_to_der()?),
        })
    }
}

fn self_signed(pair: &PKey<Private>) -> Result<X509> {
    let mut name = X509NameBuilder::new()?;
    name.append_entry_by_text("CN", "member")?;
    let name = name.build();
    let mut builder = X509::builder()?;
    builder.set_version(2)?;
    let serial = BigNum::from_u32(1)?.to_asn1_integer()?;
    builder.set_serial_number(&serial)?;
    builder.set_subject_name(&name)?;
    builder.set_issuer_name(&name)?;
    // Nobody looks at the times: a key counts for as long as the settings name it.
    builder.set_not_before(Asn1Time::from_unix(0)?.as_ref())?;
    builder.set_not_after(Asn1Time::days_from_now(36500)?.as_ref())?;
    builder.set_pubkey(pair)?;
    // What reads the certificate for rustls wants some extension to be there.
    let context = builder.x509v3_context(None, None);
    let name = SubjectAlternativeName::new()
        .dns("member")
        .build(&context)?;
    builder.append_extension(name)?;
    builder.sign(pair, MessageDigest::null())?;
    Ok(builder.build())
}

/// The Ed25519 public key of a certificate.
fn key_of(certificate: &Certificate) -> Option<PublicKey> {
    let key = X509::from_der(&certificate.0).ok()?.public_key().ok()?;
    if key.id() != Id::ED25519 {
        return None;
    }
    key.raw_public_key().ok()?.try_into().ok()
}

/// Whose certificate it is.
pub fn member_of(committee: &Committee, certificate: &Certificate) -> Option<u32> {
    committee.member_of(&key_of(certificate)?)
}

fn refused() -> Error {
    Error::General("the key isn't the one that is pinned".to_owned())
}

/// The dialer's side: the one member that it dials.
struct Pinned(PublicKey);

impl ServerCertVerifier for Pinned {
    fn verify_server_cert(
        &self,
        end_entity: &Certificate,
        _: &[Certificate],
        _: &ServerName,
        _: &mut dyn Iterator<Item = &[u8]>,
        _: &[u8],
        _: SystemTime,
    ) -> Result<ServerCertVerified, Error> {
        match key_of(end_entity) {
            Some(key) if key == self.0 => Ok(ServerCertVerified::assertion()),
            _ => Err(refused()),
        }
    }
}

/// The listener's side: any other member.
struct OtherMembers(Arc<Committee>, u32);

impl ClientCertVerifier for OtherMembers {
    fn client_auth_root_subjects(&self) -> Option<DistinguishedNames> {
        Some(DistinguishedNames::new())
    }

    fn verify_client_cert(
        &self,
        end_entity: &Certificate,
        _: &[Certificate],
        _: SystemTime,
    ) -> Result<ClientCertVerified, Error> {
        match member_of(&self.0, end_entity) {
            Some(member) if member != self.1 => Ok(ClientCertVerified::assertion()),
            _ => Err(refused()),
        }
    }
}

/// How a member dials another.
///
/// # Errors
///
/// Where there is no such member, or OpenSSL makes no certificate.
pub fn connector(committee: &Committee, key: &SecretKey, peer: u32) -> Result<TlsConnector> {
    let identity = Identity::new(key)?;
    let pinned = *committee.key(peer).context("no such member")?;
    let mut config = ClientConfig::builder()
        .with_safe_default_cipher_suites()
        .with_safe_default_kx_groups()
        .with_protocol_versions(&[&TLS13])?
        .with_custom_certificate_verifier(Arc::new(Pinned(pinned)))
        .with_single_cert(vec![identity.certificate], identity.key)?;
    config.session_storage = Arc::new(NoClientSessionStorage {});
    Ok(TlsConnector::from(Arc::new(config)))
}

/// How a member is dialed.
///
/// # Errors
///
/// Where OpenSSL makes no certificate.
pub fn acceptor(committee: &Arc<Committee>, key: &SecretKey, me: u32) -> Result<TlsAcceptor> {
    let identity = Identity::new(key)?;
    let verifier = Arc::new(OtherMembers(committee.clone(), me));
    let mut config = ServerConfig::builder()
        .with_safe_default_cipher_suites()
        .with_safe_default_kx_groups()
        .with_protocol_versions(&[&TLS13])?
        .with_client_cert_verifier(verifier)
        .with_single_cert(vec![identity.certificate], identity.key)?;
    config.session_storage = Arc::new(NoServerSessionStorage {});
    Ok(TlsAcceptor::from(Arc::new(config)))
}

/// The name that TLS wants to be told. Nobody looks at it.
///
/// # Panics
///
/// Never: it is a name.
pub fn any_name() -> ServerName {
    ServerName::try_from("member").expect("a name")
}
