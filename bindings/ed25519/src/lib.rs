//! Ed25519 for the crate `highway`: secret keys that sign units and endorsements, and public keys that judge them.
//!
//! A vertex has 32 bytes for a signature, and an Ed25519 signature 64. So the vertex has the SHA-256 digest of the
//! signature, its slot, and the signature stands in a [`Detached`] beside it. Curve and keys are `ring`'s.
#![deny(missing_docs, missing_debug_implementations, unsafe_code)]

use highway::{Detached, Digest, Verify, message};
use ring::rand::SystemRandom;
use ring::signature::{ED25519, Ed25519KeyPair, KeyPair, UnparsedPublicKey};
use std::fmt;

/// A key that can't be made, or isn't one.
#[derive(Clone, Copy, Debug, PartialEq, Eq)]
pub struct KeyError;

impl fmt::Display for KeyError {
    fn fmt(&self, f: &mut fmt::Formatter<'_>) -> fmt::Result {
        write!(f, "no Ed25519 key")
    }
}

impl std::error::Error for KeyError {}

/// A validator's secret key.
///
/// ```
/// use highway_ed25519::SecretKey;
///
/// let bytes = SecretKey::make()?;
/// assert_eq!(SecretKey::read(&bytes)?.public(), SecretKey::read(&bytes)?.public());
/// assert!(SecretKey::read(b"none").is_err());
/// # Ok::<(), highway_ed25519::KeyError>(())
/// ```
pub struct SecretKey(Ed25519KeyPair);

impl SecretKey {
    /// The bytes of a new key, in the form PKCS#8.
    ///
    /// # Errors
    ///
    /// Where the system has no random bytes.
    pub fn make() -> Result<Vec<u8>, KeyError> {
        let made = Ed25519KeyPair::generate_pkcs8(&SystemRandom::new()).map_err(|_| KeyError)?;
        Ok(made.as_ref().to_vec())
    }

    /// The key of these bytes.
    ///
    /// # Errors
    ///
    /// Where they are none in the form PKCS#8.
    pub fn read(bytes: &[u8]) -> Result<SecretKey, KeyError> {
        Ed25519KeyPair::from_pkcs8(bytes).map(SecretKey).map_err(|_| KeyError)
    }

    /// The public key: 32 bytes.
    pub fn public(&self) -> [u8; 32] {
        let mut public = [0; 32];
        public.copy_from_slice(self.0.public_key().as_ref());
        public
    }

    /// Signs a unit or an endorsement, keeps the signature, and says its slot.
    pub fn sign(&self, is_endorsement: bool, unit: Digest, signatures: &mut Detached) -> [u8; 32] {
        signatures.put(self.0.sign(&message(is_endorsement, unit)).as_ref())
    }
}

impl fmt::Debug for SecretKey {
    fn fmt(&self, f: &mut fmt::Formatter<'_>) -> fmt::Result {
        f.debug_struct("SecretKey").finish_non_exhaustive()
    }
}

/// The validators' public keys, by their numbers.
///
/// ```
/// use highway::{Detached, Digest, Verify, endorsement};
/// use highway_ed25519::{PublicKeys, SecretKey};
///
/// let secret = SecretKey::read(&SecretKey::make()?)?;
/// let keys = PublicKeys(vec![secret.public()]);
/// let mut signatures = Detached::new();
/// let slot = secret.sign(true, Digest([7; 32]), &mut signatures);
/// let of = |endorser| endorsement(endorser, Digest([7; 32]), &slot);
/// assert!(signatures.verdict(&keys, &of(0)?)?);
/// assert!(!signatures.verdict(&keys, &of(1)?)?);
/// # Ok::<(), Box<dyn std::error::Error>>(())
/// ```
#[derive(Clone, Debug, PartialEq, Eq)]
pub struct PublicKeys(pub Vec<[u8; 32]>);

impl Verify for PublicKeys {
    fn is_right(&self, validator: u32, message: &[u8], signature: &[u8]) -> bool {
        let key = self.0.get(validator as usize);
        key.is_some_and(|key| UnparsedPublicKey::new(&ED25519, key).verify(message, signature).is_ok())
    }
}
