//! Signatures of real schemes, which stand beside the vertices.
//!
//! A vertex has 32 bytes for each signature. A host whose scheme needs more puts the SHA-256 digest of the signature
//! there, the *slot*, and keeps the signature itself under that digest. Who can show another signature for one slot has
//! found a collision of SHA-256; so the slot binds the signature as a hash in a certificate does.

use crate::{Digest, Error, Signature, Signatures, sys};
use std::collections::HashMap;
use std::fmt;

/// What a file of signatures begins with: its name and its version.
const HEAD: &[u8; 5] = b"HWSG\x01";

/// No signature is longer.
const MOST: usize = 4096;

/// A scheme of signatures: what a host judges vertices by.
///
/// ```
/// use highway::{Digest, Verify};
///
/// /// A scheme for tests alone: the signature is the validator's number, four times.
/// struct Numbered;
///
/// impl Verify for Numbered {
///     fn is_right(&self, validator: u32, _message: &[u8], signature: &[u8]) -> bool {
///         signature == [validator as u8; 4]
///     }
/// }
///
/// assert!(Numbered.is_right(3, b"", &[3; 4]));
/// ```
pub trait Verify {
    /// Whether this is the validator's signature of the message, which is that of [`message`]. A number that is no
    /// validator's has no right signature.
    fn is_right(&self, validator: u32, message: &[u8], signature: &[u8]) -> bool;
}

/// What a validator signs: a word that tells a unit from an endorsement, and the unit's digest.
///
/// ```
/// use highway::{Digest, message};
///
/// assert_eq!(message(false, Digest([7; 32])), [b"highway unit\0".as_slice(), &[7; 32]].concat());
/// assert_ne!(message(true, Digest([7; 32])), message(false, Digest([7; 32])));
/// ```
pub fn message(is_endorsement: bool, unit: Digest) -> Vec<u8> {
    let word: &[u8] = if is_endorsement { b"highway endorsement\0" } else { b"highway unit\0" };
    [word, &unit.0].concat()
}

/// Why bytes are no file of signatures, and the place of the first that isn't.
///
/// ```
/// use highway::{Detached, DetachedError};
///
/// assert_eq!(Detached::from_bytes(b"HWLG\x01").unwrap_err(), DetachedError::Head);
/// assert_eq!(Detached::from_bytes(b"HWSG\x01\0\x40").unwrap_err(), DetachedError::Torn { at: 5 });
/// ```
#[derive(Clone, Copy, Debug, PartialEq, Eq)]
pub enum DetachedError {
    /// They don't begin as such a file does, or are of another version.
    Head,
    /// The signature that begins at this byte is longer than any, or empty.
    Length {
        /// The place of its length.
        at: usize,
    },
    /// The file ends within the signature that begins at this byte: it was cut off while it was written.
    Torn {
        /// The place of its length.
        at: usize,
    },
}

impl fmt::Display for DetachedError {
    fn fmt(&self, f: &mut fmt::Formatter<'_>) -> fmt::Result {
        match self {
            DetachedError::Head => write!(f, "no file of signatures"),
            DetachedError::Length { at } => write!(f, "signature length at {at}"),
            DetachedError::Torn { at } => write!(f, "torn at {at}"),
        }
    }
}

impl std::error::Error for DetachedError {}

/// Signatures by their slots.
///
/// ```
/// use highway::Detached;
///
/// let mut signatures = Detached::new();
/// let slot = signatures.put(&[7; 64]);
/// assert_eq!(signatures.get(&slot), Some([7; 64].as_slice()));
/// let read = Detached::from_bytes(&signatures.to_bytes())?;
/// assert_eq!(read, signatures);
/// # Ok::<(), highway::DetachedError>(())
/// ```
#[derive(Clone, Debug, Default, PartialEq, Eq)]
pub struct Detached {
    by_slot: HashMap<[u8; 32], Vec<u8>>,
}

impl Detached {
    /// None.
    ///
    /// ```
    /// assert_eq!(highway::Detached::new().to_bytes(), b"HWSG\x01");
    /// ```
    pub fn new() -> Detached {
        Detached::default()
    }

    /// The slot of a signature: what a vertex has in its place.
    ///
    /// ```
    /// use highway::Detached;
    ///
    /// assert_ne!(Detached::slot_of(&[1; 64]), Detached::slot_of(&[2; 64]));
    /// ```
    pub fn slot_of(signature: &[u8]) -> [u8; 32] {
        sys::sha256(signature)
    }

    /// Keeps a signature, and says its slot. Who takes one from a peer judges it first.
    ///
    /// ```
    /// use highway::Detached;
    ///
    /// assert_eq!(Detached::new().put(&[1; 64]), Detached::slot_of(&[1; 64]));
    /// ```
    pub fn put(&mut self, signature: &[u8]) -> [u8; 32] {
        let slot = Detached::slot_of(signature);
        self.by_slot.insert(slot, signature.to_vec());
        slot
    }

    /// The signature of a slot, where it is there.
    ///
    /// ```
    /// assert_eq!(highway::Detached::new().get(&[0; 32]), None);
    /// ```
    pub fn get(&self, slot: &[u8; 32]) -> Option<&[u8]> {
        self.by_slot.get(slot).map(Vec::as_slice)
    }

    /// The signatures that a vertex needs, in the order in which it has them: what goes to a peer with it. None where
    /// one of them isn't there.
    ///
    /// # Errors
    ///
    /// [`Error::Bytes`] where the bytes spell no vertex.
    ///
    /// ```
    /// use highway::{Detached, Digest, endorsement};
    ///
    /// let mut signatures = Detached::new();
    /// let slot = signatures.put(&[7; 64]);
    /// let vertex = endorsement(0, Digest([1; 32]), &slot)?;
    /// assert_eq!(signatures.of_vertex(&vertex)?, Some(vec![[7; 64].as_slice()]));
    /// assert_eq!(Detached::new().of_vertex(&vertex)?, None);
    /// # Ok::<(), highway::Error>(())
    /// ```
    pub fn of_vertex(&self, vertex: &[u8]) -> Result<Option<Vec<&[u8]>>, Error> {
        let slots = match Signatures::of(vertex)? {
            Signatures::Unit(one) | Signatures::Endorsement(one) => vec![one.signature],
            Signatures::Evidence(left, right) => vec![left.signature, right.signature],
        };
        Ok(slots.iter().map(|slot| self.get(slot)).collect())
    }

    /// The verdict on a vertex: whether each of its slots has a signature here, and each is right.
    ///
    /// # Errors
    ///
    /// [`Error::Bytes`] where the bytes spell no vertex.
    ///
    /// ```
    /// use highway::{Detached, Digest, Verify, endorsement};
    ///
    /// struct Sevens;
    /// impl Verify for Sevens {
    ///     fn is_right(&self, _validator: u32, _message: &[u8], signature: &[u8]) -> bool {
    ///         signature == [7; 64]
    ///     }
    /// }
    ///
    /// let mut signatures = Detached::new();
    /// let right = endorsement(0, Digest([1; 32]), &signatures.put(&[7; 64]))?;
    /// let wrong = endorsement(0, Digest([1; 32]), &signatures.put(&[8; 64]))?;
    /// assert!(signatures.verdict(&Sevens, &right)? && !signatures.verdict(&Sevens, &wrong)?);
    /// # Ok::<(), highway::Error>(())
    /// ```
    pub fn verdict(&self, scheme: &impl Verify, vertex: &[u8]) -> Result<bool, Error> {
        Ok(self.judge(scheme, &Signatures::of(vertex)?))
    }

    /// The verdict on who signed what, as [`Detached::verdict`] gives it: for the vertices of a certificate.
    ///
    /// ```
    /// # use highway::{Detached, Digest, Signatures, Verify, endorsement};
    /// # struct Sevens;
    /// # impl Verify for Sevens {
    /// #     fn is_right(&self, _validator: u32, _message: &[u8], signature: &[u8]) -> bool {
    /// #         signature == [7; 64]
    /// #     }
    /// # }
    /// let mut signatures = Detached::new();
    /// let signed = Signatures::of(&endorsement(0, Digest([1; 32]), &signatures.put(&[7; 64]))?)?;
    /// assert!(signatures.judge(&Sevens, &signed));
    /// assert!(!Detached::new().judge(&Sevens, &signed));
    /// # Ok::<(), highway::Error>(())
    /// ```
    pub fn judge(&self, scheme: &impl Verify, signed: &Signatures) -> bool {
        signed.all(|is_endorsement, one| self.is_right(scheme, is_endorsement, one))
    }

    fn is_right(&self, scheme: &impl Verify, is_endorsement: bool, one: &Signature) -> bool {
        let said = message(is_endorsement, one.unit);
        self.get(&one.signature).is_some_and(|signature| scheme.is_right(one.validator, &said, signature))
    }

    /// The signatures that a file holds. They are judged when a vertex with their slot is.
    ///
    /// # Errors
    ///
    /// A [`DetachedError`] with its place. What stands before it is read by [`Detached::from_bytes`] of the bytes up to
    /// that place.
    ///
    /// ```
    /// use highway::{Detached, DetachedError};
    ///
    /// let mut file = Detached::new().to_bytes();
    /// file.extend(Detached::entry(&[7; 64]));
    /// assert!(Detached::from_bytes(&file)?.get(&Detached::slot_of(&[7; 64])).is_some());
    /// let torn = Detached::from_bytes(&file[..20]).unwrap_err();
    /// assert_eq!(torn, DetachedError::Torn { at: 5 });
    /// # Ok::<(), DetachedError>(())
    /// ```
    pub fn from_bytes(bytes: &[u8]) -> Result<Detached, DetachedError> {
        let mut rest = bytes.strip_prefix(HEAD).ok_or(DetachedError::Head)?;
        let mut found = Detached::new();
        while !rest.is_empty() {
            let at = bytes.len() - rest.len();
            let (length, behind) = rest.split_at_checked(2).ok_or(DetachedError::Torn { at })?;
            let length = usize::from(u16::from_be_bytes([length[0], length[1]]));
            if length == 0 || length > MOST {
                return Err(DetachedError::Length { at });
            }
            let (signature, behind) = behind.split_at_checked(length).ok_or(DetachedError::Torn { at })?;
            found.put(signature);
            rest = behind;
        }
        Ok(found)
    }

    /// What is appended to a file for one more signature: its length as two bytes, the greater first, and itself.
    ///
    /// # Panics
    ///
    /// If it is empty or has more than 4,096 bytes.
    ///
    /// ```
    /// assert_eq!(highway::Detached::entry(&[1, 2, 3]), [0, 3, 1, 2, 3]);
    /// ```
    pub fn entry(signature: &[u8]) -> Vec<u8> {
        assert!((1..=MOST).contains(&signature.len()), "a signature has 1 to {MOST} bytes");
        [&(signature.len() as u16).to_be_bytes(), signature].concat()
    }

    /// A file of all of them, in the order of their slots.
    ///
    /// ```
    /// use highway::Detached;
    ///
    /// let mut signatures = Detached::new();
    /// signatures.put(&[9]);
    /// assert_eq!(signatures.to_bytes(), b"HWSG\x01\0\x01\x09");
    /// ```
    pub fn to_bytes(&self) -> Vec<u8> {
        let mut slots: Vec<_> = self.by_slot.iter().collect();
        slots.sort();
        let mut bytes = HEAD.to_vec();
        for (_, signature) in slots {
            bytes.extend(Detached::entry(signature));
        }
        bytes
    }
}
