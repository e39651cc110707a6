//! Who signed what.

use crate::{Digest, Error, sys};

/// A validator's signature of the digest of a unit.
///
/// ```
/// # use highway::{Core, Error, Leaders, Settings, Signatures};
/// # let leaders = Leaders::Table(vec![0]);
/// # let settings = Settings { leaders, min_exponent: 2, ..Settings::of_weights(vec![1]) };
/// # let mut core = Core::new(&settings.to_bytes()?)?;
/// let plan = core.next_unit(0, 0, b"a block")?.expect("validator 0 leads");
/// let Signatures::Unit(one) = Signatures::of(&plan.signed(&[7; 32])?)? else { panic!("it is a unit") };
/// assert_eq!((one.validator, one.unit, one.signature), (0, plan.digest(), [7; 32]));
/// # Ok::<(), Error>(())
/// ```
#[derive(Clone, Copy, Debug, PartialEq, Eq)]
pub struct Signature {
    /// Who signed.
    pub validator: u32,
    /// The digest of the unit.
    pub unit: Digest,
    /// The signature, or whatever 32 bytes the host's scheme puts in its place.
    pub signature: [u8; 32],
}

/// What a host judges by its own scheme before it delivers a vertex.
///
/// ```
/// # use highway::{Core, Error, Leaders, Settings, Signatures};
/// # let leaders = Leaders::Table(vec![0]);
/// # let settings = Settings { leaders, min_exponent: 2, ..Settings::of_weights(vec![1]) };
/// # let mut core = Core::new(&settings.to_bytes()?)?;
/// let vertex = core.next_unit(0, 0, b"a block")?.expect("validator 0 leads").signed(&[7; 32])?;
/// let verdict = match Signatures::of(&vertex)? {
///     Signatures::Unit(one) => one.signature == [7; 32],
///     Signatures::Evidence(left, right) => left.signature == [7; 32] && right.signature == [7; 32],
///     Signatures::Endorsement(one) => one.signature == [8; 32],
/// };
/// core.deliver(&vertex, verdict)?;
/// # Ok::<(), Error>(())
/// ```
#[derive(Clone, Copy, Debug, PartialEq, Eq)]
pub enum Signatures {
    /// The creator signed the unit.
    Unit(Signature),
    /// The creator signed each of the two units.
    Evidence(Signature, Signature),
    /// The endorser signed that the unit may be relied on.
    Endorsement(Signature),
}

fn signature_of(signer: &sys::Signer) -> Signature {
    Signature { validator: signer.validator, unit: Digest(signer.unit), signature: signer.signature }
}

impl Signatures {
    /// Who signed the vertex that the bytes spell, and what.
    ///
    /// # Errors
    ///
    /// [`Error::Bytes`] where the bytes spell no vertex.
    ///
    /// ```
    /// use highway::{Error, Signatures};
    ///
    /// assert!(matches!(Signatures::of(b"no vertex"), Err(Error::Bytes { .. })));
    /// ```
    pub fn of(vertex: &[u8]) -> Result<Signatures, Error> {
        sys::signed(vertex).map(|signed| Signatures::of_sys(&signed))
    }

    pub(crate) fn of_sys(signed: &sys::Signed) -> Signatures {
        let (first, second) = (signature_of(&signed.first), signature_of(&signed.second));
        match signed.kind {
            0 => Signatures::Unit(first),
            1 => Signatures::Evidence(first, second),
            _ => Signatures::Endorsement(first),
        }
    }

    /// Whether each signature is right by this scheme: it is given whether an endorsement is signed, and the
    /// signature.
    ///
    /// ```
    /// # use highway::Signatures;
    /// # fn judge(vertex: &[u8]) -> Result<bool, highway::Error> {
    /// Ok(Signatures::of(vertex)?.all(|_is_endorsement, signed| signed.signature[0] == signed.validator as u8))
    /// # }
    /// ```
    pub fn all(&self, mut is_right: impl FnMut(bool, &Signature) -> bool) -> bool {
        match self {
            Signatures::Unit(signature) => is_right(false, signature),
            Signatures::Evidence(left, right) => is_right(false, left) && is_right(false, right),
            Signatures::Endorsement(signature) => is_right(true, signature),
        }
    }
}
