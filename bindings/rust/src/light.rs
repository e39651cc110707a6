//! What two nodes say of each other, and what a certificate shows.

use crate::{Digest, Error, Signatures, sys};

/// What the journals of two nodes say of each other.
///
/// ```
/// # use highway::{Core, Error, Leaders, Settings, Verdict};
/// # let leaders = Leaders::Table(vec![0]);
/// # let settings = Settings { leaders, min_exponent: 2, ..Settings::of_weights(vec![1]) };
/// # let mut core = Core::new(&settings.to_bytes()?)?;
/// # for now in 0..32 {
/// #     let Some(plan) = core.next_unit(0, now, b"a block")? else { continue };
/// #     core.deliver(&plan.signed(&[0; 32])?, true)?;
/// # }
/// let (verdict, _) = core.audit(&core)?;
/// assert_eq!(verdict, Verdict::Agree { common: core.summary()?.decided });
/// # Ok::<(), Error>(())
/// ```
#[derive(Clone, Debug, PartialEq, Eq)]
pub enum Verdict {
    /// The one chain of final blocks begins the other.
    Agree {
        /// So many blocks are final in both.
        common: u64,
    },
    /// The two decided different blocks at this height. The culprits equivocated.
    Conflict {
        /// The height.
        height: u64,
        /// The block of the one.
        left: Digest,
        /// The block of the other.
        right: Digest,
        /// How many culprits there are.
        culprits: u64,
        /// What they weigh together: more than the fault tolerance.
        weight: u64,
    },
    /// Two units differ and have one digest.
    Clash,
}

impl Verdict {
    pub(crate) fn of_sys(audited: &sys::Audited) -> Verdict {
        match audited.kind {
            0 => Verdict::Agree { common: audited.height },
            1 => Verdict::Conflict {
                height: audited.height,
                left: Digest(audited.left),
                right: Digest(audited.right),
                culprits: audited.culprits,
                weight: audited.weight,
            },
            _ => Verdict::Clash,
        }
    }
}

/// A certificate: a block, and vertices that make it stand, as bytes. It has all units below those of the block's
/// committee, so it is as long as the journal up to there.
///
/// ```
/// # use highway::{Certificate, Core, Error, Judgement, Leaders, Settings};
/// # let leaders = Leaders::Table(vec![0]);
/// # let settings = Settings { leaders, min_exponent: 2, ..Settings::of_weights(vec![1]) };
/// # let mut core = Core::new(&settings.to_bytes()?)?;
/// # for now in 0..32 {
/// #     let Some(plan) = core.next_unit(0, now, b"a block")? else { continue };
/// #     core.deliver(&plan.signed(&[0; 32])?, true)?;
/// # }
/// let made = core.certificate(0)?.expect("the block stands");
/// let read = Certificate::from_bytes(made.as_bytes().to_vec());
/// let verdicts: Vec<bool> = read.signatures()?.iter().map(|one| one.all(|_, one| one.signature == [0; 32])).collect();
/// assert!(matches!(read.check(&verdicts)?, Judgement::Yes { .. }));
/// # Ok::<(), Error>(())
/// ```
#[derive(Clone, Debug, PartialEq, Eq)]
pub struct Certificate {
    bytes: Vec<u8>,
}

/// What a certificate is answered.
///
/// ```
/// # use highway::{Core, Error, Judgement, Leaders, Settings};
/// # let leaders = Leaders::Table(vec![0]);
/// # let settings = Settings { leaders, min_exponent: 2, ..Settings::of_weights(vec![1]) };
/// # let mut core = Core::new(&settings.to_bytes()?)?;
/// # for now in 0..32 {
/// #     let Some(plan) = core.next_unit(0, now, b"a block")? else { continue };
/// #     core.deliver(&plan.signed(&[0; 32])?, true)?;
/// # }
/// let certificate = core.certificate(0)?.expect("the block stands");
/// let count = certificate.signatures()?.len();
/// match certificate.check(&vec![true; count])? {
///     Judgement::Yes { block, instance, height, .. } => println!("{block} of height {height} stands in {instance}"),
///     other => panic!("{other:?}"),
/// }
/// # Ok::<(), Error>(())
/// ```
#[derive(Clone, Debug, PartialEq, Eq)]
pub enum Judgement {
    /// The block stands: another node of this instance that decided another block at its height is in a conflict with
    /// it whose culprits weigh more than the fault tolerance. The caller compares the instance with the one it knows.
    Yes {
        /// The block.
        block: Digest,
        /// The digest of the certificate's own configuration.
        instance: Digest,
        /// The weight of all validators in that configuration.
        total: u64,
        /// How many blocks are below it on its chain.
        height: u64,
        /// Its value.
        value: Vec<u8>,
    },
    /// The configuration breaks a limit. Which validator has no weight isn't told: the number in the error is 0.
    Config(Error),
    /// The vertex of this number is refused. A digest in the error is all zeros.
    Refused(u32, Error),
    /// The faulty validators have this weight, which exceeds the fault tolerance.
    Exceeded(u64),
    /// The block doesn't stand.
    Unstood,
}

impl Certificate {
    /// What may be a certificate: the bytes are read by each call.
    ///
    /// ```
    /// use highway::Certificate;
    ///
    /// let certificate = Certificate::from_bytes(b"from a peer".to_vec());
    /// assert!(certificate.check(&[]).is_err());
    /// ```
    pub fn from_bytes(bytes: Vec<u8>) -> Certificate {
        Certificate { bytes }
    }

    /// Its bytes.
    ///
    /// ```
    /// use highway::Certificate;
    ///
    /// assert_eq!(Certificate::from_bytes(vec![1, 2]).as_bytes(), [1, 2]);
    /// ```
    pub fn as_bytes(&self) -> &[u8] {
        &self.bytes
    }

    /// Who signed what, vertex by vertex.
    ///
    /// # Errors
    ///
    /// [`Error::Certificate`] where the bytes are none.
    ///
    /// ```
    /// # use highway::{Certificate, Core, Error, Leaders, Settings};
    /// # let leaders = Leaders::Table(vec![0]);
    /// # let settings = Settings { leaders, min_exponent: 2, ..Settings::of_weights(vec![1]) };
    /// # let mut core = Core::new(&settings.to_bytes()?)?;
    /// # for now in 0..32 {
    /// #     let Some(plan) = core.next_unit(0, now, b"a block")? else { continue };
    /// #     core.deliver(&plan.signed(&[0; 32])?, true)?;
    /// # }
    /// let certificate = core.certificate(0)?.expect("the block stands");
    /// for signed in certificate.signatures()? {
    ///     assert!(signed.all(|_is_endorsement, one| one.validator == 0 && one.signature == [0; 32]));
    /// }
    /// assert!(Certificate::from_bytes(b"from a peer".to_vec()).signatures().is_err());
    /// # Ok::<(), Error>(())
    /// ```
    pub fn signatures(&self) -> Result<Vec<Signatures>, Error> {
        Ok(sys::certified(&self.bytes)?.iter().map(Signatures::of_sys).collect())
    }

    /// What it is answered with these verdicts on its vertices, one for each in their order.
    ///
    /// # Errors
    ///
    /// [`Error::Certificate`] where the bytes are none, and [`Error::OutOfRange`] where the verdicts are more or less
    /// than the vertices.
    ///
    /// ```
    /// # use highway::{Core, Error, Judgement, Leaders, Settings};
    /// # let leaders = Leaders::Table(vec![0]);
    /// # let settings = Settings { leaders, min_exponent: 2, ..Settings::of_weights(vec![1]) };
    /// # let mut core = Core::new(&settings.to_bytes()?)?;
    /// # for now in 0..32 {
    /// #     let Some(plan) = core.next_unit(0, now, b"a block")? else { continue };
    /// #     core.deliver(&plan.signed(&[0; 32])?, true)?;
    /// # }
    /// let certificate = core.certificate(0)?.expect("the block stands");
    /// let mut verdicts = vec![true; certificate.signatures()?.len()];
    /// assert!(matches!(certificate.check(&verdicts)?, Judgement::Yes { .. }));
    /// verdicts[0] = false;
    /// assert_eq!(certificate.check(&verdicts)?, Judgement::Refused(0, Error::BadSignature));
    /// assert_eq!(certificate.check(&[]), Err(Error::OutOfRange));
    /// # Ok::<(), Error>(())
    /// ```
    pub fn check(&self, verdicts: &[bool]) -> Result<Judgement, Error> {
        let (judged, value) = sys::check(&self.bytes, verdicts)?;
        let refused = || Error::of(judged.status, &sys::Answer::default());
        Ok(match judged.kind {
            0 => Judgement::Yes {
                block: Digest(judged.block),
                instance: Digest(judged.instance),
                total: judged.total,
                height: judged.height,
                value,
            },
            1 => Judgement::Config(refused()),
            2 => Judgement::Refused(judged.number, refused()),
            3 => Judgement::Exceeded(judged.weight),
            _ => Judgement::Unstood,
        })
    }
}
