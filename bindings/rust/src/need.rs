//! What a parked unit waits for.

use crate::{Digest, sys};

/// What a parked unit waits for: what a node asks its peers for.
///
/// ```
/// use highway::{Core, Digest, Need, Settings};
///
/// let core = Core::new(&Settings::of_weights(vec![1]).to_bytes()?)?;
/// assert!(core.for_need(Need::Unit(Digest([0; 32])))?.is_empty());
/// # Ok::<(), highway::Error>(())
/// ```
#[derive(Clone, Copy, Debug, PartialEq, Eq, Hash)]
pub enum Need {
    /// The unit of this digest has to settle.
    Unit(Digest),
    /// The validator has to be known as faulty.
    Evidence(u32),
    /// The unit of this digest has to be endorsed.
    Endorsed(Digest),
}

impl Need {
    pub(crate) fn to_sys(self) -> sys::Missing {
        match self {
            Need::Unit(unit) => sys::Missing { kind: 0, validator: 0, digest: unit.0 },
            Need::Evidence(validator) => sys::Missing { kind: 1, validator, digest: [0; 32] },
            Need::Endorsed(unit) => sys::Missing { kind: 2, validator: 0, digest: unit.0 },
        }
    }

    pub(crate) fn of_sys(missing: &sys::Missing) -> Need {
        match missing.kind {
            0 => Need::Unit(Digest(missing.digest)),
            1 => Need::Evidence(missing.validator),
            _ => Need::Endorsed(Digest(missing.digest)),
        }
    }
}
