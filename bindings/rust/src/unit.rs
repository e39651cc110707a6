//! What a unit is.

use crate::{Digest, Error, Observation, sys};

/// What became of a unit in a node.
///
/// ```
/// # use highway::{Core, Error, Leaders, Settings, UnitState};
/// # let leaders = Leaders::Table(vec![0]);
/// # let settings = Settings { leaders, min_exponent: 2, ..Settings::of_weights(vec![1]) };
/// # let mut core = Core::new(&settings.to_bytes()?)?;
/// let vertex = core.next_unit(0, 0, b"a block")?.expect("validator 0 leads").signed(&[7; 32])?;
/// assert_eq!(core.read_unit(&vertex)?.expect("a unit").state, UnitState::Unknown);
/// # Ok::<(), Error>(())
/// ```
#[derive(Clone, Copy, Debug, PartialEq, Eq)]
pub enum UnitState {
    /// The unit was read from bytes, and the node wasn't asked about it.
    Unknown,
    /// It is settled.
    Settled {
        /// The block that it votes for: itself, where it is a block.
        vote: Digest,
        /// Of a block: the block that it stands on. None for a block at the root, and for another unit.
        parent: Option<Digest>,
        /// Of a block: how many blocks are below it on its chain. None for another unit.
        height: Option<u64>,
    },
    /// It waits for what it needs.
    Parked,
    /// It breaks a rule of the units below it.
    Dropped,
}

/// What a unit says, and what a node has worked out about it.
///
/// ```
/// # use highway::{Core, Error, Leaders, Settings, UnitState};
/// # let leaders = Leaders::Table(vec![0]);
/// # let settings = Settings { leaders, min_exponent: 2, ..Settings::of_weights(vec![1]) };
/// # let mut core = Core::new(&settings.to_bytes()?)?;
/// let plan = core.next_unit(0, 4, b"a block")?.expect("validator 0 leads");
/// core.deliver(&plan.signed(&[7; 32])?, true)?;
/// let unit = core.unit(plan.digest())?.expect("it was delivered");
/// assert_eq!((unit.creator, unit.seq, unit.time, unit.round, unit.leader), (0, 0, 4, 4, 0));
/// assert_eq!(unit.value.as_deref(), Some(b"a block".as_slice()));
/// assert_eq!(unit.state, UnitState::Settled { vote: plan.digest(), parent: None, height: Some(0) });
/// # Ok::<(), Error>(())
/// ```
#[derive(Clone, Debug, PartialEq, Eq)]
pub struct Unit {
    /// Its name.
    pub digest: Digest,
    /// The validator that made it.
    pub creator: u32,
    /// Its place on its creator's lane, from 0.
    pub seq: u64,
    /// When it was made, in milliseconds.
    pub time: u64,
    /// Its round lasts 2^exponent milliseconds.
    pub exponent: u32,
    /// When its round begins, in milliseconds.
    pub round: u64,
    /// The validator that leads its round.
    pub leader: u32,
    /// The value that makes it a block.
    pub value: Option<Vec<u8>>,
    /// What it says of each validator.
    pub panorama: Vec<Observation>,
    /// How many endorsed units it names.
    pub endorsed: u32,
    /// What became of it.
    pub state: UnitState,
}

impl Unit {
    pub(crate) fn of_sys(said: sys::Facts) -> Unit {
        let sys::Facts { facts, list, value } = said;
        let is_block = facts.is_block == 1;
        let state = match facts.place {
            1 => UnitState::Settled {
                vote: Digest(facts.vote),
                parent: (facts.has_parent == 1).then_some(Digest(facts.parent)),
                height: is_block.then_some(facts.height),
            },
            2 => UnitState::Parked,
            3 => UnitState::Dropped,
            _ => UnitState::Unknown,
        };
        Unit {
            digest: Digest(facts.digest),
            creator: facts.creator,
            seq: facts.seq,
            time: facts.time,
            exponent: facts.exponent,
            round: facts.round,
            leader: facts.leader,
            value: is_block.then_some(value),
            panorama: list.iter().map(Observation::of_sys).collect(),
            endorsed: facts.endorsed,
            state,
        }
    }
}

/// The vertex of a validator's endorsement of a unit, as bytes. The validator signs the unit's digest, by a scheme of
/// the host's own that tells an endorsement from a unit.
///
/// # Errors
///
/// [`Error::OutOfMemory`] alone.
///
/// ```
/// use highway::{Digest, Signatures, endorsement};
///
/// let vertex = endorsement(3, Digest([1; 32]), &[7; 32])?;
/// assert!(matches!(Signatures::of(&vertex)?, Signatures::Endorsement(one) if one.validator == 3));
/// # Ok::<(), highway::Error>(())
/// ```
pub fn endorsement(endorser: u32, unit: Digest, signature: &[u8; 32]) -> Result<Vec<u8>, Error> {
    sys::endorsement(endorser, &unit.0, signature)
}
