//! The validator's step.

use crate::{Digest, Error, sys};

/// What a validator's unit is for.
///
/// ```
/// # use highway::{Core, Error, Leaders, PlanKind, Settings};
/// # let leaders = Leaders::Table(vec![0]);
/// # let settings = Settings { leaders, min_exponent: 2, ..Settings::of_weights(vec![1]) };
/// # let mut core = Core::new(&settings.to_bytes()?)?;
/// let plan = core.next_unit(0, 0, b"a block")?.expect("validator 0 leads");
/// assert_eq!(plan.kind(), PlanKind::Propose);
/// # Ok::<(), Error>(())
/// ```
#[derive(Clone, Copy, Debug, PartialEq, Eq)]
pub enum PlanKind {
    /// The leader's block.
    Propose,
    /// Another validator's answer to it.
    Confirm,
    /// What a validator saw of the round.
    Witness,
}

/// Why a validator has nothing to make.
///
/// ```
/// # use highway::{Core, Error, Leaders, Settings, Task, Wait};
/// # let leaders = Leaders::Table(vec![0, 1]);
/// # let settings = Settings { leaders, min_exponent: 2, ..Settings::of_weights(vec![1, 1]) };
/// # let core = Core::new(&settings.to_bytes()?)?;
/// assert_eq!(core.due(1, 0)?.task, Task::Nothing(Wait::LeadersBlock));
/// # Ok::<(), Error>(())
/// ```
#[derive(Clone, Copy, Debug, PartialEq, Eq)]
pub enum Wait {
    /// It is faulty, and never makes a unit again.
    Faulty,
    /// Its last unit allows none now: it is in this part of the round, or later than the moment.
    OwnUnit,
    /// The last block of the instance is reached.
    EndReached,
    /// The leader's block isn't there.
    LeadersBlock,
    /// There is nothing to cite.
    Anything,
}

/// What a validator has to do.
///
/// ```
/// # use highway::{Core, Error, Leaders, PlanKind, Settings, Task};
/// # let leaders = Leaders::Table(vec![0]);
/// # let settings = Settings { leaders, min_exponent: 2, ..Settings::of_weights(vec![1]) };
/// # let core = Core::new(&settings.to_bytes()?)?;
/// assert_eq!(core.due(0, 0)?.task, Task::Make(PlanKind::Propose));
/// # Ok::<(), Error>(())
/// ```
#[derive(Clone, Copy, Debug, PartialEq, Eq)]
pub enum Task {
    /// To make a unit for this.
    Make(PlanKind),
    /// Nothing, for this reason.
    Nothing(Wait),
}

/// What a validator has to do at a moment, and until when that stays so.
///
/// ```
/// # use highway::{Core, Error, Leaders, PlanKind, Settings, Task, Wait};
/// # let leaders = Leaders::Table(vec![0]);
/// # let settings = Settings { leaders, min_exponent: 2, ..Settings::of_weights(vec![1]) };
/// # let mut core = Core::new(&settings.to_bytes()?)?;
/// let due = core.due(0, 1)?;
/// assert_eq!((due.task, due.round, due.leader, due.parent), (Task::Make(PlanKind::Propose), 0, 0, None));
/// let plan = core.next_unit(0, 1, b"a block")?.expect("it is due");
/// core.deliver(&plan.signed(&[7; 32])?, true)?;
/// // Nothing more is due in this part of the round; its witness time is two thirds of 4 milliseconds.
/// let due = core.due(0, 1)?;
/// assert_eq!((due.task, due.next), (Task::Nothing(Wait::OwnUnit), 2));
/// assert_eq!(core.due(0, due.next)?.task, Task::Make(PlanKind::Witness));
/// # Ok::<(), Error>(())
/// ```
#[derive(Clone, Copy, Debug, PartialEq, Eq)]
pub struct Due {
    /// What it has to do.
    pub task: Task,
    /// When the round of the moment begins, in milliseconds.
    pub round: u64,
    /// Who leads that round.
    pub leader: u32,
    /// The block that a proposal would stand on, where one is due. None for a block at the root.
    pub parent: Option<Digest>,
    /// Until this moment nothing else becomes due while nothing is delivered, in milliseconds: the time for a timer.
    pub next: u64,
}

impl Due {
    pub(crate) fn of_sys(due: &sys::Due) -> Due {
        let task = match (due.kind, due.why) {
            (0, _) => Task::Make(PlanKind::Propose),
            (1, _) => Task::Make(PlanKind::Confirm),
            (2, _) => Task::Make(PlanKind::Witness),
            (_, 1) => Task::Nothing(Wait::Faulty),
            (_, 2) => Task::Nothing(Wait::OwnUnit),
            (_, 3) => Task::Nothing(Wait::EndReached),
            (_, 4) => Task::Nothing(Wait::LeadersBlock),
            _ => Task::Nothing(Wait::Anything),
        };
        let parent = (due.has_parent == 1).then_some(Digest(due.parent));
        Due { task, round: due.round, leader: due.leader, parent, next: due.next }
    }
}

/// A unit that a validator may make now. It signs the digest, keeps the signed vertex, and only then sends it.
///
/// ```
/// # use highway::{Core, Error, Leaders, Settings};
/// # let leaders = Leaders::Table(vec![0]);
/// # let settings = Settings { leaders, min_exponent: 2, ..Settings::of_weights(vec![1]) };
/// # let mut core = Core::new(&settings.to_bytes()?)?;
/// let mut stored = Vec::new();
/// if let Some(plan) = core.next_unit(0, 0, b"a block")? {
///     let vertex = plan.signed(&[7; 32])?;
///     core.deliver(&vertex, true)?;
///     stored.push(vertex);
/// }
/// # Ok::<(), Error>(())
/// ```
#[derive(Clone, Debug, PartialEq, Eq)]
pub struct Plan {
    kind: PlanKind,
    digest: Digest,
    unit: Vec<u8>,
}

impl Plan {
    pub(crate) fn of_sys(planned: &sys::Planned, unit: Vec<u8>) -> Plan {
        let kind = match planned.kind {
            0 => PlanKind::Propose,
            1 => PlanKind::Confirm,
            _ => PlanKind::Witness,
        };
        Plan { kind, digest: Digest(planned.digest), unit }
    }

    /// What the unit is for.
    ///
    /// ```
    /// # use highway::{Core, Error, Leaders, PlanKind, Settings};
    /// # let leaders = Leaders::Table(vec![0]);
    /// # let settings = Settings { leaders, min_exponent: 2, ..Settings::of_weights(vec![1]) };
    /// # let mut core = Core::new(&settings.to_bytes()?)?;
    /// let plan = core.next_unit(0, 0, b"a block")?.expect("validator 0 leads");
    /// assert!(plan.kind() != PlanKind::Witness);
    /// # Ok::<(), Error>(())
    /// ```
    pub fn kind(&self) -> PlanKind {
        self.kind
    }

    /// What its creator signs.
    ///
    /// ```
    /// # use highway::{Core, Error, Leaders, Place, Settings};
    /// # let leaders = Leaders::Table(vec![0]);
    /// # let settings = Settings { leaders, min_exponent: 2, ..Settings::of_weights(vec![1]) };
    /// # let mut core = Core::new(&settings.to_bytes()?)?;
    /// let plan = core.next_unit(0, 0, b"a block")?.expect("validator 0 leads");
    /// assert_eq!(core.place(plan.digest())?, Place::Unknown);
    /// core.deliver(&plan.signed(&[7; 32])?, true)?;
    /// assert_eq!(core.place(plan.digest())?, Place::Settled(0));
    /// # Ok::<(), Error>(())
    /// ```
    pub fn digest(&self) -> Digest {
        self.digest
    }

    /// The unit's bytes, without a signature.
    ///
    /// ```
    /// # use highway::{Core, Error, Leaders, Settings};
    /// # let leaders = Leaders::Table(vec![0]);
    /// # let settings = Settings { leaders, min_exponent: 2, ..Settings::of_weights(vec![1]) };
    /// # let mut core = Core::new(&settings.to_bytes()?)?;
    /// let plan = core.next_unit(0, 0, b"a block")?.expect("validator 0 leads");
    /// let vertex = plan.signed(&[7; 32])?;
    /// assert!(vertex.windows(plan.unit().len()).any(|bytes| bytes == plan.unit()));
    /// # Ok::<(), Error>(())
    /// ```
    pub fn unit(&self) -> &[u8] {
        &self.unit
    }

    /// The vertex of the unit with this signature, as bytes.
    ///
    /// # Errors
    ///
    /// [`Error::OutOfMemory`] alone.
    ///
    /// ```
    /// # use highway::{Core, Error, Leaders, Settings, Signatures};
    /// # let leaders = Leaders::Table(vec![0]);
    /// # let settings = Settings { leaders, min_exponent: 2, ..Settings::of_weights(vec![1]) };
    /// # let mut core = Core::new(&settings.to_bytes()?)?;
    /// let plan = core.next_unit(0, 0, b"a block")?.expect("validator 0 leads");
    /// let vertex = plan.signed(&[7; 32])?;
    /// assert!(Signatures::of(&vertex)?.all(|_is_endorsement, one| one.signature == [7; 32]));
    /// # Ok::<(), Error>(())
    /// ```
    pub fn signed(&self, signature: &[u8; 32]) -> Result<Vec<u8>, Error> {
        sys::with_signature(&self.unit, signature)
    }
}
