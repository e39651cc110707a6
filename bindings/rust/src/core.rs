//! A node.

use crate::{Certificate, Digest, Due, Error, Need, Plan, Rule, Unit, Verdict, sys};
use std::fmt;
use std::iter::FusedIterator;
use std::ops::Range;

/// A node of one instance: what it received, and all that follows from it.
///
/// It may go to another thread. Two threads never use it at once: each call takes the node out of its place and puts
/// it back.
///
/// ```
/// fn goes_to_another_thread<T: Send>() {}
/// goes_to_another_thread::<highway::Core>();
/// ```
///
/// ```compile_fail
/// fn is_used_by_two<T: Sync>() {}
/// is_used_by_two::<highway::Core>();
/// ```
pub struct Core {
    handle: sys::Handle,
}

/// A vertex among other bytes, as those of a log, and the verdict on its signatures.
///
/// ```
/// # use highway::{Core, Error, Leaders, Receipt, Sent, Settings};
/// # let leaders = Leaders::Table(vec![0]);
/// # let settings = Settings { leaders, min_exponent: 2, ..Settings::of_weights(vec![1]) };
/// # let mut core = Core::new(&settings.to_bytes()?)?;
/// let vertex = core.next_unit(0, 0, b"a block")?.expect("validator 0 leads").signed(&[7; 32])?;
/// let message = [b"header".as_slice(), &vertex].concat();
/// let sent = Sent { part: 6..message.len(), verdict: true };
/// assert_eq!(core.deliver_all(&message, &[sent]), [Ok(Receipt::Admitted { settled: 1 })]);
/// # Ok::<(), Error>(())
/// ```
#[derive(Clone, Debug, PartialEq, Eq)]
pub struct Sent {
    /// Where it stands in the bytes.
    pub part: Range<usize>,
    /// Whether its signatures are right.
    pub verdict: bool,
}

impl Sent {
    /// What the library is told. A range that ends before it begins has more bytes than there are.
    fn told(&self) -> sys::Sent {
        let (start, end) = (self.part.start as u64, self.part.end as u64);
        sys::Sent { start, length: end.wrapping_sub(start), verdict: self.verdict.into() }
    }
}

/// What became of a vertex that was accepted.
///
/// ```
/// # use highway::{Core, Error, Leaders, Receipt, Settings};
/// # let leaders = Leaders::Table(vec![0]);
/// # let settings = Settings { leaders, min_exponent: 2, ..Settings::of_weights(vec![1]) };
/// # let mut core = Core::new(&settings.to_bytes()?)?;
/// let vertex = core.next_unit(0, 0, b"a block")?.expect("validator 0 leads").signed(&[7; 32])?;
/// assert_eq!(core.deliver(&vertex, true)?, Receipt::Admitted { settled: 1 });
/// assert_eq!(core.deliver(&vertex, true)?, Receipt::Repeat);
/// # Ok::<(), Error>(())
/// ```
#[derive(Clone, Copy, Debug, PartialEq, Eq)]
pub enum Receipt {
    /// It went last in the journal.
    Admitted {
        /// So many units settled.
        settled: u32,
    },
    /// It went last in the journal, and waits.
    Parked {
        /// For so many needs.
        missing: u32,
    },
    /// It went last in the journal, and breaks this rule of the units below it.
    Dropped(Rule),
    /// The journal had it already, and nothing changed.
    Repeat,
}

/// Why a vertex was refused: the error, and whether the peer that sent it may be blamed.
///
/// ```
/// # use highway::{Core, Error, Leaders, Settings};
/// # let leaders = Leaders::Table(vec![0]);
/// # let settings = Settings { leaders, min_exponent: 2, ..Settings::of_weights(vec![1]) };
/// # let mut core = Core::new(&settings.to_bytes()?)?;
/// let vertex = core.next_unit(0, 0, b"a block")?.expect("validator 0 leads").signed(&[7; 32])?;
/// let refusal = core.deliver(&vertex, false).unwrap_err();
/// assert_eq!(refusal.error, Error::BadSignature);
/// assert_eq!(refusal.to_string(), "refused: bad signature");
/// # Ok::<(), Error>(())
/// ```
#[derive(Clone, Copy, Debug, PartialEq, Eq)]
pub struct Refusal {
    /// Why.
    pub error: Error,
}

impl Refusal {
    /// Whether no honest peer sends such a vertex. What the node hasn't room or memory for is nobody's fault, and a
    /// part that lies outside the bytes is the caller's.
    ///
    /// ```
    /// use highway::{Error, Refusal};
    ///
    /// assert!(Refusal { error: Error::BadSignature }.is_fault_of_sender());
    /// assert!(!Refusal { error: Error::RecordsFull }.is_fault_of_sender());
    /// ```
    pub fn is_fault_of_sender(&self) -> bool {
        !matches!(self.error, Error::OutOfMemory | Error::RecordsFull | Error::ParkFull | Error::OutOfRange)
    }
}

impl fmt::Display for Refusal {
    fn fmt(&self, f: &mut fmt::Formatter<'_>) -> fmt::Result {
        write!(f, "refused: {}", self.error)
    }
}

impl std::error::Error for Refusal {
    fn source(&self) -> Option<&(dyn std::error::Error + 'static)> {
        Some(&self.error)
    }
}

impl From<Refusal> for Error {
    fn from(refusal: Refusal) -> Error {
        refusal.error
    }
}

/// A final block.
///
/// ```
/// # use highway::{Core, Error, Leaders, Settings};
/// # let leaders = Leaders::Table(vec![0]);
/// # let settings = Settings { leaders, min_exponent: 2, ..Settings::of_weights(vec![1]) };
/// # let mut core = Core::new(&settings.to_bytes()?)?;
/// # for now in 0..32 {
/// #     let Some(plan) = core.next_unit(0, now, b"a block")? else { continue };
/// #     core.deliver(&plan.signed(&[0; 32])?, true)?;
/// # }
/// let decision = core.decision(0).expect("a final block");
/// assert_eq!((decision.height, decision.level, decision.quorum), (0, 1, 1));
/// # Ok::<(), Error>(())
/// ```
#[derive(Clone, Copy, Debug, PartialEq, Eq)]
pub struct Decision {
    /// Its digest.
    pub block: Digest,
    /// How many blocks lead from it to the root.
    pub height: u64,
    /// The least level that had a summit at that moment.
    pub level: u32,
    /// The weight that a committee of that level needs.
    pub quorum: u64,
    /// How long the journal was then.
    pub at: u64,
}

/// How much a node has of what.
///
/// ```
/// # use highway::{Core, Error, Leaders, Settings};
/// # let leaders = Leaders::Table(vec![0]);
/// # let settings = Settings { leaders, min_exponent: 2, ..Settings::of_weights(vec![1]) };
/// # let mut core = Core::new(&settings.to_bytes()?)?;
/// # for now in 0..32 {
/// #     let Some(plan) = core.next_unit(0, now, b"a block")? else { continue };
/// #     core.deliver(&plan.signed(&[0; 32])?, true)?;
/// # }
/// let summary = core.summary()?;
/// assert_eq!(summary.journal, u64::from(summary.settled + summary.parked + summary.dropped));
/// assert!(!summary.is_exceeded && summary.faulty_weight == 0);
/// # Ok::<(), Error>(())
/// ```
#[derive(Clone, Copy, Debug, PartialEq, Eq)]
pub struct Summary {
    /// The vertices of its journal.
    pub journal: u64,
    /// The units that are settled.
    pub settled: u32,
    /// The units that wait.
    pub parked: u32,
    /// The units that break a rule of the units below them.
    pub dropped: u32,
    /// The final blocks.
    pub decided: u64,
    /// What the faulty validators weigh.
    pub faulty_weight: u64,
    /// Whether that exceeds the fault tolerance, so that nothing is promised of final blocks any more.
    pub is_exceeded: bool,
    /// The fork choice: `None` exactly where the node observes no unit.
    pub fork: Option<Digest>,
}

/// What a node observes of a validator.
///
/// ```
/// # use highway::{Core, Error, Leaders, Observation, Settings};
/// # let leaders = Leaders::Table(vec![0]);
/// # let settings = Settings { leaders, min_exponent: 2, ..Settings::of_weights(vec![1]) };
/// # let mut core = Core::new(&settings.to_bytes()?)?;
/// # for now in 0..32 {
/// #     let Some(plan) = core.next_unit(0, now, b"a block")? else { continue };
/// #     core.deliver(&plan.signed(&[0; 32])?, true)?;
/// # }
/// assert!(matches!(core.observation(0)?, Observation::Correct(_)));
/// # Ok::<(), Error>(())
/// ```
#[derive(Clone, Copy, Debug, PartialEq, Eq)]
pub enum Observation {
    /// No unit of it is known.
    Absent,
    /// This is its latest unit.
    Correct(Digest),
    /// It equivocated.
    Faulty,
}

/// What became of a unit.
///
/// ```
/// # use highway::{Core, Error, Leaders, Place, Settings};
/// # let leaders = Leaders::Table(vec![0]);
/// # let settings = Settings { leaders, min_exponent: 2, ..Settings::of_weights(vec![1]) };
/// # let mut core = Core::new(&settings.to_bytes()?)?;
/// # for now in 0..32 {
/// #     let Some(plan) = core.next_unit(0, now, b"a block")? else { continue };
/// #     core.deliver(&plan.signed(&[0; 32])?, true)?;
/// # }
/// let block = core.decision(0).expect("a final block").block;
/// assert!(matches!(core.place(block)?, Place::Settled(_)));
/// # Ok::<(), Error>(())
/// ```
#[derive(Clone, Copy, Debug, PartialEq, Eq)]
pub enum Place {
    /// The journal has no such unit.
    Unknown,
    /// It is settled, under this number.
    Settled(u32),
    /// It waits for so many needs.
    Parked(u32),
    /// It breaks this rule of the units below it.
    Dropped(Rule),
}

/// The journal of a node, entry by entry, as bytes: with its verdicts this is what a host keeps.
///
/// ```
/// # use highway::{Core, Error, Leaders, Settings};
/// # let leaders = Leaders::Table(vec![0]);
/// # let settings = Settings { leaders, min_exponent: 2, ..Settings::of_weights(vec![1]) };
/// # let mut core = Core::new(&settings.to_bytes()?)?;
/// # for now in 0..32 {
/// #     let Some(plan) = core.next_unit(0, now, b"a block")? else { continue };
/// #     core.deliver(&plan.signed(&[0; 32])?, true)?;
/// # }
/// let stored: Vec<Vec<u8>> = core.journal_from(0).collect::<Result<_, _>>()?;
/// let mut again = Core::new(&settings.to_bytes()?)?;
/// for vertex in &stored {
///     again.deliver(vertex, true)?;
/// }
/// assert_eq!(again.summary(), core.summary());
/// # Ok::<(), Error>(())
/// ```
#[derive(Debug)]
pub struct Journal<'a> {
    core: &'a Core,
    place: u64,
    end: u64,
}

impl Iterator for Journal<'_> {
    type Item = Result<Vec<u8>, Error>;

    fn next(&mut self) -> Option<Self::Item> {
        if self.place >= self.end {
            return None;
        }
        self.place += 1;
        Some(self.core.handle.journal(self.place - 1))
    }
}

impl FusedIterator for Journal<'_> {}

/// The final blocks of a node, by moment and then by height.
///
/// ```
/// # use highway::{Core, Error, Leaders, Settings};
/// # let leaders = Leaders::Table(vec![0]);
/// # let settings = Settings { leaders, min_exponent: 2, ..Settings::of_weights(vec![1]) };
/// # let mut core = Core::new(&settings.to_bytes()?)?;
/// # for now in 0..32 {
/// #     let Some(plan) = core.next_unit(0, now, b"a block")? else { continue };
/// #     core.deliver(&plan.signed(&[0; 32])?, true)?;
/// # }
/// let heights: Vec<u64> = core.decisions_from(0).map(|decision| decision.height).collect();
/// assert!(heights.len() > 1);
/// assert!(heights.iter().copied().eq(0..heights.len() as u64));
/// # Ok::<(), Error>(())
/// ```
#[derive(Debug)]
pub struct Decisions<'a> {
    core: &'a Core,
    index: u64,
}

impl Iterator for Decisions<'_> {
    type Item = Decision;

    fn next(&mut self) -> Option<Decision> {
        let decision = self.core.decision(self.index)?;
        self.index += 1;
        Some(decision)
    }
}

impl FusedIterator for Decisions<'_> {}

impl Observation {
    pub(crate) fn of_sys(observed: &sys::Observed) -> Observation {
        match observed.kind {
            0 => Observation::Absent,
            1 => Observation::Correct(Digest(observed.unit)),
            _ => Observation::Faulty,
        }
    }
}

fn receipt_of(answer: &sys::Answer) -> Receipt {
    match answer.kind {
        0 => Receipt::Admitted { settled: answer.count },
        1 => Receipt::Parked { missing: answer.count },
        2 => Receipt::Dropped(Rule::of(answer.count)),
        _ => Receipt::Repeat,
    }
}

fn outcome_of(delivered: &sys::Delivered) -> Result<Receipt, Refusal> {
    match Error::check(delivered.status, &delivered.answer) {
        Ok(()) => Ok(receipt_of(&delivered.answer)),
        Err(error) => Err(Refusal { error }),
    }
}

impl Core {
    /// A node that has received nothing, of the configuration that the bytes spell.
    ///
    /// # Errors
    ///
    /// [`Error::Bytes`] where they spell none, and [`Error::Config`] where it breaks a limit.
    ///
    /// ```
    /// use highway::{BytesFault, Core, Error, Settings};
    ///
    /// let core = Core::new(&Settings::of_weights(vec![1]).to_bytes()?)?;
    /// assert_eq!(core.summary()?.journal, 0);
    /// let none = Core::new(b"").unwrap_err();
    /// assert_eq!(none, Error::Bytes { fault: BytesFault::Truncated, at: 0 });
    /// # Ok::<(), Error>(())
    /// ```
    pub fn new(config: &[u8]) -> Result<Core, Error> {
        Ok(Core { handle: sys::Handle::new(config)? })
    }

    /// Takes the vertex that the bytes spell, with the verdict on its signatures. Where there are several,
    /// [`Core::deliver_all`] costs less.
    ///
    /// # Errors
    ///
    /// A refusal changes nothing. [`Refusal::is_fault_of_sender`] says whether a peer may be blamed.
    ///
    /// ```
    /// # use highway::{Core, Error, Settings};
    /// # let mut core = Core::new(&Settings::of_weights(vec![1]).to_bytes()?)?;
    /// let refusal = core.deliver(b"no vertex", true).unwrap_err();
    /// assert!(refusal.is_fault_of_sender());
    /// assert_eq!(refusal.to_string(), "refused: bad bytes: bad tag at 0");
    /// # Ok::<(), Error>(())
    /// ```
    pub fn deliver(&mut self, vertex: &[u8], verdict: bool) -> Result<Receipt, Refusal> {
        let mut delivered = [sys::Delivered::default()];
        self.handle.deliver(vertex, &[Sent { part: 0..vertex.len(), verdict }.told()], &mut delivered);
        outcome_of(&delivered[0])
    }

    /// Takes vertices that stand in the bytes, one after the other, and answers each as [`Core::deliver`] does. What
    /// lies between them doesn't count.
    ///
    /// The units among them are hashed four side by side, so a host that has several does well to hand them over in one
    /// call: those of its own log at a start, or of a message from a peer.
    ///
    /// # Errors
    ///
    /// A vertex that is refused changes nothing, and those behind it are taken. A part that doesn't lie in the bytes is
    /// refused with [`Error::OutOfRange`].
    ///
    /// ```
    /// # use highway::{Core, Error, Leaders, Receipt, Sent, Settings};
    /// # let leaders = Leaders::Table(vec![0]);
    /// # let settings = Settings { leaders, min_exponent: 2, ..Settings::of_weights(vec![1]) };
    /// # let mut core = Core::new(&settings.to_bytes()?)?;
    /// # for now in 0..32 {
    /// #     let Some(plan) = core.next_unit(0, now, b"a block")? else { continue };
    /// #     core.deliver(&plan.signed(&[0; 32])?, true)?;
    /// # }
    /// let (mut stored, mut vertices) = (Vec::new(), Vec::new());
    /// for vertex in core.journal_from(0) {
    ///     let start = stored.len();
    ///     stored.extend(vertex?);
    ///     vertices.push(Sent { part: start..stored.len(), verdict: true });
    /// }
    /// let mut again = Core::new(&settings.to_bytes()?)?;
    /// let answers = again.deliver_all(&stored, &vertices);
    /// assert!(answers.iter().all(|answer| *answer == Ok(Receipt::Admitted { settled: 1 })));
    /// assert_eq!(again.summary(), core.summary());
    ///
    /// let outside = Sent { part: 0..stored.len() + 1, verdict: true };
    /// assert_eq!(again.deliver_all(&stored, &[outside])[0].unwrap_err().error, Error::OutOfRange);
    /// # Ok::<(), Error>(())
    /// ```
    pub fn deliver_all(&mut self, bytes: &[u8], vertices: &[Sent]) -> Vec<Result<Receipt, Refusal>> {
        let told: Vec<sys::Sent> = vertices.iter().map(Sent::told).collect();
        let mut delivered = vec![sys::Delivered::default(); told.len()];
        self.handle.deliver(bytes, &told, &mut delivered);
        delivered.iter().map(outcome_of).collect()
    }

    /// How much the node has of what, what its faulty validators weigh, and its fork choice.
    ///
    /// # Errors
    ///
    /// None is known; the library's answer is handed on.
    ///
    /// ```
    /// # use highway::{Core, Error, Leaders, Settings};
    /// # let leaders = Leaders::Table(vec![0]);
    /// # let settings = Settings { leaders, min_exponent: 2, ..Settings::of_weights(vec![1]) };
    /// # let mut core = Core::new(&settings.to_bytes()?)?;
    /// let summary = core.summary()?;
    /// assert_eq!((summary.journal, summary.decided, summary.fork), (0, 0, None));
    /// # Ok::<(), Error>(())
    /// ```
    pub fn summary(&self) -> Result<Summary, Error> {
        let summary = self.handle.summary()?;
        Ok(Summary {
            journal: summary.journal,
            settled: summary.settled,
            parked: summary.parked,
            dropped: summary.dropped,
            decided: summary.decided,
            faulty_weight: summary.faulty_weight,
            is_exceeded: summary.exceeded == 1,
            fork: (summary.has_fork == 1).then_some(Digest(summary.fork)),
        })
    }

    /// The fork choice: `None` exactly where the node observes no unit.
    ///
    /// # Errors
    ///
    /// As [`Core::summary`].
    ///
    /// ```
    /// # use highway::{Core, Error, Leaders, Settings};
    /// # let leaders = Leaders::Table(vec![0]);
    /// # let settings = Settings { leaders, min_exponent: 2, ..Settings::of_weights(vec![1]) };
    /// # let mut core = Core::new(&settings.to_bytes()?)?;
    /// assert_eq!(core.fork()?, None);
    /// let plan = core.next_unit(0, 0, b"a block")?.expect("validator 0 leads");
    /// core.deliver(&plan.signed(&[7; 32])?, true)?;
    /// assert_eq!(core.fork()?, Some(plan.digest()));
    /// # Ok::<(), Error>(())
    /// ```
    pub fn fork(&self) -> Result<Option<Digest>, Error> {
        Ok(self.summary()?.fork)
    }

    /// The entry of that place of the journal, as bytes.
    ///
    /// # Errors
    ///
    /// [`Error::Nothing`] where the journal has none there.
    ///
    /// ```
    /// # use highway::{Core, Error, Leaders, Settings};
    /// # let leaders = Leaders::Table(vec![0]);
    /// # let settings = Settings { leaders, min_exponent: 2, ..Settings::of_weights(vec![1]) };
    /// # let mut core = Core::new(&settings.to_bytes()?)?;
    /// let vertex = core.next_unit(0, 0, b"a block")?.expect("validator 0 leads").signed(&[7; 32])?;
    /// core.deliver(&vertex, true)?;
    /// assert_eq!(core.entry(0)?, vertex);
    /// assert_eq!(core.entry(1), Err(Error::Nothing));
    /// # Ok::<(), Error>(())
    /// ```
    pub fn entry(&self, place: u64) -> Result<Vec<u8>, Error> {
        self.handle.journal(place)
    }

    /// The entries of the journal, from that place on.
    ///
    /// ```
    /// # use highway::{Core, Error, Leaders, Settings};
    /// # let leaders = Leaders::Table(vec![0]);
    /// # let settings = Settings { leaders, min_exponent: 2, ..Settings::of_weights(vec![1]) };
    /// # let mut core = Core::new(&settings.to_bytes()?)?;
    /// # for now in 0..32 {
    /// #     let Some(plan) = core.next_unit(0, now, b"a block")? else { continue };
    /// #     core.deliver(&plan.signed(&[0; 32])?, true)?;
    /// # }
    /// let new = core.journal_from(2);
    /// assert_eq!(new.count() as u64, core.summary()?.journal - 2);
    /// # Ok::<(), Error>(())
    /// ```
    pub fn journal_from(&self, place: u64) -> Journal<'_> {
        let end = self.handle.summary().map_or(0, |summary| summary.journal);
        Journal { core: self, place, end }
    }

    /// What the node observes of the validator.
    ///
    /// # Errors
    ///
    /// [`Error::OutOfRange`] where there is no such validator.
    ///
    /// ```
    /// # use highway::{Core, Error, Leaders, Observation, Settings};
    /// # let leaders = Leaders::Table(vec![0]);
    /// # let settings = Settings { leaders, min_exponent: 2, ..Settings::of_weights(vec![1]) };
    /// # let mut core = Core::new(&settings.to_bytes()?)?;
    /// assert_eq!(core.observation(0)?, Observation::Absent);
    /// assert_eq!(core.observation(1), Err(Error::OutOfRange));
    /// # Ok::<(), Error>(())
    /// ```
    pub fn observation(&self, validator: u32) -> Result<Observation, Error> {
        Ok(Observation::of_sys(&self.handle.observation(validator)?))
    }

    /// The faulty validators in rising order: against whom there is evidence, or two settled units of one number. A
    /// host that compares this with what it had before sees who became faulty; it asks for the proof by
    /// [`Core::for_need`] with [`Need::Evidence`], and passes that on.
    ///
    /// # Errors
    ///
    /// As [`Core::summary`].
    ///
    /// ```
    /// # use highway::{Core, Error, Leaders, Need, Settings};
    /// # let leaders = Leaders::Table(vec![0]);
    /// # let settings = Settings { leaders, min_exponent: 2, ..Settings::of_weights(vec![1]) };
    /// # let mut core = Core::new(&settings.to_bytes()?)?;
    /// let one = core.next_unit(0, 0, b"a block")?.expect("validator 0 leads").signed(&[7; 32])?;
    /// let two = core.next_unit(0, 0, b"another")?.expect("validator 0 leads").signed(&[7; 32])?;
    /// core.deliver(&one, true)?;
    /// assert!(core.faulty()?.is_empty());
    /// core.deliver(&two, true)?;
    /// assert_eq!(core.faulty()?, [0]);
    /// assert_eq!(core.for_need(Need::Evidence(0))?.len(), 1);
    /// # Ok::<(), Error>(())
    /// ```
    pub fn faulty(&self) -> Result<Vec<u32>, Error> {
        self.handle.faulty()
    }

    /// What the journal's unit of this digest is, where the journal has it: settled, parked or dropped.
    ///
    /// # Errors
    ///
    /// [`Error::OutOfMemory`] alone.
    ///
    /// ```
    /// # use highway::{Core, Digest, Error, Leaders, Settings};
    /// # let leaders = Leaders::Table(vec![0]);
    /// # let settings = Settings { leaders, min_exponent: 2, ..Settings::of_weights(vec![1]) };
    /// # let mut core = Core::new(&settings.to_bytes()?)?;
    /// # for now in 0..32 {
    /// #     let Some(plan) = core.next_unit(0, now, b"a block")? else { continue };
    /// #     core.deliver(&plan.signed(&[0; 32])?, true)?;
    /// # }
    /// let decision = core.decision(0).expect("a final block");
    /// let block = core.unit(decision.block)?.expect("it is settled");
    /// assert_eq!(block.value, Some(b"a block".to_vec()));
    /// assert_eq!(core.unit(Digest([0; 32]))?, None);
    /// # Ok::<(), Error>(())
    /// ```
    pub fn unit(&self, unit: Digest) -> Result<Option<Unit>, Error> {
        match self.handle.unit(&unit.0) {
            Ok(said) => Ok(Some(Unit::of_sys(said))),
            Err(Error::Nothing) => Ok(None),
            Err(error) => Err(error),
        }
    }

    /// What the unit of the vertex that the bytes spell says, whether or not the node has it: None where the vertex is
    /// an evidence or an endorsement. Its round and leader are those in this node's configuration.
    ///
    /// # Errors
    ///
    /// [`Error::Bytes`] where they spell no vertex.
    ///
    /// ```
    /// # use highway::{Core, Error, Leaders, Settings};
    /// # let leaders = Leaders::Table(vec![0]);
    /// # let settings = Settings { leaders, min_exponent: 2, ..Settings::of_weights(vec![1]) };
    /// # let core = Core::new(&settings.to_bytes()?)?;
    /// let vertex = core.next_unit(0, 0, b"a block")?.expect("validator 0 leads").signed(&[7; 32])?;
    /// let unit = core.read_unit(&vertex)?.expect("a unit");
    /// assert_eq!(unit.value.as_deref(), Some(b"a block".as_slice()));
    /// assert!(core.read_unit(b"junk").is_err());
    /// # Ok::<(), Error>(())
    /// ```
    pub fn read_unit(&self, vertex: &[u8]) -> Result<Option<Unit>, Error> {
        match self.handle.spelled_unit(vertex) {
            Ok(said) => Ok(Some(Unit::of_sys(said))),
            Err(Error::Nothing) => Ok(None),
            Err(error) => Err(error),
        }
    }

    /// What became of the unit of this digest.
    ///
    /// # Errors
    ///
    /// As [`Core::summary`].
    ///
    /// ```
    /// # use highway::{Core, Digest, Error, Leaders, Place, Settings};
    /// # let leaders = Leaders::Table(vec![0]);
    /// # let settings = Settings { leaders, min_exponent: 2, ..Settings::of_weights(vec![1]) };
    /// # let mut core = Core::new(&settings.to_bytes()?)?;
    /// assert_eq!(core.place(Digest([0; 32]))?, Place::Unknown);
    /// # Ok::<(), Error>(())
    /// ```
    pub fn place(&self, unit: Digest) -> Result<Place, Error> {
        let placed = self.handle.place(&unit.0)?;
        Ok(match placed.kind {
            0 => Place::Unknown,
            1 => Place::Settled(placed.number),
            2 => Place::Parked(placed.number),
            _ => Place::Dropped(Rule::of(placed.number)),
        })
    }

    /// The final block of that place, where there are so many.
    ///
    /// ```
    /// # use highway::{Core, Error, Leaders, Settings};
    /// # let leaders = Leaders::Table(vec![0]);
    /// # let settings = Settings { leaders, min_exponent: 2, ..Settings::of_weights(vec![1]) };
    /// # let mut core = Core::new(&settings.to_bytes()?)?;
    /// # for now in 0..32 {
    /// #     let Some(plan) = core.next_unit(0, now, b"a block")? else { continue };
    /// #     core.deliver(&plan.signed(&[0; 32])?, true)?;
    /// # }
    /// let last = core.summary()?.decided - 1;
    /// assert_eq!(core.decision(last).map(|decision| decision.height), Some(last));
    /// assert_eq!(core.decision(last + 1), None);
    /// # Ok::<(), Error>(())
    /// ```
    pub fn decision(&self, index: u64) -> Option<Decision> {
        let decided = self.handle.decision(index).ok()?;
        Some(Decision {
            block: Digest(decided.block),
            height: decided.height,
            level: decided.level,
            quorum: decided.quorum,
            at: decided.at,
        })
    }

    /// The final blocks from that place on.
    ///
    /// ```
    /// # use highway::{Core, Error, Leaders, Settings};
    /// # let leaders = Leaders::Table(vec![0]);
    /// # let settings = Settings { leaders, min_exponent: 2, ..Settings::of_weights(vec![1]) };
    /// # let mut core = Core::new(&settings.to_bytes()?)?;
    /// # for now in 0..32 {
    /// #     let Some(plan) = core.next_unit(0, now, b"a block")? else { continue };
    /// #     core.deliver(&plan.signed(&[0; 32])?, true)?;
    /// # }
    /// let told = 1;
    /// for decision in core.decisions_from(told) {
    ///     println!("final at {}: {}", decision.height, decision.block);
    /// }
    /// assert_eq!(core.decisions_from(told).count() as u64, core.summary()?.decided - told);
    /// # Ok::<(), Error>(())
    /// ```
    pub fn decisions_from(&self, index: u64) -> Decisions<'_> {
        Decisions { core: self, index }
    }

    /// The first needs that parked units miss, at most so many: what to ask peers for. A need stays until it is met, so
    /// also while the unit that it names waits itself. Ask for 64: more costs more, and what is met makes room for others.
    ///
    /// # Errors
    ///
    /// [`Error::OutOfMemory`] alone.
    ///
    /// ```
    /// # use highway::{Core, Error, Leaders, Need, Settings};
    /// # let leaders = Leaders::Table(vec![0]);
    /// # let settings = Settings { leaders, min_exponent: 2, ..Settings::of_weights(vec![1]) };
    /// # let mut core = Core::new(&settings.to_bytes()?)?;
    /// # for now in 0..32 {
    /// #     let Some(plan) = core.next_unit(0, now, b"a block")? else { continue };
    /// #     core.deliver(&plan.signed(&[0; 32])?, true)?;
    /// # }
    /// # let mut late = Core::new(&settings.to_bytes()?)?;
    /// # late.deliver(&core.entry(1)?, true)?;
    /// // The second unit came first, so it waits for the first.
    /// assert!(matches!(late.unmet(256)?.as_slice(), [Need::Unit(_)]));
    /// late.deliver(&core.entry(0)?, true)?;
    /// assert!(late.unmet(256)?.is_empty());
    /// # Ok::<(), Error>(())
    /// ```
    pub fn unmet(&self, most: usize) -> Result<Vec<Need>, Error> {
        Ok(self.handle.unmet(most)?.iter().map(Need::of_sys).collect())
    }

    /// The vertices that this node has for a peer with that need, as bytes. A block's value is asked for so too: by
    /// the need of its unit.
    ///
    /// # Errors
    ///
    /// [`Error::OutOfMemory`] alone.
    ///
    /// ```
    /// # use highway::{Core, Error, Leaders, Settings};
    /// # let leaders = Leaders::Table(vec![0]);
    /// # let settings = Settings { leaders, min_exponent: 2, ..Settings::of_weights(vec![1]) };
    /// # let mut core = Core::new(&settings.to_bytes()?)?;
    /// # for now in 0..32 {
    /// #     let Some(plan) = core.next_unit(0, now, b"a block")? else { continue };
    /// #     core.deliver(&plan.signed(&[0; 32])?, true)?;
    /// # }
    /// # let mut late = Core::new(&settings.to_bytes()?)?;
    /// # late.deliver(&core.entry(1)?, true)?;
    /// for need in late.unmet(256)? {
    ///     for vertex in core.for_need(need)? {
    ///         late.deliver(&vertex, true)?;
    ///     }
    /// }
    /// assert_eq!(late.summary()?.settled, 2);
    /// # Ok::<(), Error>(())
    /// ```
    pub fn for_need(&self, need: Need) -> Result<Vec<Vec<u8>>, Error> {
        let missing = need.to_sys();
        let mut vertices = Vec::new();
        loop {
            match self.handle.for_need(&missing, vertices.len()) {
                Ok(vertex) => vertices.push(vertex),
                Err(Error::Nothing) => return Ok(vertices),
                Err(error) => return Err(error),
            }
        }
    }

    /// What the validator has to make at this moment, in milliseconds, and until when that stays so while nothing is
    /// delivered. It takes no value, so a host works one out only where it has to propose, and knows its parent then.
    ///
    /// # Errors
    ///
    /// [`Error::OutOfRange`] where there is no such validator, or the moment is 2^63 or later.
    ///
    /// ```
    /// # use highway::{Core, Error, Leaders, PlanKind, Settings, Task};
    /// # let leaders = Leaders::Table(vec![0]);
    /// # let settings = Settings { leaders, min_exponent: 2, ..Settings::of_weights(vec![1]) };
    /// # let mut core = Core::new(&settings.to_bytes()?)?;
    /// # let mut now = 0;
    /// // A host that sleeps until something is due, in place of polling.
    /// for _ in 0..8 {
    ///     let due = core.due(0, now)?;
    ///     if let Task::Make(kind) = due.task {
    ///         let value = if kind == PlanKind::Propose { format!("above {:?}", due.parent) } else { String::new() };
    ///         let plan = core.next_unit(0, now, value.as_bytes())?.expect("it is due");
    ///         core.deliver(&plan.signed(&[7; 32])?, true)?;
    ///     }
    ///     now = core.due(0, now)?.next;
    /// }
    /// assert_eq!(core.summary()?.settled, 8);
    /// # Ok::<(), Error>(())
    /// ```
    pub fn due(&self, validator: u32, now: u64) -> Result<Due, Error> {
        Ok(Due::of_sys(&self.handle.due(validator, now)?))
    }

    /// The unit that the validator may make at this moment, in milliseconds, with this value for a proposal. The node
    /// stays as it is: the host signs, keeps the vertex, delivers it, and sends it.
    ///
    /// # Errors
    ///
    /// [`Error::OutOfRange`] where there is no such validator, the moment is 2^63 or later, or the value has more than
    /// 4,096 bytes.
    ///
    /// ```
    /// # use highway::{Core, Error, Leaders, PlanKind, Settings};
    /// # let leaders = Leaders::Table(vec![0]);
    /// # let settings = Settings { leaders, min_exponent: 2, ..Settings::of_weights(vec![1]) };
    /// # let mut core = Core::new(&settings.to_bytes()?)?;
    /// let plan = core.next_unit(0, 0, b"a block")?.expect("validator 0 leads");
    /// assert_eq!(plan.kind(), PlanKind::Propose);
    /// core.deliver(&plan.signed(&[7; 32])?, true)?;
    /// assert_eq!(core.next_unit(0, 0, b"another")?, None);
    /// assert_eq!(core.next_unit(1, 0, b""), Err(Error::OutOfRange));
    /// # Ok::<(), Error>(())
    /// ```
    pub fn next_unit(&self, validator: u32, now: u64, value: &[u8]) -> Result<Option<Plan>, Error> {
        match self.handle.next_unit(validator, now, value) {
            Ok((planned, unit)) => Ok(Some(Plan::of_sys(&planned, unit))),
            Err(Error::Nothing) => Ok(None),
            Err(error) => Err(error),
        }
    }

    /// What this node's journal and another's say of each other, and that as text, which names each culprit.
    ///
    /// # Errors
    ///
    /// [`Error::OtherInstance`] where the two are of different configurations.
    ///
    /// ```
    /// # use highway::{Core, Error, Leaders, Settings, Verdict};
    /// # let leaders = Leaders::Table(vec![0]);
    /// # let settings = Settings { leaders, min_exponent: 2, ..Settings::of_weights(vec![1]) };
    /// # let mut core = Core::new(&settings.to_bytes()?)?;
    /// # for now in 0..32 {
    /// #     let Some(plan) = core.next_unit(0, now, b"a block")? else { continue };
    /// #     core.deliver(&plan.signed(&[0; 32])?, true)?;
    /// # }
    /// let other = Core::new(&settings.to_bytes()?)?;
    /// let (verdict, text) = core.audit(&other)?;
    /// assert_eq!(verdict, Verdict::Agree { common: 0 });
    /// assert_eq!(text, "agree 0\n");
    /// # Ok::<(), Error>(())
    /// ```
    pub fn audit(&self, other: &Core) -> Result<(Verdict, String), Error> {
        if std::ptr::eq(self, other) {
            // One handle is never given twice; and a node is in no conflict with itself.
            let common = self.summary()?.decided;
            return Ok((Verdict::Agree { common }, format!("agree {common}\n")));
        }
        let (audited, text) = self.handle.audit(&other.handle)?;
        Ok((Verdict::of_sys(&audited), String::from_utf8_lossy(&text).into_owned()))
    }

    /// The certificate of the final block of that place: `None` where the block doesn't stand now.
    ///
    /// # Errors
    ///
    /// [`Error::OutOfRange`] where there is no such block, and [`Error::TooLong`] where it would have more vertices
    /// than a journal may have.
    ///
    /// ```
    /// # use highway::{Core, Error, Leaders, Settings};
    /// # let leaders = Leaders::Table(vec![0]);
    /// # let settings = Settings { leaders, min_exponent: 2, ..Settings::of_weights(vec![1]) };
    /// # let mut core = Core::new(&settings.to_bytes()?)?;
    /// # for now in 0..32 {
    /// #     let Some(plan) = core.next_unit(0, now, b"a block")? else { continue };
    /// #     core.deliver(&plan.signed(&[0; 32])?, true)?;
    /// # }
    /// let certificate = core.certificate(0)?.expect("the block stands");
    /// assert!(certificate.as_bytes().starts_with(b"HWCT"));
    /// assert_eq!(core.certificate(1 << 40), Err(Error::OutOfRange));
    /// # Ok::<(), Error>(())
    /// ```
    pub fn certificate(&self, index: u64) -> Result<Option<Certificate>, Error> {
        match self.handle.certificate(index) {
            Ok(bytes) => Ok(Some(Certificate::from_bytes(bytes))),
            Err(Error::Nothing) => Ok(None),
            Err(error) => Err(error),
        }
    }
}

impl fmt::Debug for Core {
    fn fmt(&self, f: &mut fmt::Formatter<'_>) -> fmt::Result {
        f.debug_struct("Core").field("summary", &self.handle.summary()).finish_non_exhaustive()
    }
}
