//! The core with its store: what comes is judged and delivered, and so is the own unit. All that a turn took and made is
//! one commit, and only then it is acted upon.

use crate::application::Application;
use crate::error::Error;
use crate::genesis::Network;
use crate::keys::Keys;
use crate::lanes::Lanes;
use crate::parcel::Parcel;
use crate::quota::Quota;
use crate::request::{Answer, Latest, Question, Request};
use crate::store::{Store, Stored};
use highway::{
    Core, Decision, Detached, Digest, Need, Place, PlanKind, Receipt, Sent, Signature, Signatures, Summary, Task, Unit,
};
use std::collections::{BTreeSet, HashSet};

/// An answer has no more vertices, and no more bytes.
const MOST_PARCELS: usize = 1024;
const MOST_BYTES: usize = 1 << 20;

/// So many vertices are judged before the next ones are: what the former say of a validator counts for the latter.
const TOGETHER: usize = 64;

/// A unit may be ahead of this node's clock by so many milliseconds.
const EARLY: u64 = 5_000;

/// What became of a vertex that came.
#[derive(Clone, Copy, Debug, PartialEq, Eq)]
pub enum Outcome {
    /// It is stored.
    Taken,
    /// It is stored, and waits for others.
    Parked,
    /// It was here already.
    Repeat,
    /// Nothing that waits needs it, and its validator is known as faulty or has its share; or it is too early.
    Unwanted,
    /// The application refuses its value.
    Invalid,
    /// No honest peer sends it.
    Junk,
    /// There is no room for it.
    NoRoom,
}

/// What came of asking for the own unit.
pub enum Step {
    /// It was made, and is to be sent once it is committed.
    Made(Parcel),
    /// None is due, and none becomes due before this moment while nothing comes in.
    Nothing { until: u64 },
}

pub struct Engine {
    pub me: u32,
    pub core: Core,
    store: Store,
    keys: Keys,
    network: Network,
    signatures: Detached,
    lanes: Lanes,
    quota: Quota,
    faulty: BTreeSet<u32>,
    /// What the core has and the store hasn't: nothing of it may be acted upon.
    pending: Vec<Stored>,
}

impl Engine {
    /// A node that has again what its store holds.
    pub fn start(me: u32, keys: Keys, network: Network, store: Store) -> Result<Engine, Error> {
        let core = Core::new(&network.config)?;
        let validators = network.keys.0.len();
        let (lanes, quota) = (Lanes::new(validators), Quota::new(validators, network.genesis.parked));
        let (signatures, faulty, pending) = (Detached::new(), BTreeSet::new(), Vec::new());
        let mut engine = Engine { me, core, store, keys, network, signatures, lanes, quota, faulty, pending };
        engine.replay()?;
        Ok(engine)
    }

    /// Delivers what is stored, in its order, many at once.
    fn replay(&mut self) -> Result<(), Error> {
        let (all, mut place, mut done) = (self.store.count()?, 0, 0);
        loop {
            let stored = self.store.behind(place, 4096)?;
            let Some((last, _)) = stored.last() else { break };
            place = *last;
            done += stored.len() as u64;
            let mut stored: Vec<Stored> = stored.into_iter().map(|(_, stored)| stored).collect();
            for one in &mut stored {
                if let Signatures::Unit(signed) = Signatures::of(&one.parcel.vertex)? {
                    one.unit = Some(signed.unit);
                }
            }
            self.deliver(&stored)?;
            tracing::info!(done, all, "the store is replayed");
        }
        self.note_faulty()
    }

    /// Delivers vertices, and notes those that the core took. It answers each.
    fn deliver(&mut self, vertices: &[Stored]) -> Result<Vec<Result<Receipt, highway::Refusal>>, Error> {
        let (mut bytes, mut sent) = (Vec::new(), Vec::new());
        for Stored { parcel, verdict, .. } in vertices {
            let start = bytes.len();
            bytes.extend(&parcel.vertex);
            sent.push(Sent { part: start..bytes.len(), verdict: *verdict });
        }
        let mut place = self.core.summary()?.journal;
        let answers = self.core.deliver_all(&bytes, &sent);
        for (stored, answer) in vertices.iter().zip(&answers) {
            if matches!(answer, Ok(receipt) if *receipt != Receipt::Repeat) {
                self.note(stored, place)?;
                place += 1;
            }
        }
        Ok(answers)
    }

    /// Notes a vertex that stands at this place of the journal.
    fn note(&mut self, stored: &Stored, place: u64) -> Result<(), Error> {
        for signature in &stored.parcel.signatures {
            self.signatures.put(signature);
        }
        let Some(unit) = stored.unit else { return Ok(()) };
        if let Some(unit) = self.core.unit(unit)? {
            self.lanes.note(unit.creator, unit.seq, place, unit.digest);
            self.quota.note(unit.creator, unit.digest, self.core.place(unit.digest)?);
        }
        Ok(())
    }

    fn note_faulty(&mut self) -> Result<(), Error> {
        for validator in self.core.faulty()? {
            if self.faulty.insert(validator) {
                tracing::error!(validator, "a validator is faulty");
            }
        }
        Ok(())
    }

    /// Takes what peers sent: judged and delivered, and to be committed. It answers each.
    pub fn take(
        &mut self,
        parcels: Vec<Parcel>,
        wanted: &HashSet<Need>,
        now: u64,
        application: &mut dyn Application,
    ) -> Result<Vec<Outcome>, Error> {
        let (mut outcomes, mut parcels) = (Vec::new(), parcels.into_iter().peekable());
        while parcels.peek().is_some() {
            let some: Vec<Parcel> = parcels.by_ref().take(TOGETHER).collect();
            outcomes.extend(self.take_some(some, wanted, now, application)?);
        }
        Ok(outcomes)
    }

    fn take_some(
        &mut self,
        parcels: Vec<Parcel>,
        wanted: &HashSet<Need>,
        now: u64,
        application: &mut dyn Application,
    ) -> Result<Vec<Outcome>, Error> {
        let (mut outcomes, mut places, mut good) = (Vec::new(), Vec::new(), Vec::new());
        for parcel in parcels {
            let (outcome, unit) = self.screen(&parcel, wanted, now, application)?;
            if outcome == Outcome::Taken {
                places.push(outcomes.len());
                good.push(Stored { parcel, verdict: true, unit });
            }
            outcomes.push(outcome);
        }
        let answers = self.deliver(&good)?;
        for ((place, stored), answer) in places.into_iter().zip(good).zip(answers) {
            if matches!(answer, Ok(receipt) if receipt != Receipt::Repeat) {
                self.pending.push(stored);
            }
            outcomes[place] = outcome_of(answer);
        }
        self.note_faulty()?;
        Ok(outcomes)
    }

    /// Commits all that was delivered since the last time: it is on the disk when this returns. It answers the units, or
    /// None where there was nothing.
    pub fn commit(&mut self) -> Result<Option<Vec<Unit>>, Error> {
        if self.pending.is_empty() {
            return Ok(None);
        }
        self.store.put(&self.pending)?;
        let mut units = Vec::new();
        for stored in std::mem::take(&mut self.pending) {
            if let Some(unit) = stored.unit {
                units.extend(self.core.unit(unit)?);
            }
        }
        Ok(Some(units))
    }

    /// What is said of a vertex before the core sees it: taken, if the core may; and which unit it is, if it is one.
    fn screen(
        &mut self,
        parcel: &Parcel,
        wanted: &HashSet<Need>,
        now: u64,
        application: &mut dyn Application,
    ) -> Result<(Outcome, Option<Digest>), Error> {
        if self.signature_of(&parcel.vertex).is_some() {
            return Ok((Outcome::Repeat, None));
        }
        let Some((signed, unit)) = self.read(&parcel.vertex) else { return Ok((Outcome::Junk, None)) };
        let name = unit.as_ref().map(|unit| unit.digest);
        if let Some(outcome) = self.is_passed_over(&signed, wanted)? {
            return Ok((outcome, name));
        }
        if !parcel.is_right(&self.network.keys, &signed) {
            return Ok((Outcome::Junk, name));
        }
        let outcome = match unit {
            Some(unit) if unit.time < self.network.genesis.begin() => Outcome::Junk,
            Some(unit) if unit.time > now.saturating_add(EARLY) => Outcome::Unwanted,
            Some(Unit { creator, value: Some(value), .. }) if !application.is_valid(creator, &value)? => {
                Outcome::Invalid
            }
            _ => Outcome::Taken,
        };
        Ok((outcome, name))
    }

    /// The signature whose slot is the end of this signed unit, where it is here. A signature signs no second unit.
    fn signature_of(&self, vertex: &[u8]) -> Option<&[u8]> {
        let slot = vertex.last_chunk().filter(|_| vertex.first() == Some(&1))?;
        self.signatures.get(slot)
    }

    /// Who signed what in a vertex, and the unit, where it is one: by one hash of it, which is what costs.
    fn read(&self, vertex: &[u8]) -> Option<(Signatures, Option<Unit>)> {
        match self.core.read_unit(vertex).ok()? {
            Some(unit) => {
                let signed = Signature { validator: unit.creator, unit: unit.digest, signature: *vertex.last_chunk()? };
                Some((Signatures::Unit(signed), Some(unit)))
            }
            None => Some((Signatures::of(vertex).ok()?, None)),
        }
    }

    /// A vertex that is here already, or that one faulty key could make without end and nothing needs.
    fn is_passed_over(&mut self, signed: &Signatures, wanted: &HashSet<Need>) -> Result<Option<Outcome>, Error> {
        let unless = |is_wanted: bool| (!is_wanted).then_some(Outcome::Unwanted);
        Ok(match signed {
            Signatures::Unit(one) if self.core.place(one.unit)? != Place::Unknown => Some(Outcome::Repeat),
            Signatures::Unit(one) if wanted.contains(&Need::Unit(one.unit)) => None,
            Signatures::Unit(one) => {
                // The own ones, which a lost store had, are never passed over: without them this validator would equivocate.
                let is_own = one.validator == self.me;
                let has_room = is_own || self.quota.has_room(one.validator, |unit| self.core.place(unit))?;
                unless(has_room && !self.faulty.contains(&one.validator))
            }
            Signatures::Evidence(one, _) if self.faulty.contains(&one.validator) => Some(Outcome::Repeat),
            Signatures::Evidence(..) => None,
            Signatures::Endorsement(one) => unless(wanted.contains(&Need::Endorsed(one.unit))),
        })
    }

    /// The own unit, where one is due: delivered, and to be committed before it is sent.
    pub fn step(&mut self, now: u64, application: &mut dyn Application) -> Result<Step, Error> {
        let journal = self.core.summary()?.journal;
        let (records, begin) = (self.network.genesis.records, self.network.genesis.begin());
        if journal >= u64::from(records) || now < begin {
            return Ok(Step::Nothing { until: if now < begin { begin } else { u64::MAX } });
        }
        let due = self.core.due(self.me, now)?;
        let value = match due.task {
            Task::Nothing(_) => return Ok(Step::Nothing { until: due.next }),
            Task::Make(PlanKind::Propose) => application.propose(due.round, due.parent)?,
            Task::Make(_) => Vec::new(),
        };
        let Some(plan) = self.core.next_unit(self.me, now, &value)? else {
            return Ok(Step::Nothing { until: due.next });
        };
        let slot = self.keys.signing.sign(false, plan.digest(), &mut self.signatures);
        let signature = self.signatures.get(&slot).map(<[u8]>::to_vec).unwrap_or_default();
        let parcel = Parcel { vertex: plan.signed(&slot)?, signatures: vec![signature] };
        self.core.deliver(&parcel.vertex, true).map_err(highway::Error::from)?;
        let stored = Stored { parcel: parcel.clone(), verdict: true, unit: Some(plan.digest()) };
        self.note(&stored, journal)?;
        self.pending.push(stored);
        Ok(Step::Made(parcel))
    }

    pub fn network(&self) -> &Network {
        &self.network
    }

    pub fn faulty(&self) -> &BTreeSet<u32> {
        &self.faulty
    }

    pub fn summary(&self) -> Result<Summary, Error> {
        Ok(self.core.summary()?)
    }

    /// The latest unit of each validator, by which a peer finds out what this node lacks.
    pub fn latest(&self) -> Vec<Latest> {
        let of = |validator: usize| match self.faulty.contains(&(validator as u32)) {
            true => Latest::Faulty,
            false => self.lanes.latest(validator),
        };
        (0..self.network.keys.0.len()).map(of).collect()
    }

    /// A vertex of the journal with its signatures.
    fn parcel(&self, vertex: Vec<u8>) -> Result<Option<Parcel>, Error> {
        // What the library says costs a hash of the vertex.
        let signatures = match self.signature_of(&vertex) {
            Some(one) => Some(vec![one]),
            None => self.signatures.of_vertex(&vertex)?,
        };
        let signatures = signatures.map(|all| all.into_iter().map(<[u8]>::to_vec).collect());
        Ok(signatures.map(|signatures| Parcel { vertex, signatures }))
    }

    /// What this node has for a peer's request.
    pub fn answer(&self, request: &Request) -> Result<Answer, Error> {
        let number = request.number;
        match &request.question {
            Question::Needs(needs) => {
                Ok(Answer { number, has_more: false, parcels: self.for_needs(needs.iter().copied())? })
            }
            Question::Difference(asked) => {
                let (places, mut has_more) = self.lanes.lacking(asked, MOST_PARCELS);
                let (mut parcels, mut bytes) = (Vec::new(), 0);
                for place in places {
                    parcels.extend(self.parcel(self.core.entry(place)?)?);
                    bytes += parcels.last().map_or(0, |parcel| parcel.vertex.len());
                    if bytes > MOST_BYTES {
                        has_more = true;
                        break;
                    }
                }
                if !has_more {
                    parcels.extend(self.for_needs(self.unknown_faults(asked))?);
                }
                Ok(Answer { number, has_more, parcels })
            }
        }
    }

    /// The faulty validators that the asker doesn't know as such.
    fn unknown_faults(&self, asked: &[Latest]) -> impl Iterator<Item = Need> {
        self.faulty.iter().filter(|one| asked[**one as usize] != Latest::Faulty).map(|one| Need::Evidence(*one))
    }

    fn for_needs(&self, needs: impl Iterator<Item = Need>) -> Result<Vec<Parcel>, Error> {
        let mut parcels = Vec::new();
        for need in needs {
            for vertex in self.core.for_need(need)? {
                parcels.extend(self.parcel(vertex)?);
            }
        }
        Ok(parcels)
    }

    /// The proof against a faulty validator, as a vertex with its signatures.
    pub fn evidence(&self, validator: u32) -> Result<Option<Parcel>, Error> {
        Ok(self.for_needs(std::iter::once(Need::Evidence(validator)))?.into_iter().next())
    }

    /// The final blocks from this place on, each with its unit.
    pub fn decided_from(&self, told: u64) -> Result<Vec<(Decision, Unit)>, Error> {
        let mut blocks = Vec::new();
        for decision in self.core.decisions_from(told) {
            let unit = self.core.unit(decision.block)?;
            blocks.extend(unit.map(|unit| (decision, unit)));
        }
        Ok(blocks)
    }

    pub fn commits(&self) -> u64 {
        self.store.commits
    }
}

fn outcome_of(answer: Result<Receipt, highway::Refusal>) -> Outcome {
    match answer {
        Ok(Receipt::Repeat) => Outcome::Repeat,
        Ok(Receipt::Parked { .. }) => Outcome::Parked,
        Ok(_) => Outcome::Taken,
        Err(refusal) if refusal.is_fault_of_sender() => Outcome::Junk,
        Err(_) => Outcome::NoRoom,
    }
}
