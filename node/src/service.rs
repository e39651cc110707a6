//! A node at work: it hears its peers, answers them, makes its units, and asks for what it lacks.

use crate::application::{Application, FinalBlock};
use crate::engine::{Engine, Outcome, Step};
use crate::error::Error;
use crate::hex;
use crate::links::{Asked, Links};
use crate::pace;
use crate::parcel::Parcel;
use crate::peers::Peers;
use crate::request::{Answer, Question, Request};
use crate::view::{Culprit, Shared, Status};
use highway::{Decision, Signatures, Unit};
use std::collections::{BTreeMap, HashSet, VecDeque};
use std::sync::atomic::{AtomicBool, Ordering};
use std::time::{Duration, Instant, SystemTime, UNIX_EPOCH};

/// In one turn so many vertices of one peer are taken.
const MOST_HEARD: usize = 256;

/// In one turn so many requests are read.
const MOST_ASKED: usize = 256;

/// So many requests of one peer wait.
const MOST_OPEN: usize = 4;

/// What is shown is made anew after this time.
const SHOWN: Duration = Duration::from_millis(200);

pub struct Service {
    engine: Engine,
    links: Links,
    peers: Peers,
    application: Box<dyn Application>,
    shared: Shared,
    /// The peers that need not be heard before the first own unit: the operator says so.
    without: HashSet<u32>,
    /// The requests of each peer that aren't answered yet, the oldest first: one of each of its connections, and a few at
    /// most. So who has a validator's key too can't keep it from being answered.
    asked: BTreeMap<u32, VecDeque<Asked>>,
    told: u64,
    own_units: u64,
    came: BTreeMap<&'static str, u64>,
    is_waiting: bool,
    /// Before this moment no own unit becomes due while nothing comes in.
    until: u64,
    warned_at: u64,
    shown_at: Instant,
    /// What comes within this time shares a turn, and so a commit.
    gathers: Duration,
}

/// This moment in milliseconds since 1970.
pub fn now() -> u64 {
    SystemTime::now().duration_since(UNIX_EPOCH).map_or(0, |time| time.as_millis() as u64)
}

fn name(outcome: Outcome) -> &'static str {
    match outcome {
        Outcome::Taken => "taken",
        Outcome::Parked => "parked",
        Outcome::Repeat => "repeat",
        Outcome::Unwanted => "unwanted",
        Outcome::Invalid => "invalid",
        Outcome::Junk => "junk",
        Outcome::NoRoom => "no_room",
    }
}

impl Service {
    pub fn new(
        engine: Engine,
        links: Links,
        application: Box<dyn Application>,
        shared: Shared,
        without: HashSet<u32>,
    ) -> Service {
        let peers = Peers::new(links.validators(), Instant::now());
        let gathers = pace::gathers(engine.network().genesis.exponents[0]);
        Service {
            engine,
            links,
            peers,
            application,
            shared,
            without,
            asked: BTreeMap::new(),
            told: 0,
            own_units: 0,
            came: BTreeMap::new(),
            is_waiting: true,
            until: u64::MAX,
            warned_at: 0,
            shown_at: Instant::now(),
            gathers,
        }
    }

    /// Works until the flag says that the process is to end. All that was answered is committed by then.
    pub fn run(&mut self, is_ending: &AtomicBool) -> Result<(), Error> {
        self.tell()?;
        self.show()?;
        while !is_ending.load(Ordering::Relaxed) {
            self.turn()?;
        }
        tracing::info!("the node ends");
        Ok(())
    }

    fn turn(&mut self) -> Result<(), Error> {
        if self.links.wait(pace::sleep(now(), self.until))? {
            std::thread::sleep(self.gathers);
        }
        let came = self.heard();
        self.take(came)?;
        let made = self.step()?;
        if let Some(units) = self.engine.commit()? {
            made.iter().for_each(|parcel| self.links.publish(parcel));
            self.draw(&units);
            self.tell()?;
        }
        self.serve()?;
        self.ask()?;
        if self.shown_at.elapsed() >= SHOWN {
            self.show()?;
        }
        Ok(())
    }

    /// What came from all peers: vertices, and answers to questions. What is none is junk.
    fn heard(&mut self) -> Vec<(u32, Parcel)> {
        let mut came = Vec::new();
        let validators: Vec<u32> = self.links.validators().collect();
        for validator in validators {
            let vertices = self.links.vertices(validator, MOST_HEARD);
            let read: Option<Vec<Parcel>> = vertices.iter().map(|bytes| Parcel::read(bytes)).collect();
            let answer = self.links.answer(validator).map(|parts| Answer::read(&parts));
            if read.is_none() || answer == Some(None) {
                self.junk(validator);
            }
            if self.peers.is_away(validator) {
                continue;
            }
            came.extend(read.unwrap_or_default().into_iter().map(|parcel| (validator, parcel)));
            let Some(Some(answer)) = answer else { continue };
            if self.peers.answered(validator, answer.number, answer.has_more, Instant::now()) {
                came.extend(answer.parcels.into_iter().map(|parcel| (validator, parcel)));
            }
        }
        came
    }

    fn junk(&mut self, validator: u32) {
        if self.peers.has_sent_junk(validator, Instant::now()) {
            tracing::warn!(validator, "a peer that sends junk is let go for a while");
            self.links.hear(validator, false);
        }
    }

    fn take(&mut self, came: Vec<(u32, Parcel)>) -> Result<(), Error> {
        if came.is_empty() {
            return Ok(());
        }
        let (senders, parcels): (Vec<u32>, Vec<Parcel>) = came.into_iter().unzip();
        let wanted = self.peers.wanted();
        let outcomes = self.engine.take(parcels, &wanted, now(), self.application.as_mut())?;
        for (sender, outcome) in senders.into_iter().zip(outcomes) {
            *self.came.entry(name(outcome)).or_default() += 1;
            match outcome {
                Outcome::Junk | Outcome::Invalid => self.junk(sender),
                Outcome::Parked => self.peers.has_sent_what_waits(sender),
                _ => (),
            }
        }
        Ok(())
    }

    fn draw(&self, news: &[Unit]) {
        let mut view = self.shared.lock();
        news.iter().for_each(|unit| view.add_unit(unit, now()));
    }

    /// The peers that must be heard before the first own unit.
    fn waits_for(&self) -> Vec<u32> {
        let mut peers = self.peers.not_compared();
        peers.retain(|peer| !self.without.contains(peer));
        peers
    }

    /// Makes the own units that are due.
    fn step(&mut self) -> Result<Vec<Parcel>, Error> {
        if self.is_waiting && !self.waits_for().is_empty() {
            return Ok(Vec::new());
        }
        if self.is_waiting {
            self.is_waiting = false;
            tracing::info!("every peer was heard, so this validator makes its units");
        }
        let mut made = Vec::new();
        loop {
            match self.engine.step(now(), self.application.as_mut())? {
                Step::Made(parcel) => made.push(parcel),
                Step::Nothing { until } => {
                    self.until = until;
                    self.own_units += made.len() as u64;
                    return Ok(made);
                }
            }
        }
    }

    /// Answers requests: the oldest of each peer, and no more than its share.
    fn serve(&mut self) -> Result<(), Error> {
        for _ in 0..MOST_ASKED {
            let Some(asked) = self.links.asked() else { break };
            let open = self.asked.entry(asked.validator).or_default();
            match open.iter().position(|other| other.back == asked.back) {
                Some(place) => open[place] = asked,
                None if open.len() < MOST_OPEN => open.push_back(asked),
                None => (),
            }
        }
        let ready: Vec<u32> =
            self.asked.keys().copied().filter(|one| self.peers.may_be_served(*one, Instant::now())).collect();
        for validator in ready {
            let Some(asked) = self.asked.get_mut(&validator).and_then(VecDeque::pop_front) else { continue };
            match Request::read(&asked.bytes, self.engine.network().keys.0.len()) {
                Some(request) => self.reply(&asked, &request)?,
                None => self.junk(validator),
            }
        }
        Ok(())
    }

    fn reply(&mut self, asked: &Asked, request: &Request) -> Result<(), Error> {
        let parts = self.engine.answer(request)?.to_parts();
        let bytes = parts.iter().map(Vec::len).sum();
        self.peers.was_served(asked.validator, bytes, Instant::now());
        self.links.reply(&asked.back, parts);
        Ok(())
    }

    /// Asks peers for what parked units miss, and compares with them.
    fn ask(&mut self) -> Result<(), Error> {
        let unmet = self.engine.core.unmet(crate::request::MOST_NEEDS)?;
        let moment = Instant::now();
        self.peers.want(&unmet, moment);
        for validator in self.peers.returned(moment) {
            self.links.hear(validator, true);
        }
        let latest = || Question::Difference(self.engine.latest());
        for (validator, number, question) in self.peers.questions(moment, latest) {
            let request = Request { number, question };
            let is_sent = self.links.ask(validator, &request.to_bytes());
            self.peers.asked(validator, number, request.question, is_sent, moment);
        }
        Ok(())
    }

    /// Tells the application of the blocks that became final, and everybody of who became faulty.
    fn tell(&mut self) -> Result<(), Error> {
        for (decision, unit) in self.engine.decided_from(self.told)? {
            self.told += 1;
            self.shared.lock().add_block(decision.height, &unit, now());
            let block = final_block(&decision, &unit);
            tracing::info!(height = block.height, block = %block.block, creator = block.creator, "final");
            self.application.decided(&block)?;
        }
        let shown: HashSet<u32> = self.shared.lock().culprits.iter().map(|culprit| culprit.validator).collect();
        for validator in self.engine.faulty().iter().copied().filter(|one| !shown.contains(one)) {
            let Some(parcel) = self.engine.evidence(validator)? else { continue };
            self.links.publish(&parcel);
            self.shared.lock().culprits.push(culprit(validator, &parcel)?);
        }
        Ok(())
    }

    /// Makes what is shown anew.
    fn show(&mut self) -> Result<(), Error> {
        self.shown_at = Instant::now();
        let summary = self.engine.summary()?;
        let genesis = &self.engine.network().genesis;
        let (records, validators) = (genesis.records, genesis.validator.len());
        let round_milliseconds = 1 << genesis.exponents[0];
        let instance = hex::digits(&self.engine.network().instance);
        self.warn(summary.journal, records);
        let mut view = self.shared.lock();
        view.status = Status {
            validator: self.engine.me,
            validators,
            instance,
            now: now(),
            round_milliseconds,
            journal: summary.journal,
            records,
            settled: summary.settled,
            parked: summary.parked,
            dropped: summary.dropped,
            missing: self.peers.wanted().len(),
            decided: summary.decided,
            decided_at: view.status.decided_at,
            latency_median: view.status.latency_median,
            faulty: self.engine.faulty().iter().copied().collect(),
            faulty_weight: summary.faulty_weight,
            is_exceeded: summary.is_exceeded,
            own_units: self.own_units,
            commits: self.engine.commits(),
            waits_for: if self.is_waiting { self.waits_for() } else { Vec::new() },
            peers: self.peers.states(),
            came: self.came.clone(),
        };
        Ok(())
    }

    /// Says at each further tenth above a half that the journal fills.
    fn warn(&mut self, journal: u64, records: u32) {
        let tenth = journal * 10 / u64::from(records.max(1));
        if tenth >= 5 && tenth > self.warned_at {
            self.warned_at = tenth;
            tracing::warn!(journal, records, "the journal fills; a new instance is needed before it is full");
        }
    }
}

fn final_block(decision: &Decision, unit: &Unit) -> FinalBlock {
    FinalBlock {
        height: decision.height,
        block: decision.block.to_string(),
        creator: unit.creator,
        time: unit.time,
        value: hex::digits(unit.value.as_deref().unwrap_or_default()),
    }
}

fn culprit(validator: u32, parcel: &Parcel) -> Result<Culprit, Error> {
    let units = match Signatures::of(&parcel.vertex)? {
        Signatures::Evidence(left, right) => vec![left.unit.to_string(), right.unit.to_string()],
        Signatures::Unit(one) | Signatures::Endorsement(one) => vec![one.unit.to_string()],
    };
    let signatures = parcel.signatures.iter().map(|signature| hex::digits(signature)).collect();
    Ok(Culprit { validator, units, signatures, bytes: parcel.to_bytes() })
}
