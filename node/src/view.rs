//! What a node shows: its state, its recent units, its final blocks, and who is faulty with which proof.

use crate::hex;
use crate::map::Map;
use crate::peers::PeerState;
use highway::{Observation, Unit};
use serde::Serialize;
use std::collections::{BTreeMap, VecDeque};
use std::fmt::Write;
use std::sync::{Arc, Mutex, MutexGuard, PoisonError};

/// So many units and blocks are shown.
const MOST_UNITS: usize = 600;
const MOST_BLOCKS: usize = 200;

/// Of more validators than so many no citations are drawn.
const MOST_CITING: usize = 24;

#[derive(Clone, Debug, Default, Serialize)]
pub struct Status {
    pub validator: u32,
    pub validators: usize,
    pub instance: String,
    pub now: u64,
    pub round_milliseconds: u64,
    pub journal: u64,
    pub records: u32,
    pub settled: u32,
    pub parked: u32,
    pub dropped: u32,
    pub missing: usize,
    pub decided: u64,
    /// When a block last became final here, in milliseconds.
    pub decided_at: u64,
    /// From a block's time to the moment at which it was final here: the median of the blocks that are shown.
    pub latency_median: Option<u64>,
    pub faulty: Vec<u32>,
    pub faulty_weight: u64,
    pub is_exceeded: bool,
    pub own_units: u64,
    pub commits: u64,
    /// The peers that must be heard before the first own unit.
    pub waits_for: Vec<u32>,
    pub peers: Vec<PeerState>,
    /// How many vertices came, by what became of them.
    pub came: BTreeMap<&'static str, u64>,
}

/// A unit as the page draws it.
#[derive(Clone, Debug, Serialize)]
struct Drawn {
    unit: String,
    creator: u32,
    number: u64,
    time: u64,
    round: u64,
    is_block: bool,
    cites: Vec<String>,
}

#[derive(Clone, Debug, Serialize)]
struct Block {
    height: u64,
    block: String,
    creator: u32,
    time: u64,
    latency: u64,
    value: String,
}

/// The two units of a faulty validator.
#[derive(Clone, Debug, Serialize)]
pub struct Culprit {
    pub validator: u32,
    pub units: Vec<String>,
    pub signatures: Vec<String>,
    #[serde(skip)]
    pub bytes: Vec<u8>,
}

#[derive(Debug, Default)]
pub struct View {
    pub status: Status,
    units: VecDeque<Drawn>,
    /// So many units were added, those that are no longer shown among them.
    added: usize,
    map: Map,
    blocks: VecDeque<Block>,
    pub culprits: Vec<Culprit>,
}

/// How many units and blocks somebody who looks has seen.
#[derive(Debug, Default, PartialEq, Eq)]
pub struct Seen {
    units: usize,
    blocks: u64,
}

#[derive(Clone, Debug, Default)]
pub struct Shared(Arc<Mutex<View>>);

impl Shared {
    pub fn lock(&self) -> MutexGuard<'_, View> {
        self.0.lock().unwrap_or_else(PoisonError::into_inner)
    }
}

/// The first digits of a digest, which name a unit on a page.
fn short(digest: &[u8]) -> String {
    hex::digits(&digest[..6])
}

impl View {
    pub fn add_unit(&mut self, unit: &Unit, now: u64) {
        self.added += 1;
        self.map.note(unit, now);
        let cited = |seen: &Observation| match seen {
            Observation::Correct(digest) => Some(short(&digest.0)),
            _ => None,
        };
        self.units.push_back(Drawn {
            unit: short(&unit.digest.0),
            creator: unit.creator,
            number: unit.seq,
            time: unit.time,
            round: unit.round,
            is_block: unit.value.is_some(),
            cites: unit.panorama.iter().filter(|_| unit.panorama.len() <= MOST_CITING).filter_map(cited).collect(),
        });
        if self.units.len() > MOST_UNITS {
            self.units.pop_front();
        }
    }

    /// A block that became final at this moment.
    pub fn add_block(&mut self, height: u64, unit: &Unit, now: u64) {
        let value = String::from_utf8_lossy(unit.value.as_deref().unwrap_or_default()).into_owned();
        let (block, latency) = (unit.digest.to_string(), now.saturating_sub(unit.time));
        self.blocks.push_back(Block { height, block, creator: unit.creator, time: unit.time, latency, value });
        if self.blocks.len() > MOST_BLOCKS {
            self.blocks.pop_front();
        }
        self.status.decided_at = now;
        let mut latencies: Vec<u64> = self.blocks.iter().map(|block| block.latency).collect();
        latencies.sort_unstable();
        self.status.latency_median = latencies.get(latencies.len() / 2).copied();
    }

    /// Whether blocks become final: none of the last eight rounds' time passed without one.
    pub fn is_healthy(&self) -> bool {
        let status = &self.status;
        let silence = status.now.saturating_sub(status.decided_at);
        !status.is_exceeded && silence < 8 * status.round_milliseconds && status.journal < u64::from(status.records)
    }

    pub fn to_json(&self) -> String {
        self.news(&mut Seen::default())
    }

    /// All that is shown now, but for the units and blocks that somebody has seen.
    pub fn news(&self, seen: &mut Seen) -> String {
        let is_first = *seen == Seen::default();
        let units = self.units.len().min(self.added - seen.units.min(self.added));
        let units: Vec<&Drawn> = self.units.iter().rev().take(units).rev().collect();
        let blocks: Vec<&Block> = self.blocks.iter().filter(|block| block.height >= seen.blocks).collect();
        seen.blocks = self.blocks.back().map_or(0, |block| block.height + 1);
        seen.units = self.added;
        let all = serde_json::json!({
            "is_first": is_first, "status": self.status, "units": units, "blocks": blocks,
            "culprits": self.culprits, "map": self.map.rows(self.status.validators),
        });
        all.to_string()
    }

    /// The numbers as Prometheus reads them.
    pub fn to_metrics(&self) -> String {
        let status = &self.status;
        let answering = status.peers.iter().filter(|peer| peer.is_answering).count() as u64;
        let junk = status.peers.iter().map(|peer| u64::from(peer.junk)).sum();
        let numbers = [
            ("highway_final_blocks", "Blocks that are final.", status.decided),
            ("highway_final_latency_milliseconds", "Median of the last ones.", status.latency_median.unwrap_or(0)),
            ("highway_journal_vertices", "Vertices of the journal.", status.journal),
            ("highway_journal_limit", "Vertices that the journal may have.", u64::from(status.records)),
            ("highway_units_settled", "Units that are settled.", status.settled.into()),
            ("highway_units_parked", "Units that wait.", status.parked.into()),
            ("highway_units_dropped", "Units that break a rule.", status.dropped.into()),
            ("highway_units_own", "Units that this validator made since the start.", status.own_units),
            ("highway_needs_missing", "Needs that are asked for.", status.missing as u64),
            ("highway_faulty_weight", "What the faulty validators weigh.", status.faulty_weight),
            ("highway_threshold_exceeded", "1 if final blocks promise nothing.", status.is_exceeded.into()),
            ("highway_peers_answering", "Peers that answer.", answering),
            ("highway_peers_junk", "Junk that peers sent.", junk),
            ("highway_store_commits", "Commits since the start.", status.commits),
        ];
        let mut text = String::new();
        for (name, help, number) in numbers {
            let _ = writeln!(text, "# HELP {name} {help}\n# TYPE {name} gauge\n{name} {number}");
        }
        text
    }
}
